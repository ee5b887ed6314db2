"""The input of vectors_shared_ledger: shared ledgers and lists of calls on them, with what each call is answered.

Pairs of ledgers and lists agree for one participant, who must be told the same
by both.

The file says in four bytes how many calls there are in all. Each ledger starts
with six numbers of two bytes: the length of its sheet and owners together, how
many calls follow these, the length of the sheet, the number and place at which
opening it is refused, 0 and 0 where it opens, and 1 where the answers that are
kept must be those of the ledger before it. A call is a byte, 0 for an arrival, 1
for a departure, 2 for a row, 3 for the totals; who asks, the row and the vehicles
in eight bytes each; the number of the expected answer in one and its place in
two; the count that is told in four; from which word on the words told stand in
the buffer in two; and the place of the answer among those that are kept, from 1
on, in two, 0 where it is not. Every number has its lowest byte first.
"""

from collections import Counter
from collections.abc import Iterable, Iterator, Sequence
from typing import NamedTuple

from tools import reckoning
from tools.reckoning.format import counts_of, version_of
from tools.reckoning.shared import (
    ARRIVAL, DEPARTURE, MARKER, PARTICIPANTS, READ_ROW, READ_TOTALS, Ask, answered, caller, opening, row_kind,
)
from tools.vectors.chance import Chance
from tools.vectors.frame import VectorError, VectorSet, packed
from tools.vectors.plans import EMPTY, MOST_OF_ROW, ROW, SEASON, Plan, Record, cells_grid

WORDS = 6144  # the words of the program's buffer
SLOTS = 25  # the answers that it keeps of a ledger
HUGE = 2 ** 64 - 1


class Case(NamedTuple):
    """A ledger to open and the calls to make on it. `whose` is the participant whose
    answers are kept, or None; `like` says that they are those of the ledger before."""
    words: str
    data: bytes
    owners: bytes
    asks: list[Ask]
    whose: int | None
    like: bool


class Told(NamedTuple):
    """A call with its answer, what it is told and where the answer is kept; and
    the cell of the table of who may do what."""
    ask: Ask
    answer: tuple[int, int]
    count: int
    place: int
    slot: int
    cell: tuple | None


class Vector(NamedTuple):
    """A ledger with what opening it answers, and its calls with theirs."""
    case: Case
    opening: tuple[int, int]
    told: list[Told]


# ------------------------------------------------------------- what is told


def told(case: Case) -> Vector:
    first = opening(case.data, case.owners, WORDS)
    version = version_of(case.data)
    counts, all_told, slot = counts_of(case.data) if first == (0, 0) else [], [], 0
    for ask in case.asks:
        keep = ask.who == case.whose
        slot += keep
        if slot > SLOTS:
            raise VectorError("%s: too many answers to keep" % case.words)
        if first != (0, 0):
            all_told.append(Told(ask, first, 0, 0, slot if keep else 0, None))
            continue
        number = answered(version, case.owners, counts, ask)
        if number == 0 and ask.kind < READ_ROW:
            counts[ask.row] += ask.vehicles if ask.kind == ARRIVAL else -ask.vehicles
        count = counts[ask.row] if number == 0 and ask.kind == READ_ROW else 0
        place = 6 * (ask.row if ask.kind == READ_ROW else len(counts)) if number == 0 and ask.kind >= READ_ROW else 0
        row = "" if ask.kind == READ_TOTALS else row_kind(case.owners, len(counts), ask)
        all_told.append(Told(ask, (number, 0), count, place, slot if keep else 0,
                             (ask.kind, caller(ask.who), row, number)))
    return Vector(case, first, all_told)


# ---------------------------------------------------------------------- sheets

# Few cells and one season, since each change makes a row anew. The products of
# the two lists are the cells of a version 1 sheet.
GRID = cells_grid({(7, 3): 5, (24, 24): 2})
LISTS = ((0,) * 6 + (5,) + (0,) * 16 + (3,), (0, 0, 1) + (0,) * 20 + (2,))
PRODUCTS = tuple(j * q for q in LISTS[1] for j in LISTS[0])
WITHOUT = {**ROW, "class": 6, "technology": 0, **EMPTY}
KIND_ROWS = (WITHOUT, ROW, {**ROW, "class": 4, "technology": 3}, {**ROW, "class": 2, "technology": 2, "load": 100})


def rows_with(counts: Iterable[int], version: int, kinds: Sequence[Record] = KIND_ROWS) -> Iterator[Record]:
    """Rows of several kinds with these vehicles; from version 3 on the second of
    each four has a mileage in place of its load."""
    for i, vehicles in enumerate(counts):
        row = {**kinds[i % len(kinds)], "vehicles": vehicles}
        yield {**row, "load": 0, "mileage": 52_000} if version > 2 and i % 4 == 1 and row["saturation"] else row


def plan_of(version: int, rows: Iterable[Record], grid: tuple[int, ...] = GRID) -> Plan:
    if version == 1:
        return Plan((SEASON,), tuple(rows), *LISTS)
    return Plan((SEASON,), tuple(rows), grid=grid, metered=version > 2, many=version == 4)


def ledger(words: str, version: int, counts: Iterable[int], owners: Iterable[int], asks: Iterable[Ask]) -> Case:
    """A ledger of rows of several kinds with these counts; no answer of it is kept."""
    return Case(words, plan_of(version, rows_with(counts, version)).data(), bytes(owners), list(asks), None, False)


# ----------------------------------------------------------------------- cases


def table_cases() -> Iterator[Case]:
    """Who may do what, cell by cell: everyone asks for everything of every row,
    and of rows that are not there."""
    owners, counts = (1, 2, 1, 8, 5), (700, 1000, 0, 3, 40)
    for version in (1, 2, 3, 4):
        asks = []
        for who in (0, 1, 2, 5, 8, 3, 9, 255, 256, 257, 2 ** 32 + 1, HUGE):
            for kind in (ARRIVAL, DEPARTURE, READ_ROW):
                asks += [Ask(kind, who, row, 1) for row in (*range(5), 5, 6, 255, 256, 2 ** 32, HUGE)]
            asks.append(Ask(READ_TOTALS, who, 0, 0))
        yield ledger("version %d: everyone asks for everything" % version, version, counts, owners, asks)
        longer = owners + (1, 2, 1)
        yield ledger("version %d: owners beyond the rows" % version, version, counts, longer,
                     [Ask(kind, who, row, 0) for kind in (ARRIVAL, READ_ROW) for who in (0, 1, 2) for row in (5, 6, 7)])


def limit_cases() -> Iterator[Case]:
    """The limits of a row and of a participant's vehicles, from both sides, with
    all other participants at theirs."""
    full = (9_999_000, 1_000) + (MOST_OF_ROW,) * 7 + (0,)
    owners = (1, 1, 2, 3, 4, 5, 6, 7, 8, 1)
    asks = [
        Ask(ARRIVAL, 1, 9, 1), Ask(ARRIVAL, 1, 9, MOST_OF_ROW), Ask(ARRIVAL, 1, 9, MOST_OF_ROW + 1),
        Ask(ARRIVAL, 1, 0, 1_000),
        Ask(ARRIVAL, 1, 0, 1_001), Ask(ARRIVAL, 1, 9, 0), Ask(ARRIVAL, 2, 2, 1), Ask(ARRIVAL, 2, 2, 0),
        Ask(ARRIVAL, 2, 2, HUGE),
        Ask(DEPARTURE, 1, 1, 1_001), Ask(DEPARTURE, 1, 1, 1_000), Ask(ARRIVAL, 1, 9, 1_001), Ask(ARRIVAL, 1, 9, 1_000),
        Ask(ARRIVAL, 1, 9, 1), Ask(DEPARTURE, 1, 0, 9_999_000), Ask(ARRIVAL, 1, 9, 9_999_000), Ask(ARRIVAL, 1, 1, 1),
        Ask(ARRIVAL, 1, 1, MOST_OF_ROW), Ask(DEPARTURE, 1, 9, HUGE), Ask(READ_ROW, 0, 9, 0), Ask(READ_TOTALS, 0, 0, 0),
        Ask(READ_ROW, 1, 9, 0), Ask(READ_ROW, 8, 8, 0), Ask(ARRIVAL, 8, 8, 2 ** 32),
        Ask(ARRIVAL, 1, 9, HUGE - 9_999_999),
    ]
    for version in (1, 2, 3, 4):
        yield ledger("version %d: all at their limits" % version, version, full, owners, asks)


def opening_cases() -> Iterator[Case]:
    """Owners that are missing or none of the eight, one row or vehicle too many,
    and sheets that are refused before any owner is asked for."""
    asks = [Ask(ARRIVAL, 1, 0, 1), Ask(READ_ROW, 0, 0, 0), Ask(READ_TOTALS, 1, 0, 0), Ask(DEPARTURE, 9, 7, 1)]
    counts = (700, 1000, 0, 3)
    for version in (1, 2, 3, 4):
        for owners in ((), (1, 2, 3), (0, 1, 1, 1), (1, 2, 0, 3), (1, 2, 3, 9), (1, 255, 3, 4), (8, 8, 8, 8)):
            yield ledger("version %d: owners %s" % (version, owners), version, counts, owners, asks)
        more = (MOST_OF_ROW, 0, 1, MOST_OF_ROW)
        for owners in ((1, 1, 2, 3), (1, 1, 1, 3), (2, 1, 1, 1), (4, 3, 4, 4)):
            yield ledger("version %d: vehicles of %s" % (version, owners), version, more, owners, asks)
        good = ledger("version %d: byte 3 of the last row" % version, version, counts, (0, 0, 0, 0), asks)
        yield good._replace(data=good.data[:-21] + b"\xff" + good.data[-20:])
    for mine, others in ((100, 0), (101, 0), (100, 700), (100, 701)):
        rows = mine + others
        owners = [1] * mine + [2 + i // 100 if i < 700 else 1 for i in range(others)]
        place = rows - 1
        some = [Ask(READ_ROW, owners[-1], place, 0), Ask(ARRIVAL, owners[0], 0, 3), Ask(READ_ROW, 0, place, 0),
                Ask(READ_TOTALS, 0, 0, 0)]
        yield ledger("version 4: %d rows of one and %d more" % (mine, others), 4, [i % 7 for i in range(rows)], owners,
                     some)


def chance_ask(chance: Chance, whos: Sequence[int], rows: Sequence[int]) -> Ask:
    """A call of one of these on one of these rows."""
    kind = chance.one_of((ARRIVAL, ARRIVAL, DEPARTURE, READ_ROW, READ_ROW, READ_TOTALS))
    vehicles = chance.one_of((
        chance.below(10), chance.below(2_000), chance.below(1_000_000), chance.between(1, MOST_OF_ROW),
        MOST_OF_ROW + chance.below(2),
        chance.below(2 ** 64),
    ))
    return Ask(kind, chance.one_of(whos), chance.one_of(rows), 0 if kind >= READ_ROW else vehicles)


def pair(position: int, versions: tuple[int, int], whose: int) -> Iterator[Case]:
    """Two ledgers in which the same rows are a participant's, alike, and all else
    by chance: the other rows, their owners, how many there are behind, and the
    calls of the others between those of the participant. Beside a version 1 sheet
    the grid is that of its products."""
    chance = Chance("pair %d" % position)
    others = [who for who in PARTICIPANTS if who != whose]
    theirs = sorted({chance.below(8) for _ in range(3)})
    own = {i: {**KIND_ROWS[chance.below(4)], "vehicles": chance.below(3_000_000)} for i in theirs}
    if min(versions) > 2:
        own = {i: {**row, "load": 0, "mileage": 52_000} if row["saturation"] and i % 2 else row
               for i, row in own.items()}
    asks = [chance_ask(chance, (whose,), theirs * 4 + [0, 3, 7, 9, HUGE]) for _ in range(24)]
    grid = PRODUCTS if 1 in versions else GRID
    for like, version in enumerate(versions):
        count = max(theirs) + 1 + chance.below(5)
        owners = [whose if i in own else chance.one_of(others) for i in range(count)]
        rows, left = [], Counter({who: MOST_OF_ROW for who in others})
        for i, owner in enumerate(owners):
            vehicles = 0 if i in own else chance.below(left[owner] + 1)
            left[owner] -= vehicles
            row = {**KIND_ROWS[chance.below(4)], "vehicles": vehicles}
            if version > 2 and row["saturation"] and chance.below(2):
                row = {**row, "load": 0, "mileage": chance.between(1, 200_000)}
            rows.append(own.get(i, row))
        calls = []
        for ask in asks:
            calls += [chance_ask(chance, others + [MARKER, 9], range(count + 2))
                      for _ in range(chance.below(4))] + [ask]
        words = "version %d: pair %d, participant %d" % (version, position, whose)
        yield Case(words, plan_of(version, rows, grid).data(), bytes(owners), calls, whose, bool(like))


# The versions of the two sheets of a pair: every two, since the version does not show.
VERSIONS = ((1, 1), (2, 2), (3, 3), (4, 4), (1, 2), (1, 3), (1, 4), (4, 1), (2, 3), (2, 4), (4, 2), (3, 4))


def pair_cases() -> Iterator[Case]:
    for position in range(4 * len(VERSIONS)):
        yield from pair(position, VERSIONS[position // 4], 1 + position % 8)


def all_vectors() -> list[Vector]:
    return [told(case) for group in (table_cases(), limit_cases(), opening_cases(), pair_cases()) for case in group]


# The table of who may do what: for each kind of call and caller, which numbers a
# row of theirs, of another and of no one can be answered.
TABLE = {
    (kind, who, row): numbers
    for kind in (ARRIVAL, DEPARTURE)
    for who, row, numbers in (
        ("marker", "another's", {30}), ("marker", "absent", {30}),
        ("participant", "own", {0, 29, 31} if kind == ARRIVAL else {0, 29}),
        ("participant", "another's", {30}), ("participant", "absent", {30}), ("stranger", "another's", {30}),
        ("stranger", "absent", {30}),
    )
} | {
    (READ_ROW, "marker", "another's"): {0}, (READ_ROW, "marker", "absent"): {29}, (READ_ROW, "participant", "own"): {0},
    (READ_ROW, "participant", "another's"): {30}, (READ_ROW, "participant", "absent"): {30},
    (READ_ROW, "stranger", "another's"): {30},
    (READ_ROW, "stranger", "absent"): {30}, (READ_TOTALS, "marker", ""): {0}, (READ_TOTALS, "participant", ""): {30},
    (READ_TOTALS, "stranger", ""): {30},
}


def missing(vectors: list[Vector]) -> Iterator[str]:
    """What the lists should show and do not: every cell of the table with each of
    its numbers in every version, and no other; pairs in which much is told."""
    for version in (1, 2, 3, 4):
        found = {}
        for v in vectors:
            if v.case.data[3] == version and v.opening == (0, 0):
                for t in v.told:
                    found.setdefault(t.cell[:3], set()).add(t.cell[3])
        for cell in sorted(set(TABLE) | set(found)):
            if found.get(cell) != TABLE.get(cell):
                yield "version %d: %s is answered %s" % (version, cell, found.get(cell))
    openings = {(v.case.data[3], v.opening[0]) for v in vectors}
    for version in (1, 2, 3, 4):
        for number in (0, 31):
            if (version, number) not in openings:
                yield "version %d: no opening answered %d" % (version, number)
    pairs = [(a, b) for a, b in zip(vectors, vectors[1:]) if b.case.like]
    yield from missing_pairs(pairs)


def known_to(case: Case) -> tuple:
    """What may show in what a participant is told, but for their calls: seasons
    and parking, which rows are theirs, and those rows."""
    sheet = reckoning.read(case.data)
    return sheet.seasons, sheet.grid, {i: row for i, row in enumerate(sheet.rows) if case.owners[i] == case.whose}


def missing_pairs(pairs: list[tuple[Vector, Vector]]) -> Iterator[str]:
    """Pairs that agree for no one, that do not differ for the others, or whose
    answers differ; pairs of two versions in which little is told."""
    passed = Counter()
    for a, b in pairs:
        mine = [[(t.ask, t.answer, t.count) for t in v.told if t.slot] for v in (a, b)]
        if mine[0] != mine[1] or a.opening != (0, 0) or b.opening != (0, 0) or known_to(a.case) != known_to(b.case):
            yield "%s: what is told differs" % b.case.words
        if a.case.data == b.case.data or [t.ask for t in a.told] == [t.ask for t in b.told]:
            yield "%s: nothing differs" % b.case.words
        passed[a.case.data[3], b.case.data[3]] += sum(t.answer[0] == 0 for t in b.told if t.slot)
    for versions in VERSIONS:
        if passed[versions] < 20:
            yield "pairs of versions %d and %d tell too little" % versions


def encoded(vectors: list[Vector]) -> bytes:
    parts = [packed(4, [sum(len(v.told) for v in vectors)])]
    for v in vectors:
        both = v.case.data + v.case.owners
        parts += [packed(2, (len(both), len(v.told), len(v.case.data), *v.opening, int(v.case.like))), both]
        for t in v.told:
            number, place = t.answer
            parts += [packed(1, [t.ask.kind]), packed(8, t.ask[1:]), packed(1, [number]), packed(2, [place]),
                      packed(4, [t.count]),
                      packed(2, [t.place, t.slot])]
    return b"".join(parts)


def lines(vectors: list[Vector]) -> Iterator[str]:
    for position, v in enumerate(vectors, 1):
        refused = sum(t.answer[0] != 0 for t in v.told)
        yield "%3d  %-20s  %4d calls, %4d refused  %s" % (position, reckoning.answer_text(*v.opening), len(v.told),
                                                          refused, v.case.words)


VECTORS = VectorSet("vectors_shared_ledger", all_vectors, encoded, lines, missing)
