"""The input of vectors_ledger: ledgers and lists of calls on them, with what the plain machine answers each and
leaves of the counts.

The file says in four bytes how many calls there are in all. Each ledger starts
with five numbers of two bytes: the length of its sheet, how many calls follow
the sheet, the words that are lent, and the number and place at which opening it
is refused, 0 and 0 where it opens. A call is a byte, 0 for an arrival and 1 for a
departure; the row and the vehicles in eight bytes each; the number of the
expected answer in one and its place in two; and where in the sheet a count is
changed, in two, 0 where none is, with the new count in four. Every number has
its lowest byte first.
"""

from collections import Counter
from collections.abc import Iterable, Iterator
from typing import NamedTuple

from tools import reckoning
from tools.reckoning.format import counts_of, row_place, version_of
from tools.reckoning.ledger import ARRIVAL, DEPARTURE, NUMBER, Call, arrival, departure, fault, step
from tools.vectors.chance import Chance, chance_grid_plan, chance_many_plan, chance_metered_plan, chance_plan
from tools.vectors.frame import VectorError, VectorSet, packed
from tools.vectors.plans import (
    EMPTY, FULL_MANY, MOST_OF_ALL, MOST_OF_ROW, ROW, SEASON, Plan, Record, cells_grid, in_turn, metered, report_words,
    sized, with_vehicles,
)

WORDS = 6144  # the words of the program's buffer
LEAST_CALLS = 2_000
LEAST_OF_A_KIND = 20


# -------------------------------------------------------------------- ledgers


class Case(NamedTuple):
    """A ledger and the calls on it; `room` is how many words are lent."""
    words: str
    data: bytes
    room: int
    calls: list[Call]


class Told(NamedTuple):
    """A call with its answer, where the sheet changes and the count there, and
    which condition of 29 applied."""
    call: Call
    answer: tuple[int, int]
    place: int
    count: int
    fault: str | None


class Vector(NamedTuple):
    """A ledger with what opening it answers, and its calls with theirs."""
    case: Case
    opening: tuple[int, int]
    told: list[Told]


def told(case: Case) -> Vector:
    opening = reckoning.check(case.data, words=case.room)
    if opening is not None:
        return Vector(case, opening, [Told(call, opening, 0, 0, "opening") for call in case.calls])
    limited = version_of(case.data) == 4
    counts, all_told = counts_of(case.data), []
    for call in case.calls:
        wrong = fault(limited, counts, call)
        counts = step(limited, counts, call)
        if wrong is None:
            all_told.append(Told(call, (0, 0), row_place(case.data, call.row) + 8, counts[call.row], None))
        else:
            all_told.append(Told(call, (NUMBER, 0), 0, 0, wrong))
    return Vector(case, (0, 0), all_told)


def exactly(words: str, plan: Plan, calls: list[Call]) -> Case:
    """Not one word more is lent than the report has."""
    data = plan.data()
    return Case(words, data, report_words(data), calls)


def roomy(words: str, plan: Plan, calls: list[Call]) -> Case:
    return Case(words, plan.data(), WORDS, calls)


# ----------------------------------------------------------------------- cases

# Rows that differ in what is made anew: without canister, with a load, with a
# mileage where the version has one; one without vehicles. Few cells and one
# season, since each call is followed by a whole report.
WITHOUT = {**ROW, "class": 6, "technology": 0, **EMPTY, "vehicles": 700}
FOUR_ROWS = (WITHOUT, ROW, {**ROW, "class": 4, "technology": 3, "vehicles": 0}, {**ROW, "class": 2, "technology": 2})
GRID = cells_grid({(7, 3): 5, (24, 24): 2})


def small(version: int, rows: Iterable[Record] = FOUR_ROWS) -> Plan:
    """A sheet of a version with one season and few cells; from version 3 on the
    second row of each four has a mileage in place of its load."""
    if version == 1:
        return Plan((SEASON,), tuple(rows), (1,) + (0,) * 22 + (2,), (0, 3) + (0,) * 22)
    if version > 2:
        rows = ({**row, "load": 0, "mileage": 52_000} if i % 4 == 1 else row for i, row in enumerate(rows))
    return Plan((SEASON,), tuple(rows), grid=GRID, metered=version > 2, many=version == 4)


HUGE = 2 ** 64 - 1


def edge_calls(rows: int, counts: list[int]) -> Iterator[Call]:
    """All limits from both sides, in the first and in the last row; rows that
    are not there; numbers that would wrap if they were added."""
    for row in (0, rows - 1):
        have = counts[row]
        yield departure(row, have + 1)
        yield departure(row, have)
        yield departure(row, 1)
        yield departure(row, 0)
        yield arrival(row, 0)
        yield arrival(row, MOST_OF_ROW + 1)
        yield arrival(row, MOST_OF_ROW)
        yield arrival(row, 1)
        yield arrival(row, 0)
        yield departure(row, MOST_OF_ROW + 1)
        yield departure(row, MOST_OF_ROW - 1)
        yield arrival(row, MOST_OF_ROW)
        yield arrival(row, MOST_OF_ROW - 1)
        for many_vehicles in (2 ** 32 - 1, 2 ** 32, 2 ** 63, HUGE, HUGE - MOST_OF_ROW + 1):
            yield arrival(row, many_vehicles)
            yield departure(row, many_vehicles)
        yield departure(row, MOST_OF_ROW - have)
    for row in (rows, rows + 1, 32, 255, 256, 1000, 65_536, 2 ** 32, 2 ** 32 + rows - 1, HUGE):
        if row >= rows:
            yield arrival(row, 0)
            yield departure(row, 0)
            yield arrival(row, 1)
            yield departure(row, HUGE)


def edge_cases() -> Iterator[Case]:
    for version in (1, 2, 3, 4):
        plan = small(version)
        counts = [row["vehicles"] for row in plan.rows]
        yield exactly("version %d: all limits" % version, plan, list(edge_calls(len(counts), counts)))
        one = small(version, FOUR_ROWS[:1])
        yield roomy("version %d: one row, all limits" % version, one, list(edge_calls(1, [one.rows[0]["vehicles"]])))


def chance_calls(chance: Chance, rows: int, calls: int) -> Iterator[Call]:
    """Calls all over: small and large counts, often as many as there are or may
    be, sometimes rows that are not there."""
    for _ in range(calls):
        row = chance.one_of((0, rows - 1, *(chance.below(rows) for _ in range(6)), rows + chance.below(3)))
        vehicles = chance.one_of((
            chance.below(10), chance.below(1_000), chance.below(1_000_000), chance.between(1, MOST_OF_ROW),
            MOST_OF_ROW - chance.below(3), chance.between(1, 2 ** 64 - 1),
        ))
        yield Call(chance.below(2), row, vehicles)


def chance_cases() -> Iterator[Case]:
    for version in (1, 2, 3, 4):
        for rows in (2, 4, 7):
            chance = Chance("calls on version %d with %d rows" % (version, rows))
            all_rows = tuple({**FOUR_ROWS[i % 4], "vehicles": chance.below(MOST_OF_ROW + 1)} for i in range(rows))
            plan = small(version, all_rows)
            yield roomy("version %d, %d rows: calls by chance" % (version, rows), plan,
                        list(chance_calls(chance, rows, 110)))
    for i, plan in enumerate((chance_plan(3, 5), chance_grid_plan(2, 4, 5_000), chance_metered_plan(3, 4),
                              chance_many_plan(2, 6))):
        chance = Chance("calls on values by chance %d" % i)
        calls = list(chance_calls(chance, len(plan.rows), 30))
        yield exactly("version %d, %s: values and calls by chance" % (plan.version(), sized(plan)), plan, calls)


def fleet_cases() -> Iterator[Case]:
    """The limit of all rows together: up to it, past it and back in version 4;
    in the others there is none."""
    around = [
        arrival(10, 1), arrival(11, 1), departure(0, 1), arrival(10, 2), arrival(10, 1), arrival(10, 1),
        departure(9, MOST_OF_ROW),
        arrival(11, MOST_OF_ROW), arrival(10, 1), departure(10, 1), arrival(10, 1), arrival(10, MOST_OF_ROW),
        arrival(12, 1),
        arrival(0, 1), arrival(0, 1), departure(11, 5), arrival(10, 6), arrival(10, 5), arrival(1, 1),
        arrival(1, 2 ** 40),
    ]
    yield exactly("version 4: as many as there may be together", FULL_MANY, around)
    calls = list(chance_calls(Chance("calls where all are limited"), 25, 80))
    full = small(4, tuple({**FOUR_ROWS[i % 4], "vehicles": MOST_OF_ALL // 25} for i in range(25)))
    yield exactly("version 4: calls by chance where all are limited", full, calls)
    rows = in_turn(10, MOST_OF_ROW) + in_turn(2, 0)
    for version in (1, 2):
        kept = tuple({**row, "load": 0, "mileage": 0, **EMPTY, "class": 5, "technology": 0} for row in rows)
        yield exactly("version %d: no limit together" % version, small(version, kept), around)
    plain = metered((SEASON,), rows)
    yield exactly("version 3: no limit together", plain, around)


def large_cases() -> Iterator[Case]:
    """The first and the last row of many."""
    for version, rows in ((1, 32), (2, 32), (3, 32), (4, 33), (4, 257), (4, 1000)):
        some = tuple({**FOUR_ROWS[i % 4], "vehicles": 50 + i} for i in range(rows))
        plan = small(version, some)
        last = rows - 1
        calls = [arrival(0, 7), arrival(last, 9), departure(last, 3), departure(0, 57), arrival(rows, 1),
                 departure(last, 2_000_000)]
        calls += [arrival(31, 100), departure(32, 82), arrival(255, 1), departure(256, 306), arrival(999, 1)]
        yield roomy("version %d: %d rows" % (version, rows), plan, calls)


def closed_cases() -> Iterator[Case]:
    """What is no ledger: a sheet that is refused, at one of many places, or words
    too few. Calls that a ledger would refuse or serve are answered alike."""
    calls = [arrival(0, 1), departure(0, 1), arrival(0, HUGE), arrival(1000, 1), departure(3, 0)]
    for version in (1, 2, 3, 4):
        data = small(version).data()
        place = row_place(data, 3)
        yield Case("version %d: one word too few" % version, data, report_words(data) - 1, calls)
        yield Case("version %d: no word" % version, data, 0, calls)
        for at, byte in ((0, 0), (3, 9), (5, 0), (6, 0), (8 + 1, 255), (len(data) - 24, 77), (place + 2, 9),
                         (place + 11, 255), (place + 23, 255)):
            changed = data[:at] + bytes([byte]) + data[at + 1:]
            if reckoning.check(changed, words=WORDS) is not None:
                yield Case("version %d: byte %d is %d" % (version, at, byte), changed, WORDS, calls)
        for cut in (0, 7, 100, len(data) - 1):
            yield Case("version %d: %d bytes" % (version, cut), data[:cut], WORDS, calls)
    over = with_vehicles(FULL_MANY, {11: 1})
    yield Case("version 4: too many together", over.data(), WORDS, calls)


def all_vectors() -> list[Vector]:
    opened = [told(case) for group in (edge_cases(), chance_cases(), fleet_cases(), large_cases()) for case in group]
    closed = [told(case) for case in closed_cases()]
    for v in opened + closed:
        if (v.opening == (0, 0)) != (v in opened):
            raise VectorError("%s: %s" % (v.case.words, reckoning.answer_text(*v.opening)))
    return opened + closed


def missing(vectors: list[Vector]) -> Iterator[str]:
    """What the lists should show and do not."""
    calls = sum(len(v.told) for v in vectors)
    if calls < LEAST_CALLS:
        yield "%d calls" % calls
    for version in (1, 2, 3, 4):
        here = [(v, t) for v in vectors if v.opening == (0, 0) and version_of(v.case.data) == version for t in v.told]
        kinds = Counter((t.fault, t.call.kind) for _, t in here)
        wanted = [(None, ARRIVAL), (None, DEPARTURE), ("row", ARRIVAL), ("row", DEPARTURE), ("departure", DEPARTURE),
                  ("16", ARRIVAL)]
        for kind in wanted:
            if kinds[kind] < LEAST_OF_A_KIND:
                yield "version %d: %d of %s" % (version, kinds[kind], kind)
        if (kinds["26", ARRIVAL] >= 10) != (version == 4):
            yield "version %d: %d past 26" % (version, kinds["26", ARRIVAL])
        for row in ("first", "last"):
            passed = [t for v, t in here if t.fault is None
                      and t.call.row == (0 if row == "first" else reckoning.row_count(v.case.data) - 1)]
            if len(passed) < LEAST_OF_A_KIND:
                yield "version %d: %d calls on the %s row" % (version, len(passed), row)
            if not any(t.count == MOST_OF_ROW for t in passed) or not any(t.count == 0 for t in passed):
                yield "version %d: the %s row never full, or never empty" % (version, row)
    refused = {v.opening[0] for v in vectors}
    for number in (0, 1, 2, 3, 4, 5, 7, 13, 14, 16, 22, 26):
        if number not in refused:
            yield "no opening that is answered %d" % number


def encoded(vectors: list[Vector]) -> bytes:
    parts = [packed(4, [sum(len(v.told) for v in vectors)])]
    for v in vectors:
        parts += [packed(2, (len(v.case.data), len(v.told), v.case.room, *v.opening)), v.case.data]
        for t in v.told:
            number, place = t.answer
            parts += [packed(1, [t.call.kind]), packed(8, t.call[1:]), packed(1, [number]), packed(2, [place, t.place]),
                      packed(4, [t.count])]
    return b"".join(parts)


def lines(vectors: list[Vector]) -> Iterator[str]:
    for position, v in enumerate(vectors, 1):
        refused = sum(t.fault is not None for t in v.told)
        yield "%3d  %-17s  %4d calls, %4d refused  %s" % (position, reckoning.answer_text(*v.opening), len(v.told),
                                                          refused, v.case.words)


VECTORS = VectorSet("vectors_ledger", all_vectors, encoded, lines, missing)
