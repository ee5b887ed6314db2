"""The input of vectors_pool: pairs of sheets with what pooling them answers and the pooled sheet.

And the two sheets that the program `pool` is run on, crates/pool/data, with
what it writes, crates/pool/stdout.

The input says in four bytes how many pairs there are. Each pair follows seven
numbers of two bytes: the lengths of the first sheet, of the second and of the
pooled one, 0 where the pair is refused; the bytes of the buffer; and the number,
the place and the sheet of a refusal (1 the first, 2 the second, 3 the pooled
one), all 0 where it is accepted. Then the three sheets. Every number has its
lowest byte first.
"""

from collections import Counter
from collections.abc import Iterable, Iterator
from dataclasses import replace
from typing import NamedTuple

from tools import reckoning
from tools.reckoning import pool
from tools.vectors import plans, sheets
from tools.vectors.chance import chance_many_plan
from tools.vectors.frame import VectorSet, packed
from tools.vectors.plans import (
    DRIVEN, FIVE, MOST_OF_ALL, MOST_OF_ROW, ROW, SEASON, SMALL_MANY, WITHOUT, Plan, Record, in_turn, many, patched,
    rows_of, sized, version_of, with_vehicles,
)
from tools.vectors.reports import HOT_AND_COLD, KINDS, varied

ROOM = 25_344  # the bytes of the program's buffer
MANY_ROWS = 1000
LEAST_PAIRS, LEAST_ACCEPTED = 60, 20
OF_A_REGION = {1, 2, 3, 4, 5, 7, *range(10, 21), 24, 25, 26}  # what one sheet of version 4 can be refused with
OF_BOTH = {32, 5, 26, 22}


class Case(NamedTuple):
    """Two sheets and the bytes of the buffer."""
    words: str
    first: bytes
    second: bytes
    room: int


class Vector(NamedTuple):
    """A pair with its refusal (number, place, sheet), or the pooled sheet."""
    case: Case
    refusal: tuple[int, int, int]
    pooled: bytes


def pair(words: str, first: Plan | bytes, second: Plan | bytes, room: int = ROOM) -> Case:
    """Of plans or of bytes."""
    data = [sheet if isinstance(sheet, bytes) else sheet.data() for sheet in (first, second)]
    return Case(words, *data, room)


# -------------------------------------------------------------------- accepted

SEASONS = HOT_AND_COLD


def region(rows: Iterable[Record], seasons: Iterable[Record] = SEASONS) -> Plan:
    return replace(many(seasons, rows), grid=FIVE)


NORTH = region(varied("north", 4, KINDS[:4], 3 * 10 ** 6))
SOUTH = region(varied("south", 3, KINDS[4:], 2 * 10 ** 6))


def halves(plan: Plan, rows: int) -> tuple[Plan, Plan]:
    """A plan as two regions."""
    return replace(plan, rows=plan.rows[:rows]), replace(plan, rows=plan.rows[rows:])


def both_ways(words: str, first: Plan | bytes, second: Plan | bytes) -> Iterator[Case]:
    yield pair(words, first, second)
    yield pair(words + ", in the other order", second, first)


def accepted_cases() -> Iterator[Case]:
    yield from both_ways("north and south", NORTH, SOUTH)
    yield pair("a sheet with itself", SOUTH, SOUTH)
    yield from both_ways("one row and one row", SMALL_MANY, replace(SMALL_MANY, rows=(WITHOUT,)))
    for i, size in enumerate(((1, 2), (2, 5), (3, 9), (12, 4))):
        yield from both_ways("values by chance, %s" % sized(chance_many_plan(*size)),
                             *halves(chance_many_plan(*size), 1 + i % 2))


def category_cases() -> Iterator[Case]:
    """Cars in the one, others in the other; and rows without vehicles."""
    cars, light, two = (region(varied(name, 3, (kind,), 10 ** 6))
                        for name, kind in (("a", KINDS[2]), ("b", KINDS[3]), ("c", KINDS[6])))
    yield pair("cars and light-duty vehicles", cars, light)
    yield pair("two-wheelers and cars", two, cars)
    yield pair("light-duty vehicles and two-wheelers", light, two)
    yield pair("no vehicles in the first", with_vehicles(cars, dict.fromkeys(range(3), 0)), two)
    yield pair("no vehicles in both", *(with_vehicles(plan, dict.fromkeys(range(3), 0)) for plan in (cars, two)))


def count_cases() -> Iterator[Case]:
    """Counts on both sides of a byte, and all the rows that there can be."""
    for first, second in ((255, 1), (1, 255), (40, 217)):
        yield pair("rows %d and %d" % (first, second), region(in_turn(first), (SEASON,)),
                   region(in_turn(second), (SEASON,)))
    rows = varied("a thousand rows", MANY_ROWS)
    yield pair("rows 431 and 569, all vehicles", *halves(region(rows, SEASONS[:1]), 431))


def full_cases() -> Iterator[Case]:
    """As many vehicles together as there can be."""
    full = region(in_turn(9, MOST_OF_ROW), (SEASON,))
    yield pair("100,000,000 vehicles", full, region(in_turn(2, MOST_OF_ROW // 2), (SEASON,)))
    yield pair("100,000,000 vehicles, the most in the last row", full,
               region(in_turn(3, 0)[:2] + in_turn(1, MOST_OF_ROW), (SEASON,)))
    yield pair("100,000,000 vehicles in the first", region(in_turn(10, MOST_OF_ROW), (SEASON,)),
               region(in_turn(2, 0), (SEASON,)))


def room_cases() -> Iterator[Case]:
    """No byte to spare, and one too few."""
    for first, second in ((NORTH, SOUTH), (SMALL_MANY, SMALL_MANY)):
        whole = len(pool.pooled(first.data(), second.data()))
        yield pair("room for no byte more", first, second, whole)
        yield pair("room for a byte less", first, second, whole - 1)
    yield pair("room for the first sheet alone", NORTH, SOUTH, len(NORTH.data()))
    yield pair("no room", NORTH, SOUTH, 0)


# --------------------------------------------------------- one sheet is refused


def faults():
    """A sheet of version 4 for each number that it can have, the shortest."""
    found = {}
    for case in sheets.all_cases():
        number = case.answer[0]
        if number and (version_of(case.data) == pool.VERSION or number < 3):
            found[number] = min(found.get(number, case.data), case.data, key=len)
    return found


def region_cases() -> Iterator[Case]:
    """Each number in the first sheet and in the second, behind which nothing
    counts: the other sheet differs, or has a fault too."""
    found = faults()
    numbers = sorted(found)
    for number, other in zip(numbers, numbers[1:] + numbers[:1]):
        yield pair("%d in the first" % number, found[number], SMALL_MANY)
        yield pair("%d in the second" % number, SMALL_MANY, found[number])
        yield pair("%d in the first, %d in the second" % (number, other), found[number], found[other])


def version_cases() -> Iterator[Case]:
    """Sheets of the other versions, accepted by themselves, and with a fault
    before the version and behind it."""
    for plan in (plans.SMALLEST, plans.SMALL_GRID, plans.SMALL_METERED):
        version = plan.version()
        yield pair("version %d in the first" % version, plan, SMALL_MANY)
        yield pair("version %d in the second" % version, SMALL_MANY, plan)
    old = plans.SMALL_METERED.data()
    yield pair("version 3 and no seasons", patched(old, 5, b"\0"), SMALL_MANY)
    yield pair("version 3 and a byte too many", SMALL_MANY, old + b"\0")
    yield pair("version 3 and other letters", patched(old, 0, b"e"), SMALL_MANY)
    yield pair("version 5", patched(SMALL_MANY.data(), 3, b"\5"), SMALL_MANY)
    yield pair("version 260", SMALL_MANY, patched(SMALL_MANY.data(), 4, b"\1"))
    yield pair("no byte in both", b"", b"")


# ------------------------------------------------------- the two are refused


def differing_cases() -> Iterator[Case]:
    """The number of seasons, each field of a season, and counts of the parking:
    the first, the last and one that two bytes hold."""
    plan = region((DRIVEN, WITHOUT))
    yield pair("other seasons: one more", plan, replace(plan, seasons=SEASONS + (SEASON,)))
    yield pair("other seasons: one less", plan, replace(plan, seasons=SEASONS[:1]))
    yield pair("other seasons: exchanged", plan, replace(plan, seasons=SEASONS[::-1]))
    for name in SEASON:
        for i in range(2):
            yield pair("other seasons: %s of season %d" % (name, i + 1), plan,
                       plan.changed("seasons", i, {name: SEASONS[i][name] + 1}))
    data = plan.data()
    for place in (8, 9, 700, 1158, 1159):
        yield pair("other parking: byte %d" % place, data, patched(data, place, bytes([data[place] ^ 1])))
    yield pair("other parking: a season's bytes as the last counts", data, patched(data, 1152, data[1160:1168]))


def differing_order_cases() -> Iterator[Case]:
    """32 before what the pooled sheet and the buffer are refused for, and behind
    what the second sheet is."""
    other = replace(region(in_turn(1, MOST_OF_ROW)), seasons=SEASONS[::-1])
    full = region(in_turn(10, MOST_OF_ROW))
    yield pair("32 and 26", full, other)
    yield pair("32 and 22", full, other, 0)
    yield pair("32 and 16 in the second", full, with_vehicles(other, {0: MOST_OF_ROW + 1}))
    yield pair("32 and 7 in the second", full, other.data() + b"\0")
    yield pair("32 and 4 in the second", full, patched(other.data(), 5, b"\0"))


def pooled_cases() -> Iterator[Case]:
    """More rows than there can be; vehicles that are too many from the first row
    of the second on, from one between and at its last; and these before 22."""
    season = (SEASON,)
    yield pair("rows 1000 and 1", region(in_turn(1000), season), region(in_turn(1), season))
    yield pair("rows 1 and 1000, no room", region(in_turn(1), season), region(in_turn(1000), season), 0)
    rows = in_turn(501, MOST_OF_ALL // 501)
    yield pair("rows 500 and 501, too many vehicles", region(rows[:500], season), region(rows, season))
    full = region(in_turn(10, MOST_OF_ROW), season)
    for i in range(3):
        for room in (ROOM, 0):
            other = with_vehicles(region(in_turn(3, 0), season), {i: 1})
            yield pair("a vehicle too many in row %d of the second, room %d" % (i + 1, room), full, other, room)
    yield pair("vehicles too many in each row of the second", full, region(in_turn(3), season))
    yield pair("the most vehicles twice", full, full)
    nine = region(in_turn(9, MOST_OF_ROW), season)
    for vehicles, words in (((MOST_OF_ROW, 1), "in the next row"), ((MOST_OF_ROW - 1, 2, 5), "one past the limit")):
        other = region(tuple({**ROW, "vehicles": n} for n in vehicles), season)
        yield pair("too many vehicles, " + words, nine, other)


# -------------------------------------------------------------------- the file


def vector(case: Case) -> Vector:
    refusal = pool.check(*case[1:])
    if refusal is not None:
        sheet, number, place = refusal
        return Vector(case, (number, place, sheet), b"")
    return Vector(case, (0, 0, 0), pool.pooled(case.first, case.second))


def all_vectors() -> list[Vector]:
    groups = (
        accepted_cases, category_cases, count_cases, full_cases, room_cases, region_cases, version_cases,
        differing_cases,
        differing_order_cases, pooled_cases,
    )
    return [vector(case) for group in groups for case in group()]


def missing(vectors: list[Vector]) -> Iterator[str]:
    """What the pairs as a whole should show and do not."""
    refused = [v for v in vectors if v.refusal[0]]
    accepted = [v for v in vectors if not v.refusal[0]]
    if len(refused) < LEAST_PAIRS or len(accepted) < LEAST_ACCEPTED:
        yield "%d refused and %d accepted pairs" % (len(refused), len(accepted))
    found = Counter((v.refusal[2], v.refusal[0]) for v in refused)
    wanted = {(sheet, n) for sheet in (pool.FIRST, pool.SECOND) for n in OF_A_REGION} | {
        (pool.POOLED, n) for n in OF_BOTH}
    if set(found) != wanted:
        yield "not the numbers of each sheet: %s" % sorted(wanted ^ set(found))
    if not {2, MANY_ROWS} <= {rows_of(v.pooled) for v in accepted}:
        yield "no pool of 2 rows, or none of 1,000"
    if len({v.case.first[5] for v in accepted}) < 4:
        yield "few numbers of seasons"


def encoded(vectors: list[Vector]) -> bytes:
    parts = [packed(4, [len(vectors)])]
    for v in vectors:
        parts += [packed(2, [len(v.case.first), len(v.case.second), len(v.pooled), v.case.room, *v.refusal])]
        parts += [v.case.first, v.case.second, v.pooled]
    return b"".join(parts)


def lines(vectors: list[Vector]) -> Iterator[str]:
    for position, v in enumerate(vectors, 1):
        number, place, sheet = v.refusal
        of = "%s sheet: " % pool.NAMES[sheet] if sheet else ""
        yield "%4d  %-30s  %s" % (position, of + reckoning.answer_text(number, place), v.case.words)


def program_files() -> dict[str, bytes]:
    """What the program `pool` is run on, and what it writes."""
    north, south = NORTH.data(), SOUTH.data()
    return {
        "crates/pool/data/north.evp": north, "crates/pool/data/south.evp": south,
        "crates/pool/stdout": pool.pooled(north, south),
    }


VECTORS = VectorSet("vectors_pool", all_vectors, encoded, lines, missing, program_files)
