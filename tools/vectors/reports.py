"""The input of vectors_report: sheets with the exact masses of their rows, and sheets and buffers that are refused.

The file says in four bytes how many sheets there are. Each sheet follows five
numbers of two bytes: its length, how many rows are given behind it (none where
it is refused), the words of the buffer, and the number and place of a refusal,
0 and 0 where it is accepted. A row is nine numbers of eight bytes: the
category (1 cars, 2 light-duty, 3 two-wheelers), vehicles times days, vehicles
times days times trips cut to a whole number, and for diurnal, soak and running
the whole milligrams below and above the exact mass, at n = 40 and for most
sheets at n = 60 too. Every number has its lowest byte first.
"""

from collections.abc import Iterable, Iterator, Sequence
from dataclasses import replace
from itertools import chain
from typing import NamedTuple

from tools import reckoning
from tools.command import SAMPLES
from tools.vectors import plans, sheets
from tools.vectors.chance import Chance, chance_grid_plan, chance_many_plan, chance_metered_plan, chance_plan
from tools.vectors.factors import LISTED, METERED_WEATHER, MILEAGES, TWO_ROWS, UNLISTED, driven_rows, whole
from tools.vectors.frame import VectorSet, packed
from tools.vectors.plans import (
    DRIVEN, EMPTY, FIVE, MOST_OF_ALL, MOST_OF_ROW, PAIRS, ROW, SEASON, Plan, Record, cells_grid, few_cells, grid_of,
    in_turn, many, metered, one_cell, report_words, rows_of, said, sized, version_of, with_vehicles,
)

WORDS = 6144  # the words of its buffer
MILLIGRAMS = 1000
LEAST_ACCEPTED = 60
LEAST_GRIDS = 20  # of version 2
LEAST_MILEAGES = 100  # rows with a mileage and vehicles
LEAST_MANY = 8  # with more than 32 rows
MOST_AT_60 = 40  # seasons times rows of unlike factors up to which n = 60 is calculated too


class Case(NamedTuple):
    """A sheet and the words of the buffer."""
    words: str
    data: bytes
    room: int


# ------------------------------------------------------------------- accepted


def exactly(words: str, plan: Plan) -> Case:
    """A buffer without a word more than the report."""
    data = plan.data()
    return Case(words, data, report_words(data))


def roomy(words: str, plan: Plan) -> Case:
    return Case(words, plan.data(), WORDS)


def sample_cases() -> Iterator[Case]:
    for name in ("example", "table-3-5", "table-3-5-day", "region", "survey", "odometer", "districts"):
        data = (SAMPLES / (name + ".evp")).read_bytes()
        yield Case(name, data, report_words(data))


def thinned(chance: Chance, plan: Plan) -> Plan:
    """The same with few parkings."""
    cells = [(chance.between(1, 24), chance.between(1, 24)) for _ in range(3)]
    return replace(plan, **dict(zip(("durations", "hours"), few_cells(*cells))))


def whole_year(plan: Plan) -> Plan:
    """The last season takes the days that are left of 366."""
    days = sum(season["days"] for season in plan.seasons[:-1])
    return plan.changed("seasons", len(plan.seasons) - 1, {"days": 366 - days})


def chance_cases() -> Iterator[Case]:
    """Values all over their ranges, of many sizes: every second with 366 days
    in all, and in turn a row without vehicles, one without trips, and one with
    all the vehicles and trips that there can be."""
    chance = Chance("reports")
    edges = ({"vehicles": 0}, {"trips": 0}, {"vehicles": 10_000_000, "trips": 1200}, {"vehicles": 1, "trips": 1})
    sizes = [(1 + i % 12, 1 + (i * 5) % 7) for i in range(48)] + [(12, 32), (3, 32), (1, 32), (12, 1)]
    for i, (seasons, rows) in enumerate(dict.fromkeys(sizes)):
        plan = thinned(chance, chance_plan(seasons, rows)).changed("rows", i % rows, edges[i % len(edges)])
        yield (exactly, roomy)[i % 2]("values by chance, %s" % sized(plan), whole_year(plan) if i % 2 else plan)


def full_cases() -> Iterator[Case]:
    """No parking is without weight."""
    for size in ((1, 1), (2, 3), (4, 4)):
        yield exactly("all parkings, %d seasons and %d rows" % size, whole_year(chance_plan(*size)))


def category_cases() -> Iterator[Case]:
    """Rows of one category alone, and each class once."""
    season = {**SEASON, "days": 366, "lowest": -31, "highest": 187}
    for classes in ((1, 2, 3), (4,), (5, 6, 7, 8, 9), range(1, 10), (9, 4, 1), (3, 4), (4, 5)):
        rows = tuple({**ROW, "class": c, "technology": 0, "vehicles": 10 ** c, **EMPTY} for c in classes if c < 8)
        rows += tuple({**ROW, "class": c, "technology": 0, **EMPTY} for c in classes if c >= 8)
        yield exactly("classes %s" % " ".join(map(str, classes)), Plan((season,), rows, *one_cell(24, 3)))


def limit_cases() -> Iterator[Case]:
    """The largest masses, and rows of which none has vehicles."""
    hot = {"days": 366, "lowest": -300, "highest": 500, "vp": 1100}
    largest = {
        **ROW, "technology": 0, **EMPTY, "carburettor": 100, "hot": 100, "fill": 0, "tank": 1500,
        "vehicles": 10_000_000, "trips": 1200, "minutes": 1440,
    }
    rows = tuple({**largest, "class": 1 + i % 8} for i in range(32))
    yield exactly("32 rows of the largest masses", Plan((hot,), rows, *one_cell(24, 14)))
    yield exactly("the largest masses in 12 seasons", Plan(({**hot, "days": 30},) * 12, rows[:2], *one_cell(24, 14)))
    none = tuple({**ROW, "class": c, "technology": t, **EMPTY, "vehicles": 0} for c, t in PAIRS[:32])
    yield roomy("32 rows without vehicles", Plan((hot,), none))
    yield roomy("trips of no minutes", Plan((hot,), ({**largest, "minutes": 0, "carburettor": 0},), *one_cell(1, 24)))


# ------------------------------------------------------------------ version 2


def listed_plans() -> Iterator[Plan]:
    """Sheets whose lists are held against the grid of their products."""
    yield plans.EXAMPLE
    yield from LISTED
    yield whole_year(chance_plan(12, 2))
    chance = Chance("pairs")
    yield from (thinned(chance, chance_plan(*size)) for size in ((1, 7), (5, 3), (2, 32)))


def listed_cases() -> Iterator[Case]:
    for i, plan in enumerate(listed_plans(), 1):
        yield exactly("pair %d, lists" % i, plan)
        yield exactly("pair %d, grid" % i, plan.gridded())


def cell_cases() -> Iterator[Case]:
    """Single parkings, which a grid read the other way round puts elsewhere."""
    for i, (cell, count) in enumerate({(3, 20): 1, (20, 3): 65535, (1, 24): 9, (24, 1): 1, (24, 14): 65535}.items()):
        plan = replace(TWO_ROWS, grid=cells_grid({cell: count}))
        yield (exactly, roomy)[i % 2]("grid: %d half-hours to hour %d, count %d" % (*cell, count), plan)


def unlisted_cases() -> Iterator[Case]:
    for words, cells in UNLISTED.items():
        yield exactly("grid: " + words, replace(TWO_ROWS, grid=cells_grid(cells)))


def chance_grid_cases() -> Iterator[Case]:
    """Cells all over the grid, and the largest sum: over all cells, and in as
    few as can hold it."""
    for i, (seasons, rows, total) in enumerate(((1, 1, 576), (2, 3, 65_537), (4, 4, 1_000_000), (1, 32, 1_000_000))):
        plan = chance_grid_plan(seasons, rows, total)
        yield (exactly, roomy)[i % 2]("grid by chance, sum %d, %s" % (total, sized(plan)), whole_year(plan))
    for start in (0, 560):
        plan = replace(chance_plan(3, 2), grid=grid_of(plans.MILLION, start))
        yield exactly("grid: sum 1000000 from cell %d on" % start, plan)


# ------------------------------------------------------------------ version 3


def mileage_cases() -> Iterator[Case]:
    """Each mileage in each canister, in a season of each kind."""
    for i, season in enumerate(METERED_WEATHER):
        plan = replace(metered((season,), driven_rows(season)), grid=FIVE)
        yield (exactly, roomy)[i % 2]("mileages, %s" % said(season), whole_year(plan))


def chance_mileage_cases() -> Iterator[Case]:
    """Mileages all over their range in several seasons, in whose warmest the
    canister is full at most just. No parking of the last is without weight."""
    for i, size in enumerate(((1, 4), (2, 6), (3, 5), (5, 7), (12, 3))):
        plan = whole_year(replace(chance_metered_plan(*size), grid=FIVE))
        yield (exactly, roomy)[i % 2]("mileages by chance, %s" % sized(plan), plan)
    yield exactly("mileages by chance, all parkings", chance_metered_plan(2, 3).gridded())


# ------------------------------------------------------------------ version 4

# Kinds of rows; rows of one kind have the same factors, so that a thousand rows
# are calculated as quickly as these. In HOT_AND_COLD all of them are accepted.
HOT_AND_COLD = ({**SEASON, "days": 214, "lowest": 41, "highest": 297},
                {**SEASON, "lowest": -73, "highest": 52, "vp": 880})

KINDS = (
    {**ROW, "technology": 0, **EMPTY}, {**ROW, "class": 2, "technology": 2}, {**DRIVEN, "class": 3, "technology": 4},
    {**ROW, "class": 4, "technology": 3, "load": 700, "saturation": 900}, {**DRIVEN, "class": 4, "mileage": 212_000},
    {**ROW, "class": 6, "technology": 2, **EMPTY}, {**DRIVEN, "class": 9, "mileage": 9_400, "saturation": 430},
)


def varied(name: str, count: int, kinds: Sequence[Record] = KINDS, most: int = MOST_OF_ALL) -> tuple[Record, ...]:
    """So many rows of these kinds by turns that differ in what no factor
    depends on. Their vehicles sum to `most`, what division leaves over being in
    the last."""
    chance = Chance(name)
    parts = [chance.between(0, 999) for _ in range(count - 1)] + [1]
    vehicles = [part * most // sum(parts) for part in parts]
    vehicles[-1] += most - sum(vehicles)
    return tuple({
        **kinds[i % len(kinds)], "vehicles": vehicles[i], "trips": chance.between(0, 1200),
        "carburettor": chance.between(0, 100), "hot": chance.between(0, 100),
    } for i in range(count))


def wide(seasons: Iterable[Record], rows: Iterable[Record]) -> Plan:
    """A plan of version 4 with few parkings."""
    return replace(many(seasons, rows), grid=FIVE)


def many_cases() -> Iterator[Case]:
    """More rows than other versions have, and fewer; with all the vehicles that
    there can be together, but for the last."""
    for i, (seasons, rows) in enumerate(((1, 33), (2, 256), (1, 1000), (2, 1))):
        plan = wide(HOT_AND_COLD[:seasons],
                    varied("rows of report %d" % i, rows, most=min(rows * MOST_OF_ROW, MOST_OF_ALL)))
        yield (exactly, roomy)[i % 2]("version 4, %s" % sized(plan), whole_year(plan))
    plan = wide(({**SEASON, "days": 30},) * 12, varied("twelve seasons", 40, KINDS[:5:2]))
    yield exactly("version 4, %s" % sized(plan), plan)
    yield roomy("version 4, values by chance", replace(chance_many_plan(1, 36), grid=FIVE))


def far_cases() -> Iterator[Case]:
    """Vehicles in rows beyond the first 32 alone; rows of one category beyond
    them; and the largest masses in as few rows as can have all vehicles, which
    stand last."""
    rows = varied("far rows", 41)
    plan = with_vehicles(wide(HOT_AND_COLD, rows), dict.fromkeys(range(33), 0))
    yield exactly("version 4, vehicles from row 34 on", plan)
    for words, kind in (("cars", KINDS[2]), ("light-duty", KINDS[3]), ("two-wheelers", KINDS[6])):
        others = [other for other in KINDS if category_of(other["class"]) != category_of(kind["class"])]
        rows = varied("others than " + words, 33, others, 10 ** 7) + varied(words, 8, (kind,), 10 ** 7)
        yield exactly("version 4, %s in the last rows" % words, wide(HOT_AND_COLD[:1], rows))
    hot = {"days": 366, "lowest": -300, "highest": 500, "vp": 1100}
    largest = {
        **KINDS[0], "carburettor": 100, "hot": 100, "fill": 0, "tank": 1500, "vehicles": MOST_OF_ROW, "trips": 1200,
        "minutes": 1440,
    }
    rows = tuple({**largest, "class": 1 + i % 8, "vehicles": MOST_OF_ROW if i >= 32 else 0} for i in range(42))
    yield exactly("version 4, the largest masses", replace(many((hot,), rows), grid=cells_grid({(24, 14): 1})))


# -------------------------------------------------------------------- refused


def short_cases() -> Iterator[Case]:
    """Buffers of no word, one word and a word too few, number 22."""
    for plan in (
        plans.SMALLEST, plans.BASE, plans.LARGEST, plans.SMALL_GRID, plans.LARGE_GRID, plans.BASE_METERED,
        plans.BASE_MANY,
    ):
        data = plan.data()
        for room in (0, 1, 6 * rows_of(data), report_words(data) - 1):
            yield Case("room for %d words, %s" % (room, sized(plan)), data, room)
    # what the largest of the other versions needs; what byte 7 alone says; and a word too few
    for rows, room in ((33, 218), (256, 26), (1000, 6025)):
        plan = many((SEASON,), in_turn(rows))
        yield Case("room for %d words, %s" % (room, sized(plan)), plan.data(), room)


def refused_cases() -> Iterator[Case]:
    """A sheet for each number, with room for any report and with none."""
    for case in sheets.refused_cases():
        for room in (WORDS, 0):
            yield Case(case.words, case.data, room)


# ------------------------------------------------------------------- the file


class Vector(NamedTuple):
    """A sheet with its answer and the numbers of its rows."""
    case: Case
    answer: tuple[int, int]
    rows: list[list[int]]


def category_of(vehicle_class: int) -> int:
    return 1 if vehicle_class <= 3 else 2 if vehicle_class == 4 else 3


def row_numbers(sheet: reckoning.Sheet, i: int, terms: tuple[int, ...]) -> list[int]:
    row = sheet.rows[i]
    counted = row.vehicles * sum(season.days for season in sheet.seasons)
    numbers = [category_of(row.vehicle_class), counted, counted * row.trips // 100]
    for values in zip(*(reckoning.masses(sheet, i, n) for n in terms)):
        ends = [whole(value * MILLIGRAMS) for value in values]
        numbers += [min(below for below, _ in ends), max(above for _, above in ends)]
    return numbers


def vector(case: Case) -> Vector:
    refusal = reckoning.check(case.data, words=case.room)
    if refusal is not None:
        return Vector(case, refusal, [])
    sheet = reckoning.read(case.data)
    unlike = {row._replace(vehicles=0, trips=0, carburettor=0, hot=0) for row in sheet.rows}
    terms = (40, 60) if len(sheet.seasons) * len(unlike) <= MOST_AT_60 else (40,)
    return Vector(case, (0, 0), [row_numbers(sheet, i, terms) for i in range(len(sheet.rows))])


def all_vectors() -> list[Vector]:
    groups = (
        sample_cases, chance_cases, full_cases, category_cases, limit_cases, listed_cases, cell_cases, unlisted_cases,
        chance_grid_cases, mileage_cases, chance_mileage_cases, many_cases, far_cases, short_cases, refused_cases,
    )
    return [vector(case) for group in groups for case in group()]


def missing(vectors: list[Vector]) -> Iterator[str]:
    """What the sheets as a whole should show and do not."""
    accepted = [reckoning.read(v.case.data) for v in vectors if v.rows]
    if len(accepted) < LEAST_ACCEPTED:
        yield "%d accepted sheets" % len(accepted)
    if {v.answer[0] for v in vectors} != {0, 22, *sheets.NUMBERS}:
        yield "not every number"
    grids = sum(version_of(v.case.data) == 2 for v in vectors if v.rows)
    if grids < LEAST_GRIDS:
        yield "%d accepted sheets of version 2" % grids
    driven = [row for sheet in accepted for row in sheet.rows if row.mileage and row.vehicles]
    if len(driven) < LEAST_MILEAGES or not {row.mileage for row in driven} >= set(MILEAGES):
        yield "%d rows with a mileage, or not all mileages" % len(driven)
    beyond = [sheet.rows[32:] for sheet in accepted if len(sheet.rows) > 32]
    kinds = {(reckoning.canister_of(row) > 0, row.mileage > 0) for rows in beyond for row in rows if row.vehicles}
    if len(beyond) < LEAST_MANY or len(kinds) < 3:
        yield "%d accepted sheets with more than 32 rows, %d kinds of rows there" % (len(beyond), len(kinds))
    found = {v.case.data: v.rows for v in vectors}
    for plan in listed_plans():
        if found[plan.data()] != found[plan.gridded().data()]:
            yield "lists and the grid of their products have other masses"
    rows, seasons = ([record for sheet in accepted for record in getattr(sheet, kind)] for kind in ("rows", "seasons"))
    for words, seen, wanted in (
        ("rows", {len(sheet.rows) for sheet in accepted}, {1, 32, 33, 256, 1000}),
        ("sums of vehicles", {sum(row.vehicles for row in sheet.rows) for sheet in accepted}, {MOST_OF_ALL}),
        ("seasons", {len(sheet.seasons) for sheet in accepted}, {1, 12}),
        ("vehicles", {row.vehicles for row in rows}, {0, 1, 10_000_000}),
        ("trips", {row.trips for row in rows if row.vehicles}, {0, 1200}),
        ("minutes", {row.minutes for row in rows if row.vehicles}, {0, 1440}),
        ("tanks", {row.tank for row in rows if row.vehicles}, {0, 1500}),
        ("temperatures", {degrees for season in seasons for degrees in season[1:3]}, {-300, 500}),
        ("vapour pressures", {season.vp for season in seasons}, {300, 1100}),
        ("days", {sum(season.days for season in sheet.seasons) for sheet in accepted}, {366}),
        ("classes", {row.vehicle_class for row in rows}, set(range(1, 10))),
    ):
        if not wanted <= seen:
            yield "not all %s" % words


def encoded(vectors: list[Vector]) -> bytes:
    parts = [packed(4, [len(vectors)])]
    for v in vectors:
        head = (len(v.case.data), len(v.rows), v.case.room, *v.answer)
        parts += [packed(2, head), v.case.data, packed(8, chain.from_iterable(v.rows))]
    return b"".join(parts)


def lines(vectors: list[Vector]) -> Iterator[str]:
    for position, v in enumerate(vectors, 1):
        yield "%4d  %-17s  %s" % (position, reckoning.answer_text(*v.answer), v.case.words)


VECTORS = VectorSet("vectors_report", all_vectors, encoded, lines, missing)
