"""The input of vectors_factor: sheets with calls of single factors and the exact factor of each, at n = 40 and n = 60.

The file says in four bytes how many calls there are. Each sheet follows its
length and the number of its calls, two bytes each; then come its calls, of
seven numbers with eight bytes each: season, row, factor; the number and the
place at which the call is refused, 0 and 0 where it is accepted; and the whole
nanograms below and above the exact factor, for both n together. A factor that
is a whole number of nanograms, as 0, has the same twice. Every number has its
lowest byte first.
"""

import math
from collections import Counter
from collections.abc import Iterator
from dataclasses import replace
from fractions import Fraction
from itertools import chain, product
from typing import NamedTuple

from tools import reckoning
from tools.command import SAMPLES
from tools.vectors import plans, sheets
from tools.vectors.chance import Chance, chance_grid_plan, chance_metered_plan, chance_plan
from tools.vectors.frame import VectorError, VectorSet, packed
from tools.vectors.plans import (
    BY_CLASS, DRIVEN, EMPTY, FEW, FIVE, PAIRS, ROW, SEASON, Plan, Record, cells_grid, in_turn, many, metered, most,
    one_cell, said, version_of,
)

TERMS = (40, 60)
NANOGRAMS = 10 ** 9

# How far a value must lie from a whole number that it is not, so that
# the reckoning's decimals (good to 10^-84 g) leave its whole part in no doubt.
CLEAR = Fraction(1, 10 ** 40)
LEAST_FACTORS = 260
LEAST_OF_A_FACTOR = 30
LEAST_OF_GRIDS = 100  # of version 2
LEAST_OF_MILEAGES = 150  # of rows with a mileage
LEAST_BEYOND = 30  # of rows behind the first 32
ALL = range(1, 8)


class Group(NamedTuple):
    """A sheet and the calls on it: (season, row, factor), or with their answers."""
    words: str
    data: bytes
    calls: list


# ------------------------------------------------------------------ parkings

# A car without canister.
PLAIN = {**ROW, "class": 1, "technology": 0, **EMPTY}


def single_groups() -> Iterator[Group]:
    """Single parkings, round midnight most of them: each factor of a car
    without canister and of one with, on a day that crosses 0 C."""
    season = {**SEASON, "lowest": -42, "highest": 63, "vp": 905}
    rows = (PLAIN, {**ROW, "class": 9, "technology": 0, "load": 250, "fill": 12})
    for cell in ((1, 1), (2, 1), (3, 1), (24, 1), (1, 24), (24, 24), (24, 12), (24, 14)):
        plan = Plan((season,), rows, *one_cell(*cell))
        calls = [*product((0,), (0,), ALL), (0, 1, 1), (0, 1, 3)]
        yield Group("parking of %d half-hours to hour %d" % cell, plan.data(), calls)


# --------------------------------------------------------------- the limits

WEATHER = tuple(
    {"days": 30, "lowest": lowest, "highest": highest, "vp": vp}
    for (lowest, highest), vp in product(
        ((-300, -300), (500, 500), (-300, 500), (0, 0), (-1, 1), (-55, 60)), (300, 1100))
)

ROW_LIMITS = (
    {**PLAIN, "fill": 0}, {**PLAIN, "fill": 100}, {**PLAIN, "tank": 1}, {**PLAIN, "tank": 1500},
    {**PLAIN, "tank": 1500, "fill": 0, "minutes": 1440}, {**PLAIN, "minutes": 0}, {**PLAIN, "minutes": 1440},
    {**PLAIN, "class": 5, "fill": 0}, {**PLAIN, "class": 5, "fill": 100}, {**PLAIN, "class": 6, "tank": 1500},
    {**PLAIN, "class": 7, "tank": 1}, {**PLAIN, "class": 8, "fill": 99},
)


def limit_group() -> Group:
    """Every limit of a season with every limit of a row, factor by factor in
    turn."""
    calls = [(i, j, 1 + (i + j) % 7) for i in range(len(WEATHER)) for j in range(len(ROW_LIMITS))]
    return Group("limits of every field", Plan(WEATHER, ROW_LIMITS, *FEW).data(), calls)


def loads(canister: int, season: Record) -> Iterator[Record]:
    """A canister empty, loaded and full, one that holds nothing, and the
    largest that check 20 lets pass."""
    top = most(canister, season)
    for load, saturation in ((0, 0), (0, top), (top // 2, top), (top, top), (min(300, top), min(450, top))):
        yield {**ROW, "canister": canister, "tank": 1500, "fill": 0, "load": load, "saturation": saturation}


def load_groups() -> Iterator[Group]:
    """Each canister at each of its loads, in cold and heat; a season for each
    sheet, since the largest load depends on it."""
    for season in WEATHER[4:6] + WEATHER[10:] + (WEATHER[1], WEATHER[2]):
        rows = tuple(row for canister in (1, 2, 3) for row in loads(canister, season))
        calls = [(0, j, (1, 3, 4)[j % 3]) for j in range(len(rows))]
        yield Group("loads, %s" % said(season), Plan((season,), rows, *FEW).data(), calls)


def pair_groups() -> Iterator[Group]:
    """Every class and technology, canister and tank by class, and each
    canister written for each class."""
    season = {**SEASON, "lowest": 118, "highest": 274, "vp": 640}
    rows = [{**ROW, "class": c, "technology": t, **EMPTY} for c, t in PAIRS]
    for c, canister in product(range(1, 10), range(4)):
        row = {**ROW, "class": c, "technology": 0, "canister": canister, "fill": 20}
        rows.append(row if canister else {**row, **EMPTY})
    for start in range(0, len(rows), 32):
        part = tuple(rows[start:start + 32])
        calls = [(0, j, 1 + (start + j) % 7) for j in range(len(part))]
        yield Group("classes and canisters", Plan((season,), part, *FEW).data(), calls)


# --------------------------------------------------- samples and by chance


def sample_groups() -> Iterator[Group]:
    """Tables 3-12 and 3-13 as parkings: Table 3-5, and the region."""
    data = (SAMPLES / "table-3-5.evp").read_bytes()
    yield Group("Table 3-5", data, [*product(range(4), (0,), ALL)])
    data = (SAMPLES / "region.evp").read_bytes()
    yield Group("region", data, [(j % 4, j, 1 + j % 7) for j in range(data[6])])
    data = (SAMPLES / "survey.evp").read_bytes()
    yield Group("survey", data, [(j % 2, j, k) for j in range(data[6]) for k in (1, 2 + j % 6)])
    data = (SAMPLES / "odometer.evp").read_bytes()
    yield Group("odometer", data, [(j % 2, j, k) for j in range(data[6]) for k in (1, 2 + j % 6)])
    data = (SAMPLES / "districts.evp").read_bytes()
    yield Group("districts", data, [(j % 4, j, 1 + j % 7) for j in range(0, plans.rows_of(data), 13)])


def chance_groups() -> Iterator[Group]:
    """Values and parkings all over their ranges."""
    chance = Chance("factor calls")
    for seasons, rows in ((4, 4), (12, 32)):
        data = chance_plan(seasons, rows).data()
        calls = [(chance.below(seasons), j % rows, 1 + chance.below(7)) for j in range(16)]
        yield Group("values by chance", data, sorted(set(calls)))


# ---------------------------------------------------------------- version 2

# A car without canister and a two-wheeler with one, on a day that crosses 0 C.
TWO_ROWS = Plan(
    ({**SEASON, "lowest": -42, "highest": 263, "vp": 905},),
    (PLAIN, {**ROW, "class": 9, "technology": 0, "load": 250, "saturation": 300, "fill": 12}),
)

TWO_ROWS_CALLS = [*product((0,), (0,), ALL), (0, 1, 1), (0, 1, 3), (0, 1, 6)]

# No two lists have these cells alone, or with these counts. The last is full:
# long parkings end late and short ones early.
UNLISTED = {
    "two cells": {(24, 7): 5, (2, 14): 3},
    "a cell of each duration": {(d, (5 * d) % 24 + 1): d for d in range(1, 25)},
    "three cells, of 65535 and of 1": {(9, 12): 65535, (9, 24): 1, (24, 12): 65535},
    "long parkings end late": {(d, t): 1 + (d * t) ** 2 // 100 for d in range(1, 25) for t in range(1, 25)},
}

# Each has the factors and the masses of its grid of products. The sums of the
# last are the largest that lists can have.
LISTED = (
    replace(TWO_ROWS, **dict(zip(("durations", "hours"), FEW))),
    replace(TWO_ROWS, **dict(zip(("durations", "hours"), one_cell(24, 14)))),
    chance_plan(2, 3),
    chance_plan(4, 4),
    replace(chance_plan(3, 2), durations=(41,) * 23 + (57,), hours=(57,) + (41,) * 23),
)


def grid_cell_groups() -> Iterator[Group]:
    """Single parkings; the count does not matter."""
    for cell, count in {(3, 20): 1, (20, 3): 1000, (1, 24): 7, (24, 1): 65535, (24, 24): 1, (1, 1): 65535}.items():
        plan = replace(TWO_ROWS, grid=cells_grid({cell: count}))
        yield Group("grid: %d half-hours to hour %d, count %d" % (*cell, count), plan.data(), TWO_ROWS_CALLS)


def unlisted_groups() -> Iterator[Group]:
    for words, cells in UNLISTED.items():
        yield Group("grid: " + words, replace(TWO_ROWS, grid=cells_grid(cells)).data(), TWO_ROWS_CALLS)


def listed_groups() -> Iterator[Group]:
    """Lists, and the grid of their products."""
    for i, plan in enumerate(LISTED, 1):
        calls = [
            (s, r, 1 + (s + 3 * r + k) % 7)
            for s in range(len(plan.seasons)) for r in range(len(plan.rows)) for k in (0, 2, 5)]
        yield Group("pair %d, lists" % i, plan.data(), calls)
        yield Group("pair %d, grid" % i, plan.gridded().data(), calls)


def chance_grid_groups() -> Iterator[Group]:
    """Cells all over the grid; the largest sum is among them."""
    for seasons, rows, total in ((2, 3, 577), (3, 4, 123_456), (2, 5, 1_000_000)):
        calls = [(j % seasons, j % rows, 1 + j % 7) for j in range(14)]
        data = chance_grid_plan(seasons, rows, total).data()
        yield Group("grid by chance, sum %d" % total, data, sorted(set(calls)))


# ---------------------------------------------------------------- version 3

# Up to 16 km an empty canister has them, from 17 km on none has.
MILEAGES = (1, 16, 17, 1_000, 1_000_000)

# Mild; cold; a day of 40 degrees, at whose cold end a canister can have a
# mileage that it cannot have at the warm one; and heat.
METERED_WEATHER = (
    SEASON, {**SEASON, "lowest": -300, "highest": -250, "vp": 1100},
    {**SEASON, "lowest": -20, "highest": 380, "vp": 450}, {**SEASON, "lowest": 420, "highest": 500, "vp": 300},
)


def kept(canister: int, km: int) -> int:
    """What a canister keeps of its load at a mileage (eq. 12), in tenths of a
    gram; only to choose saturating loads by."""
    return max(0, round(10 * (8.13 * math.log(km) - 22.92) / {1: 2, 2: 1, 3: 0.5}[canister]))


def driven_rows(season: Record) -> Iterator[Record]:
    """Each mileage in each canister: the largest that check 25 lets pass; one
    that is full a little beyond the load that the mileage makes, so that the
    vapour of a large tank overflows it; and one that holds nothing, or too
    little for the mileage."""
    vehicles = ({"class": 9, "technology": 0}, {"class": 1, "technology": 1}, {"class": 6, "technology": 0})
    for i, (canister, km) in enumerate(product((1, 2, 3), MILEAGES)):
        top = most(canister, season, 0)
        of_vehicle = {**DRIVEN, **vehicles[i % 2], "canister": canister, "mileage": km, "tank": 1500, "fill": 0}
        yield {**of_vehicle, "saturation": top}
        yield {**of_vehicle, **vehicles[2], "saturation": min(top, kept(canister, km) + 13)}
    yield {**DRIVEN, "class": 9, "technology": 1, "saturation": 0}
    yield {**DRIVEN, "class": 3, "technology": 4, "saturation": 123}


def mileage_groups() -> Iterator[Group]:
    """A season for each sheet, since the largest load depends on it."""
    for season in METERED_WEATHER:
        rows = tuple(driven_rows(season))
        calls = [(0, j, 1 + (j + k) % 7) for j in range(len(rows)) for k in (0, 3)]
        plan = replace(metered((season,), rows), grid=FIVE)
        yield Group("mileages, %s" % said(season), plan.data(), calls)


def chance_mileage_groups() -> Iterator[Group]:
    for seasons, rows in ((2, 5), (3, 8)):
        plan = replace(chance_metered_plan(seasons, rows), grid=FIVE)
        calls = [(j % seasons, j % rows, 1 + j % 7) for j in range(21)]
        yield Group("mileages by chance", plan.data(), sorted(set(calls)))


# ---------------------------------------------------------------- version 4


def many_group() -> Group:
    """Both sides of what one byte counts and of the most rows of the other
    versions, and the last of a thousand; no row has the fill level of one that
    a count cut to a byte would take in its place. Rows that are not there are
    refused as 23."""
    rows = tuple({**row, "fill": i % 97} for i, row in enumerate(in_turn(1000)))
    calls = [(0, j, 1 + (j + k) % 7) for j in (0, 31, 32, 33, 254, 255, 256, 257, 511, 512, 768, 998, 999)
             for k in (0, 3)]
    absent = [(0, 1000, 1), (0, 1001, 7), (0, 1024, 1), (0, 65_536, 1), (0, 2 ** 32 + 999, 1), (1, 999, 1), (0, 999, 8)]
    plan = replace(many((SEASON,), rows), grid=FIVE)
    return Group("a thousand rows", plan.data(), calls + absent)


# ------------------------------------------------------------------ refused

LARGEST = 2 ** 64 - 1


def absent_groups() -> Iterator[Group]:
    """A season, a row or a factor that is not there, number 23."""
    for plan in (plans.BASE, plans.BASE_GRID, plans.BASE_METERED, plans.BASE_MANY):
        yield Group("absent", plan.data(), absent_calls(plan))


def absent_calls(plan: Plan) -> list[tuple[int, int, int]]:
    seasons, rows = len(plan.seasons), len(plan.rows)
    return [
        (seasons, 0, 1), (0, rows, 1), (0, 0, 0), (0, 0, 8), (seasons, rows, 8), (seasons - 1, rows, 7),
        (LARGEST, 0, 1), (0, LARGEST, 1), (0, 0, LARGEST), (256, 0, 1), (0, 256, 1), (0, 0, 257), (2 ** 32, 0, 1),
        (0, 2 ** 32, 1), (0, 0, 2 ** 32 + 1),
    ]


def refused_groups() -> Iterator[Group]:
    """A sheet for each number, which is returned whether the call's season,
    row and factor are there or not."""
    for case in sheets.refused_cases():
        yield Group(case.words, case.data, [(0, 0, 1), (LARGEST, LARGEST, 0)])


# ------------------------------------------------------------------ the file


class Call(NamedTuple):
    """A call with its answer: a refusal, or the whole nanograms below and above
    the exact factor."""
    season: int
    row: int
    factor: int
    number: int
    place: int
    below: int
    above: int


def whole(value: Fraction) -> tuple[int, int]:
    """The whole numbers below and above a value, one where it is whole."""
    below, above = math.floor(value), math.ceil(value)
    if below != above and not below + CLEAR < value < above - CLEAR:
        raise VectorError("a value too near to a whole number")
    return below, above


def answered(data: bytes, call: tuple[int, int, int]) -> Call:
    refusal = reckoning.check(data, call=call)
    if refusal is not None:
        return Call(*call, *refusal, 0, 0)
    read = reckoning.read(data)
    ends = [whole(reckoning.factor(read, *call, n) * NANOGRAMS) for n in TERMS]
    return Call(*call, 0, 0, min(below for below, _ in ends), max(above for _, above in ends))


def groups() -> Iterator[Group]:
    yield from sample_groups()
    yield from single_groups()
    yield limit_group()
    yield from load_groups()
    yield from pair_groups()
    yield from chance_groups()
    yield from grid_cell_groups()
    yield from unlisted_groups()
    yield from listed_groups()
    yield from chance_grid_groups()
    yield from mileage_groups()
    yield from chance_mileage_groups()
    yield many_group()
    yield from absent_groups()
    yield from refused_groups()


def all_groups() -> list[Group]:
    return [group._replace(calls=[answered(group.data, call) for call in group.calls]) for group in groups()]


def missing(found: list[Group]) -> Iterator[str]:
    """What the calls as a whole should show and do not."""
    calls = [(group, call) for group in found for call in group.calls]
    accepted = [(reckoning.read(group.data), call) for group, call in calls if not call.number]
    rows = [sheet.rows[call.row] for sheet, call in accepted]
    factors = Counter(call.factor for _, call in accepted)
    if len(accepted) < LEAST_FACTORS:
        yield "%d factors" % len(accepted)
    for k in ALL:
        if factors[k] < LEAST_OF_A_FACTOR:
            yield "factor %d: %d calls" % (k, factors[k])
    if {(row.vehicle_class, row.technology) for row in rows} < set(PAIRS):
        yield "not every class and technology"
    if {(row.vehicle_class, reckoning.canister_of(row)) for row in rows} != set(product(range(1, 10), range(4))):
        yield "not every class with every canister"
    if {row.canister for row in rows} != {0, 1, 2, 3, BY_CLASS}:
        yield "not every canister code"
    for words, seen, wanted in (("minutes", {row.minutes for row in rows}, {0, 1440}),
                                ("tanks", {row.tank for row in rows}, {0, 1500}),
                                ("fill levels", {row.fill for row in rows}, {0, 100})):
        if not wanted <= seen:
            yield "not all %s" % words
    if {call.number for _, call in calls} != {0, 23, *sheets.NUMBERS}:
        yield "not every number"
    of_grids = sum(version_of(group.data) == 2 for group, call in calls if not call.number)
    if of_grids < LEAST_OF_GRIDS:
        yield "%d factors of version 2" % of_grids
    beyond = [call.row for _, call in accepted if call.row >= 32]
    if len(beyond) < LEAST_BEYOND or not {32, 255, 256, 999} <= set(beyond):
        yield "%d factors of rows behind the first 32, or not all rows" % len(beyond)
    yield from missing_mileages([(sheet, call) for sheet, call in accepted if sheet.rows[call.row].mileage])
    calls_of = {group.data: group.calls for group in found}
    for plan in LISTED:
        if calls_of[plan.data()] != calls_of[plan.gridded().data()]:
            yield "lists and the grid of their products have other factors"


def missing_mileages(accepted: list[tuple[reckoning.Sheet, Call]]) -> Iterator[str]:
    """What the factors of rows with a mileage should show and do not."""
    if len(accepted) < LEAST_OF_MILEAGES:
        yield "%d factors of rows with a mileage" % len(accepted)
    rows = [sheet.rows[call.row] for sheet, call in accepted]
    for words, seen, wanted in (
        ("mileages", {row.mileage for row in rows}, set(MILEAGES)),
        ("sizes", {(reckoning.is_two_wheeler(row), reckoning.canister_of(row)) for row in rows},
         set(product((False, True), (1, 2, 3)))),
        ("factors", {(reckoning.is_two_wheeler(sheet.rows[call.row]), call.factor) for sheet, call in accepted},
         set(product((False, True), ALL))),
        ("kinds of load", {kind for sheet, call in accepted for kind in kinds_of_load(sheet, call)},
         {"empty", "between", "full", "full at some marks", "no room"}),
    ):
        if not wanted <= seen:
            yield "rows with a mileage: not all %s" % words


def kinds_of_load(sheet: reckoning.Sheet, call: Call) -> Iterator[str]:
    """What the loads of a row are over the marks of a day."""
    row, season = sheet.rows[call.row], sheet.seasons[call.season]
    full = Fraction(row.saturation, 10)
    loads = [reckoning.load_of(row, season, reckoning.temperature(season, i), 40, "decimal") for i in (0, 14, 28)]
    if full == 0:
        yield "no room"
    elif full in loads:
        yield "full" if loads.count(full) == len(loads) else "full at some marks"
    elif 0 in loads:
        yield "empty"
    else:
        yield "between"


def encoded(found: list[Group]) -> bytes:
    parts = [packed(4, [sum(len(group.calls) for group in found)])]
    for group in found:
        parts += [packed(2, [len(group.data), len(group.calls)]), group.data,
                  packed(8, chain.from_iterable(group.calls))]
    return b"".join(parts)


def lines(found: list[Group]) -> Iterator[str]:
    for sheet, group in enumerate(found, 1):
        for position, call in enumerate(group.calls, 1):
            answer = reckoning.answer_text(call.number, call.place) if call.number else "%d ng" % call.below
            yield "sheet %d call %d: season %d row %d factor %d  %s  %s" % (
                sheet, position, *call[:3], answer, group.words)


VECTORS = VectorSet("vectors_factor", all_groups, encoded, lines, missing)
