"""Sheets of version 3: rows with a mileage."""

from collections.abc import Iterator
from dataclasses import replace
from itertools import product

from tools.vectors.chance import Chance, chance_metered_plan
from tools.vectors.plans import (
    BASE_GRID, BASE_METERED, CLASSES, DRIVEN, ROW_FIELDS, SEASON, SEASON_FIELDS, SMALL_METERED, SMALLEST, metered, most,
    patched, record, said, sized,
)
from tools.vectors.sheets.case import ACCEPTED, Case, of_record
from tools.vectors.sheets.damage import part_overwritten, record_byte_changed
from tools.vectors.sheets.limits import (
    GRID_PARTS, GRIDS, METERED_LIMITS, MILEAGE_FAULTS, MILEAGE_LIMITS, ROW_FAULTS, SEASON_FAULTS, head_faults,
)

# Mileages beside no load: bytes 20 to 23 one by one, and the limit.
MILEAGES = (1, 16, 17, 255, 256, 65_535, 65_536, 2 ** 19, 999_999, 1_000_000)
MILEAGES_BEYOND = (1_000_001, 2 ** 20, 2 ** 24, 2 ** 31, 2 ** 32 - 1)


def mileage_cases() -> Iterator[Case]:
    """What passes or not in version 3 does not pass in version 2."""
    for km in MILEAGES + MILEAGES_BEYOND:
        yield of_record(SMALL_METERED, "rows", 0, {"mileage": km}, 25 if km in MILEAGES_BEYOND else 0)
        case = of_record(replace(SMALL_METERED, metered=False), "rows", 0, {"mileage": km}, 21)
        yield case._replace(words=case.words + ", version 2")


def metered_record_cases() -> Iterator[Case]:
    """Number 25 on both sides of all its limits, outside in the first and in the
    last row; and each other limit of a record outside, likewise."""
    number, inside, outside = MILEAGE_LIMITS
    yield from (of_record(BASE_METERED, "rows", 3, change, 0) for change in inside)
    yield from (of_record(BASE_METERED, "rows", i, change, number) for change, i in product(outside, (0, 3)))
    for kind, number, _, outside in METERED_LIMITS[:-1]:
        last = len(getattr(BASE_METERED, kind)) - 1
        yield of_record(BASE_METERED, kind, 0, outside[0], number)
        yield of_record(BASE_METERED, kind, last, outside[-1], number)


def fitted_cases() -> Iterator[Case]:
    """A mileage with the canister of each class and without one, by class; and
    with one written where the class has none, and the other way round."""
    for vehicle_class, (_, canisters) in CLASSES.items():
        for technology in sorted({0, canisters.index(canisters[-1]), len(canisters) - 1}):
            change = {"class": vehicle_class, "technology": technology, "saturation": 0}
            yield of_record(SMALL_METERED, "rows", 0, change, 0 if canisters[technology] else 25)
        yield of_record(SMALL_METERED, "rows", 0, {"class": vehicle_class, "canister": 0, "saturation": 0}, 25)
        yield of_record(SMALL_METERED, "rows", 0, {"class": vehicle_class, "technology": 0, "canister": 3}, 0)


def metered_saturation_cases() -> Iterator[Case]:
    """a + b.s.m_sat on both sides of 0, for each size in cold and heat. At
    0.0 C and 100.0 kPa a medium canister of 125.0 g stands at 0 exactly, and
    passes. Without a mileage all of these pass."""
    weather = ((-300, 1100), (-300, 300), (0, 1000), (200, 600), (500, 300), (500, 1100))
    for (highest, vp), canister, more in product(weather, (1, 2, 3), (0, 1)):
        season = {"days": 366, "lowest": -300, "highest": highest, "vp": vp}
        plan = SMALL_METERED.changed("seasons", 0, season)
        row = {"canister": canister, "saturation": most(canister, season, 0) + more, "mileage": 1}
        case = of_record(plan, "rows", 0, row, 25 * more)
        yield case._replace(words="%s, at %s" % (case.words, said({"highest": highest, "vp": vp})))
        if more and highest in (0, 500):
            yield of_record(plan, "rows", 0, {**row, "mileage": 0}, 0)


def metered_season_cases() -> Iterator[Case]:
    """The same where one of several seasons alone decides, in the first and in
    the last row."""
    hot = {"highest": 500, "vp": 300}
    plan = metered((SEASON,) * 3, (DRIVEN, DRIVEN))
    for i, j, more in product((0, 1, 2), (0, 1), (0, 1)):
        # of the other row the canister is far from full
        rows = plan.changed("rows", 1 - j, {"saturation": 100})
        row = {"canister": 2, "saturation": most(2, hot, 0) + more}
        case = of_record(rows.changed("seasons", i, hot), "rows", j, row, 25 * more)
        yield case._replace(words="%s, hot in season %d" % (case.words, i + 1))


def metered_order_cases() -> Iterator[Case]:
    """25 with each other number of a row: behind it in one row, and before it
    where the other is in the next. And behind what stands before the rows."""
    for number in range(13, 21):
        plan = BASE_METERED.changed("rows", 0, MILEAGE_FAULTS[0])
        case = of_record(plan, "rows", 0, ROW_FAULTS[number], number)
        yield case._replace(words="%d and 25 in the first row" % number)
        faulty = MILEAGE_FAULTS[number % len(MILEAGE_FAULTS)]
        plan = BASE_METERED.changed("rows", 1, ROW_FAULTS[number])
        case = of_record(plan, "rows", 0, faulty, 25)
        yield case._replace(words="%s, and %d in the second row" % (case.words, number))
    # a mileage that would stop as 25 for the same reason
    for change, number in (({"load": 451}, 19), ({"canister": 0}, 19), ({"saturation": most(1, SEASON) + 1}, 20)):
        yield of_record(BASE_METERED, "rows", 3, change, number)
    for faulty in MILEAGE_FAULTS:
        case = of_record(BASE_METERED.changed("rows", 3, MILEAGE_FAULTS[0]), "rows", 0, faulty, 25)
        yield case._replace(words="%s, and 25 in the last row" % case.words)
    for number, change in SEASON_FAULTS.items():
        case = of_record(BASE_METERED.changed("rows", 0, MILEAGE_FAULTS[1]), "seasons", 1, change, number)
        yield case._replace(words="%s, and 25 in the first row" % case.words)
    data = BASE_METERED.changed("rows", 0, MILEAGE_FAULTS[0]).data()
    for number, place, edit in GRID_PARTS[:7]:
        yield Case("version 3: %d and 25" % number, edit(data), (number, place))


def metered_form_cases() -> Iterator[Case]:
    """Head, length and grid of version 3, and the same bytes as another."""
    data = SMALL_METERED.data()
    yield from head_faults(data[:8])
    for length in (7, 8, 104, 136, 1160, 1168, len(data) - 1):
        answer = (1, 0) if length < 8 else (7, 0)
        yield Case("version 3 cut to %d of %d bytes" % (length, len(data)), data[:length], answer)
    for tail in (b"\0", record(SEASON_FIELDS, SEASON), record(ROW_FIELDS, DRIVEN)):
        yield Case("version 3 of %d bytes and %d more" % (len(data), len(tail)), data + tail, (7, 0))
    for counts in (b"\2\1", b"\1\2"):
        words = "version 3, %s: the head says %d and %d" % (sized(SMALL_METERED), *counts)
        yield Case(words, patched(data, 5, counts), (7, 0))
    lists = SMALLEST.data()
    yield Case("version 3 of version 1's length", patched(lists, 3, b"\3"), (7, 0))
    yield Case("version 1 of version 3's length", patched(data, 3, b"\1"), (7, 0))
    for version in (b"\0\0", b"\5\0", b"\6\0", b"\3\1", b"\0\3", b"\3\3", b"\3\x80"):
        yield Case("version %s of version 3's length" % version.hex(), patched(data, 3, version), (3, 3))
    yield Case("version 2 with a mileage", patched(BASE_METERED.data(), 3, b"\2"), (21, BASE_METERED.place("rows", 0)))
    yield Case("version 2 as version 3", patched(BASE_GRID.data(), 3, b"\3"), ACCEPTED)
    for words, counts, passes in GRIDS:
        if words in ("sum 0", "sum 1 in the last", "sum 1000000 in the last", "sum 1000001 in the last"):
            plan = replace(SMALL_METERED, grid=counts)
            yield Case("version 3, grid: %s" % words, plan.data(), ACCEPTED if passes else (24, 8))


def metered_accepted_cases() -> Iterator[Case]:
    for size in ((1, 1), (2, 3), (5, 9), (1, 32), (12, 2)):
        plan = chance_metered_plan(*size)
        yield Case("%s: mileages by chance" % sized(plan), plan.data(), ACCEPTED)
    yield Case("%s: version 3" % sized(BASE_METERED), BASE_METERED.data(), ACCEPTED)


def metered_damaged_cases() -> Iterator[Case]:
    chance = Chance("damage of mileages")
    for damage, _ in product((record_byte_changed, part_overwritten), range(8)):
        plan = chance_metered_plan(2, 3)
        words, data = damage(chance, plan.data())
        yield Case("%s, version 3: %s" % (sized(plan), words), data, None)


GROUPS = (
    metered_accepted_cases, metered_form_cases, mileage_cases, metered_record_cases, fitted_cases,
    metered_saturation_cases, metered_season_cases, metered_order_cases, metered_damaged_cases,
)
