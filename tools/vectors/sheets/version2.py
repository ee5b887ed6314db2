"""Sheets of version 2: a grid in place of the two lists."""

from collections.abc import Iterator
from dataclasses import replace
from itertools import combinations, product

from tools.vectors.chance import Chance, chance_grid_plan
from tools.vectors.plans import (
    BASE, BASE_GRID, EXAMPLE, LARGE_GRID, LARGEST, ROW, ROW_FIELDS, SEASON, SEASON_FIELDS, SMALL_GRID, SMALLEST,
    counted, grid_of, most, patched, record, sized,
)
from tools.vectors.sheets.case import ACCEPTED, Case, of_record
from tools.vectors.sheets.damage import DAMAGE
from tools.vectors.sheets.limits import GRID_PARTS, GRIDS, LIMITS, head_faults
from tools.vectors.sheets.version1 import days_cases


def odds_cases() -> Iterator[Case]:
    """A version and the length of the other, and versions that are neither."""
    for plan in (EXAMPLE, SMALLEST, BASE, LARGEST):
        yield Case("version 2 of version 1's length, %s" % sized(plan), patched(plan.data(), 3, b"\2"), (7, 0))
        data = plan.gridded().data()
        yield Case("version 1 of version 2's length, %s" % sized(plan), patched(data, 3, b"\1"), (7, 0))
        yield Case("version 2 cut to version 1's length, %s" % sized(plan), data[:len(plan.data())], (7, 0))
    for version in (b"\0\0", b"\5\0", b"\0\2", b"\2\1", b"\2\2", b"\xff\xff"):
        data = patched(SMALL_GRID.data(), 3, version)
        yield Case("version %s of version 2's length" % version.hex(), data, (3, 3))


def grid_head_cases() -> Iterator[Case]:
    return head_faults(SMALL_GRID.data()[:8])


def grid_length_cases() -> Iterator[Case]:
    """Short, long and miscounted."""
    data = SMALL_GRID.data()
    for length in (7, 8, 9, 103, 104, 1159, 1160, 1161, 1167, 1168, 1169, len(data) - 8, len(data) - 1):
        answer = (1, 0) if length < 8 else (7, 0)
        yield Case("version 2 cut to %d of %d bytes" % (length, len(data)), data[:length], answer)
    for tail in (b"\0", b"\2", record(SEASON_FIELDS, SEASON), record(ROW_FIELDS, ROW), bytes(96)):
        yield Case("version 2 of %d bytes and %d more" % (len(data), len(tail)), data + tail, (7, 0))
    for counts in (b"\2\1", b"\1\2", b"\2\2"):
        words = "version 2, %s: the head says %d and %d" % (sized(SMALL_GRID), *counts)
        yield Case(words, patched(data, 5, counts), (7, 0))
    data = LARGE_GRID.data()
    yield Case("version 2, the largest less a byte", data[:-1], (7, 0))
    yield Case("version 2, the largest and a byte", data + b"\0", (7, 0))


def grid_cases() -> Iterator[Case]:
    for words, counts, passes in GRIDS:
        yield Case("grid: %s" % words, replace(SMALL_GRID, grid=counts).data(), ACCEPTED if passes else (24, 8))
        if words in ("sum 0", "sum 1000000 in the last", "sum 1000001 in the last"):
            plan = replace(LARGE_GRID, grid=counts)
            yield Case("grid: %s, %s" % (words, sized(plan)), plan.data(), ACCEPTED if passes else (24, 8))


def grid_record_cases() -> Iterator[Case]:
    """Each limit of a record at its place in version 2: outside it in the first
    and in the last record, inside it in the last; and in the last record of the
    largest sheet."""
    for kind, number, inside, outside in LIMITS:
        last = len(getattr(BASE_GRID, kind)) - 1
        yield of_record(BASE_GRID, kind, 0, outside[0], number)
        yield of_record(BASE_GRID, kind, last, outside[-1], number)
        for change in inside[:1]:
            yield of_record(BASE_GRID, kind, last, change, 0)
        yield of_record(LARGE_GRID, kind, len(getattr(LARGE_GRID, kind)) - 1, outside[0], number)


def grid_days_cases() -> Iterator[Case]:
    """The same with one cell in place of the lists; the seasons then start
    1160 - 104 bytes later."""
    for case in days_cases():
        data = patched(case.data[:8], 3, b"\2") + counted(grid_of((1,))) + case.data[104:]
        number, place = case.answer
        yield Case("%s, version 2" % case.words, data, (number, place + 1056) if number else ACCEPTED)


def grid_saturation_cases() -> Iterator[Case]:
    """Check 20 on both sides, for each size; and where the last season and the
    last row alone decide."""
    for (highest, vp), canister, more in product(((0, 1000), (500, 300)), (1, 2, 3), (0, 1)):
        season = {"days": 366, "lowest": -300, "highest": highest, "vp": vp}
        row = {"canister": canister, "load": 0, "saturation": most(canister, season) + more}
        yield of_record(SMALL_GRID.changed("seasons", 0, season), "rows", 0, row, 20 * more)
    hot = {"highest": 500, "vp": 300}
    for j, more in product((0, 3), (0, 1)):
        row = {"canister": 2, "load": 0, "saturation": most(2, hot) + more}
        yield of_record(BASE_GRID.changed("seasons", 2, hot), "rows", j, row, 20 * more)


def grid_part_cases() -> Iterator[Case]:
    """A sum of 0 with each fault of the head, and any two parts behind it."""
    data, head, later = BASE_GRID.data(), GRID_PARTS[:5], GRID_PARTS[5:]
    for (a, place, first), (b, _, second) in (*product(head, later[1:2]), *combinations(later, 2)):
        yield Case("version 2: %d and %d" % (a, b), second(first(data)), (a, place))


def grid_accepted_cases() -> Iterator[Case]:
    for seasons, rows, total in ((1, 1, 1_000_000), (2, 3, 577), (5, 9, 123_456), (12, 1, 65_537), (12, 32, 1_000_000)):
        plan = chance_grid_plan(seasons, rows, total)
        yield Case("%s: grid by chance, sum %d" % (sized(plan), total), plan.data(), ACCEPTED)
    for plan in (EXAMPLE.gridded(), SMALL_GRID, BASE_GRID, LARGE_GRID):
        yield Case("%s: grid of products" % sized(plan), plan.data(), ACCEPTED)


def grid_damaged_cases() -> Iterator[Case]:
    """The sum stands at its limit, so that half of what befalls the grid takes
    it past."""
    chance = Chance("damage of grids")
    for size, damage, _ in product(((1, 1), (2, 3)), DAMAGE, range(3)):
        plan = chance_grid_plan(*size, 1_000_000)
        words, data = damage(chance, plan.data())
        yield Case("%s, version 2: %s" % (sized(plan), words), data, None)


GROUPS = (
    odds_cases, grid_head_cases, grid_length_cases, grid_cases, grid_record_cases, grid_days_cases,
    grid_saturation_cases, grid_part_cases, grid_accepted_cases, grid_damaged_cases,
)
