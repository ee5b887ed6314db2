"""Where a sheet stops, by document 01's table and the numbers of the change requests."""

import functools
import math
from collections.abc import Iterator
from fractions import Fraction

from tools.reckoning.format import (
    Row, Season, Sheet, canister_of, counts_at, grid_of, has_grid, has_many_rows, has_mileage, row_at, row_count,
    row_place, season_at, seasons_start, version_of,
)
from tools.reckoning.quantities import canister_a_b
from tools.reckoning.tables import BY_CLASS, CANISTER_S, LARGE, MEDIUM, NONE, SMALL, table_entry

Refusal = tuple[int, int]  # number and place
Call = tuple[int, int, int]  # season, row and factor
MOST_TOGETHER = 100_000_000  # vehicles of all rows, in version 4


def check(data: bytes, words: int | None = None, call: Call | None = None) -> Refusal | None:
    """Where a sheet stops: (number, place), or None where it is accepted.

    `words` is the length of the report buffer, for the report call (22);
    `call` is (season, row, factor), for the call of one factor (23). With
    neither, the sheet alone is looked at.
    """
    return (_check_head(data) or _check_parking(data) or _check_seasons(data) or _check_rows(data)
            or _check_call(data, words, call))


def _check_head(data: bytes) -> Refusal | None:
    if len(data) < 8:
        return 1, 0
    if bytes(data[0:3]) != b"EVP":
        return 2, 0
    if version_of(data) not in (1, 2, 3, 4):
        return 3, 3
    if not 1 <= data[5] <= 12:
        return 4, 5
    if not 1 <= row_count(data) <= (1000 if has_many_rows(data) else 32):
        return 5, 6
    if data[7] != 0 and not has_many_rows(data):
        return 6, 7
    if len(data) != row_place(data, row_count(data)):
        return 7, 0
    return None


def _check_parking(data: bytes) -> Refusal | None:
    if has_grid(data):
        return None if 1 <= sum(counts_at(data, 8, 576)) <= 1_000_000 else (24, 8)
    if not 1 <= sum(counts_at(data, 8, 24)) <= 1000:
        return 8, 8
    if not 1 <= sum(counts_at(data, 56, 24)) <= 1000:
        return 9, 56
    return None


def _check_seasons(data: bytes) -> Refusal | None:
    days = 0
    for index, season in enumerate(_seasons(data)):
        place = seasons_start(data) + 8 * index
        days += season.days
        if not 1 <= season.days <= 366 or days > 366:
            return 10, place
        if not -300 <= season.lowest <= season.highest <= 500:
            return 11, place
        if not 300 <= season.vp <= 1100:
            return 12, place
    return None


def _check_rows(data: bytes) -> Refusal | None:
    seasons, with_mileage = _seasons(data), has_mileage(data)
    most = MOST_TOGETHER if has_many_rows(data) else math.inf
    vehicles = 0
    for index, row in enumerate(_rows(data)):
        vehicles += row.vehicles
        number = _check_row(row, seasons, with_mileage, vehicles > most)
        if number is not None:
            return number, row_place(data, index)
    return None


def _check_call(data: bytes, words: int | None, call: Call | None) -> Refusal | None:
    rows = row_count(data)
    if words is not None and words < 6 * rows + 26:
        return 22, 0
    if call is not None:
        season, row, k = call
        if not (0 <= season < data[5] and 0 <= row < rows and 1 <= k <= 7):
            return 23, 0
    return None


def _check_row(row: Row, seasons: tuple[Season, ...], with_mileage: bool, too_many: bool) -> int | None:
    """The number of the first condition that applies to a row; `too_many` says
    whether the vehicles of the rows up to this one are beyond their limit."""
    if table_entry(row.vehicle_class, row.technology) is None:
        return 13
    if row.canister not in (NONE, SMALL, MEDIUM, LARGE, BY_CLASS):
        return 14
    if max(row.carburettor, row.hot, row.fill) > 100:
        return 15
    if row.vehicles > 10_000_000:
        return 16
    if too_many:
        return 26
    if row.tank > 1500:
        return 17
    if row.trips > 1200 or row.minutes > 1440:
        return 18
    canister = canister_of(row)
    if row.load > row.saturation:
        return 19
    if canister == NONE and (row.load or row.saturation):
        return 19
    if canister != NONE and _highest_exponent(canister, row.saturation, seasons) > 3:
        return 20
    if with_mileage and _mileage_wrong(row, seasons):
        return 25
    if not with_mileage and row.mileage:
        return 21
    return None


@functools.lru_cache(maxsize=None)
def _highest_exponent(canister: int, saturation: int, seasons: tuple[Season, ...]) -> Fraction:
    """a + b.s.m_sat of a canister, in the season that has it highest at its
    highest temperature."""
    found = []
    for season in seasons:
        a, b = canister_a_b(season, Fraction(season.highest, 10))
        found.append(a + b * CANISTER_S[canister] * Fraction(saturation, 10))
    return max(found)


def _mileage_wrong(row: Row, seasons: tuple[Season, ...]) -> bool:
    """The conditions of number 25."""
    if row.mileage > 1_000_000:
        return True
    if row.mileage == 0:
        return False
    canister = canister_of(row)
    return canister == NONE or row.load > 0 or _highest_exponent(canister, row.saturation, seasons) > 0


def _seasons(data: bytes) -> tuple[Season, ...]:
    return tuple(season_at(data, seasons_start(data) + 8 * i) for i in range(data[5]))


def _rows(data: bytes) -> Iterator[Row]:
    return (row_at(data, row_place(data, i)) for i in range(row_count(data)))


def read(data: bytes) -> Sheet:
    """The sheet in these bytes; ValueError where it is refused."""
    refusal = check(data)
    if refusal is not None:
        raise ValueError("refused %d at %d" % refusal)
    return Sheet(grid_of(data), _seasons(data), tuple(_rows(data)))
