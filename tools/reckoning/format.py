"""The bytes of a sheet, in all four versions: its head, its parking, its seasons and its rows."""

from collections.abc import Iterable
from fractions import Fraction
from typing import NamedTuple

from tools.reckoning.tables import BY_CLASS, table_entry

# The counts of the grid: for each end hour those of its 24 durations.
Grid = tuple[tuple[int, ...], ...]


class Season(NamedTuple):
    """A season as the sheet has it: temperatures and vp in tenths."""
    days: int
    lowest: int
    highest: int
    vp: int


class Row(NamedTuple):
    """A row as the sheet has it: tank, load and saturation in tenths, trips in
    hundredths, shares and fill level in percent, mileage in km."""
    vehicle_class: int
    technology: int
    canister: int
    carburettor: int
    hot: int
    fill: int
    tank: int
    vehicles: int
    trips: int
    minutes: int
    load: int
    saturation: int
    mileage: int


class Sheet(NamedTuple):
    """A sheet that was read, of whatever version."""
    grid: Grid
    seasons: tuple[Season, ...]
    rows: tuple[Row, ...]


def _u16(data: bytes, at: int) -> int:
    return int.from_bytes(data[at:at + 2], "little")


def _i16(data: bytes, at: int) -> int:
    return int.from_bytes(data[at:at + 2], "little", signed=True)


def _u32(data: bytes, at: int) -> int:
    return int.from_bytes(data[at:at + 4], "little")


def counts_at(data: bytes, at: int, many: int) -> tuple[int, ...]:
    """So many counts of two bytes from an offset on."""
    return tuple(_u16(data, at + 2 * i) for i in range(many))


def version_of(data: bytes) -> int:
    """The version that the head has, one that is read or not."""
    return _u16(data, 3)


def has_grid(data: bytes) -> bool:
    """Whether the parking is a grid (versions 2 to 4) or two lists (1)."""
    return version_of(data) in (2, 3, 4)


def has_mileage(data: bytes) -> bool:
    """Whether bytes 20 to 23 of a row are a mileage (versions 3 and 4) or zero."""
    return version_of(data) in (3, 4)


def has_many_rows(data: bytes) -> bool:
    """Whether bytes 6 and 7 are the count of rows (version 4), or byte 6 is it
    and byte 7 is zero."""
    return version_of(data) == 4


def row_count(data: bytes) -> int:
    """The rows that the head tells of."""
    return _u16(data, 6) if has_many_rows(data) else data[6]


def seasons_start(data: bytes) -> int:
    """Where the first season starts: the parking is 96 bytes of lists, or 1152
    of a grid, behind a head of 8."""
    return 1160 if has_grid(data) else 104


def row_place(data: bytes, i: int) -> int:
    """Where row i starts, counted from 0."""
    return seasons_start(data) + 8 * data[5] + 24 * i


def season_at(data: bytes, at: int) -> Season:
    """The season record that starts at this offset."""
    return Season(_u16(data, at), _i16(data, at + 2), _i16(data, at + 4), _u16(data, at + 6))


def row_at(data: bytes, at: int) -> Row:
    """The row record that starts at this offset."""
    return Row(
        *data[at:at + 6],
        _u16(data, at + 6), _u32(data, at + 8), _u16(data, at + 12), _u16(data, at + 14),
        _u16(data, at + 16), _u16(data, at + 18), _u32(data, at + 20),
    )


def counts_of(data: bytes) -> list[int]:
    """The vehicles of the rows."""
    return [row_at(data, row_place(data, i)).vehicles for i in range(row_count(data))]


def with_counts(data: bytes, counts: Iterable[int]) -> bytes:
    """The sheet with these vehicles in its rows."""
    changed = bytearray(data)
    for i, count in enumerate(counts):
        place = row_place(data, i) + 8
        changed[place:place + 4] = count.to_bytes(4, "little")
    return bytes(changed)


def canister_of(row: Row) -> int:
    """The canister code of a row, 0 to 3, looked up where it is by class."""
    if row.canister == BY_CLASS:
        return table_entry(row.vehicle_class, row.technology)[1]
    return row.canister


def tank_of(row: Row) -> Fraction:
    """The tank of a row in litres, looked up where it is by class."""
    if row.tank == 0:
        return Fraction(table_entry(row.vehicle_class, row.technology)[0])
    return Fraction(row.tank, 10)


def is_two_wheeler(row: Row) -> bool:
    return 5 <= row.vehicle_class <= 9


def grid_of(data: bytes) -> Grid:
    """The counts of the cells: the grid, or in version 1 the products of its two lists."""
    if has_grid(data):
        return tuple(counts_at(data, 8 + 48 * i, 24) for i in range(24))
    durations, hours = counts_at(data, 8, 24), counts_at(data, 56, 24)
    return tuple(tuple(j * q for j in durations) for q in hours)
