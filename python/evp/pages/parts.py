"""Sheets that hold a part of another: some rows, one season, some parkings. Of an accepted sheet all are accepted, so
that the library gives the part of a mass; nothing is added up here."""

from collections.abc import Sequence
from math import exp

from evp import layout
from evp.layout import GRID_END, HEAD_BYTES, ROW_BYTES, SEASON_BYTES

DAY = 48  # marks
VEHICLES = 8  # where they stand in a row


def only_rows(data: bytes, rows: Sequence[int]) -> bytes:
    """The sheet with these rows alone."""
    start = layout.row_place(data, 0)
    size = 2 if layout.version_of(data) == 4 else 1
    kept = b"".join(data[start + ROW_BYTES * i:start + ROW_BYTES * (i + 1)] for i in rows)
    return data[:6] + len(rows).to_bytes(size, "little") + data[6 + size:start] + kept


def one_vehicle(data: bytes, row: int) -> bytes:
    """The sheet with this row alone, of one vehicle."""
    alone = only_rows(data, [row])
    place = layout.row_place(alone, 0) + VEHICLES
    return alone[:place] + (1).to_bytes(4, "little") + alone[place + 4:]


def only_season(data: bytes, season: int) -> bytes:
    """The sheet with this season alone."""
    place = layout.season_place(data, season)
    kept = data[place:place + SEASON_BYTES]
    return data[:5] + b"\1" + data[6:layout.seasons_start(data)] + kept + data[layout.row_place(data, 0):]


def counts_of(data: bytes) -> list[list[int]]:
    """The parkings by end hour and duration; of two lists their products."""
    if layout.has_grid(data):
        return [layout.counts(data, 8 + 48 * t) for t in range(24)]
    durations, ends = layout.counts(data, 8), layout.counts(data, 56)
    return [[d * h for d in durations] for h in ends]


def with_cell(data: bytes, end_hour: int, duration: int) -> bytes:
    """The sheet with one parking, in a later version where it has two lists; both counted from 1."""
    grid = bytearray(GRID_END - HEAD_BYTES)
    grid[48 * (end_hour - 1) + 2 * (duration - 1)] = 1
    return _with_grid(data, bytes(grid))


def with_end_hours(data: bytes, first: int, last: int) -> bytes | None:
    """The sheet with the parkings alone that end from hour `first` to hour `last`; None where there are none."""
    if layout.has_grid(data):
        keep = [data[8 + 48 * t:56 + 48 * t] if first <= t + 1 <= last else bytes(48) for t in range(24)]
        grid = b"".join(keep)
        return data[:HEAD_BYTES] + grid + data[GRID_END:] if any(grid) else None
    ends = b"".join(data[56 + 2 * t:58 + 2 * t] if first <= t + 1 <= last else bytes(2) for t in range(24))
    return data[:56] + ends + data[layout.LISTS_END:] if any(ends) else None


def _with_grid(data: bytes, grid: bytes) -> bytes:
    version = max(2, layout.version_of(data))
    return data[:3] + version.to_bytes(2, "little") + data[5:8] + grid + data[layout.seasons_start(data):]


# ------------------------------------------------------------------ the day's temperatures


def _weight(mark: int) -> float:
    """How far the temperature of a mark lies from the lowest to the highest: a whole number of billionths."""
    away = abs(mark / 2 - 14)
    return round(1e9 * exp(-0.0247 * min(away, 24 - away) ** 2)) / 1e9


WEIGHTS = [_weight(mark) for mark in range(DAY)]


def temperatures(season: dict[str, int]) -> list[float]:
    """The temperature at each mark, in °C."""
    span = season["highest"] - season["lowest"]
    return [(season["lowest"] + span * weight) / 10 for weight in WEIGHTS]
