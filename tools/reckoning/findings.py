"""Why a sheet is refused: the first thing that is wrong on it, where it stands, and what may stand there.

Each line of the table of refusals is asked in its order, a number that may not
be outside its limits. Temperatures are tenths of a degree plus 32768.
"""

from collections.abc import Iterator
from fractions import Fraction
from math import floor
from typing import NamedTuple

from tools.reckoning.format import (
    Row, Season, canister_of, counts_at, has_grid, has_many_rows, has_mileage, row_at, row_count, row_place, season_at,
    seasons_start, version_of,
)
from tools.reckoning.quantities import canister_a_b
from tools.reckoning.tables import BY_CLASS, CANISTER_S, CLASS_TABLE, NONE

LONGEST = 1160 + 8 * 12 + 24 * 1000
SHIFT = 2 ** 15
BITS_MOST = 2 ** 16 - 1


class Finding(NamedTuple):
    """As struct evp_finding of include/evaporation.h has it."""
    number: int
    place: int
    reason: int
    index: int
    season: int
    at: int
    bytes: int
    value: int
    least: int
    most: int


NOTHING = Finding(*[0] * 10)


class Record(NamedTuple):
    """A part of the sheet: where it starts, and which season or row it is."""
    place: int
    index: int

    def line(self, rule: tuple[int, int], field: tuple[int, int, int], limits: tuple[int, int], season=0) -> Finding:
        """A number and its reason; where a field starts in the record, its bytes and what stands there; its limits."""
        offset, size, value = field
        return Finding(rule[0], self.place, rule[1], self.index, season, self.place + offset, size, value, *limits)


def explain(data: bytes) -> Finding:
    """The first line that applies and whose value is outside its limits."""
    return next((line for line in lines(data) if not line.least <= line.value <= line.most), NOTHING)


def lines(data: bytes) -> Iterator[Finding]:
    """The lines that apply, in their order; none behind one that is not met may be asked for."""
    yield from head_lines(data)
    yield from parking_lines(data)
    seasons = [season_at(data, seasons_start(data) + 8 * i) for i in range(data[5])]
    days = 0
    for i, season in enumerate(seasons):
        days += season.days
        yield from season_lines(Record(seasons_start(data) + 8 * i, i), season, days)
    vehicles = 0
    for i in range(row_count(data)):
        record = Record(row_place(data, i), i)
        row = row_at(data, record.place)
        vehicles += row.vehicles
        yield from row_lines(record, row, vehicles if has_many_rows(data) else 0)
        yield from load_lines(record, row, seasons)
        yield from mileage_lines(record, row, seasons, has_mileage(data))


def head_lines(data: bytes) -> Iterator[Finding]:
    size = len(data)
    start = Record(0, 0)
    if size < 8:
        yield start.line((1, 1), (0, 0, size), (8, LONGEST))
    for i, letter in enumerate(b"EVP"):
        yield start.line((2, i + 1), (i, 1, data[i]), (letter, letter))
    many = has_many_rows(data)
    yield Record(3, 0).line((3, 1), (0, 2, version_of(data)), (1, 4))
    yield Record(5, 0).line((4, 1), (0, 1, data[5]), (1, 12))
    yield Record(6, 0).line((5, 1), (0, 2 if many else 1, row_count(data)), (1, 1000 if many else 32))
    if not many:
        yield Record(7, 0).line((6, 1), (0, 1, data[7]), (0, 0))
    wanted = row_place(data, row_count(data))
    yield start.line((7, 1), (0, 0, size), (wanted, wanted))


def parking_lines(data: bytes) -> Iterator[Finding]:
    if has_grid(data):
        yield Record(8, 0).line((24, 1), (0, 1152, sum(counts_at(data, 8, 576))), (1, 1_000_000))
        return
    yield Record(8, 0).line((8, 1), (0, 48, sum(counts_at(data, 8, 24))), (1, 1000))
    yield Record(56, 0).line((9, 1), (0, 48, sum(counts_at(data, 56, 24))), (1, 1000))


def season_lines(record: Record, season: Season, days: int) -> Iterator[Finding]:
    """`days` are those of the seasons up to this one."""
    lowest, highest = season.lowest + SHIFT, season.highest + SHIFT
    coldest, warmest = -300 + SHIFT, 500 + SHIFT
    yield record.line((10, 1), (0, 2, season.days), (1, 366))
    yield record.line((10, 2), (0, 2, days), (1, 366))
    yield record.line((11, 1), (2, 2, lowest), (coldest, warmest))
    yield record.line((11, 2), (4, 2, highest), (coldest, warmest))
    yield record.line((11, 3), (2, 2, lowest), (coldest, highest))
    yield record.line((12, 1), (6, 2, season.vp), (300, 1100))


def row_lines(record: Record, row: Row, vehicles: int) -> Iterator[Finding]:
    """`vehicles` are those of the rows up to this one, where their sum has a limit."""
    technologies = {entry[0]: len(entry[3]) for entry in CLASS_TABLE}
    yield record.line((13, 1), (0, 1, row.vehicle_class), (min(technologies), max(technologies)))
    yield record.line((13, 2), (1, 1, row.technology), (0, technologies[row.vehicle_class] - 1))
    if row.canister != BY_CLASS:
        yield record.line((14, 1), (2, 1, row.canister), (0, 3))
    for reason, percent in enumerate((row.carburettor, row.hot, row.fill), 1):
        yield record.line((15, reason), (2 + reason, 1, percent), (0, 100))
    yield record.line((16, 1), (8, 4, row.vehicles), (0, 10_000_000))
    yield record.line((26, 1), (8, 4, vehicles), (0, 100_000_000))
    yield record.line((17, 1), (6, 2, row.tank), (0, 1500))
    yield record.line((18, 1), (12, 2, row.trips), (0, 1200))
    yield record.line((18, 2), (14, 2, row.minutes), (0, 1440))


def load_lines(record: Record, row: Row, seasons: list[Season]) -> Iterator[Finding]:
    if canister_of(row) == NONE:
        yield record.line((19, 2), (16, 2, row.load), (0, 0))
        yield record.line((19, 3), (18, 2, row.saturation), (0, 0))
    else:
        yield record.line((19, 1), (16, 2, row.load), (0, row.saturation))
    yield saturation_line(record, (20, 1), 3, row, seasons)


def mileage_lines(record: Record, row: Row, seasons: list[Season], read: bool) -> Iterator[Finding]:
    mileage = (20, 4, row.mileage)
    if not read:
        yield record.line((21, 1), mileage, (0, 0))
        return
    yield record.line((25, 1), mileage, (0, 1_000_000))
    if canister_of(row) == NONE:
        yield record.line((25, 2), mileage, (0, 0))
    if row.mileage:
        yield record.line((25, 3), (16, 2, row.load), (0, 0))
        yield saturation_line(record, (25, 4), 0, row, seasons)


def saturation_line(record: Record, rule: tuple[int, int], limit: int, row: Row, seasons: list[Season]) -> Finding:
    """m_sat, the largest that passes in every season, and the first season in which this one does not."""
    largest = [largest_saturation(limit, season, canister_of(row)) for season in seasons]
    first = next((i for i, most in enumerate(largest) if row.saturation > most), 0)
    return record.line(rule, (18, 2, row.saturation), (0, min(largest)), first)


def largest_saturation(limit: int, season: Season, canister: int) -> int:
    """The largest m_sat, in tenths of a gram, with a + b.s.m_sat at most the
    limit at the season's highest temperature; as much as 16 bits hold without a canister."""
    if canister == NONE:
        return BITS_MOST
    a, b = canister_a_b(season, Fraction(season.highest, 10))
    return min(floor((limit - a) / (b * CANISTER_S[canister]) * 10), BITS_MOST)
