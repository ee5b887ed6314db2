"""The cells of the map by exact fractions, from document 02, request Six, and section 4.7 of the guidebook.

Doubles are read and written bit by bit, so that nothing here relies on the machine's.
"""

from fractions import Fraction
from math import ceil, floor
from typing import NamedTuple

LIMIT = 2 ** 53
TRAVEL_LIMIT = 1_000_000
TRAVEL_WRONG, CELL_WRONG = 28, 27
EMPTY, EXACT, BAND = range(3)


class Words(NamedTuple):
    """The six words of a row in the report."""
    diurnal_low: int
    diurnal_high: int
    soak_low: int
    soak_high: int
    running_low: int
    running_high: int


class Travel(NamedTuple):
    """Whether a row's owners live in town, 1 or 0, and where its vehicles drive."""
    town: int
    urban_mileage: int
    rural_mileage: int
    highway_mileage: int
    rural_speed: int
    highway_speed: int


class Cell(NamedTuple):
    """A cell: its kind, and the bits of two doubles."""
    kind: int
    low: int
    high: int


class Row(NamedTuple):
    """What the call for a row's cells is handed."""
    words: Words
    travel: Travel


# ------------------------------------------------------------------- doubles

FRACTION = 2 ** 52
TOP_EXPONENT = 2047
MINUS = 2 ** 63
INFINITY = TOP_EXPONENT * FRACTION
NANS = (INFINITY + FRACTION // 2, INFINITY + 1, MINUS + INFINITY + FRACTION // 2, MINUS + INFINITY + FRACTION - 1)


def bits_of(n: int) -> int:
    """The bits of the double that is the whole number n."""
    if n == 0:
        return 0
    exponent = n.bit_length() - 1
    shifted = Fraction(n * FRACTION, 2 ** exponent)
    assert shifted.denominator == 1, "%d is no double" % n
    return (exponent + 1023) * FRACTION + int(shifted) - FRACTION


def value_of(bits: int) -> Fraction | None:
    """The value of a double as a fraction; None for a NaN and an infinity."""
    exponent, rest = divmod(bits % MINUS, FRACTION)
    if exponent == TOP_EXPONENT:
        return None
    if exponent == 0:
        size = Fraction(rest, FRACTION) * Fraction(2) ** -1022
    else:
        size = (1 + Fraction(rest, FRACTION)) * Fraction(2) ** (exponent - 1023)
    return -size if bits >= MINUS else size


def mass_of(bits: int) -> int | None:
    """The whole number from 0 to 2^53 that a double is, or None."""
    value = value_of(bits)
    return int(value) if value is not None and value.denominator == 1 and 0 <= value <= LIMIT else None


# --------------------------------------------------------------------- cells


def cell_of(low: int, high: int) -> Cell:
    """The cell of a low and a high mass."""
    kind = EMPTY if high == 0 else EXACT if low == high else BAND
    return Cell(kind, bits_of(low), bits_of(high))


NO_CELL = Cell(3, 0, 0)  # kind 3: what stands where a call refuses


def masses_of(cell: Cell) -> tuple[int, int] | None:
    """The low and the high of a cell handed in; None where it is none."""
    low, high = mass_of(cell.low), mass_of(cell.high)
    if cell.kind == EMPTY:
        return 0, 0
    if low is None or high is None:
        return None
    if cell.kind == EXACT:
        return (low, high) if 0 < low == high else None
    if cell.kind == BAND:
        return (low, high) if low < high else None
    return None


def shares(travel: Travel) -> tuple[tuple[Fraction, ...], ...]:
    """For each of the three mechanisms, what part of its mass falls on urban,
    rural and highway roads."""
    rural_time = Fraction(travel.rural_mileage, travel.rural_speed)
    highway_time = Fraction(travel.highway_mileage, travel.highway_speed)
    outside = Fraction(1, 12) if travel.town else Fraction(1)
    rural = outside * rural_time / (rural_time + highway_time)
    mileages = travel[1:4]
    return (
        (1 - outside, rural, outside - rural),
        (Fraction(1), Fraction(0), Fraction(0)) if travel.town else (Fraction(0), Fraction(1), Fraction(0)),
        tuple(Fraction(mileage, sum(mileages)) for mileage in mileages),
    )


def refusal_of(row: Row) -> str | None:
    """Why a row is refused, in words, or None; 28 comes first."""
    if row.travel.town not in (0, 1) or any(not 1 <= x <= TRAVEL_LIMIT for x in row.travel[1:]):
        return "travel"
    lows, highs = row.words[::2], row.words[1::2]
    if any(low > high for low, high in zip(lows, highs)):
        return "order"
    if any(high > LIMIT for high in highs):
        return "word"
    if any(high > LIMIT for _, high in limits_of(row)):
        return "cell"
    return None


def limits_of(row: Row) -> list[tuple[int, int]]:
    """The low and the high of each road kind: every share is rounded, down or
    up, and then summed."""
    lows, highs = row.words[::2], row.words[1::2]
    return [
        (sum(floor(low * part) for low, part in zip(lows, parts)),
         sum(ceil(high * part) for high, part in zip(highs, parts)))
        for parts in zip(*shares(row.travel))
    ]


def cells_of_row(row: Row) -> tuple[int, int, tuple[Cell, ...]]:
    """The number, the place and the three cells that the call answers."""
    reason = refusal_of(row)
    if reason:
        return TRAVEL_WRONG if reason == "travel" else CELL_WRONG, 0, (NO_CELL,) * 3
    return 0, 0, tuple(cell_of(low, high) for low, high in limits_of(row))


def add_cells(first: Cell, second: Cell) -> tuple[int, int, Cell]:
    """The number, the place and the cell that the call answers."""
    masses = masses_of(first), masses_of(second)
    if None in masses or masses[0][1] + masses[1][1] > LIMIT:
        return CELL_WRONG, 0, NO_CELL
    return 0, 0, cell_of(masses[0][0] + masses[1][0], masses[0][1] + masses[1][1])
