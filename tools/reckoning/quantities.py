"""What a mark of a season's day gives: its temperature, and a and b of a canister there."""

from fractions import Fraction

from tools.reckoning.format import Season
from tools.reckoning.tables import WEIGHTS


def temperature(season: Season, i: int) -> Fraction:
    """T(i) in degrees C, exact; mark 48 is mark 0."""
    span = season.highest - season.lowest
    return (season.lowest + Fraction(span * WEIGHTS[i % 48], 10 ** 9)) / 10


def start_mark(t: int, d: int) -> int:
    """The mark at which a parking of d half-hours that ends at hour t starts."""
    return (2 * t - d) % 48


def canister_a_b(season: Season, T: Fraction) -> tuple[Fraction, Fraction]:
    """a and b of eqs. 10 and 11 at temperature T, exact."""
    vp = Fraction(season.vp, 10)
    a = -11 - Fraction(15, 1000) * vp + Fraction(65, 1000) * T
    b = Fraction(115, 1000) - Fraction(15, 100000) * vp + Fraction(1, 10000) * T
    return a, b
