"""Two ways of reckoning ("modes"), and the two functions of document 01 that need one: E and the power 2.5.

exact    Fractions all through. Right for every n, but the fractions grow
         quickly where a canister is fitted: good for small n, or for few
         cells.
decimal  Whole numbers scaled by 2^384. Fast, for every n.

Both give a Fraction, so that results can be compared crosswise.

Why 30 places are good in decimal mode. Call 2^-384 one unit; every cut is
off by less than one unit.
- A series S_n(y) loses at most two units with each term, and what a term
  loses enters the later ones multiplied by at most y^k/k!, so the sum is off
  by at most 2n.S_n(y) units, and by S_n(y) more because y itself is cut. But
  for eq. 12, below, no exponent of an accepted sheet is above 15 in size, so
  S_n(y) < 2^22, and for n below 2^20 the sum is off by less than 2^44 units.
  1/S_n(-y) is off by no more, as S_n is at least 1.
- Vapour multiplies differences of E by at most 150.0.025.E(2.255) < 2^6 and
  takes up to 24 of them, each E being below 2^6: less than 2^62 units.
- Breakthrough puts vapour into E. The exponent stays at or below 3 (rule 20),
  where E grows by less than 2^5 for each unit of exponent, and b.s < 1/4:
  less than 2^66 units. B has no jump at m_sat, so falling on the wrong side
  of it by a few units moves the result by as little.
- A load from a mileage is no approximation but the very multiple of 2^-n, so
  that it adds nothing to this: see starting_load in mileage.py.
- A mass multiplies by at most 366 days, 10^7 vehicles and 12 trips < 2^37.
So factors and masses are off by less than 2^104 units, that is 2^-280 or
10^-84.
"""

import math
from fractions import Fraction
from typing import Any, Literal

BITS = 384
Mode = Literal["exact", "decimal"]
Number = Any  # in mode exact a Fraction, in mode decimal a whole number of units


def series(y: Fraction, n: int) -> Fraction:
    """S_n(y), the sum of y^i/i! for i from 0 to n, exact."""
    y = Fraction(y)
    # Inside out: 1 + y/1.(1 + y/2.(1 + ... y/n)), kept as one numerator and
    # one denominator so that the fraction is reduced only once.
    top, bottom = 1, 1
    for i in range(n, 0, -1):
        bottom_next = y.denominator * i * bottom
        top = bottom_next + y.numerator * top
        bottom = bottom_next
    return Fraction(top, bottom)


def power_2_5(T: Fraction, n: int) -> Fraction:
    """T^2.5: the largest multiple of 2^-n whose square is at most T^5, exact;
    0 for T below 0."""
    T = Fraction(T)
    if T < 0:
        return Fraction(0)
    # k^2 <= x holds for a whole k just where k^2 <= floor(x), so the whole
    # root of the floor is the k wanted.
    k = math.isqrt((T.numerator ** 5 << 2 * n) // T.denominator ** 5)
    return Fraction(k, 1 << n)


class ExactNumbers:
    """Numbers are Fractions."""

    def __init__(self, n: int):
        self.n = n

    def number(self, x: Fraction | int) -> Number:
        return Fraction(x)

    def fraction(self, x: Number) -> Fraction:
        return Fraction(x)

    def scaled(self, x: Number, by: Fraction) -> Number:
        return x * by

    def times(self, x: Number, y: Number) -> Number:
        return x * y

    def E(self, y: Number) -> Number:
        return series(y, self.n) if y >= 0 else 1 / series(-y, self.n)


class ScaledNumbers:
    """Numbers are whole numbers of units of 2^-BITS, cut downwards."""

    def __init__(self, n: int):
        self.n = n

    def number(self, x: Fraction | int) -> Number:
        x = Fraction(x)
        return (x.numerator << BITS) // x.denominator

    def fraction(self, x: Number) -> Fraction:
        return Fraction(x, 1 << BITS)

    def scaled(self, x: Number, by: Fraction) -> Number:
        return x * by.numerator // by.denominator

    def times(self, x: Number, y: Number) -> Number:
        return x * y >> BITS

    def E(self, y: Number) -> Number:
        size = abs(y)
        term = total = 1 << BITS
        for i in range(1, self.n + 1):
            term = (term * size >> BITS) // i
            if term == 0:  # so are all that follow
                break
            total += term
        return total if y >= 0 else (1 << 2 * BITS) // total


Numbers = ExactNumbers | ScaledNumbers


def numbers_of(mode: Mode, n: int) -> Numbers:
    """The numbers of a mode, "exact" or "decimal", for one n."""
    if mode not in ("exact", "decimal"):
        raise ValueError("mode is exact or decimal, not %r" % (mode,))
    return ExactNumbers(n) if mode == "exact" else ScaledNumbers(n)


def E(y: Fraction, n: int = 40, mode: Mode = "exact") -> Fraction:
    """E(y): S_n(y) for y >= 0, 1/S_n(-y) below."""
    numbers = numbers_of(mode, n)
    return numbers.fraction(numbers.E(numbers.number(y)))
