"""The load of a canister at parking start: as written, or the one that makes its mileage."""

import functools
import math
from fractions import Fraction

from tools.reckoning.format import Row, Season, canister_of
from tools.reckoning.numbers import ExactNumbers, Mode, Number, Numbers, ScaledNumbers
from tools.reckoning.quantities import canister_a_b
from tools.reckoning.tables import CANISTER_S


def driven(numbers: Numbers, a: Fraction, b: Fraction, s: Fraction, m: Fraction) -> Number:
    """E((s.g + 22.92)/8.13), the kilometres of a load of m grams (eq. 12), with
    g = m - E(a + b.s.m), what the canister keeps of it (eq. 9)."""
    m = numbers.number(m)
    g = m - numbers.E(numbers.number(a) + numbers.scaled(m, b * s))
    shifted = numbers.scaled(g, s) + numbers.number(Fraction(2292, 100))
    return numbers.E(numbers.scaled(shifted, Fraction(100, 813)))


@functools.lru_cache(maxsize=None)
def starting_load(a: Fraction, b: Fraction, s: Fraction, M: int, m_sat: Fraction, n: int,
                  mode: Mode = "decimal") -> Fraction:
    """The smallest multiple of 2^-n gram, from 0 to m_sat, that reaches M, that
    is whose driven() is at least M; m_sat where none does. In grams and km.

    In both modes it is that multiple and no approximation. For small n and in
    mode exact it is found as the sentence has it, by trying one multiple after
    the other. Else the multiples are too many, and it is found between one
    that does not reach M and one that does; that needs a + b.s.m_sat to be at
    most 0, as it is where number 25 lets a row pass.
    """
    last = m_sat.numerator * 2 ** n // m_sat.denominator
    find = _first if mode == "exact" and n <= MOST_TRIED else _between
    k = find(a, b, s, M, last, n)
    return m_sat if k is None else Fraction(k, 2 ** n)


MOST_TRIED = 6  # n up to which the multiples are few enough to try each


def _first(a: Fraction, b: Fraction, s: Fraction, M: int, last: int, n: int) -> int | None:
    """The first k from 0 to `last` with k/2^n reaching M, or None."""
    numbers = ExactNumbers(n)
    return next((k for k in range(last + 1) if driven(numbers, a, b, s, Fraction(k, 2 ** n)) >= M), None)


# Nearer to M than so many units of mode decimal, fractions decide. With
# a + b.s.m at most 0 the inner E is off by less than 2^44 units (numbers.py)
# and the exponent of the outer one by less than 2^43. That exponent is
# below 22, since s.m <= -a/b <= 14.6/0.0955 < 153, and e^22 < 2^32; so the
# outer E is off by less than 2^43.2^32, and 2^21.2^32 of its own.
NEAR = 2 ** 80


def _between(a: Fraction, b: Fraction, s: Fraction, M: int, last: int, n: int) -> int | None:
    """The same k for every n. Both ends of an interval are drawn together, the
    lower end not reaching M and the upper one reaching it, until they are
    neighbours: so the k that is given was seen to reach M, and k - 1 was seen
    not to.

    No smaller one reaches it then, because driven() grows with the load. E
    grows; up to an exponent of 0 it grows by at most 1 for each 1, so that
    E(a + b.s.m) grows by at most b.s < 1/4 a gram and g by more than 3/4.

    How the next k is chosen does not matter for this. It is where the chord of
    log(driven/M) meets 0, which is nearly a straight line; an end that stays
    twice counts half, or it might stay for long (the Illinois rule).
    """
    if a + b * s * Fraction(last, 2 ** n) > 0:
        raise ValueError("a + b.s.m_sat above 0")
    beyond = functools.partial(_beyond, a, b, s, M, n)
    low, high = 0, last
    below, above = beyond(low), beyond(high)
    if below >= 0:
        return 0
    if above < 0:
        return None
    stayed = None
    while high - low > 1:
        k = low + round((high - low) * (below / (below - above)))
        k = min(max(k, low + 1), high - 1)
        found = beyond(k)
        if found >= 0:
            high, above = k, found
            below, stayed = (below / 2 if stayed == "low" else below), "low"
        else:
            low, below = k, found
            above, stayed = (above / 2 if stayed == "high" else above), "high"
    return high


def _beyond(a: Fraction, b: Fraction, s: Fraction, M: int, n: int, k: int) -> float:
    """log(driven/M), at least 0 where k/2^n reaches M. Where the decimals
    cannot tell, fractions do."""
    m = Fraction(k, 2 ** n)
    numbers = ScaledNumbers(n)
    aim = numbers.number(M)
    apart = driven(numbers, a, b, s, m) - aim
    if abs(apart) < NEAR:
        return 0.0 if driven(ExactNumbers(n), a, b, s, m) >= M else -NEAR / aim
    return math.log1p(apart / aim)


def load_of(row: Row, season: Season, T: Fraction, n: int, mode: Mode) -> Fraction:
    """The load at parking start of a row, in grams, where the escape starts
    from T: as written, or where there is a mileage, the load that reaches it."""
    if row.mileage == 0:
        return Fraction(row.load, 10)
    a, b = canister_a_b(season, T)
    return starting_load(a, b, CANISTER_S[canister_of(row)], row.mileage, Fraction(row.saturation, 10), n, mode)
