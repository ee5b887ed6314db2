"""What a band says of a filed mass, in the arithmetic of fractions.

A figure stands for what rounds to it: from half of one in its last place below
it to half above, both included. The band is whole milligrams.
"""

from fractions import Fraction
from math import floor

UNITS = (0, 3, 6, 9)  # mg, g, kg and t as powers of ten of milligrams
AGREES, FITS, LOW, HIGH, UNREADABLE = range(5)
DIGITS = 18
MOST = Fraction(10 ** 18)  # a billion tonnes
FINEST = Fraction(1, 10 ** 6)  # the smallest last place

Filed = tuple[int, int, int]  # digits, places and the number of the unit
Band = tuple[int, int]  # low and high
Verdict = tuple[int, int]  # and how many whole milligrams the figure is off at least


def interval(filed: Filed) -> tuple[Fraction, Fraction] | None:
    """What a figure stands for, in milligrams; None where it is not read: no
    such unit, too fine, too large, or too many digits."""
    digits, places, unit = filed
    if unit >= len(UNITS):
        return None
    last = Fraction(10) ** (UNITS[unit] - places) if places < 99 else Fraction(0)
    written = digits * last
    if last < FINEST or written >= MOST or len(str(digits)) > DIGITS:
        return None
    return written - last / 2, written + last / 2


def mark(filed: Filed, band: Band) -> Verdict:
    found = interval(filed)
    if found is None:
        return UNREADABLE, 0
    (least, most), (low, high) = found, band
    if least <= low and high <= most:
        return AGREES, 0
    if most < low:
        return LOW, floor(low - most)
    if high < least:
        return HIGH, floor(least - high)
    return FITS, 0
