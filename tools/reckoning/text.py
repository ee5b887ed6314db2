"""Values and refusals as the commands print them.

Decimals are CUT after 30 places, not rounded. A decimal-mode value less than
10^-60 below a multiple of 10^-30 is taken to be that multiple, since only an
exact decimal can lie so near to one by other than chance.
"""

from fractions import Fraction

from tools.reckoning.numbers import Mode

PLACES = 30
NUDGE = Fraction(1, 10 ** 60)


def cut(value: Fraction, places: int = PLACES, nudge: Fraction = Fraction(0)) -> str:
    """A value as a decimal, cut (towards zero) after so many places. `nudge`
    is added first."""
    value = Fraction(value)
    sign, value = ("-", -value) if value < 0 else ("", value)
    value += nudge
    whole = value.numerator * 10 ** places // value.denominator
    digits = str(whole).rjust(places + 1, "0")
    return "%s%s.%s" % (sign, digits[:-places], digits[-places:])


def shown(value: Fraction, mode: Mode) -> str:
    """A value as the commands print it: cut decimal, or fraction and decimal."""
    if mode == "exact":
        return "%d/%d %s" % (value.numerator, value.denominator, cut(value))
    return cut(value, nudge=NUDGE)


def answer_text(number: int, place: int) -> str:
    """An answer in words; number 0 stands for a sheet that is accepted."""
    return "refused %d at %d" % (number, place) if number else "accepted"
