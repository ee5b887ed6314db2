"""What a filed figure stands for, drawn with the band on it.

The band stands in the middle, as an upright line or, where it is wide, a box. The bar is what the figure stands for:
half a step to each side, where it lies. One unit is the larger of the figure's step and the band's width; what lies
beyond the edge is an arrow.
"""

from fractions import Fraction
from typing import NamedTuple

from markupsafe import Markup

from evp.layout import decimal
from evp.library import Band, Filed
from evp.masses import POWERS, UNITS
from evp.pages.words import NARROW, percent
from evp.wording import apart

NAMES = {unit: name for name, unit in UNITS.items()}
SIDE = Fraction(8, 5)  # units to each side of the band
LEAST = 3  # so wide is a bar at least
EDGE = 5  # of an arrow from the picture's side, so that two of neighbours do not touch


class Interval(NamedTuple):
    """What a figure stands for, in milligrams."""
    value: Fraction
    step: Fraction

    @property
    def low(self) -> Fraction:
        return self.value - self.step / 2

    @property
    def high(self) -> Fraction:
        return self.value + self.step / 2


def interval_of(filed: Filed) -> Interval:
    step = Fraction(10) ** (POWERS[NAMES[filed.unit]] - filed.places)
    return Interval(filed.digits * step, step)


def figure_text(filed: Filed) -> str:
    """The figure with thousands apart."""
    whole, point, places = decimal(filed.digits, filed.places).partition(".")
    return apart(int(whole)) + point + places


def edges_text(filed: Filed) -> str:
    """From where to where it stands: one place more, a 5."""
    ends = (Filed(max(0, 10 * filed.digits + half), filed.places + 1, filed.unit) for half in (-5, 5))
    return "%s to %s" % tuple(map(figure_text, ends))


def deviation(filed: Filed, band: Band, tens: int = 0) -> str:
    """How far a figure, to be taken 10^tens times, is from the middle of the band, as one looks for it: a factor or a
    percentage."""
    middle, value = Fraction(sum(band), 2), interval_of(filed).value * 10 ** tens
    if not middle:
        return "not 0"
    if not value:
        return "0"
    ratio = value / middle
    if Fraction(1, 2) < ratio < 2:
        return ("+" if ratio > 1 else "\u2212") + percent(abs(ratio - 1)).replace(" ", NARROW)
    sign, times = ("×", ratio) if ratio >= 2 else ("÷", 1 / ratio)
    return "%s%s%s" % (sign, NARROW, apart(round(times)) if times >= 9.5 else "%.1f" % times)


def _arrow(tip: float, end: float, height: int) -> str:
    """A bar with a point at `tip`."""
    neck = tip + (7 if end > tip else -7)
    return "M%.1f %.1fL%.1f %.1fH%.1fV%.1fH%.1fZ" % (
        tip, height / 2, neck, height / 4, end, 3 * height / 4, neck)


def _bar(low: float, high: float, verdict: str, width: int, height: int) -> str:
    if high - low < LEAST:
        middle = (low + high) / 2
        low, high = middle - LEAST / 2, middle + LEAST / 2
    if verdict == "low":
        return _arrow(EDGE, 26, height) if high < 18 else _arrow(max(low, EDGE), high, height)
    if verdict == "high":
        last = width - EDGE
        return _arrow(last, width - 26, height) if low > width - 18 else _arrow(min(high, last), low, height)
    return "M%.1f %.1fH%.1fV%.1fH%.1fZ" % (low, height / 4, high, 3 * height / 4, low)


def picture(filed: Filed, band: Band, verdict: str, width: int = 96, height: int = 24) -> Markup:
    """The interval with the band on it; words stand beside it, so that it is hidden from a reader of the screen."""
    stands = interval_of(filed)
    unit, middle = max(stands.step, Fraction(band.high - band.low), Fraction(1)), Fraction(sum(band), 2)
    low, high = (float((end - middle) / unit / SIDE + 1) * width / 2 for end in (stands.low, stands.high))
    wide = float(Fraction(band.high - band.low) / unit / SIDE) * width / 2
    box = '<rect class="bd wide" x="%.1f" y="1.5" width="%.1f" height="%.1f"/>' % (
        width / 2 - wide / 2, wide, height - 3)
    line = '<path class="bd" d="M%.1f 1.5V%.1f"/>' % (width / 2, height - 1.5)
    return Markup(
        '<svg class="iv v-%s" viewBox="0 0 %d %d" preserveAspectRatio="none" aria-hidden="true" focusable="false">'
        '<path class="br" d="%s"/>%s</svg>') % (
            verdict, width, height, Markup(_bar(low, high, verdict, width, height)), Markup(box if wide > 3 else line))
