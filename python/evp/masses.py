"""Masses in words. Nothing is calculated but the place of a decimal sign: the milligrams are the library's."""

from evp.layout import decimal
from evp.library import Band, Unit
from evp.wording import apart

UNITS = {"mg": Unit.MG, "g": Unit.G, "kg": Unit.KG, "t": Unit.T}
POWERS = {"mg": 0, "g": 3, "kg": 6, "t": 9}  # of ten, in milligrams
DIGITS = 5  # that a mass is shown with at most


def best_unit(milligrams: int) -> str:
    """The unit in which a mass reads best."""
    return next((unit for unit in ("t", "kg", "g") if milligrams >= 10 ** POWERS[unit]), "mg")


def exact(milligrams: int, unit: str) -> str:
    """All of a mass in a unit."""
    return decimal(milligrams, POWERS[unit])


def rounded(milligrams: int, unit: str, places: int) -> str:
    """A mass in a unit, to the nearest, half up, thousands apart."""
    step = 10 ** (POWERS[unit] - places)
    parts = decimal((2 * milligrams + step) // (2 * step), places).partition(".")
    return apart(int(parts[0])) + parts[1] + parts[2]


def shown(band: Band, unit: str | None = None, between: str = " to ") -> str:
    """A band as one number with its unit: the digits to which low and high both round, at most five. Where they round
    to no common whole number, whole numbers around both, with a word between them."""
    unit = unit or best_unit(band.high)
    if band.low == band.high and unit == "mg" or band.high == 0:
        return "%s %s" % (apart(band.high), unit)
    whole = len(str(band.high // 10 ** POWERS[unit])) if band.high >= 10 ** POWERS[unit] else 0
    for places in range(min(max(DIGITS - whole, 0), POWERS[unit]), -1, -1):
        number = rounded(band.low, unit, places)
        if number == rounded(band.high, unit, places):
            return "%s %s" % (number, unit)
    step = 10 ** POWERS[unit]
    return "%s%s%s %s" % (apart(band.low // step), between, apart(-(-band.high // step)), unit)
