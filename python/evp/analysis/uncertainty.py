"""The table of uncertain inputs: which input, of which rows or seasons, by how much, and with which distribution.

    input,where,unit,uncertainty,low,high,distribution
    vehicles,all,%,5,,,normal
    vp,season 2,kPa,,58.0,63.0,triangular
    fill,cars,points,10,,,uniform

An uncertainty is half of a 95 % interval, as inventory guidebooks state it: ± 5 % of the value, or ± 10 in the unit of
the input. A uniform and a triangular distribution end there; of a normal and a lognormal one 95 % lie within. In place
of it `low` and `high` are two values of the input. `points` are percentage points of an input that is itself a percent.
"""

import math
import re
from collections.abc import Sequence
from dataclasses import dataclass
from fractions import Fraction
from statistics import NormalDist

from evp.analysis.values import FIELD_NAMES
from evp.files import InputError, read_text
from evp.layout import FIELDS, Field
from evp.tables import read_table
from evp.wording import name_shown, quoted

COLUMNS = ["input", "where", "unit", "uncertainty", "low", "high", "distribution"]
DISTRIBUTIONS = ("normal", "uniform", "triangular", "lognormal")
WITHIN = 1.959963984540054  # standard deviations to each side that hold 95 % of a normal distribution
TEMPERATURES = "temperatures"  # lowest and highest together
SEASON_INPUTS = ("days", "lowest", "highest", "vp", TEMPERATURES)
INPUTS = (*SEASON_INPUTS, "carburettor", "hot", "fill", "tank", "vehicles", "trips", "minutes", "load", "saturation",
          "mileage")
PERCENTS = ("carburettor", "hot", "fill")
OTHER_NAMES = {"c": "carburettor", "p": "hot", "h": "fill", "m_sat": "saturation", "m1": "load", "m": "mileage",
               "temperature": TEMPERATURES, **{name: field for field, (name, _) in FIELD_NAMES.items()}}
UNITS = {  # that may be written for an absolute uncertainty
    "days": ("day", "days"), "lowest": ("°c", "c", "k"), "highest": ("°c", "c", "k"), TEMPERATURES: ("°c", "c", "k"),
    "vp": ("kpa",), "carburettor": ("points",), "hot": ("points",), "fill": ("points",), "tank": ("l", "litres"),
    "vehicles": ("vehicles", ""), "trips": ("a day", "trips", "per day"), "minutes": ("min", "minutes"),
    "load": ("g", "grams"), "saturation": ("g", "grams"), "mileage": ("km",),
}


@dataclass(frozen=True)
class Move:
    """What is done to a value, in the parts of its field: times a factor, and something added."""
    factor: Fraction | float = 1
    shift: Fraction | float = 0


def _triangle(u: float) -> float:
    """The value from -1 to 1 that a symmetrical triangular distribution has at the share u."""
    return math.sqrt(2 * u) - 1 if u < 0.5 else 1 - math.sqrt(2 * (1 - u))


def _deviate(distribution: str, u: float) -> float:
    """A share u from 0 to 1 as a multiple of the stated uncertainty."""
    if distribution == "uniform":
        return 2 * u - 1
    if distribution == "triangular":
        return _triangle(u)
    return NormalDist().inv_cdf(u) / WITHIN


@dataclass(frozen=True)
class Uncertainty:
    """A line of the table. `kind` is relative, absolute or values; `amount` is a share of the value or so many parts
    of the field; of two values `low` and `high` are in parts."""
    line: int
    input: str
    where: str
    kind: str
    amount: Fraction
    low: int
    high: int
    distribution: str
    words: str

    @property
    def name(self) -> str:
        """The input as a person would name it."""
        what = "temperatures, lowest and highest" if self.input == TEMPERATURES else FIELD_NAMES[self.input][0]
        return what if self.where == "all" else f"{what}, {self.where}"

    def ends(self, value: int) -> tuple[Move, Move]:
        """What takes a value to its lower and to its upper end; `value` matters where two values are given."""
        if self.kind == "values":
            return Move(shift=Fraction(self.low - value)), Move(shift=Fraction(self.high - value))
        if self.kind == "absolute":
            return Move(shift=-self.amount), Move(shift=self.amount)
        upper = 1 + self.amount
        return Move(1 / upper if self.distribution == "lognormal" else 1 - self.amount), Move(upper)

    def drawn(self, u: float, value: int) -> Move:
        """What a draw does to a value; u is a random share from 0 to 1."""
        if self.kind == "values":
            return Move(shift=self._between(u, value) - value)
        deviate = _deviate(self.distribution, u)
        if self.kind == "absolute":
            return Move(shift=float(self.amount) * deviate)
        if self.distribution == "lognormal":
            return Move(float(1 + self.amount) ** deviate)
        return Move(1 + float(self.amount) * deviate)

    def _between(self, u: float, value: int) -> float:
        """A draw where two values are given: normal and lognormal with a side of their own, triangular with its peak at
        the value of the sheet."""
        low, high = self.low, self.high
        if self.distribution == "uniform" or low == high:
            return low + u * (high - low)
        if self.distribution == "triangular":
            below = (value - low) / (high - low)
            if u < below:
                return low + math.sqrt(u * (high - low) * (value - low))
            return high - math.sqrt((1 - u) * (high - low) * (high - value))
        deviate = _deviate("normal", u)
        if self.distribution == "lognormal":
            return float(value * (high / value if deviate > 0 else value / low) ** deviate)
        return value + deviate * (high - value if deviate > 0 else value - low)


# ------------------------------------------------------------------ reading


def field_of(name: str) -> Field:
    """The field of an input; that of the lowest temperature for both."""
    return FIELDS["lowest" if name == TEMPERATURES else name]


def _number(word: str, column: str) -> Fraction:
    try:
        return Fraction(word.removeprefix("±").strip().removesuffix("%").strip())
    except (ValueError, ZeroDivisionError):
        raise InputError(f"{column}: {quoted(word)} is no number") from None


def _input(word: str) -> str:
    name = OTHER_NAMES.get(word.lower(), word.lower())
    if name not in INPUTS:
        raise InputError(f"input: {quoted(word)} is none of {', '.join(INPUTS)}")
    return name


def _distribution(word: str) -> str:
    if word.lower() not in DISTRIBUTIONS:
        raise InputError(f"distribution: {quoted(word)} is none of {', '.join(DISTRIBUTIONS)}")
    return word.lower()


def _parts(name: str, word: str, column: str) -> int:
    """A value of a field in its parts; it must be one that a sheet can hold."""
    value = _number(word, column) * field_of(name).parts
    if value.denominator != 1:
        raise InputError(f"{column}: {word} has more decimals than a sheet holds ({field_of(name).places})")
    return int(value)


def _amount(name: str, cells: dict[str, str]) -> tuple[str, Fraction]:
    """Whether an uncertainty is a share of the value or in the unit of the input, and how much."""
    unit = cells.get("unit", "").strip()
    word = cells["uncertainty"]
    amount = _number(word, "uncertainty")
    if amount < 0:
        raise InputError(f"uncertainty: {word} is below 0")
    if unit == "%" or not unit and word.endswith("%"):
        if name in ("lowest", "highest", TEMPERATURES):
            raise InputError("unit: a percentage of a temperature in °C has no meaning; write °C")
        return "relative", amount / 100
    if unit.lower() not in UNITS[name]:
        wanted = "points for percentage points" if name in PERCENTS else UNITS[name][0].replace("°c", "°C")
        raise InputError(f"unit: {quoted(unit)} is not % of the value, or {wanted.replace('kpa', 'kPa')}")
    return "absolute", amount * field_of(name).parts


def _uncertainty(number: int, cells: dict[str, str]) -> Uncertainty:
    name = _input(cells.get("input", ""))
    where = " ".join(cells.get("where", "all").lower().split())
    distribution = _distribution(cells.get("distribution", "normal"))
    has_ends = "low" in cells or "high" in cells
    if has_ends == ("uncertainty" in cells) or has_ends and not ("low" in cells and "high" in cells):
        raise InputError("write an uncertainty, or a low and a high value")
    unit = "points" if name in PERCENTS else FIELD_NAMES.get(name, ("", "°C"))[1]
    if has_ends:
        if name == TEMPERATURES:
            raise InputError("temperatures: write an uncertainty in °C; low and high are for lowest or highest alone")
        low, high = (_parts(name, cells[end], end) for end in ("low", "high"))
        if low > high or distribution == "lognormal" and low <= 0:
            raise InputError(f"low {cells['low']}, high {cells['high']}: low must not be above high"
                             " and, for a lognormal distribution, must be above 0")
        words = f"{cells['low']} to {cells['high']} {FIELD_NAMES[name][1]}".strip()
        return Uncertainty(number, name, where, "values", Fraction(0), low, high, distribution, words)
    kind, amount = _amount(name, cells)
    if kind == "absolute" and distribution == "lognormal":
        raise InputError("a lognormal distribution needs an uncertainty in %, or a low and a high value")
    word = cells["uncertainty"].removeprefix("±").removesuffix("%").strip()
    words = f"± {word} {'%' if kind == 'relative' else unit}".strip()
    return Uncertainty(number, name, where, kind, amount, 0, 0, distribution, words)


def _with_point(cell: str) -> str:
    """A cell with a decimal comma, with a point."""
    return re.sub(r"(?<=[0-9]),(?=[0-9])", ".", cell)


def uncertainties_of(text: str, label: str) -> list[Uncertainty]:
    """The lines of a table; InputError with the line where one is not understood."""
    table = read_table(text, label, COLUMNS, ("input",))
    found = []
    for line in table.lines:
        cells = line.cells if table.point == "." else {name: _with_point(cell) for name, cell in line.cells.items()}
        try:
            found.append(_uncertainty(line.number, cells))
        except InputError as error:
            raise InputError(f"{label}: line {line.number}: {error}") from None
    if not found:
        raise InputError(f"{label}: the table has no line; a line has {', '.join(COLUMNS)}")
    return found


def read_uncertainties(name: str) -> list[Uncertainty]:
    return uncertainties_of(read_text(name), name_shown(name))


def names_of(found: Sequence[Uncertainty]) -> list[str]:
    """The names of lines, with the number of the line where two have the same."""
    names = [line.name for line in found]
    return [f"{name} (line {line.line})" if names.count(name) > 1 else name for name, line in zip(names, found)]
