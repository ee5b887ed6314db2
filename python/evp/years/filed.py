"""Figures that were filed for years of a series, each with the library's verdict."""

import re
from collections.abc import Iterable, Iterator
from dataclasses import dataclass, field
from pathlib import Path

from evp.files import InputError
from evp.library import GROUPS, MECHANISMS, Band, Filed, Library, Outcome, Unit
from evp.masses import shown
from evp.sheet.words import TextError
from evp.wording import name_shown, quoted
from evp.years.naming import region_key, year_of
from evp.years.results import ALL_REGIONS, FIGURES, REPORTED, Result, bands_of, with_sums
from evp.years.tables import csv_lines

COLUMNS = ("year", "region", "category", "mechanism", "figure", "unit")
MARK_COLUMNS = (*COLUMNS, "verdict", "low_mg", "high_mg", "off_mg", "note")
OTHER_NAMES = {"mass": "figure", "value": "figure", "filed": "figure", "row": "category", "years": "year"}
CATEGORIES = {**{name: name for name in (*GROUPS, "total")}, "": "total", "light-duty": "light", "light duty": "light",
              "two-wheelers": "two", "two wheelers": "two", "all rows": "all", "passenger cars": "cars"}
MECHANISM_WORDS = {**{name: name for name in MECHANISMS}, "": "", "total": "", "hot soak": "soak",
                   "running losses": "running", "running loss": "running", "diurnal losses": "diurnal"}
POWERS = {"mg": 0, "g": 3, "kg": 6, "t": 9, "tonnes": 9, "Mg": 9, "kt": 12, "Gg": 12}
IN_LIBRARY = {0: Unit.MG, 3: Unit.G, 6: Unit.KG, 9: Unit.T}
DEFAULT_UNIT = "t"
VERDICTS = ("agrees", "fits", "low", "high", "unreadable")
FINE = ("agrees", "fits")
Key = tuple[int, str, str, str]


@dataclass(frozen=True)
class Figure:
    """A filed figure: digits, decimal places and the power of its unit; or why it is none."""
    year: int
    region: str
    category: str
    mechanism: str
    text: str
    unit: str
    digits: int = 0
    places: int = 0
    wrong: str = ""

    @property
    def key(self) -> Key:
        return self.year, region_key(self.region), self.category, self.mechanism


@dataclass(frozen=True)
class Verdict:
    """A figure beside its band."""
    figure: Figure
    verdict: str
    band: Band | None = None
    off: int = 0
    note: str = ""

    @property
    def line(self) -> tuple[object, ...]:
        ends = (self.band.low, self.band.high) if self.band else ("", "")
        off = self.off if self.verdict in ("low", "high") else ""
        figure = self.figure
        return (figure.year, figure.region, figure.category, figure.mechanism, figure.text, figure.unit, self.verdict,
                *ends, off, self.note)


@dataclass
class FiledFigures:
    """The figures of a table by year, region, category and mechanism."""
    figures: dict[Key, Figure] = field(default_factory=dict)
    notes: list[str] = field(default_factory=list)


# ------------------------------------------------------------------ the table


def read_filed(path: Path) -> FiledFigures:
    """The figures of a csv file."""
    label, found = name_shown(path), FiledFigures()
    header: list[str] = []
    with path.open("rb") as file:
        comma = b";" in file.readline() or path.suffix.lower() == ".tsv"
    for number, cells in csv_lines(path, label):
        if not any(cells):
            continue
        if not header:
            header = [OTHER_NAMES.get(name, name) for name in (cell.strip().casefold() for cell in cells)]
            _check_header(header, label)
            if "unit" not in header and not any(name.startswith("figure_") for name in header):
                found.notes.append("%s: no column unit, so the figures are taken as tonnes (t)" % label)
            continue
        _take(found, dict(zip(header, cells)), "%s: line %d" % (label, number), comma)
    if not header:
        raise InputError("%s: the table is empty; its first line names the columns: %s" % (label, ", ".join(COLUMNS)))
    return found


def _check_header(header: list[str], label: str) -> None:
    figures = [name for name in header if name == "figure" or name.removeprefix("figure_") in map(str.lower, POWERS)]
    if "year" not in header or not figures:
        raise InputError("%s: the columns year and figure are wanted, and region, category, mechanism and unit where "
                         "they are needed" % label)


def _take(found: FiledFigures, cells: dict[str, str], where: str, comma: bool) -> None:
    try:
        figure = _figure(cells, comma)
    except TextError as error:
        raise InputError("%s: %s" % (where, error)) from None
    if figure.key in found.figures:
        raise InputError("%s: this figure is in the table twice; keep one" % where)
    found.figures[figure.key] = figure


def _figure(cells: dict[str, str], comma: bool) -> Figure:
    """A line; a figure that cannot be read is a verdict of its own."""
    year = year_of(cells.get("year", ""))
    category = CATEGORIES.get(cells.get("category", "").casefold())
    mechanism = MECHANISM_WORDS.get(cells.get("mechanism", "").casefold())
    if category is None or mechanism is None or (category == "total") != (mechanism == ""):
        raise TextError("category %s with mechanism %s is none of the results; write cars, light, two or all with "
                        "diurnal, soak or running, or total alone" % (
                            quoted(cells.get("category", "")), quoted(cells.get("mechanism", ""))))
    name = next(name for name in cells if name == "figure" or name.startswith("figure_"))
    text, unit = _split_unit(cells[name], cells.get("unit", "") or name.removeprefix("figure").strip("_"))
    start = (year, cells.get("region", ""), category, mechanism, text, unit)
    try:
        return Figure(*start, *_number(text, unit, comma))
    except TextError as error:
        return Figure(*start, wrong=str(error))


def _split_unit(text: str, unit: str) -> tuple[str, str]:
    form = re.fullmatch(r"(.*[0-9])\s*([A-Za-z]+)", text.strip())
    if form and not unit:
        text, unit = form[1], form[2]
    return text.strip(), unit.strip() or DEFAULT_UNIT


def _number(text: str, unit: str, comma: bool) -> tuple[int, int]:
    if unit not in POWERS and unit.lower() not in POWERS:
        raise TextError("unit: %s is none of %s" % (quoted(unit), ", ".join(POWERS)))
    word = re.sub(r"(?<=[0-9])[ '\u00a0\u202f](?=[0-9]{3})", "", text)
    signs = [sign for sign in word if sign in ".,"]
    if len(set(signs)) == 2:  # the last is the decimal character
        word = word.replace(next(sign for sign in ".," if sign != signs[-1]), "")
    elif "," in word and not comma and re.fullmatch(r"[0-9]{1,3}(,[0-9]{3})+", word):
        raise TextError("%s can be read in two ways; write it without a character between thousands" % quoted(text))
    form = re.fullmatch(r"([0-9]+)(?:[.,]([0-9]+))?", word, re.ASCII)
    if form is None:
        raise TextError("%s is no number" % quoted(text))
    return int(form[1] + (form[2] or "")), len(form[2] or "")


def power_of(unit: str) -> int:
    return POWERS.get(unit, POWERS.get(unit.lower(), 9))


# ------------------------------------------------------------------ verdicts


def judge(library: Library, figure: Figure, band: Band) -> tuple[str, int]:
    """The verdict on a figure and by how much it is off. The library's, but for kilotonnes with fewer than three
    decimal places, whose last place is above a tonne: these are compared here, in whole numbers."""
    power, places = power_of(figure.unit), figure.places
    if power == 12:
        if places < 3:
            return _compared(figure.digits * 10 ** (12 - places), 10 ** (12 - places), band)
        power, places = 9, places - 3
    if figure.digits >= 1 << 64:
        return "unreadable", 0
    found = library.mark(Filed(figure.digits, places, IN_LIBRARY[power]), band)
    return VERDICTS[found.outcome], found.off if found.outcome in (Outcome.LOW, Outcome.HIGH) else 0


def _compared(value: int, step: int, band: Band) -> tuple[str, int]:
    first, last = value - step // 2, value + step // 2
    if first <= band.low and band.high < last:
        return "agrees", 0
    if band.high < first:
        return "high", first - band.high
    if band.low > last:
        return "low", band.low - last
    return "fits", 0


def verdicts_of(library: Library, filed: FiledFigures, results: Iterable[Result]) -> Iterator[Verdict]:
    """The verdicts in the order of the results; figures of years that are not there come last."""
    left = dict(filed.figures)
    for result in with_sums(results):
        entry = result.entry
        if entry.year is None:
            continue
        keys = [region_key(entry.region)] + (["", "all"] if entry.region == ALL_REGIONS else [])
        for i, (category, mechanism) in enumerate(FIGURES):
            for key in keys:
                figure = left.pop((entry.year, key, category, mechanism), None)
                if figure is not None:
                    yield _verdict(library, figure, result, i)
    for figure in left.values():
        yield Verdict(figure, "absent", note="the project has no such year and region")


def _verdict(library: Library, figure: Figure, result: Result, place: int) -> Verdict:
    if figure.wrong:
        return Verdict(figure, "unreadable", note=figure.wrong)
    if result.status != REPORTED:
        return Verdict(figure, "absent", note=result.reason or result.status)
    band = list(bands_of(result.words))[place]
    verdict, off = judge(library, figure, band)
    note = "" if verdict in FINE else "the mass is %s" % shown(band)
    if verdict in ("low", "high") and _exchanged(library, figure, band):
        note += "; two digits may be exchanged"
    return Verdict(figure, verdict, band, off, note)


def _exchanged(library: Library, figure: Figure, band: Band) -> bool:
    """Whether two neighbouring digits exchanged make the figure right."""
    digits = str(figure.digits)
    for i in range(len(digits) - 1):
        other = digits[:i] + digits[i + 1] + digits[i] + digits[i + 2:]
        if other != digits and judge(library, Figure(*(figure.year, "", "", "", "", figure.unit), int(other),
                                                      figure.places), band)[0] in FINE:
            return True
    return False
