"""The tables of a series: results.csv, results.xlsx, nfr.csv and, where asked for, rows.csv.

Masses are the words of the library's reports and sums of them: lows are added to lows and highs to highs, so that the
exact sum lies between. Nothing else is calculated.
"""

import contextlib
import json
import os
import re
import secrets
import zipfile
from collections.abc import Iterable, Iterator
from dataclasses import dataclass, field
from pathlib import Path
from typing import Any, BinaryIO

from evp.files import InputError, failed, read_text
from evp.layout import CLASSES, decimal, row, row_count, technology_name
from evp.library import GROUPS, MECHANISMS, Band
from evp.masses import exact
from evp.tables import read_table, table_text
from evp.wording import name_shown
from evp.years.needs import package
from evp.years.project import Entry, sheet_bytes

REPORTED = "reported"
ALL_REGIONS = "all regions"
COLUMNS = ("year", "region", "category", "mechanism", "low_mg", "high_mg", "low_t", "high_t", "certain_t", "status",
           "reason", "sheet")
NFR, POLLUTANT = "1.A.3.b.v", "NMVOC"
NFR_COLUMNS = ("year", "region", "nfr", "pollutant", "category", "class", "class_name", "technology", "technology_name",
               "mechanism", "season", "season_name", "nmvoc_kt", "low_kt", "high_kt", "low_mg", "high_mg", "status")
ROW_COLUMNS = ("year", "region", "row", "name", "class", "class_name", "technology", "technology_name", "vehicles",
               "mechanism", "low_mg", "high_mg", "certain_t")
KT, TONNE = 12, 9  # powers of ten, in milligrams
CATEGORY_OF = {1: "cars", 2: "cars", 3: "cars", 4: "light"}  # of a class; the others are two-wheelers
# Category and mechanism of the bands of the last words of a report, in their order.
FIGURES = [*((group, mechanism) for group in GROUPS for mechanism in MECHANISMS), ("total", "")]
FIXED = (1980, 1, 1, 0, 0, 0)  # the time of every part of a workbook, so that the same results are the same bytes


@dataclass
class Result:
    """A year of a region: what the library answered, or why there is nothing."""
    entry: Entry
    status: str
    reason: str = ""
    words: list[int] = field(default_factory=list)
    classes: list[list[int]] = field(default_factory=list)
    seasons: list[list[int]] = field(default_factory=list)
    rows: list[int] = field(default_factory=list)

    @property
    def total(self) -> Band:
        return Band(*self.words[-2:])


def result_of(entry: Entry, answer: str) -> Result:
    """The result of an entry by its kept answer."""
    if not answer:
        return Result(entry, entry.status or "unreadable", entry.reason)
    found = json.loads(answer)
    if "refused" in found:
        return Result(entry, "refused", found["refused"])
    return Result(entry, REPORTED, "", found["words"], found["classes"], found.get("seasons", []),
                  found.get("rows", []))


def bands_of(words: list[int]) -> Iterator[Band]:
    return map(Band, words[0::2], words[1::2])


def certain(band: Band, power: int) -> str:
    """The number to which both ends of a band round, with as many decimal places as that holds for; empty where it
    holds for none. `power` is of the unit: 9 for tonnes, 12 for kilotonnes."""
    if band.low == band.high:
        return decimal(band.low, power).rstrip("0").rstrip(".") if band.low else "0"
    for places in range(power - 1, -1, -1):
        step = 10 ** (power - places)
        low, high = ((2 * end + step) // (2 * step) for end in band)
        if low == high:
            return decimal(low, places)
    return ""


# ------------------------------------------------------------------ names


@dataclass
class Names:
    """The names of the seasons and rows of a sheet, empty where there are none."""
    seasons: dict[int, str] = field(default_factory=dict)
    rows: dict[int, str] = field(default_factory=dict)


def names_file(sheet: Path) -> Path:
    return sheet.with_name(sheet.stem + ".names.csv")


def names_text(seasons: list[str], rows: list[str]) -> str:
    lines = [(record, i, name) for record, names in (("season", seasons), ("row", rows))
             for i, name in enumerate(names, 1) if name]
    return table_text(("record", "number", "name"), lines) if lines else ""


def names_of(sheet: Path | None) -> Names:
    """Those beside a sheet; none where the file is missing or is another."""
    found = Names()
    if sheet is None or not names_file(sheet).is_file():
        return found
    try:
        columns = ["record", "number", "name"]
        for line in read_table(read_text(names_file(sheet)), name_shown(names_file(sheet)), columns, columns).lines:
            record, number = line.cells.get("record", ""), line.cells.get("number", "")
            if number.isascii() and number.isdigit():
                kept = found.seasons if record == "season" else found.rows
                kept[int(number)] = line.cells.get("name", "")
    except InputError:
        return Names()
    return found


# ------------------------------------------------------------------ files


@contextlib.contextmanager
def whole(path: Path, on_disk: bool = True) -> Iterator[BinaryIO]:
    """A file that has its name once all of it is written, and where `on_disk` is on the disk; after a failure the old
    one stays."""
    part = path.with_name(".evp-%s.part" % secrets.token_hex(8))
    try:
        with part.open("xb") as file:
            yield file
            file.flush()
            if on_disk:
                os.fsync(file.fileno())
        os.replace(part, path)
    except OSError as error:
        raise failed(path, error) from None
    finally:
        part.unlink(missing_ok=True)


def write_csv(path: Path, header: Iterable[str], lines: Iterable[Iterable[object]], comma: bool) -> int:
    """Writes a table line by line; how many lines it has."""
    many = 0
    with whole(path) as file:
        file.write(table_text(header, (), comma).encode())
        for line in lines:
            file.write(table_text(map(str, line), (), comma).encode("utf-8", "surrogateescape"))
            many += 1
    return many


def _number(word: str, comma: bool) -> str:
    return word.replace(".", ",") if comma else word


# ------------------------------------------------------------------ results.csv


def result_lines(results: Iterable[Result], folder: Path, comma: bool = False) -> Iterator[tuple[object, ...]]:
    """The lines of results.csv: 13 of a reported sheet, one of any other."""
    for result in results:
        entry = result.entry
        year, sheet = entry.year if entry.year is not None else "", shown_sheet(entry, folder)
        if result.status != REPORTED:
            yield year, entry.region, *[""] * 7, result.status, result.reason, sheet
            continue
        for (category, mechanism), band in zip(FIGURES, bands_of(result.words)):
            yield (year, entry.region, category, mechanism, band.low, band.high,
                   *(_number(word, comma) for word in (exact(band.low, "t"), exact(band.high, "t"),
                                                       certain(band, TONNE))), REPORTED, "", sheet)


def shown_sheet(entry: Entry, folder: Path) -> str:
    """The sheet of an entry, as seen from a folder."""
    if entry.path is None:
        return ""
    return Path(os.path.relpath(entry.path, folder)).as_posix()


# ------------------------------------------------------------------ nfr.csv


def _nfr_line(year: int, region: str, which: tuple[object, ...], band: Band | None, comma: bool,
              status: str = REPORTED) -> tuple[object, ...]:
    start = (year, region, NFR, POLLUTANT, *which)
    if band is None:
        return (*start, *[""] * 5, status)
    kt = (certain(band, KT), decimal(band.low, KT), decimal(band.high, KT))
    return (*start, *(_number(word, comma) for word in kt), band.low, band.high, status)


def _nfr_of(year: int, region: str, result: Result, names: Names, comma: bool) -> Iterator[tuple[object, ...]]:
    """Total, categories, classes with technologies, and seasons of a reported year."""
    none = ("", "", "", "")
    figures = list(zip(FIGURES, bands_of(result.words)))
    for (category, mechanism), band in (figures[-1], *figures[:-1]):
        yield _nfr_line(year, region, (category, *none, mechanism, "", ""), band, comma)
    for number, technology, _, *words in result.classes:
        kind = (CATEGORY_OF.get(number, "two"), number, CLASSES[number][0], technology, technology_name(technology))
        for mechanism, band in zip(MECHANISMS, bands_of(words)):
            yield _nfr_line(year, region, (*kind, mechanism, "", ""), band, comma)
    for i, words in enumerate(result.seasons, 1):
        for (category, mechanism), band in zip(FIGURES, bands_of(words)):
            yield _nfr_line(year, region, (category, *none, mechanism, i, names.seasons.get(i, "")), band, comma)


class Sum:
    """The regions of a year added up: lows to lows and highs to highs. Without one of them there is no sum."""

    def __init__(self, year: int) -> None:
        self.year, self.regions, self.lacking = year, 0, ""
        self._words: list[int] = []
        self._classes: dict[tuple[int, int], list[int]] = {}

    def add(self, result: Result) -> None:
        self.regions += 1
        if result.status != REPORTED:
            self.lacking = self.lacking or "no sum: %s is %s" % (result.entry.region or "a sheet", result.status)
            return
        words = self._words or [0] * len(result.words)
        self._words = [a + b for a, b in zip(words, result.words)]
        for number, technology, *numbers in result.classes:
            old = self._classes.get((number, technology), [0] * len(numbers))
            self._classes[number, technology] = [a + b for a, b in zip(old, numbers)]

    def result(self) -> Result:
        entry = Entry(self.year, ALL_REGIONS)
        if self.lacking:
            return Result(entry, "incomplete", self.lacking)
        classes = [[*key, *numbers] for key, numbers in sorted(self._classes.items())]
        return Result(entry, REPORTED, "", self._words, classes)


def with_sums(results: Iterable[Result]) -> Iterator[Result]:
    """The results in their order, and behind those of a year with several regions their sum."""
    total: Sum | None = None
    for result in results:
        year = result.entry.year
        if total is not None and year != total.year:
            yield from [total.result()] if total.regions > 1 else []
            total = None
        yield result
        if year is not None:
            total = total or Sum(year)
            total.add(result)
    if total is not None and total.regions > 1:
        yield total.result()


def nfr_lines(results: Iterable[Result], comma: bool = False) -> Iterator[tuple[object, ...]]:
    """The lines of nfr.csv, the sum of the regions of a year behind them."""
    for result in with_sums(results):
        entry = result.entry
        if entry.year is None:
            continue
        if result.status == REPORTED:
            names = names_of(entry.path) if result.seasons else Names()
            yield from _nfr_of(entry.year, entry.region, result, names, comma)
        else:
            status = result.reason if result.status == "incomplete" else result.status
            yield _nfr_line(entry.year, entry.region, ("total", *[""] * 7), None, comma, status)


# ------------------------------------------------------------------ rows.csv


def row_lines(results: Iterable[Result], comma: bool = False) -> Iterator[tuple[object, ...]]:
    """The masses of every row, with its name, class and technology."""
    for result in results:
        if result.status != REPORTED:
            continue
        data, names = sheet_bytes(result.entry)[0], names_of(result.entry.path)
        for i in range(row_count(data)):
            here = row(data, i)
            kind = (here["class"], CLASSES[here["class"]][0], here["technology"], technology_name(here["technology"]))
            for mechanism, band in zip(MECHANISMS, bands_of(result.rows[6 * i:6 * i + 6])):
                yield (result.entry.year, result.entry.region, i + 1, names.rows.get(i + 1, ""), *kind,
                       here["vehicles"], mechanism, band.low, band.high, _number(certain(band, TONNE), comma))


# ------------------------------------------------------------------ results.xlsx


def write_workbook(path: Path, sheets: dict[str, tuple[tuple[str, ...], Iterable[Iterable[object]]]]) -> None:
    """A workbook of tables: numbers are numbers, and words are never formulas."""
    openpyxl: Any = package("openpyxl")
    book = openpyxl.Workbook(write_only=True)
    for title, (header, lines) in sheets.items():
        sheet = book.create_sheet(title)
        sheet.freeze_panes = "A2"
        sheet.append(header)
        for line in lines:
            sheet.append([_cell(openpyxl, sheet, name, value) for name, value in zip(header, line)])
    part = path.with_name(".evp-%s.xlsx.part" % secrets.token_hex(8))
    try:
        book.save(part)
        with whole(path) as file:
            _same_bytes(part, file)
    finally:
        part.unlink(missing_ok=True)


NUMBERS = re.compile(r".*_(?:mg|t|kt)")


def _cell(openpyxl: Any, sheet: Any, name: str, value: object) -> object:
    if isinstance(value, int):
        return value
    text = str(value)
    if not text:
        return None
    if NUMBERS.fullmatch(name):
        return float(text)
    text = openpyxl.cell.cell.ILLEGAL_CHARACTERS_RE.sub("?", text)
    if text[0] in "=+-@":
        cell = openpyxl.cell.WriteOnlyCell(sheet, text)
        cell.data_type = "s"
        return cell
    return text


def _same_bytes(made: Path, file: BinaryIO) -> None:
    """The workbook without the time at which it was written."""
    with zipfile.ZipFile(made) as old, zipfile.ZipFile(file, "w", zipfile.ZIP_DEFLATED) as new:
        for name in sorted(old.namelist()):
            data = old.read(name)
            if name == "docProps/core.xml":
                data = re.sub(rb"\d{4}-\d\d-\d\dT\d\d:\d\d:\d\dZ?", b"2000-01-01T00:00:00Z", data)
            new.writestr(zipfile.ZipInfo(name, FIXED), data, zipfile.ZIP_DEFLATED)
