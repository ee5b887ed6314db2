"""Sheets and results of a series: year and region from the names of files, or from the columns of results.csv."""

import csv
import io
import re
from dataclasses import dataclass
from pathlib import Path

from evp.explain import explain
from evp.figures import TOTAL, bands
from evp.files import InputError, read_sheet, read_text
from evp.library import Band, Library, Refusal
from evp.wording import name_shown, quoted

RESULTS = "results.csv"
YEAR = re.compile(r"(?<![0-9])((?:19|20|21)[0-9]{2})(?![0-9])")
NEEDED = ("year", "region", "category", "mechanism", "low_mg", "high_mg")
REASONS = ("refusal", "reason", "refused", "note", "message")  # columns that may have the reason of an empty band


@dataclass(frozen=True, order=True)
class Key:
    """Which figure of a series."""
    region: str
    year: int
    category: str
    mechanism: str


@dataclass(frozen=True)
class Result:
    """A figure of a series: its band, or why it has none."""
    band: Band | None
    reason: str = ""


Results = dict[Key, Result]


def year_and_region(stem: str) -> tuple[int, str] | None:
    """The year and the region in the name of a file; None where no year, or more than one, is in it."""
    found = YEAR.findall(stem)
    if len(found) != 1:
        return None
    return int(found[0]), re.sub(r"^[\s_.-]+|[\s_.-]+$", "", YEAR.sub(" ", stem)).strip()


@dataclass(frozen=True)
class SeriesSheet:
    """A sheet of a series."""
    year: int
    region: str
    path: Path
    data: bytes

    @property
    def name(self) -> str:
        return f"{self.region} {self.year}".strip()


def sheets_of(folder: Path) -> list[SeriesSheet]:
    """The sheets of a folder with a year in their names, by region and year."""
    found: dict[tuple[str, int], SeriesSheet] = {}
    for path in sorted(path for path in folder.rglob("*") if path.suffix.lower() == ".evp" and path.is_file()):
        named = year_and_region(path.stem)
        if named is None:
            raise InputError(f"{name_shown(path)}: the name of a sheet of a series has one year in it, as 1990.evp or "
                             "north-1990.evp")
        year, region = named
        if (region, year) in found:
            raise InputError(f"{name_shown(path)}: {name_shown(found[region, year].path)} is of the same year and "
                             "region")
        found[region, year] = SeriesSheet(year, region, path, read_sheet(path))
    if not found:
        raise InputError(f"{name_shown(folder)}: there is no sheet in this folder; their names end with .evp")
    return [found[key] for key in sorted(found)]


def _results_of_sheets(library: Library, folder: Path) -> Results:
    results: Results = {}
    for sheet in sheets_of(folder):
        try:
            for figure, band in bands(library.report(sheet.data)).items():
                if not figure.row.isdigit():
                    results[Key(sheet.region, sheet.year, figure.row, figure.mechanism)] = Result(band)
        except Refusal:
            reason = explain(library, sheet.data).line
            results[Key(sheet.region, sheet.year, TOTAL, "")] = Result(None, reason)
    return results


# ------------------------------------------------------------------ results.csv


def _whole(word: str, column: str) -> int:
    if not re.fullmatch("[0-9]{1,20}", word):
        raise InputError(f"{column}: {quoted(word)} is no whole number of milligrams")
    return int(word)


def _result(cells: dict[str, str]) -> tuple[Key, Result]:
    year = cells["year"]
    if not re.fullmatch("[0-9]{4}", year):
        raise InputError(f"year: {quoted(year)} is no year")
    category = cells["category"].lower()
    mechanism = "" if category == TOTAL else cells["mechanism"].lower()
    key = Key(cells["region"], int(year), category or TOTAL, mechanism)
    if not cells["low_mg"] and not cells["high_mg"]:
        reason = next((cells[name] for name in REASONS if cells.get(name)), "no mass")
        return key, Result(None, reason)
    low, high = (_whole(cells[name], name) for name in ("low_mg", "high_mg"))
    if low > high:
        raise InputError(f"low_mg {low} is above high_mg {high}")
    return key, Result(Band(low, high))


def _put(results: Results, key: Key, result: Result) -> None:
    """Adds a figure. A line without a mass, as that of a refused sheet, gives way to one with a mass."""
    there = results.get(key)
    if there is not None and there.band is not None:
        if result.band is not None:
            raise InputError(f"{key.region} {key.year} {key.category} {key.mechanism} is there twice")
        return
    results[key] = result


def results_of(text: str, label: str) -> Results:
    """The figures of a table of results; further columns are not read. A line without year and mass, as that of a sheet
    without a year in its name, is left out."""
    first = text.split("\n", 1)[0]
    separator = ";" if first.count(";") > first.count(",") else ","
    reader = csv.DictReader(io.StringIO(text, newline=""), delimiter=separator)
    missing = [name for name in NEEDED if name not in (reader.fieldnames or ())]
    if missing:
        raise InputError(f"{label}: the column {', '.join(missing)} is missing; evp years makes such a table")
    results: Results = {}
    for line in reader:
        cells = {name: str(line.get(name) or "").strip() for name in reader.fieldnames or ()}
        if not cells["year"] and not cells["low_mg"]:
            continue
        try:
            _put(results, *_result(cells))
        except InputError as error:
            raise InputError(f"{label}: line {reader.line_num}: {error}") from None
    if not results:
        raise InputError(f"{label}: there is no line of results")
    return results


def read_results(library: Library, name: str) -> Results:
    """The figures of a series: a table of results, a folder that has one, or a folder of sheets."""
    path = Path(name)
    if path.is_dir():
        if not (path / RESULTS).exists():
            return _results_of_sheets(library, path)
        path = path / RESULTS
    return results_of(read_text(path), name_shown(path))


def sources_of(name: str) -> list[Path]:
    """The files that a series is read from, none of which may be written over."""
    path = Path(name)
    if not path.is_dir():
        return [path]
    return [path / RESULTS, *(found for found in path.rglob("*") if found.suffix.lower() == ".evp")]
