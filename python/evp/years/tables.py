"""Long tables of several years and regions, from csv files and workbooks: seasons, fleet, and parking or grid.

Rows go into a database on the disk and come back year by year, so that a table of any length takes little memory. A
row without a year or a region holds for all of them.
"""

import csv
import difflib
import json
import re
import sqlite3
from collections.abc import Callable, Iterable, Iterator
from dataclasses import dataclass, field
from functools import lru_cache
from pathlib import Path
from typing import Any

from evp.files import InputError, failed
from evp.layout import CLASSES
from evp.sheet.folders import DURATIONS, PARKING_COLUMNS, ROW_COLUMNS, SEASON_COLUMNS, plain
from evp.sheet.words import TextError
from evp.show import SHORT_NAMES
from evp.wording import Messages, name_shown, quoted
from evp.years.naming import ALL_YEARS, EVERY, NO_END, NO_START, Span, is_open, region_key, spans_of, year_of
from evp.years.needs import package

KINDS = ("seasons", "fleet", "parking", "grid")
COLUMNS = {
    "seasons": SEASON_COLUMNS, "fleet": ROW_COLUMNS, "parking": PARKING_COLUMNS, "grid": ["end_hour", *DURATIONS],
}
NEEDED = {"seasons": SEASON_COLUMNS, "fleet": ["class", "technology"], "parking": PARKING_COLUMNS,
          "grid": ["end_hour", *DURATIONS]}
WHICH = ("year", "region", "year_from", "year_to", "name")
OTHER_NAMES = {
    "years": "year", "regions": "region", "from": "year_from", "from_year": "year_from", "to": "year_to",
    "to_year": "year_to", "note": "name", "names": "name", "m_sat": "saturation", "vapour_pressure": "vp", "rvp": "vp",
}
NOT_READ = ("comment", "comments", "remark", "remarks", "source", "unit", "reference")
CLASS_WORDS = {words.casefold(): str(number) for number, (words, _, _) in CLASSES.items()} | {
    words.casefold(): str(number) for number, words in SHORT_NAMES.items()}
Lines = Iterator[tuple[int, list[str]]]


@dataclass(frozen=True)
class Source:
    """A table: what it is, its name for messages, its lines, and the year and region that its own name has."""
    kind: str
    label: str
    lines: Callable[[], Lines]
    span: Span = ALL_YEARS
    region: str = ""


@dataclass
class Found:
    """The years and regions that the tables name, and which tables there are."""
    years: set[int] = field(default_factory=set)  # alone in a cell
    ranges: set[int] = field(default_factory=set)  # within a range
    regions: dict[str, str] = field(default_factory=dict)  # as first written, by key
    kinds: set[str] = field(default_factory=set)
    wrong: Messages = field(default_factory=Messages)

    def take(self, span: Span, region: str) -> None:
        if span.first == span.last:
            self.years.add(span.first)
        elif not is_open(span):
            self.ranges.update(range(span.first, span.last + 1))
        if region:
            self.regions.setdefault(region_key(region), region)


# ------------------------------------------------------------------ lines


def encoding_of(path: Path) -> str:
    """How a file of text is written: UTF-8, UTF-16 by its first bytes, else that of Windows."""
    try:
        with path.open("rb") as file:
            start = file.read(4)
            if start.startswith((b"\xff\xfe", b"\xfe\xff")):
                return "utf-16"
        with path.open(encoding="utf-8-sig") as text:
            while text.read(1 << 20):
                pass
        return "utf-8-sig"
    except UnicodeDecodeError:
        return "cp1252"
    except OSError as error:
        raise failed(path, error) from None


def csv_lines(path: Path, label: str) -> Lines:
    """The lines of a csv file, its columns separated by ; or , or a tab as those of its header are."""
    encoding = encoding_of(path)
    with path.open(encoding=encoding, newline="", errors="replace") as text:
        separator = _separator(text)
        text.seek(0)
        reader, start = csv.reader(text, delimiter=separator, strict=True), 1
        try:
            for cells in reader:
                if start > 1 or not re.match("sep=", ",".join(cells), re.IGNORECASE):
                    yield start, [cell.strip() for cell in cells]
                start = reader.line_num + 1
        except csv.Error as error:
            raise InputError("%s: line %d: this is no csv: %s" % (label, start, error)) from None


def _separator(lines: Iterable[str]) -> str:
    for line in lines:
        if line.strip(" ;,\t\r\n") and not line.startswith("#") and not line.lower().startswith("sep="):
            return next((sign for sign in ";\t" if sign in line), ",")
    return ","


def open_workbook(path: Path) -> Any:
    """A workbook of openpyxl, whose cells have values and no formulas."""
    openpyxl: Any = package("openpyxl")
    try:
        return openpyxl.load_workbook(path, read_only=True, data_only=True)
    except OSError as error:
        raise failed(path, error) from None
    except Exception:  # whatever a damaged file makes of the package
        raise InputError("%s: this is no readable workbook; save it again as .xlsx" % name_shown(path)) from None


def worksheet_lines(path: Path, title: str) -> Lines:
    """The lines of a worksheet, as a csv file of it would have them."""
    workbook = open_workbook(path)
    try:
        for number, cells in enumerate(workbook[title].iter_rows(values_only=True), 1):
            yield number, ["" if cell is None else _cell_text(cell) for cell in cells]
    finally:
        workbook.close()


def _cell_text(cell: object) -> str:
    if isinstance(cell, float):
        return str(int(cell)) if cell.is_integer() else repr(round(cell, 9))
    return str(cell).strip()


# ------------------------------------------------------------------ cells


def column_name(word: str, kind: str) -> str:
    """A column as it is called here; capital letters, spaces and a unit in brackets do not matter."""
    word = re.sub(r"[\[(].*?[\])]", "", word.replace("\u00a0", " ")).strip().strip('"').casefold()
    if kind == "grid" and plain(word) in DURATIONS:
        return plain(word)
    word = re.sub(r"[\s-]+", "_", word)
    return OTHER_NAMES.get(word, word)


def clean(word: str) -> str:
    """A number as the builder takes it, where it can mean one thing: 15200.0, 14,50, 45 % and a typographic minus.
    With three places it may be a thousand, and is left to be refused."""
    word = word.replace("\u00a0", "").replace("\u202f", "").replace("\u2212", "-").removesuffix("%").rstrip()
    form = re.fullmatch(r"([+-]?[0-9]*)[.,]([0-9]{1,2}|[0-9]{4,})", word)
    if form is None:
        return word
    places = form[2].rstrip("0")
    return (form[1] or "0") + ("." + places if places else "")


def _technology(word: str) -> str:
    form = re.fullmatch(r"euro[ -]?([1-6])", word)
    return form[1] if form else "0" if word in ("conventional", "conv.", "conv") else word


@lru_cache(65_536)
def cell_of(name: str, word: str) -> str:
    """A cell as the builder takes it; most cells of long tables are alike."""
    if name == "name":
        return word
    word = clean(word.strip())
    folded = " ".join(word.casefold().split())
    if name == "class":
        return CLASS_WORDS.get(folded, word)
    if name == "technology":
        return _technology(folded)
    if name in ("canister", "tank"):
        return folded
    return plain(word) if name in ("duration", "end_hour") else word


def check_header(header: list[str], kind: str, where: str) -> None:
    known = (*COLUMNS[kind], *WHICH, *NOT_READ)
    for i, name in enumerate(header):
        if name and name not in known:
            near = difflib.get_close_matches(name, known, 1)
            raise InputError("%s: %s is no column of %s; %s" % (
                where, quoted(name), kind,
                "did you mean %s?" % near[0] if near else "it has year, region, name, " + ", ".join(COLUMNS[kind])))
        if name and name in header[:i]:
            raise InputError("%s: the column %s is there twice" % (where, name))
    missing = [name for name in NEEDED[kind] if name not in header]
    if missing:
        raise InputError("%s: the column %s is missing" % (where, ", ".join(missing[:5])))


# ------------------------------------------------------------------ the database


class Rows:
    """The rows of all tables, in a database at `path`; a second one opens it to read what the first has `found`."""

    def __init__(self, path: Path, found: Found | None = None) -> None:
        self.path, self.found, self._places = path, found or Found(), 0
        if found is None:
            path.unlink(missing_ok=True)
        self._base = sqlite3.connect(path, isolation_level=None)
        if found is None:
            self._base.execute("pragma journal_mode = off")
            self._base.execute("pragma synchronous = off")
            self._base.execute("create table row (kind text, region text, first int, last int, place int, label text, "
                               "line int, cells text)")

    def close(self) -> None:
        self._base.close()
        self.path.unlink(missing_ok=True)

    def take(self, source: Source) -> None:
        """Reads a table; what is wrong with its rows is gathered in `found`."""
        lines = source.lines()
        header: list[str] = []
        self.found.kinds.add(source.kind)
        self._base.execute("begin")
        for number, cells in lines:
            if not any(cells) or cells[0].startswith("#"):
                continue
            if not header and sum(map(bool, cells)) == 1:  # a title above the table
                continue
            if not header:
                header = [column_name(cell, source.kind) for cell in cells]
                check_header(header, source.kind, "%s: line %d" % (source.label, number))
                continue
            self._take_row(source, number, header, cells)
        self._base.execute("commit")
        if not header:
            raise InputError("%s: the table is empty; its first line names the columns: %s" % (
                source.label, ", ".join(COLUMNS[source.kind])))

    def _take_row(self, source: Source, number: int, header: list[str], cells: list[str]) -> None:
        try:
            if any(cells[len(header):]):
                raise TextError("%d cells, and the header has %d columns" % (len(cells), len(header)))
            given = {name: cell for name, cell in zip(header, cells) if cell and name and name not in NOT_READ}
            spans = _spans(given, source)
            word = given.pop("region", "")
            region = source.region if word.casefold() in EVERY else word
        except TextError as error:
            self.found.wrong.add("%s: line %d: %s" % (source.label, number, error))
            return
        text = json.dumps({name: cell_of(name, word) for name, word in given.items()}, ensure_ascii=False)
        self._places += 1
        for span in spans:
            self.found.take(span, region)
            self._base.execute("insert into row values (?, ?, ?, ?, ?, ?, ?, ?)", (
                source.kind, region_key(region), *span, self._places, source.label, number, text))

    def index(self) -> None:
        self._base.execute("create index by_region on row (kind, region, first)")

    def of(self, kind: str, year: int, region: str) -> Iterator[tuple[str, dict[str, str]]]:
        """The rows of a table that hold for a year and a region, each with its place, in the tables' order."""
        for label, line, cells in self._base.execute(
                "select label, line, cells from row where kind = ? and region in ('', ?) and first <= ? and last >= ? "
                "order by place", (kind, region_key(region), year, year)):
            yield "%s: line %d" % (label, line), json.loads(cells)


def _spans(given: dict[str, str], source: Source) -> tuple[Span, ...]:
    """The years of a row, taken out of its cells."""
    first, last = given.pop("year_from", ""), given.pop("year_to", "")
    word = given.pop("year", "")
    if first or last:
        if word:
            raise TextError("there is a year and also year_from or year_to; write one of them")
        return (Span(year_of(first) if first else NO_START, year_of(last) if last else NO_END),)
    spans = spans_of(word)
    return (source.span,) if spans == (ALL_YEARS,) else spans


def source_of(path: Path, kind: str, span: Span, region: str) -> Source:
    """The table of a csv file."""
    label = name_shown(path)
    return Source(kind, label, lambda: csv_lines(path, label), span, region)
