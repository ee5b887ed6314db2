"""A project: a folder of sheets, a folder of tables, or a workbook; the sheets of its years and regions."""

import os
from collections.abc import Callable, Iterable, Iterator
from dataclasses import dataclass, field
from functools import partial
from math import gcd
from pathlib import Path, PurePath
from typing import Any

from evp.files import FileError, InputError, failed, read_sheet
from evp.layout import MOST_ROWS
from evp.sheet import Builder, TextError, doubts
from evp.sheet.folders import DURATIONS, HOURS
from evp.wording import name_shown, quoted
from evp.workers import Workers
from evp.years.naming import ALL_YEARS, Name, Span, name_of, region_key
from evp.years.run import AHEAD, ENDED
from evp.years.tables import KINDS, Rows, Source, open_workbook, source_of, worksheet_lines

STATE = ".state"  # which a folder of results has
FEW, PART = 24, 8  # sheets that one process makes; sheets that a process makes at once
MOST_COUNT = 65_535  # of a cell of a grid
LISTS = {"durations": ("duration", "lasting", DURATIONS), "hours": ("end_hour", "ending", HOURS)}
GUIDEBOOK = {  # Tables 3-12 and 3-13, for a project without a table of parkings; as the form of evp.pages has them
    "durations": "420 140 20 49 59 20 29 15 15 10 10 5 10 5 5 5 5 5 5 5 5 5 5 130".split(),
    "hours": "12 7 4 7 22 46 55 52 52 53 55 46 52 56 58 64 65 63 51 44 42 39 31 22".split(),
}
NO_PARKING = "there is no table parking or grid, so Tables 3-12 and 3-13 of the guidebook are taken for the parkings"
MIXED = "some names have no region beside others that have one; in sums it counts as a region of its own"
WORKBOOKS = (".xlsx", ".xlsm")
TEXTS = (".csv", ".tsv")


@dataclass(frozen=True)
class Entry:
    """A year of a region: its sheet, or why it has none. `status` is empty where the sheet is to be reported."""
    year: int | None
    region: str
    path: Path | None = None
    status: str = ""
    reason: str = ""

    @property
    def order(self) -> tuple[int, str, str]:
        return (self.year or 9999, region_key(self.region), str(self.path))

    @property
    def file_name(self) -> str:
        """Of the sheet that is made of tables."""
        region = "".join("_" if sign in '/\\:*?"<>|' or not sign.isprintable() else sign for sign in self.region)
        return "%s-%d.evp" % (region, self.year or 0) if region else "%d.evp" % (self.year or 0)


@dataclass
class Project:
    """The years of a project in order; `rows` where it is made of tables, which `notes` says something about."""
    entries: list[Entry]
    rows: Rows | None = None
    notes: list[str] = field(default_factory=list)
    sources: list[Path] = field(default_factory=list)


def find_project(path: Path, out: Path, state: Path) -> Project:
    """Reads what a project has; `out` is left out, and `state` is a folder for the rows of tables."""
    if path.is_file():
        if path.suffix.lower() in WORKBOOKS:
            return _of_tables(list(_worksheets(path)), state, [path])
        raise InputError("%s: a folder of sheets or of tables is wanted, or a workbook (.xlsx)" % name_shown(path))
    if not path.is_dir():
        raise FileError(path, "there is no such folder")
    files = list(_files(path, out))
    sheets = [file for file in files if file.suffix.lower() == ".evp"]
    tables = list(_tables(path, files))
    if sheets and tables:
        raise InputError("%s: both sheets (%s) and tables (%s) are there; name a folder that has one of them" % (
            name_shown(path), name_shown(sheets[0].name), tables[0].label))
    if sheets:
        entries = _of_sheets(path, sheets)
        regions = {entry.region for entry in entries if entry.year is not None}
        return Project(entries, None, [MIXED] if "" in regions and len(regions) > 1 else [], sheets)
    if tables:
        return _of_tables(tables, state, files)
    raise InputError("%s: neither sheets (1990.evp, north-1990.evp) nor tables (seasons.csv, fleet.csv, parking.csv or "
                     "grid.csv) are there" % name_shown(path))


def _files(folder: Path, out: Path) -> Iterator[Path]:
    """All files below a folder but hidden ones and those below `out` or below another folder of results."""
    avoided = out.resolve()
    for at, folders, names in os.walk(folder, onerror=_raise):
        folders[:] = sorted(name for name in folders if not name.startswith(".")
                            and (Path(at) / name).resolve() != avoided and not (Path(at) / name / STATE).is_dir())
        yield from (Path(at) / name for name in sorted(names) if not name.startswith((".", "~")))


def _raise(error: OSError) -> None:
    raise failed(error.filename, error) from None


# ------------------------------------------------------------------ sheets


def _of_sheets(folder: Path, sheets: list[Path]) -> list[Entry]:
    names = _named(folder, sheets)
    spelling: dict[str, str] = {}
    found: dict[tuple[int, str], list[Path]] = {}
    entries: list[Entry] = []
    for path, name in zip(sheets, names):
        if len(name.years) != 1:
            entries.append(Entry(None, "", path, "unnamed", _no_year(name)))
            continue
        spelling.setdefault(region_key(name.region), name.region)
        found.setdefault((name.years[0], region_key(name.region)), []).append(path)
    for (year, key), paths in found.items():
        if len(paths) == 1:
            entries.append(Entry(year, spelling[key], paths[0]))
        else:
            several = ", ".join(name_shown(path.relative_to(folder)) for path in paths)
            entries.append(Entry(year, spelling[key], None, "twice", "%d files are of this year%s: %s; keep one" % (
                len(paths), " and region" if key else "", several)))
    return sorted(entries, key=lambda entry: entry.order)


def _named(folder: Path, sheets: list[Path]) -> list[Name]:
    """Years and regions; folders that all sheets share name no region where the files do."""
    parts = [path.relative_to(folder).with_suffix("") for path in sheets]
    alone = [name_of(PurePath(part.name)) for part in parts]
    if all(name.years and name.region for name in alone):
        common = os.path.commonpath([part.parent for part in parts]) if len(parts) > 1 else str(parts[0].parent)
        parts = [part.relative_to(common) for part in parts]
    return [name_of(part) for part in parts]


def _no_year(name: Name) -> str:
    if not name.years:
        return "its name has no year; a name such as 1990.evp or north-1990.evp has one"
    return "its name has several years (%s); keep one of them" % ", ".join(map(str, name.years))


# ------------------------------------------------------------------ tables


def kind_of(stem: str) -> str:
    """Which table a name such as fleet, Fleet_1990 or seasons-north is of; empty for none."""
    return next((kind for kind in KINDS if stem.casefold().startswith(kind)
                 and not stem[len(kind):len(kind) + 1].isalpha()), "")


def _tables(folder: Path, files: Iterable[Path]) -> Iterator[Source]:
    for path in files:
        if path.suffix.lower() in WORKBOOKS:
            yield from _worksheets(path, folder)
        kind = kind_of(path.stem) if path.suffix.lower() in TEXTS else ""
        if kind:
            inside = path.relative_to(folder).with_name(path.stem[len(kind):] or "_")
            yield source_of(path, kind, *_which(inside, path))


def _which(inside: PurePath, path: Path) -> tuple[Span, str]:
    """The year and region for rows that have none of their own, by the name of the table."""
    name = name_of(inside)
    if len(name.years) > 1:
        if len(name.years) == 2:
            return Span(min(name.years), max(name.years)), name.region
        raise InputError("%s: its name has several years (%s)" % (name_shown(path), ", ".join(map(str, name.years))))
    return (Span(name.years[0], name.years[0]) if name.years else ALL_YEARS), name.region


def _worksheets(path: Path, folder: Path | None = None) -> Iterator[Source]:
    """The tables of a workbook."""
    workbook = open_workbook(path)
    titles: list[str] = [worksheet.title for worksheet in workbook.worksheets]
    workbook.close()
    tables = [(title, kind_of(title.strip())) for title in titles if kind_of(title.strip())]
    if not tables and folder is None:
        raise InputError("%s: no worksheet is called %s; it has %s" % (
            name_shown(path), ", ".join(KINDS), ", ".join(map(quoted, titles[:8]))))
    for title, kind in tables:
        label = "%s, worksheet %s" % (name_shown(path), title)
        inside = PurePath(title.strip()[len(kind):] or "_")
        yield Source(kind, label, partial(worksheet_lines, path, title), *_which(inside, path))


def _of_tables(tables: list[Source], state: Path, files: list[Path]) -> Project:
    rows = Rows(state / "tables.sqlite")
    for source in tables:
        rows.take(source)
    found = rows.found
    if found.wrong.many:
        raise InputError(str(found.wrong), found.wrong.more)
    for kind in ("seasons", "fleet"):
        if kind not in found.kinds:
            raise InputError("there is no table %s; a project has seasons, fleet, and parking or grid" % kind)
    years = sorted(found.years or found.ranges)
    if not years:
        raise InputError("no table names a year; add a column year (1990, or 1990-1999)")
    rows.index()
    regions = list(found.regions.values()) or [""]
    entries = [Entry(year, region) for year in years for region in regions]
    notes = [] if found.kinds & {"parking", "grid"} else [NO_PARKING]
    return Project(sorted(entries, key=lambda entry: entry.order), rows, notes, files)


# ------------------------------------------------------------------ sheets made of tables


@dataclass
class Made:
    """A sheet made of tables: its bytes, the names of its seasons and rows, and what to look at; or why there is
    none."""
    data: bytes = b""
    seasons: list[str] = field(default_factory=list)
    rows: list[str] = field(default_factory=list)
    notes: list[str] = field(default_factory=list)
    status: str = ""
    reason: str = ""


def make_sheets(rows: Rows, entries: list[Entry], jobs: int) -> Iterator[Made]:
    """The sheets of entries in their order, by several processes where there are many."""
    which = [(entry.year or 0, entry.region) for entry in entries]
    if jobs == 1 or len(which) < FEW:
        yield from (make_sheet(rows, *one) for one in which)
        return

    def start() -> Callable[[list[tuple[int, str]]], list[Made]]:
        own = Rows(rows.path, rows.found)  # each process opens the tables for itself
        return lambda part: [make_sheet(own, year, region) for year, region in part]

    parts = [which[i:i + PART] for i in range(0, len(which), PART)]
    workers: Workers[list[tuple[int, str]], list[Made]]
    with Workers(start, jobs, ENDED) as workers:
        for i in range(0, len(parts), AHEAD * jobs):
            for made in workers.in_order(parts[i:i + AHEAD * jobs]):
                yield from made


def make_sheet(rows: Rows, year: int, region: str) -> Made:
    """The sheet of a year and a region."""
    new: Any = Builder
    builder: Builder = new()
    made = Made()
    for kind, names in (("seasons", made.seasons), ("fleet", made.rows)):
        for where, cells in rows.of(kind, year, region):
            names.append(cells.pop("name", ""))
            with builder.at(where):
                builder.add_season(cells) if kind == "seasons" else builder.add_row(cells)
        if not names:
            return Made(status="missing", reason="the table %s has no row for it" % kind)
    try:
        _add_parking(builder, rows, year, region)
        made.data = builder.data()
    except TextError as error:
        lines = error.messages
        more = "; and %d more" % (len(lines) - 3 + error.more) if len(lines) + error.more > 3 else ""
        return Made(status="unreadable", reason="; ".join(lines[:3]) + more)
    made.notes = list(doubts(builder))
    return made


def _add_parking(builder: Builder, rows: Rows, year: int, region: str) -> None:
    grid = list(rows.of("grid", year, region))
    lists = list(rows.of("parking", year, region))
    if grid and lists:
        raise TextError("%s and %s: both a grid and lists of parkings hold for it; keep one of them" % (
            grid[0][0], lists[0][0]))
    if grid:
        _add_grid(builder, grid)
        return
    if not lists and rows.found.kinds & {"parking", "grid"}:
        raise TextError("the tables parking and grid have no row for it")
    found = {name: _list_of(lists, *columns) for name, columns in LISTS.items()} if lists else GUIDEBOOK
    where = lists[0][0] if lists else "Tables 3-12 and 3-13"
    many = len(builder.rows) > MOST_ROWS or any("mileage" in given for given in builder.row_words)
    if many:
        _add_products(builder, found["durations"], found["hours"], where)
        return
    for name, counts in found.items():
        with builder.at(where):
            builder.add_counts(name, tuple(counts))


def _add_grid(builder: Builder, grid: list[tuple[str, dict[str, str]]]) -> None:
    for where, cells in grid:
        with builder.at(where):
            hour = cells.get("end_hour", "")
            if hour not in HOURS:
                raise TextError("end_hour: %s is not 1 to 24" % quoted(hour))
            if "grid " + hour in builder.parking:
                raise TextError("end_hour %s is given twice" % hour)
            builder.add_counts("grid " + hour, tuple(cells.get(duration, "0") for duration in DURATIONS))


def _list_of(lines: list[tuple[str, dict[str, str]]], key: str, count: str, keys: list[str]) -> list[str]:
    """The 24 counts of a list."""
    found: dict[str, str] = {}
    for where, cells in lines:
        if key not in cells and count not in cells:
            continue
        word = cells.get(key, "")
        if word not in keys:
            raise TextError("%s: %s: %s is not %s to %s" % (where, key, quoted(word), keys[0], keys[-1]))
        if word in found:
            raise TextError("%s: %s %s is given twice" % (where, key, word))
        found[word] = cells.get(count, "0")
    missing = [word for word in keys if word not in found]
    if missing:
        raise TextError("%s: %s: all of %s to %s are wanted; %s is missing" % (
            lines[0][0], key, keys[0], keys[-1], missing[0]))
    return [found[word] for word in keys]


def _add_products(builder: Builder, durations: list[str], hours: list[str], where: str) -> None:
    """The grid of two lists, for sheets that want one."""
    counts = [[_count(word, where) for word in words] for words in (durations, hours)]
    for i, numbers in enumerate(counts):
        common = gcd(*numbers)
        if max(counts[0]) * max(counts[1]) > MOST_COUNT and common:
            counts[i] = [number // common for number in numbers]
    if max(counts[0]) * max(counts[1]) > MOST_COUNT:
        raise TextError("%s: a product of the two lists is above %d; divide a list by a number" % (where, MOST_COUNT))
    for hour, ends in zip(HOURS, counts[1]):
        with builder.at(where):
            builder.add_counts("grid " + hour, tuple(str(ends * lasts) for lasts in counts[0]))


def _count(word: str, where: str) -> int:
    if not word.isascii() or not word.isdigit():
        raise TextError("%s: %s is no count" % (where, quoted(word)))
    return int(word)


def sheet_bytes(entry: Entry) -> tuple[bytes, str]:
    """The bytes of a sheet, or why it cannot be read."""
    if entry.path is None:
        return b"", "there is no sheet"
    try:
        return read_sheet(entry.path), ""
    except FileError as error:
        return b"", error.reason
