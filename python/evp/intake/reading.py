"""The filed masses of all tables of a class. A cell that cannot be read is a filing with its reason, so that everything
else is marked; what was not plain is kept as a reading beside the original."""

import re
from collections.abc import Callable, Iterable, Iterator
from dataclasses import dataclass, field
from itertools import islice
from typing import Any, NamedTuple, cast

from evp.collecting import no_collection
from evp.figures import TOTAL, Figure
from evp.files import InputError
from evp.intake import layout as layouts
from evp.intake import names, numbers, units
from evp.intake.decode import decode
from evp.intake.find import File
from evp.intake.layout import FIGURE, MECHANISM, ROW, SHEET, UNIT, Column, Layout
from evp.intake.names import SUM, Sheets
from evp.intake.numbers import TWO_THINGS, NotRead, Number
from evp.intake.separators import Line, is_show, records, separator_of, show_records
from evp.intake.workbook import kind_of, tabs
from evp.library import GROUPS, MECHANISMS, Filed, Unit
from evp.marking import MOST_WORD, Filing
from evp.wording import counted, name_shown, quoted, shortened

MOST_UNREAD = 5_000  # lines of a table that are told one by one; of the others only plain ones are read
MOST_READINGS = 100_000
SHOWN = 60  # characters of a cell in a message
_PLAIN = re.compile(r"[0-9]+(?:\.[0-9]+)?")
_UNIT_BY_POWER = {0: Unit.MG, 3: Unit.G, 6: Unit.KG, 9: Unit.T}


class Reading(NamedTuple):
    """What was read of a cell that was not plain. A line of readings.csv."""
    file: str
    place: str
    sheet: str
    row: str
    mechanism: str
    filed: str
    read: str
    why: str


@dataclass
class Taken:
    """What was filed: every figure in the order of the tables, what was read of cells that were not plain, what to say
    once of a table, and the tables that cannot be read, each with its file."""
    filings: list[Filing] = field(default_factory=list)
    readings: list[Reading] = field(default_factory=list)
    remarks: list[str] = field(default_factory=list)
    unread: list[str] = field(default_factory=list)
    semicolons: list[bool] = field(default_factory=list)
    used: list[str] = field(default_factory=list)  # the files of the disk that something was read from

    @property
    def semicolon(self) -> bool:
        """Whether marks.csv is separated by ; as all tables are."""
        return bool(self.semicolons) and all(self.semicolons)


class _Table(NamedTuple):
    """A table of a file: how it is shown, the name of its tab, its lines as often as they are asked for, what separates
    its columns (empty in a workbook), and cells that are no values."""
    file: File
    tab: str
    lines: Callable[[], Iterator[Line]]
    separator: str
    faults: dict[tuple[int, int], str]
    remarks: list[str]
    numbers: set[tuple[int, int]] = set()

    @property
    def label(self) -> str:
        return self.file.label + (", tab %s" % name_shown(self.tab) if self.tab else "")


def take(files: Iterable[File], sheet_names: Iterable[str], most: int | None = None) -> Taken:
    """All that is filed in these files, for the sheets that are there; InputError where there are more than `most`
    lines."""
    taken, sheets = Taken(), Sheets(list(sheet_names))
    try:
        for file in files:
            try:
                _take_file(taken, file, sheets, most)
            except NotRead as error:
                _unread(taken, file, sheets, str(error))
        _settle_names(taken, sheets)
        _settle_twice(taken)
        return taken
    finally:
        _forget()


def _forget() -> None:
    """Keeps nothing of a class for the next."""
    names.start()
    for cached in (numbers._normal, numbers.evidence, numbers.not_a_mass, units.read, layouts.column_of):
        cast(Any, cached).cache_clear()


def _unread(taken: Taken, file: File, sheets: Sheets, reason: str) -> None:
    """A table that cannot be read is a line of the result for its participant."""
    sheet = sheets.of_file(file.name, *reversed(file.folder.split("/"))) or file.name
    taken.unread.append("%s: %s" % (file.label, reason))
    taken.used.append(file.source)
    taken.filings.append(Filing(sheet, Figure("", ""), "", "", None, "%s: %s" % (file.label, reason)))


def _take_file(taken: Taken, file: File, sheets: Sheets, most: int | None) -> None:
    if file.problem:
        raise NotRead(file.problem)
    tables, seen = list(_tables(file)), 0
    found = [(table, layouts.find(list(islice(table.lines(), layouts.LOOK)))) for table in tables]
    for table, layout in found:
        if layout is None:
            continue
        seen += 1
        if layouts.is_own(layout.names):
            taken.remarks.append("%s: these are marks that evp mark has made, and no filing" % table.label)
            continue
        taken.semicolons.append(table.separator == ";")
        taken.used.append(file.source)
        _Reader(taken, table, layout, sheets, most).read()
    if not seen:
        raise NotRead("no table of filed masses is found in it: a header such as sheet,row,mechanism,mass,unit, or "
                      "columns diurnal, soak and running")
    if len(tables) > 1:
        taken.remarks += ["%s: nothing is filed on it" % table.label for table, layout in found if layout is None]


def _tables(file: File) -> Iterator[_Table]:
    """The tables of a file: one of a text, one of each tab of a workbook."""
    if file.data.startswith(b"PK\3\4"):
        kind = kind_of(file.data)
        if kind not in ("xlsx", "ods"):
            raise NotRead(kind)
        for tab in tabs(file.data, kind):
            if tab.hidden and tab.lines:
                yield _Table(file, tab.name, lambda: iter(()), "", {}, [])
            elif tab.lines:
                yield _Table(file, tab.name, tab.lines.__iter__, "", tab.faults, tab.notes, tab.numbers)
        return
    text, encoding = decode(file.data)
    remarks = ["read as %s" % encoding] if encoding else []
    if is_show(text):
        yield _Table(file, "", lambda: show_records(text), "\t", {}, ["read as what evp show prints"])
        return
    separator = separator_of(text)
    yield _Table(file, "", lambda: records(text, separator), separator, {}, remarks)


# ------------------------------------------------------------------ one table


class _Settled(NamedTuple):
    """What the whole of a table settles: its decimal character, that of single sheets where they differ, and the one
    unit of all lines that have one."""
    decimal: str
    by_sheet: dict[str, str]
    unit: str


def _settle(lines: Iterable[Line], layout: Layout, are_numbers: set[tuple[int, int]]) -> _Settled:
    found: dict[str, set[str]] = {}
    masses, sheet_at, unit_at = layout.masses, layout.place(SHEET), layout.place(UNIT)
    found_units: set[str] = set()
    for number, cells in lines:
        width = len(cells)
        if number <= layout.header or width == 1:
            continue
        if unit_at is not None and unit_at < width and cells[unit_at] and len(found_units) < 3:
            found_units.add(cells[unit_at])
        for at in masses:
            if at < width and ("." in cells[at] or "," in cells[at]) and (number, at + 1) not in are_numbers:
                sign = numbers.evidence(cells[at])
                if sign:
                    key = cells[sheet_at] if sheet_at is not None and sheet_at < width else ""
                    found.setdefault(key, set()).add(sign)
    signs = set().union(*found.values()) if found else set()
    by_sheet = {key: next(iter(own)) for key, own in found.items() if len(own) == 1} if len(signs) == 2 else {}
    return _Settled(next(iter(signs)) if len(signs) == 1 else "", by_sheet,
                    next(iter(found_units)) if len(found_units) == 1 else "")


class _Reader:
    """Reads one table."""

    def __init__(self, taken: Taken, table: _Table, layout: Layout, sheets: Sheets, most: int | None):
        self.taken, self.table, self.layout, self.sheets, self.most = taken, table, layout, sheets, most
        self.settled = _settle(table.lines(), layout, table.numbers)
        self.conventional = "," if table.separator == ";" else "."
        file = table.file
        self.default = sheets.of_file(table.tab, file.name, *reversed(file.folder.split("/"))) or (
            next(iter(sheets.names)) if len(sheets.names) == 1 else "")
        self.last_sheet = self.last_row = self.own_point = ""
        self.label, self.least = table.label, 0
        self.figures: dict[tuple[str, str], Figure] = {}
        self.fast: tuple[int, int, int, int, int] | None = None
        self.unread = self.passed = self.read_lines = 0
        self._places()

    def _places(self) -> None:
        place = self.layout.place
        self.sheet_at, self.row_at, self.mechanism_at = place(SHEET), place(ROW), place(MECHANISM)
        self.unit_at, self.figure_at, self.masses = place(UNIT), place(FIGURE), self.layout.masses
        found = self.sheet_at, self.row_at, self.mechanism_at, self.masses[0], self.unit_at
        column, self.fast = self.layout.columns[self.masses[0]], None
        if len(self.masses) == 1 and None not in found and not (
                column.row or column.mechanism or column.unit) and not self.table.faults:
            self.fast = cast(tuple[int, int, int, int, int], found)
            self.least = max(self.fast) + 1
        self.points = self.settled.decimal == "." or not self.settled.decimal and self.conventional == "." and (
            not self.settled.by_sheet)

    def read(self) -> None:
        self._check_sheet()
        self._remark_layout()
        with no_collection():
            self._lines()
        if self.unread > MOST_UNREAD:
            many = counted(self.unread - MOST_UNREAD, "line")
            self.taken.filings.append(Filing(
                self.default or self.table.file.name, Figure("", ""), "", "", None,
                "%s: %s more cannot be read" % (self.label, many)))
            self.taken.unread.append("%s: %s cannot be read" % (self.label, counted(self.unread, "line")))
        if self.passed:
            self._remark("%s without a figure passed over" % counted(self.passed, "line"))

    def _lines(self) -> None:
        for number, cells in self.table.lines():
            if number > self.layout.header:
                if self.most is not None and self.read_lines >= self.most:
                    raise InputError("%s: more than %s at once; evp mark takes any number" % (
                        self.table.label, counted(self.most, "line")))
                self.read_lines += 1
                if len(cells) < 2 or not self._plain_line(number, cells):
                    self._line(number, cells)

    def _check_sheet(self) -> None:
        """That a table says which sheet it is for: in a column, by a title, by its name, or in lines of their own."""
        if self.sheet_at is not None or self.default:
            return
        for number, cells in self.table.lines():
            words = [cell for cell in cells if cell]
            if number < self.layout.header:
                self.default = self.default or self.sheets.of_file(*words)
            elif len(words) == 1 and words[0] in self.sheets.names or self.default:
                return
        raise NotRead("it does not say which sheet it is for: it has no column sheet, and neither its name nor its "
                      "folder is that of a sheet")

    def _remark(self, text: str) -> None:
        self.taken.remarks.append("%s: %s" % (self.table.label, text))

    def _remark_layout(self) -> None:
        for text in self.table.remarks:
            self._remark(text)
        if self.layout.passed:
            shown = ", ".join(quoted(name) for name in self.layout.passed[:6])
            more = " and %d more" % (len(self.layout.passed) - 6) if len(self.layout.passed) > 6 else ""
            self._remark("%s passed over: %s%s" % (
                "column" if len(self.layout.passed) == 1 else "columns", shown, more))
        if not self.layout.header:
            columns = sorted(self.layout.columns.items())
            self._remark("no header; by what they have the columns are %s" % ", ".join(
                "%d %s" % (at + 1, column.role) for at, column in columns))
        if self.settled.decimal and self.settled.decimal != self.conventional:
            self._remark("the decimal character is a %s, as other cells show" % (
                "comma" if self.settled.decimal == "," else "point"))
        if self.table.separator not in (",", ";", ""):
            sign = "tabs" if self.table.separator == "\t" else self.table.separator
            self._remark("columns separated by %s" % sign)
        if self.sheet_at is None and self.default:
            self._remark("read for %s, by its name" % name_shown(self.default))

    # -------------------------------------------------------------- lines

    def _plain_line(self, number: int, cells: list[str]) -> bool:
        """Reads a line of a long table that is plain in all its cells; most are."""
        if self.fast is None or len(cells) < self.least:
            return False
        sheet_at, row_at, mechanism_at, mass_at, unit_at = self.fast
        sheet, mass, unit = cells[sheet_at], cells[mass_at], units.PLAIN.get(cells[unit_at])
        if sheet not in self.sheets.names or unit is None or not self.points or not _PLAIN.fullmatch(mass):
            return False
        key = cells[row_at], cells[mechanism_at]
        figure = self.figures.get(key)
        if figure is None:
            figure = _plain_figure(*key)
            if figure is None:
                return False
            self.figures[key] = figure
        self.last_sheet, self.last_row = sheet, key[0]
        whole, _, places = mass.partition(".")
        digits = (whole + places).lstrip("0")
        value = int(digits or "0") if len(digits) <= 19 else MOST_WORD  # 19 digits are a word
        self.taken.filings.append(Filing(sheet, figure, mass, cells[unit_at], Filed(
            value, len(places), _UNIT_BY_POWER[unit]), "", 0, "%s, line %d" % (self.label, number)))
        return True

    def _line(self, number: int, cells: list[str]) -> None:
        """Reads a line that is not plain."""
        if self.unread + self.passed > MOST_UNREAD:
            self.unread += 1
            return
        self.own_point = ""
        if len(cells) == 1 or ";" in cells[0] and self.table.separator == ",":
            cells, self.own_point = _split_again(cells, self.table.separator, len(self.layout.columns))
        filled = [at for at, cell in enumerate(cells) if cell]
        if not filled:
            return
        if len(filled) == 1 and self._heading(cells[filled[0]], filled[0]):
            return
        if not any(at in self.masses or (number, at + 1) in self.table.faults for at in filled) and (
                self._again(number, cells) or len(filled) <= 2 and self._is_remark(cells)):
            self.passed += self.layout.header != number
            return
        try:
            sheet, said = self._sheet(cells)
        except NotRead as error:
            return self._unread_line(number, cells, str(error))
        if len(self.masses) == 1 and not self._column().row and not self._column().mechanism:
            self._long(number, cells, sheet, said)
        elif not self._again(number, cells):
            self._wide(number, cells, sheet, said)

    def _column(self) -> Column:
        return self.layout.columns[self.masses[0]]

    def _again(self, number: int, cells: list[str]) -> bool:
        """Whether a line is a header again, as where tables were put behind each other, or the units of the columns."""
        if self.layout.header and layouts._only_units(cells) and not any(
                names.figure_of(cell) for cell in cells if cell):
            return True
        if not layouts.is_header(cells):
            return False
        self.layout = layouts.of_header(number, cells, [], [])._replace(title_unit=self.layout.title_unit)
        self._places()
        self.last_sheet = self.last_row = ""
        return True

    def _heading(self, cell: str, at: int) -> bool:
        """A line of one cell: the name of a sheet above its lines, or a title or footnote, which is passed over."""
        if at in self.masses:
            return False
        try:
            sheet = self.sheets.find(cell)
        except NotRead:
            sheet = ""
        if sheet in self.sheets.names:
            self.last_sheet, self.last_row = sheet, ""
        elif at == self.row_at and names.row_of(cell) not in ("", TOTAL):
            self.last_row = cell
        else:
            self.passed += 1
        return True

    def _is_remark(self, cells: list[str]) -> bool:
        """Whether a line without a mass names no figure either."""
        row, mechanism = self._cell(cells, self.row_at), self._cell(cells, self.mechanism_at)
        return not mechanism and not (row and names.row_of(row)) and not self._cell(cells, self.figure_at)

    def _cell(self, cells: list[str], at: int | None) -> str:
        return cells[at] if at is not None and at < len(cells) else ""

    def _sheet(self, cells: list[str]) -> tuple[str, str]:
        """The sheet of a line, and what to say where it is not as it was written."""
        name = self._cell(cells, self.sheet_at)
        if not name:
            if self.last_sheet:
                return self.last_sheet, "" if self.sheet_at is None else "the name of the sheet of a line above"
            if not self.default:
                raise NotRead("sheet: the name of the sheet is missing")
            return self.default, "" if self.sheet_at is None else "the sheet by the name of the table"
        found = self.sheets.find(_as_written(name), self.table.file.folder)
        if found != self.last_sheet:
            self.last_sheet, self.last_row = found, ""
        return found, "" if found == name else "the sheet %s" % name_shown(found)

    def _long(self, number: int, cells: list[str], sheet: str, said: str) -> None:
        row, mechanism = self._cell(cells, self.row_at), self._cell(cells, self.mechanism_at)
        if self.figure_at is not None and not row:
            row = self._cell(cells, self.figure_at)
        mass = self._cell(cells, self.masses[0])
        if not row and mechanism and self.last_row and names.mechanism_of(mechanism) != SUM:
            row, said = self.last_row, said or "the row of a line above"
        elif row:
            self.last_row = row
        try:
            named = names.figure(row, mechanism)
        except NotRead as error:
            if not mass and self._is_sum(cells) or self._again(number, cells):
                self.passed += 1
                return
            if self._is_sum(cells):
                self.passed += 1
                return
            at = self.mechanism_at if str(error).startswith(("mechanism", "the mechanism")) else self.row_at
            return self._unread_line(number, cells, str(error), sheet, at)
        if not named.plain and not said:
            said = "%s" % named.figure.name
        self._mass(number, cells, self.masses[0], sheet, named.figure, said)

    def _is_sum(self, cells: list[str]) -> bool:
        """Whether a line has the sum of a column and is of no sheet."""
        name = self._cell(cells, self.sheet_at)
        return bool(name) and names.row_of(name) in (TOTAL, "all") and name not in self.sheets.names and not self._cell(
            cells, self.row_at) and not self._cell(cells, self.mechanism_at)

    def _wide(self, number: int, cells: list[str], sheet: str, said: str) -> None:
        row, mechanism = self._cell(cells, self.row_at), self._cell(cells, self.mechanism_at)
        if self.figure_at is not None and not row:
            row = self._cell(cells, self.figure_at)
        if self._is_sum(cells) or self._is_caption(cells, row, mechanism):
            self.passed += 1
            return
        filled = [at for at in self.masses if self._cell(cells, at) or (number, at + 1) in self.table.faults]
        single = len(filled) == 1 and len(self.masses) > 1 and not self._has_total()
        for at in self.masses:
            column = self.layout.columns[at]
            try:
                figure = _wide_figure(row, mechanism, column)
                if figure is None or at not in filled and column.mechanism == SUM:
                    continue
                if single and names.row_of(row) == TOTAL and column.mechanism:
                    if at not in filled:
                        continue
                    raise NotRead("%s: the total, or the %s of all rows" % (TWO_THINGS, column.mechanism))
            except NotRead as error:
                if at in filled:
                    self._unread_line(number, cells, str(error), sheet, at)
                continue
            name = said or ("" if names.plain(row) == figure.row else figure.name)
            self._mass(number, cells, at, sheet, figure, name)

    def _has_total(self) -> bool:
        return any(self.layout.columns[at].mechanism == SUM for at in self.masses)

    def _is_caption(self, cells: list[str], row: str, mechanism: str) -> bool:
        return not any(self._cell(cells, at) for at in self.masses) and not row and not mechanism

    # -------------------------------------------------------------- masses

    def _mass(self, number: int, cells: list[str], at: int, sheet: str, figure: Figure, said: str) -> None:
        text = cells[at] if at < len(cells) else ""
        unit_text = cells[self.unit_at] if self.unit_at is not None and self.unit_at < len(cells) else ""
        try:
            fault = self.table.faults.get((number, at + 1), "")
            if fault:
                raise NotRead(fault)
            is_number = (number, at + 1) in self.table.numbers
            parsed = numbers.read(text, ".") if is_number else self._number(text, cells)
            unit, unit_text, why = self._unit(parsed, unit_text, self.layout.columns[at])
        except NotRead as error:
            return self._problem(sheet, figure, text, unit_text, "%s (%s)" % (
                _with_cell(text, str(error)), self._place(number, at)))
        filed, tens = filed_of_number(parsed, unit)
        mass = text if not parsed.rest else _bare(text, parsed.rest)
        self.taken.filings.append(Filing(sheet, figure, mass, unit_text, filed, "", tens,
                                         "%s, line %d" % (self.table.label, number)))
        why = ", ".join(filter(None, (said, "" if parsed.plain else "the number", why)))
        if why and len(self.taken.readings) < MOST_READINGS:
            original = " ".join(filter(None, (text, unit_text if not parsed.rest else "")))
            names_as_filed = self._written(cells)
            self.taken.readings.append(Reading(
                self.table.file.label, self._place(number, at, False), sheet, *figure,
                "%s%s" % (names_as_filed, original), "%s: %s" % (figure.name, read_text(filed, tens)), why))

    def _written(self, cells: list[str]) -> str:
        """The names of a line as they were written."""
        found = (self._cell(cells, at) for at in (self.sheet_at, self.row_at, self.figure_at, self.mechanism_at))
        return "".join("%s, " % shortened(cell, SHOWN) for cell in found if cell)

    def _number(self, text: str, cells: list[str]) -> Number:
        decimal = self.settled.decimal
        if self.own_point:
            nothing = numbers.not_a_mass(text)
            if nothing:
                raise NotRead(nothing)
            return numbers.read(text, self.own_point if self.own_point in text else "")
        if (decimal == "." or not decimal and self.conventional == "." and not self.settled.by_sheet) and (
                _PLAIN.fullmatch(text)):
            whole, _, places = text.partition(".")
            return Number((whole + places).lstrip("0") or "0", -len(places))
        nothing = numbers.not_a_mass(text)
        if nothing:
            raise NotRead(nothing)
        if not decimal and self.settled.by_sheet:
            decimal = self.settled.by_sheet.get(self._cell(cells, self.sheet_at), "")
        other = "," if self.conventional == "." else "."
        if not decimal and not self.settled.by_sheet:
            decimal = "" if other in text else self.conventional
        found = numbers.read(text, decimal)
        return found._replace(plain=True) if not found.plain and not found.rest and decimal and re.fullmatch(
            r"[0-9]+(?:%s[0-9]+)?" % re.escape(decimal), text) else found

    def _unit(self, parsed: Number, text: str, column: Column) -> tuple[units.Unit, str, str]:
        """The unit of a mass, as it was written, and what to say of it."""
        given = [word for word in (parsed.rest, text, column.unit) if word]
        if len(given) > 1:
            powers = {units.read(word).power for word in given}
            if len(powers) > 1:
                raise NotRead("%s: its unit is %s" % (TWO_THINGS, " or ".join(given)))
        if given:
            unit = units.read(given[0])
            return unit, given[0], "" if unit.plain and given[0] in (text, column.unit) else "the unit"
        for word, why in ((self.layout.title_unit, "the unit of the title"),
                          (self.settled.unit if self.unit_at is not None else "", "the unit of all other lines")):
            if word:
                return units.read(word), word, why
        raise NotRead("no unit is given")

    # -------------------------------------------------------------- what cannot be read

    def _place(self, number: int, at: int | None, with_file: bool = True) -> str:
        where = "line %d" % number if not self.table.tab else "line %d" % number
        if at is not None:
            name = self.layout.names[at] if at < len(self.layout.names) else ""
            where += ", column %d" % (at + 1) if not self.table.tab else ", column %s" % _letters(at)
            where += " (%s)" % shortened(name, 30) if name else ""
        return "%s, %s" % (self.table.label, where) if with_file else (
            "tab %s, %s" % (self.table.tab, where) if self.table.tab else where)

    def _unread_line(self, number: int, cells: list[str], reason: str, sheet: str = "", at: int | None = None) -> None:
        """A line whose sheet, row or mechanism cannot be read: a filing with what was written."""
        self.unread += 1
        if self.unread > MOST_UNREAD:
            return
        if not sheet and self._again(number, cells):
            self.unread -= 1
            return
        row, mechanism = self._cell(cells, self.row_at), self._cell(cells, self.mechanism_at)
        mass = next((cells[place] for place in self.masses if place < len(cells) and cells[place]), "")
        self.taken.filings.append(Filing(
            sheet or self._cell(cells, self.sheet_at) or self.default or self.table.file.name,
            Figure(row, mechanism), mass, self._cell(cells, self.unit_at), None,
            "%s (%s)" % (reason, self._place(number, at)), 0, ""))

    def _problem(self, sheet: str, figure: Figure, mass: str, unit: str, problem: str) -> None:
        self.unread += 1
        if self.unread <= MOST_UNREAD:
            self.taken.filings.append(Filing(sheet, figure, mass, unit, None, problem))


def _plain_figure(row: str, mechanism: str) -> Figure | None:
    """A figure whose row and mechanism are plain; None where they are not."""
    if mechanism in MECHANISMS:
        number = row.isascii() and row.isdigit() and row[0] != "0" and len(row) < 19
        return Figure(row, mechanism) if number or row in GROUPS else None
    return Figure(TOTAL, "") if row == TOTAL and not mechanism else None


def _split_again(cells: list[str], separator: str, width: int) -> tuple[list[str], str]:
    """A line that is separated by another sign than its table, as where tables were put behind each other; and its
    decimal character, which goes with that sign."""
    line = (separator or " ").join(cells)
    for sign in ";\t|,":
        if sign != separator and line.count(sign) >= max(width - 1, 2):
            return [part.strip().strip('"') for part in line.split(sign)], "," if sign == ";" else "."
    return cells, ""


def _as_written(name: str) -> str:
    """A name without the apostrophe that evp puts before one that a spreadsheet would take for a formula."""
    return name[1:] if re.match("'+[=+@\t\r\n-]", name) else name


def _letters(at: int) -> str:
    """The letters of a column of a workbook, counted from 0."""
    found = ""
    at += 1
    while at:
        at, rest = divmod(at - 1, 26)
        found = chr(65 + rest) + found
    return found


def _with_cell(text: str, reason: str) -> str:
    if reason.startswith(("is ", "has ")):
        return "%s %s" % (quoted(text), reason)
    return reason if not text or reason.startswith(("no unit", "the unit", "nothing filed")) else "%s, %s" % (
        reason, quoted(text)) if reason.startswith("not a mass") else "%s: %s" % (quoted(text), reason)


def _bare(text: str, rest: str) -> str:
    return text[:-len(rest)].strip() if text.endswith(rest) else text


def _wide_figure(row: str, mechanism: str, column: Column) -> Figure | None:
    """The figure of a cell of a wide table; None for the sum of a single row or category, which no report has."""
    if column.mechanism == SUM:
        of_row = names.row_of(row) if row else TOTAL
        return Figure(TOTAL, "") if of_row in (TOTAL, "all") and not (
            mechanism and names.mechanism_of(mechanism) != SUM) else (
            names.figure(TOTAL, mechanism).figure if mechanism and of_row in (TOTAL, "all") else None)
    if column.row and column.mechanism:
        return Figure(column.row, column.mechanism)
    if column.row:
        return names.figure(column.row, mechanism or row).figure
    return names.figure(row, column.mechanism).figure


def filed_of_number(number: Number, unit: units.Unit) -> tuple[Filed, int]:
    """A mass for the library, and by which power of ten it is larger than what is passed: the last place of 13.3 kt is
    100 t, and the library has whole tonnes."""
    digits = int(number.digits) if len(number.digits) <= 19 else MOST_WORD
    digits = min(digits, MOST_WORD)
    if number.last <= 0 and unit.power in _UNIT_BY_POWER:
        return Filed(digits, -number.last, _UNIT_BY_POWER[unit.power]), 0
    last = number.last + unit.power
    return (Filed(digits, 9 - last, Unit.T), 0) if last <= 9 else (Filed(digits, 0, Unit.T), last - 9)


def read_text(filed: Filed, tens: int) -> str:
    """A mass as it was read, in plain digits."""
    digits = str(filed.digits) + "0" * tens
    if filed.places:
        digits = digits.rjust(filed.places + 1, "0")
        digits = "%s.%s" % (digits[:-filed.places], digits[-filed.places:])
    exact = " (its last digits are not given)" if tens else ""
    return "%s %s%s" % (shortened(digits), filed.unit.name.lower(), exact)


# ------------------------------------------------------------------ all tables together


def _settle_names(taken: Taken, sheets: Sheets) -> None:
    """Takes a name that is nearly that of a sheet for it, where it is near no other and nobody names that sheet."""
    named = {filing.sheet for filing in taken.filings}
    wanting = [name for name in dict.fromkeys(filing.sheet for filing in taken.filings) if name not in sheets.names]
    near = {name: found for name in wanting[:200] if (found := sheets.near(name, named))}
    twice = [found for found in near.values() if list(near.values()).count(found) > 1]
    near = {name: found for name, found in near.items() if found not in twice}
    if near:
        taken.filings = [filing._replace(sheet=near.get(filing.sheet, filing.sheet)) for filing in taken.filings]
        taken.readings = [one._replace(sheet=near.get(one.sheet, one.sheet)) for one in taken.readings]
        taken.remarks += ["%s is read as %s, the only sheet with nearly this name" % (
            quoted(name), name_shown(found)) for name, found in near.items()]


def _settle_twice(taken: Taken) -> None:
    """The same figure twice: once where both say the same, and neither where they do not."""
    places: dict[tuple[str, Figure], int] = {}
    again: dict[tuple[str, Figure], list[int]] = {}
    for i, filing in enumerate(taken.filings):
        if filing.figure.row and filing.filed is not None:
            key = filing.sheet, filing.figure
            if key in places:
                again.setdefault(key, [places[key]]).append(i)
            else:
                places[key] = i
    dropped: set[int] = set()
    for key, found in again.items():
        filings = [taken.filings[i] for i in found]
        if len({_value(filing) for filing in filings}) == 1:
            dropped.update(found[1:])
            continue
        told = "%s: %s" % (TWO_THINGS, " and ".join("%s %s in %s" % (
            shortened(filing.mass), filing.unit, filing.place) for filing in filings[:3]))
        for i in found:
            taken.filings[i] = taken.filings[i]._replace(filed=None, problem=told)
    if dropped:
        taken.filings = [filing for i, filing in enumerate(taken.filings) if i not in dropped]
        taken.remarks.append("%s filed twice with the same mass, and marked once" % counted(len(dropped), "figure"))


def _value(filing: Filing) -> tuple[int, int]:
    """A filed mass as digits without zeros behind them, and the power of ten of the last."""
    assert filing.filed is not None
    digits, power = filing.filed.digits, 3 * filing.filed.unit - filing.filed.places + filing.tens
    while digits and digits % 10 == 0:
        digits, power = digits // 10, power + 1
    return digits, power if digits else 0
