"""A sheet as a workbook, .xlsx in and out and .ods in: the worksheets seasons, fleet, and parking for two lists or grid
for a grid, with the columns of the csv tables; a worksheet `sheet` has the version where the records make another.

A name of a record is in the column `name`. Messages name the worksheet and the cell."""

import datetime
import io
import re
import zipfile
from collections.abc import Iterable, Iterator
from importlib import import_module
from importlib.util import find_spec
from pathlib import Path
from typing import Any, NamedTuple

from evp.files import InputError, read_some
from evp.layout import (
    CANISTERS, CLASSES, MILEAGE, ROW_FIELDS, SEASON_FIELDS, Field, counts, has_grid, has_mileage, row_count, row_place,
    season_count, season_place,
)
from evp.sheet.builder import Builder
from evp.sheet.folders import (
    DURATIONS, GRID_COLUMNS, HOURS, LISTS, PARKING_COLUMNS, ROW_COLUMNS, SEASON_COLUMNS, check_plain, column_of, plain,
)
from evp.sheet.names import NO_NAMES, Names
from evp.sheet.reader import record_words, told_version
from evp.sheet.spelling import COUNT, respelt
from evp.sheet.words import TextError, encode, whole_number
from evp.tables import NOTE
from evp.wording import name_shown, quoted

ENDS = (".xlsx", ".ods")
MOST_FILE, MOST_INSIDE = 4_000_000, 60_000_000  # bytes of a workbook, and unpacked
MOST_LINES, MOST_COLUMNS = 1_300, 60  # of a worksheet that are looked at
FIELDS = {field.name: field for field in (*SEASON_FIELDS, *ROW_FIELDS, MILEAGE)}
NAME = "name"  # of the column that tables call note
ALIASES = {"lists": "parking", "season": "seasons", "rows": "fleet"}
UNITS = {"carburettor": "% of vehicles", "hot": "% of trips", "fill": "% of tank", "trips": "a day",
         "minutes": "a trip"}


class Cell(NamedTuple):
    """A cell of a worksheet: where it is, its value, and whether it is shown as a percentage."""
    place: str
    value: Any
    percent: bool = False


class Unreadable(NamedTuple):
    """In place of a value: why there is none."""
    reason: str


def is_book(name: str | Path) -> bool:
    return str(name).lower().endswith(ENDS)


PACKAGES = {"openpyxl": "python3-openpyxl", "odf": "python3-odf"}


def need(module: str) -> Any:
    """A module that reads or writes workbooks; InputError with the package of Debian where it is missing."""
    package = PACKAGES[module.partition(".")[0]]
    if find_spec(module.partition(".")[0]) is None:
        raise InputError("%s is missing, which reads and writes workbooks: sudo apt install %s" % (
            module.partition(".")[0], package))
    return import_module(module)


def take_book(name: str | Path) -> Builder:
    """What the worksheets of a workbook give."""
    return book_of(read_some(name, MOST_FILE), name_shown(name))


def book_of(data: bytes, label: str) -> Builder:
    """The same of its bytes."""
    sheets = worksheets(data, label)
    builder = Builder()
    _take_parking(builder, sheets, label)
    for kind, needed in (("seasons", SEASON_COLUMNS), ("fleet", ["class", "technology"])):
        _take_records(builder, _wanted(sheets, kind, label), kind, needed, "%s: %s" % (label, kind))
    version = [cell for line in sheets.get("sheet", ()) for cell in line[:2]]
    if len(version) == 2 and version[0].value == "version":
        builder.least_version = _version(version[1], label)
    return builder


def _version(cell: Cell, label: str) -> int:
    try:
        found = whole_number(word_of(cell), "version", 2)
    except TextError as error:
        raise InputError("%s: sheet, cell %s: %s" % (label, cell.place, error)) from None
    if found not in (1, 2, 3, 4):
        raise InputError("%s: sheet, cell %s: version %d is none that is read; write 1, 2, 3 or 4" % (
            label, cell.place, found))
    return found


def _wanted(sheets: dict[str, list[list[Cell]]], name: str, label: str) -> list[list[Cell]]:
    if name not in sheets:
        raise InputError("%s: there is no worksheet %s; a workbook has seasons, fleet, and parking or grid" % (
            label, name))
    if not sheets[name]:
        raise InputError("%s: %s: the worksheet is empty; its first line names the columns" % (label, name))
    return sheets[name]


# ------------------------------------------------------------------ cells


def worksheets(data: bytes, label: str) -> dict[str, list[list[Cell]]]:
    """The lines of each worksheet by its name, empty lines and comments left out."""
    _check_archive(data, label)
    found = _from_ods(data, label) if b"opendocument" in data[:200] else _from_xlsx(data, label)
    return {ALIASES.get(name.strip().lower(), name.strip().lower()): list(lines) for name, lines in found}


def _check_archive(data: bytes, label: str) -> None:
    if len(data) > MOST_FILE:
        raise InputError("%s: more than %d MB; no workbook of a sheet is so long" % (label, MOST_FILE // 1_000_000))
    try:
        with zipfile.ZipFile(io.BytesIO(data)) as archive:
            inside = sum(member.file_size for member in archive.infolist())
    except (zipfile.BadZipFile, ValueError, NotImplementedError, OSError):
        raise InputError("%s: this is no workbook, or not a whole one; save it again as .xlsx" % label) from None
    if inside > MOST_INSIDE:
        raise InputError("%s: it unpacks to more than %d MB; no workbook of a sheet is so long" % (
            label, MOST_INSIDE // 1_000_000))


def _from_xlsx(data: bytes, label: str) -> list[tuple[str, list[list[Cell]]]]:
    openpyxl = need("openpyxl")
    try:
        values, formulas = (openpyxl.load_workbook(io.BytesIO(data), read_only=True, data_only=only)
                            for only in (True, False))
        return [(sheet.title, list(_xlsx_lines(sheet, formulas[sheet.title]))) for sheet in values.worksheets
                if sheet.sheet_state == "visible"]
    except InputError:
        raise
    except Exception:  # noqa: BLE001  whatever a broken workbook makes openpyxl raise
        raise InputError("%s: this workbook cannot be read; open it in a spreadsheet and save it again as .xlsx" % (
            label)) from None


def _xlsx_lines(sheet: Any, formulas: Any) -> Iterator[list[Cell]]:
    bounds = {"max_row": MOST_LINES, "max_col": MOST_COLUMNS}
    sheet.reset_dimensions()
    formulas.reset_dimensions()
    for number, (line, written) in enumerate(zip(sheet.iter_rows(**bounds), formulas.iter_rows(**bounds)), 1):
        cells = []
        for column, (cell, source) in enumerate(zip(line, written), 1):
            value = cell.value
            if value is None and isinstance(source.value, str) and source.value.startswith("="):
                value = Unreadable("the formula has no value; let the spreadsheet calculate it and save again")
            percent = "%" in str(getattr(cell, "number_format", "") or "")
            cells.append(Cell("%s%d" % (_letters(column), number), value, percent))
        if _has_words(cells):
            yield cells


def _has_words(cells: list[Cell]) -> bool:
    """Whether a line is neither empty nor a comment."""
    first = cells[0].value if cells else None
    return any(cell.value not in (None, "") for cell in cells) and not (
        isinstance(first, str) and first.lstrip().startswith("#"))


def _from_ods(data: bytes, label: str) -> list[tuple[str, list[list[Cell]]]]:
    opendocument, table = need("odf.opendocument"), need("odf.table")
    try:
        book = opendocument.load(io.BytesIO(data))
        return [(sheet.getAttribute("name"), list(_ods_lines(sheet))) for sheet in book.getElementsByType(table.Table)]
    except Exception:  # noqa: BLE001  whatever a broken workbook makes odfpy raise
        raise InputError("%s: this workbook cannot be read; open it in a spreadsheet and save it again as .xlsx" % (
            label)) from None


def _ods_lines(sheet: Any) -> Iterator[list[Cell]]:
    table, number = need("odf.table"), 1
    for row in sheet.getElementsByType(table.TableRow):
        repeated = int(row.getAttribute("numberrowsrepeated") or 1)
        values: list[tuple[Any, bool]] = []
        for cell in row.childNodes:
            many = int(cell.getAttribute("numbercolumnsrepeated") or 1)
            values += [_ods_value(cell)] * min(many, MOST_COLUMNS - len(values))
        for _ in range(min(repeated, MOST_LINES - number)):
            cells = [Cell("%s%d" % (_letters(i), number), *value) for i, value in enumerate(values, 1)]
            number += 1
            if not _has_words(cells):
                break
            yield cells
        number += repeated - 1 if not any(value for value, _ in values) else 0
        if number > MOST_LINES:
            return


def _letters(column: int) -> str:
    return chr(64 + column) if column <= 26 else chr(64 + (column - 1) // 26) + chr(65 + (column - 1) % 26)


def _ods_value(cell: Any) -> tuple[Any, bool]:
    kind, value = cell.getAttribute("valuetype"), cell.getAttribute("value")
    if kind in ("float", "percentage", "currency"):
        return float(value), kind == "percentage"
    if kind in ("date", "time"):
        return datetime.date(2000, 1, 1), False
    if kind == "boolean":
        return cell.getAttribute("booleanvalue") == "true", False
    if cell.getAttribute("formula") and kind is None:
        return Unreadable("the formula has no value; let the spreadsheet calculate it and save again"), False
    return need("odf.teletype").extractText(cell) or None, False


def word_of(cell: Cell) -> str:
    """A cell as a word of a table: a number with the digits that a spreadsheet shows. TextError where it is none."""
    value = cell.value
    if isinstance(value, Unreadable):
        raise TextError(value.reason)
    if value is None:
        return ""
    if isinstance(value, bool):
        raise TextError("%s is no number; write digits" % str(value).upper())
    if isinstance(value, (int, float)):
        number = 100 * value if cell.percent else value
        return str(number) if isinstance(number, int) else "%.12g" % number
    if isinstance(value, (datetime.date, datetime.time, datetime.timedelta)):
        raise TextError("this is a date or a time for the spreadsheet; write a number, and give the cell the format of "
                        "numbers")
    return str(value).strip()


# ------------------------------------------------------------------ records


def _header(line: list[Cell], columns: Iterable[str], needed: Iterable[str], where: str) -> dict[str, int]:
    """Where each column is; InputError where one is unknown, twice there or missing."""
    found: dict[str, int] = {}
    for i, cell in enumerate(line):
        word = _header_word(cell, where)
        if not word:
            continue
        name = plain(column_of(word))
        if name not in (*columns, NOTE):
            raise InputError("%s, cell %s: %s is no column of this worksheet (%s, %s)" % (
                where, cell.place, quoted(word), NAME, ", ".join(columns)))
        if name in found:
            raise InputError("%s, cell %s: the column %s is there twice" % (where, cell.place, name))
        found[name] = i
    missing = [name for name in needed if name not in found]
    if missing:
        raise InputError("%s: the column %s is missing" % (where, ", ".join(missing)))
    return found


def _header_word(cell: Cell, where: str) -> str:
    try:
        return word_of(cell)
    except TextError as error:
        raise InputError("%s, cell %s: %s" % (where, cell.place, error)) from None


def _cell(line: list[Cell], at: int) -> Cell:
    return line[at] if at < len(line) else Cell("", None)


def _take_records(builder: Builder, lines: list[list[Cell]], kind: str, needed: list[str], where: str) -> None:
    columns = SEASON_COLUMNS if kind == "seasons" else ROW_COLUMNS
    header = _header(lines[0], columns, needed, where)
    for line in lines[1:]:
        given, faults = {}, builder.messages.many
        for name, at in header.items():
            cell = _cell(line, at)
            with builder.at("%s, cell %s" % (where, cell.place)):
                word = word_of(cell)
                given[name] = _checked(word, name) if word and name != NOTE else word
        if builder.messages.many > faults:
            continue
        name = given.pop(NOTE, "")
        given = {column: word for column, word in given.items() if word}
        with builder.at("%s, line %s" % (where, re.sub("[A-Z]", "", line[0].place))):
            (builder.add_season if kind == "seasons" else builder.add_row)(given, name)


def _checked(word: str, name: str) -> str:
    """A word of a field as the sheet has it; TextError where it is none."""
    found = respelt(word, FIELDS[name], comma=True)
    if not (name == "canister" and found in CANISTERS or name == "tank" and found == "class"):
        encode(found, FIELDS[name])
    return found


def _take_parking(builder: Builder, sheets: dict[str, list[list[Cell]]], label: str) -> None:
    if "grid" in sheets and "parking" in sheets:
        raise InputError("%s: a grid stands in place of two lists, and both worksheets grid and parking are there" % (
            label))
    name = "grid" if "grid" in sheets else "parking"
    lines, where = _wanted(sheets, name, label), "%s: %s" % (label, name)
    words = [plain(column_of(_header_word(cell, where))) for cell in lines[0]]
    if "lasting" in words or "ending" in words:
        _take_lists(builder, lines, where)
    else:
        _take_grid(builder, lines, where)


def _count(builder: Builder, line: list[Cell], at: int, where: str) -> str:
    """The count of a cell, 0 where it is empty."""
    cell, found = _cell(line, at), "0"
    with builder.at("%s, cell %s" % (where, cell.place)):
        found = respelt(word_of(cell) or "0", COUNT, comma=True)
        encode(found, COUNT)
    return found


def _keys(builder: Builder, lines: list[list[Cell]], at: int, keys: list[str], column: str,
          where: str) -> dict[str, list[Cell]]:
    """The lines by their duration or end hour."""
    found: dict[str, list[Cell]] = {}
    for line in lines:
        cell = _cell(line, at)
        with builder.at("%s, cell %s" % (where, cell.place)):
            word = plain(word_of(cell))
            if not word:
                continue
            if word not in keys:
                raise TextError("%s: %s is not %s to %s" % (column, quoted(word), keys[0], keys[-1]))
            if word in found:
                raise TextError("%s %s is given twice" % (column, word))
            found[word] = line
    return found


def _take_lists(builder: Builder, lines: list[list[Cell]], where: str) -> None:
    header = _header(lines[0], PARKING_COLUMNS, PARKING_COLUMNS, where)
    for name, (key, count, keys) in LISTS.items():
        found = _keys(builder, lines[1:], header[key], keys, key, where)
        missing = [word for word in keys if word not in found]
        words = [_count(builder, found[word], header[count], where) for word in keys if word in found]
        with builder.at(where):
            if missing:
                raise TextError("%s: all of %s to %s are wanted; %s %s missing" % (
                    key, keys[0], keys[-1], ", ".join(missing[:3]), "is" if len(missing) == 1 else "are"))
            if not builder.messages.many:
                builder.add_counts(name, tuple(words))


def _take_grid(builder: Builder, lines: list[list[Cell]], where: str) -> None:
    header = _header(lines[0], GRID_COLUMNS, GRID_COLUMNS, where)
    for hour, line in _keys(builder, lines[1:], header["end_hour"], HOURS, "end_hour", where).items():
        words = tuple(_count(builder, line, header[duration], where) for duration in DURATIONS)
        with builder.at(where):
            if not builder.messages.many:
                builder.add_counts("grid %s" % hour, words)


# ------------------------------------------------------------------ written


def book_bytes(data: bytes, names: Names = NO_NAMES) -> bytes:
    """The workbook of a sheet; TextError where it cannot hold its bytes."""
    openpyxl = need("openpyxl")
    check_plain(data)
    book = openpyxl.Workbook()
    book.remove(book.active)
    fields = (*ROW_FIELDS, MILEAGE) if has_mileage(data) else ROW_FIELDS
    seasons = [record_words(data, season_place(data, i), SEASON_FIELDS) for i in range(season_count(data))]
    rows = [record_words(data, row_place(data, i), fields) for i in range(row_count(data))]
    _write_records(book.create_sheet("seasons"), SEASON_FIELDS, seasons, names.seasons)
    _write_records(book.create_sheet("fleet"), fields, rows, names.rows)
    if has_grid(data):
        lines: list[list[Any]] = [[t + 1, *counts(data, 8 + 48 * t)] for t in range(24)]
        _write_table(book.create_sheet("grid"), ["end_hour", *(float(word) for word in DURATIONS)], lines)
    else:
        lists = zip((float(word) for word in DURATIONS), counts(data, 8), range(1, 25), counts(data, 56))
        _write_table(book.create_sheet("parking"), ["duration (h)", "lasting", "end_hour", "ending"],
                     [list(line) for line in lists])
    if told_version(data) is not None:
        _write_table(book.create_sheet("sheet"), ["version", told_version(data)], [])
    out = io.BytesIO()
    book.save(out)
    return out.getvalue()


def _write_table(sheet: Any, header: list[Any], lines: list[list[Any]]) -> None:
    styles = need("openpyxl.styles")
    for line in (header, *lines):
        sheet.append(line)
    for cell in sheet[1]:
        cell.font, cell.alignment = styles.Font(bold=True), styles.Alignment(wrap_text=True, vertical="top")
        cell.fill = styles.PatternFill("solid", fgColor="E8EEF4")
    sheet.freeze_panes = "B2"


def _write_records(sheet: Any, fields: tuple[Field, ...], records: list[dict[str, str]], names: list[str]) -> None:
    header = [NAME, *(_with_unit(field) for field in fields)]
    lines = [["", *(_value(record[field.name], field) for field in fields)] for record in records]
    _write_table(sheet, header, lines)
    sheet.column_dimensions["A"].width = 28
    for i, name in enumerate(names[:len(records)], 2):
        if name:
            cell = sheet.cell(i, 1)
            cell.value = name
            cell.data_type = "s"  # no formula, whatever it starts with
    for column, field in enumerate(fields, 2):
        _write_limits(sheet, column, field)
        for i in range(2, len(records) + 2):
            sheet.cell(i, column).number_format = "0" if not field.places else "0." + "0" * field.places


def _with_unit(field: Field) -> str:
    unit = UNITS.get(field.name, field.unit)
    return "%s (%s)" % (field.name, unit) if unit and unit != field.name else field.name


def _value(word: str, field: Field) -> Any:
    """A number as a number; a canister as a word; empty where it is that of the class."""
    if word == "class":
        return None
    try:
        return float(word) if field.places else int(word)
    except ValueError:
        return word


def _write_limits(sheet: Any, column: int, field: Field) -> None:
    """The limits of a column, as the spreadsheet checks them while someone types."""
    DataValidation, letter = need("openpyxl.worksheet.datavalidation").DataValidation, _letters(column)
    if field.name == "canister":
        check = DataValidation(type="list", formula1='"none,small,medium,large"', allow_blank=True)
        check.error = "none, small, medium or large; empty is that of the class"
    elif field.most is None:
        return
    else:
        least, most = field.shown(field.least), field.shown(field.most)
        check = DataValidation(type="decimal" if field.places else "whole", operator="between", formula1=least,
                               formula2=most, allow_blank=True)
        check.error = "%s is %s to %s" % (field.name, least, most)
        if field.name == "class":
            check.prompt = "; ".join("%d %s" % (number, words[0]) for number, words in CLASSES.items())[:250]
    check.errorStyle = "warning"
    sheet.add_data_validation(check)
    check.add("%s2:%s1001" % (letter, letter))
