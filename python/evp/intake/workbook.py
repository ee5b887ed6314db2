"""The tables of a workbook, .xlsx by openpyxl and .ods by odfpy, both of Debian.

A number is read as the cell shows it: with as many decimal places as its format has, or with its own digits where it
has none. What is no number on purpose (a date, an error, a formula without its value) is reported cell by cell.
"""

import datetime
import io
import re
import zipfile
from collections.abc import Callable, Iterator
from decimal import ROUND_HALF_UP, Decimal, InvalidOperation
from importlib.util import find_spec
from typing import Any, NamedTuple

from evp.intake.numbers import TWO_THINGS, NotRead

PACKAGES = {"openpyxl": "python3-openpyxl", "odf": "python3-odf"}
MOST_MEMBERS = 2_000
MOST_BYTES = 60_000_000  # of all parts of a workbook, unpacked
MOST_PART = 30_000_000
MOST_ODS = 12_000_000  # odfpy keeps all of it in memory
MOST_CELLS = 400_000
MOST_COLUMNS = 200
MOST_TABS = 100


class Tab(NamedTuple):
    """A table of a workbook: its name, whether it is hidden, its lines, cells that are no values, with reasons, what to
    say of it, and which cells are numbers, which have a decimal point here whatever their sheet shows."""
    name: str
    hidden: bool
    lines: list[tuple[int, list[str]]]
    faults: dict[tuple[int, int], str]  # by line and column, both from 1
    notes: list[str]
    numbers: set[tuple[int, int]]


def kind_of(data: bytes) -> str:
    """What a zip archive is: `xlsx`, `ods`, `zip`, or a sentence about what else."""
    try:
        with zipfile.ZipFile(io.BytesIO(data)) as archive:
            names = set(archive.namelist())
            if "xl/workbook.xml" in names or any(name.startswith("xl/") for name in names):
                return "xlsx"
            if "mimetype" in names and b"opendocument" in archive.open("mimetype").read(200):
                kind = archive.open("mimetype").read(200)
                return "ods" if b"spreadsheet" in kind else "this is a text document; save its table as csv or xlsx"
            if any(name.startswith("word/") for name in names):
                return "this is a Word document; save its table as csv or xlsx"
            if any(name.startswith("Index/") and name.endswith(".iwa") or name == "Index.zip" for name in names):
                return "this is a Numbers document; export it as xlsx or csv"
            return "zip"
    except (zipfile.BadZipFile, OSError, ValueError, NotImplementedError, RuntimeError, EOFError, KeyError):
        return "this archive or workbook is damaged; send it again"


def tabs(data: bytes, kind: str) -> list[Tab]:
    """The tables of a workbook; NotRead where it cannot be read."""
    module = "openpyxl" if kind == "xlsx" else "odf"
    if find_spec(module) is None:
        raise NotRead("a workbook (.%s) needs the Debian package %s: sudo apt install %s; or save its tables as csv" % (
            kind, PACKAGES[module], PACKAGES[module]))
    _check_size(data, kind)
    try:
        return _xlsx(data) if kind == "xlsx" else _ods(data)
    except NotRead:
        raise
    except MemoryError:
        raise NotRead("this workbook is too large") from None
    except Exception as error:  # whatever a damaged file makes these readers do
        raise NotRead("this workbook cannot be read (%s); save it again as .xlsx" % type(error).__name__) from None


def _check_size(data: bytes, kind: str) -> None:
    with zipfile.ZipFile(io.BytesIO(data)) as archive:
        parts = archive.infolist()
        if any(part.flag_bits & 1 for part in parts) or "EncryptedPackage" in archive.namelist():
            raise NotRead("this workbook has a password; save it without one")
        most = MOST_PART if kind == "xlsx" else MOST_ODS
        if len(parts) > MOST_MEMBERS or sum(part.file_size for part in parts) > MOST_BYTES or any(
                part.file_size > most for part in parts):
            raise NotRead("this workbook is too large when unpacked; save the table alone, as csv")


# ------------------------------------------------------------------ xlsx


def _xlsx(data: bytes) -> list[Tab]:
    import openpyxl
    book = openpyxl.load_workbook(io.BytesIO(data), read_only=True, data_only=True)
    found = []
    for sheet in book.worksheets[:MOST_TABS]:
        sheet.reset_dimensions()
        found.append(_xlsx_tab(sheet, sheet.sheet_state != "visible"))
    if any(_has_gaps(tab) for tab in found):
        _find_formulas(data, found)
    return found


def _has_gaps(tab: Tab) -> bool:
    return any("" in cells for _, cells in tab.lines)


def _find_formulas(data: bytes, tabs_found: list[Tab]) -> None:
    """Tells empty cells that have a formula whose value was not saved."""
    import openpyxl
    book = openpyxl.load_workbook(io.BytesIO(data), read_only=True, data_only=False)
    for sheet, tab in zip(book.worksheets, tabs_found):
        sheet.reset_dimensions()
        lines = dict(tab.lines)
        for number, row in enumerate(sheet.iter_rows(values_only=True), 1):
            for column, value in enumerate(row[:MOST_COLUMNS], 1):
                if isinstance(value, str) and value.startswith("=") and number in lines and (
                        column > len(lines[number]) or not lines[number][column - 1]):
                    lines[number].extend([""] * (column - len(lines[number])))
                    tab.faults[number, column] = ("not a mass: a formula whose value was not saved; open the workbook, "
                                                  "let it calculate, and save it")
            if number > MOST_CELLS:
                break


def _xlsx_tab(sheet: Any, hidden: bool) -> Tab:
    tab, many = Tab(sheet.title, hidden, [], {}, [], set()), 0
    for number, row in enumerate(sheet.iter_rows(), 1):
        cells = []
        for column, cell in enumerate(row[:MOST_COLUMNS], 1):
            value = cell.value
            text, fault = ("", "") if value is None else (value.strip(), "") if isinstance(value, str) else _value(
                value, cell.number_format or "General")
            if isinstance(value, str) and cell.data_type == "e":
                fault = "not a mass: %s, an error of the spreadsheet" % value
            if fault:
                tab.faults[number, column] = fault
            if isinstance(value, (int, float)):
                tab.numbers.add((number, column))
            cells.append(text)
        many += len(cells)
        if many > MOST_CELLS:
            tab.notes.append("read up to line %d; the workbook is larger than any filing" % number)
            break
        while cells and not cells[-1]:
            cells.pop()
        if cells:
            tab.lines.append((number, cells))
    return tab


def _value(value: object, form: str) -> tuple[str, str]:
    """The text of a value that is no text, and why it is no mass where it is none."""
    if isinstance(value, bool):
        return str(value).upper(), "not a mass: true or false"
    if isinstance(value, (datetime.date, datetime.time, datetime.timedelta)):
        return str(value), "not a mass: a date, which the spreadsheet may have made of a number"
    if isinstance(value, (int, float)):
        return shown(value, form)
    return str(value), ""


def shown(value: int | float, form: str) -> tuple[str, str]:
    """A number as a format of a spreadsheet shows it, and why it is no mass where it is none."""
    try:
        number = Decimal(repr(value))
    except InvalidOperation:
        return str(value), "not a mass"
    if not number.is_finite():
        return str(value), "not a mass"
    section = form.split(";")[0]
    literal = "".join(re.findall(r'"([^"]*)"|\\(.)', section) and [a or b for a, b in re.findall(
        r'"([^"]*)"|\\(.)', section)]).strip()
    bare = re.sub(r'"[^"]*"|\\.|\[[^\]]*\]|_.|\*.', "", section).strip()
    if "%" in bare:
        return "%s %%" % format(number * 100, "f"), "not a mass: a percentage"
    unit = " " + literal if re.fullmatch(r"[A-Za-zµ/ ]{1,12}", literal) else ""
    if re.search(r"[0#?],+(?:\.|$)", bare):
        return format(number, "f"), "%s: the cell has %s, and its format shows it in thousands" % (
            TWO_THINGS, format(number.normalize(), "f"))
    return _formatted(number, bare) + unit, ""


def _formatted(number: Decimal, bare: str) -> str:
    places = re.search(r"\.([0#?]+)", bare)
    fixed = len(places[1].rstrip("#?")) if places else 0
    if re.search(r"[eE][+-]", bare):
        return format(number, ".%dE" % (len(places[1]) if places else 0))
    if re.search("[0#?]", bare) and bare.lower() != "general":
        most = len(places[1]) if places else 0
        rounded = number.quantize(Decimal(1).scaleb(-most), ROUND_HALF_UP)
        text = format(rounded, "f")
        while most > fixed and text.endswith("0"):
            text, most = text[:-1], most - 1
        return text.rstrip(".") if not most else text
    digits = number.as_tuple().digits
    if len(digits) > 15:  # more than a spreadsheet itself shows
        number = number.quantize(Decimal(1).scaleb(number.adjusted() - 14), ROUND_HALF_UP).normalize()
    text = format(number, "f")
    return text.removesuffix(".0") if text.endswith(".0") else text


# ------------------------------------------------------------------ ods


def _ods(data: bytes) -> list[Tab]:
    from odf.opendocument import load
    from odf.table import Table
    document = load(io.BytesIO(data))
    return [_ods_tab(table) for table in document.spreadsheet.getElementsByType(Table)[:MOST_TABS]]


def _ods_tab(table: Any) -> Tab:
    from odf.table import TableRow
    tab, number, many = Tab(str(table.getAttribute("name")), False, [], {}, [], set()), 0, 0
    for row in table.getElementsByType(TableRow):
        cells = []
        for column, (text, fault, is_number) in enumerate(_ods_cells(row), 1):
            if fault:
                tab.faults[number + 1, column] = fault
            if is_number:
                tab.numbers.add((number + 1, column))
            cells.append(text)
        repeated = int(row.getAttribute("numberrowsrepeated") or 1)
        while cells and not cells[-1]:
            cells.pop()
        many += len(cells)
        for again in range(repeated if cells and repeated < 1000 else 1 if cells else 0):
            tab.lines.append((number + 1 + again, list(cells)))
        number += repeated
        if many > MOST_CELLS:
            tab.notes.append("read up to line %d; the workbook is larger than any filing" % number)
            break
    return tab


def _ods_cells(row: Any) -> Iterator[tuple[str, str, bool]]:
    count = 0
    for cell in row.childNodes:
        if not cell.qname[1] in ("table-cell", "covered-table-cell"):
            continue
        found = _ods_cell(cell)
        for _ in range(min(int(cell.getAttribute("numbercolumnsrepeated") or 1), MOST_COLUMNS - count)):
            count += 1
            yield *found, cell.getAttribute("valuetype") == "float"


def _ods_cell(cell: Any) -> tuple[str, str]:
    from odf import teletype
    from odf.text import P
    kind = cell.getAttribute("valuetype")
    text = " ".join(teletype.extractText(part) for part in cell.getElementsByType(P)).strip()
    if kind == "percentage":
        return text, "not a mass: a percentage"
    if kind == "date" or kind == "time":
        return text, "not a mass: a date, which the spreadsheet may have made of a number"
    if kind == "boolean":
        return text, "not a mass: true or false"
    if kind == "float":
        return _as_shown(str(cell.getAttribute("value")), text)
    if cell.getAttribute("formula") and not text:
        return "", "not a mass: a formula whose value was not saved"
    if text.startswith(("#", "Err:")):
        return text, "not a mass: %s, an error of the spreadsheet" % text[:20]
    return text, ""


def _as_shown(value: str, text: str) -> tuple[str, str]:
    """The number of a cell with as many places as its text shows, whichever decimal character that has."""
    try:
        number = Decimal(value)
    except InvalidOperation:
        return text, ""
    tail: Callable[[Decimal, int], str] = lambda number, places: format(
        number.quantize(Decimal(1).scaleb(-places), ROUND_HALF_UP), "f")
    form = re.fullmatch(r"[^0-9]*(?:[0-9]+[ .,'\u00a0\u202f\u2019])*?[0-9]+(?:[.,]([0-9]+))?\s*([A-Za-zµ/]*)", text)
    if form is None:
        return format(number, "f"), ""
    for places in sorted({len(form[1] or ""), 0}, reverse=True):
        digits = re.sub("[^0-9]", "", re.sub(r"[A-Za-zµ/]*$", "", text))
        if re.sub("[^0-9]", "", tail(number, places)) == digits:
            return tail(number, places) + (" " + form[2] if form[2] else ""), ""
    return format(number, "f"), ""
