"""Tables as spreadsheets save them: UTF-8 with or without a byte order mark, parted by ; or by , as the header is.

With ; the decimal sign is a comma, with , a point. In the tables of a sheet a line whose first cell starts with # is a
comment.
"""

import csv
import io
import re
from collections.abc import Callable, Iterable, Iterator
from typing import NamedTuple

from evp.files import InputError
from evp.wording import quoted

NOTE = "note"  # a column for a name or a remark, which is none of the table's own
FORMULA = re.compile("'*[=+@\\t\\r\\n-]")  # what a spreadsheet may run, with the apostrophes that keep it from that
NUMBER = re.compile("[+-][0-9]+(?:[.,][0-9]+)?")
UNUSUAL = "\"'\t\r\n=+@-"  # in a line without these no cell is changed
QUOTED = re.compile('["\\t\\r\\n]|[,;] *[=+@-]')


class Line(NamedTuple):
    """A line of a table: where it stands, its cells that are not empty by the name of their column, and its note."""
    number: int
    cells: dict[str, str]
    note: str = ""


class Table(NamedTuple):
    """A table; its lines are a list, or come one by one while the text is read."""
    separator: str
    header: list[str]
    lines: Iterable[Line]

    @property
    def point(self) -> str:
        """The decimal sign."""
        return "," if self.separator == ";" else "."


def _records(text: str, separator: str, label: str, comments: bool) -> Iterator[tuple[int, list[str]]]:
    """The lines that are no comment and not empty, counted from 1. A quotation mark that is not closed is an error:
    it would take all lines behind it into one cell."""
    reader, start = csv.reader(io.StringIO(text, newline=""), delimiter=separator, strict=True), 1
    try:
        for cells in reader:
            cells = [_as_written(cell.strip()) for cell in cells]
            if any(cells) and not (comments and cells[0].startswith("#")):
                yield start, cells
            start = reader.line_num + 1
    except csv.Error as error:
        raise InputError("%s: line %d: %s" % (label, start, _no_csv(str(error)))) from None


def _no_csv(error: str) -> str:
    if "end of data" in error:
        return "a quotation mark opens a cell, and none closes it"
    if "expected after" in error:
        return "something stands behind the quotation mark that closes a cell; within a cell write it twice"
    return "this is no csv: %s" % error


def _check_width(where: str, cells: list[str], header: list[str], separator: str):
    """That a line has no more cells than the header, and is parted as the header is. Beside ; a comma may be the
    decimal sign, so that there a line of one cell alone tells."""
    other = "," if separator == ";" else ";"
    alone = separator == "," or len(cells) == 1
    if alone and other in cells[0] and separator.join(cells).count(other) >= len(header) - 1:
        raise InputError("%s: its cells are parted by %s, and the columns of the header by %s" % (
            where, other, separator))
    if len(cells) > len(header) and any(cells[len(header):]):
        hint = "" if separator == ";" else "; the decimal sign is a point here"
        raise InputError("%s: %d cells, and the header has %d columns%s" % (where, len(cells), len(header), hint))


def read_table(text: str, label: str, columns: list[str], needed: Iterable[str],
               rename: Callable[[str], str] = str, comments: bool = True) -> Table:
    """The table of a text, as `open_table` has it, all of it read."""
    table = open_table(text, label, columns, needed, rename, comments)
    return table._replace(lines=list(table.lines))


def open_table(text: str, label: str, columns: list[str], needed: Iterable[str],
               rename: Callable[[str], str] = str, comments: bool = True) -> Table:
    """The table of a text, whose lines are read as they are asked for. Its header has these columns in any order, all
    that are needed, and a note if it likes; `rename` gives the name of a column that may be written in several ways."""
    text = re.sub(r"\Asep=[^\r\n]*", "", text, flags=re.IGNORECASE)  # Excel's first line
    first = next((line[0] for line in re.finditer(r"[^\r\n]+", text)
                  if line[0].strip(" ;,\t") and not (comments and line[0].startswith("#"))), "")
    if "\t" in first and not set(";,") & set(first):
        raise InputError("%s: the columns are parted by tabs; save it with , or ; between them" % label)
    separator = ";" if ";" in first else ","
    records = _records(text, separator, label, comments)
    number, header = next(records, (1, []))
    if not header:
        raise InputError("%s: the table is empty; its first line names the columns: %s" % (label, ", ".join(columns)))
    header = list(map(rename, header))
    _check_header("%s: line %d" % (label, number), header, columns, needed)
    return Table(separator, header, _lines(records, label, header, separator))


def _lines(records: Iterable[tuple[int, list[str]]], label: str, header: list[str], separator: str) -> Iterator[Line]:
    for number, cells in records:
        _check_width("%s: line %d" % (label, number), cells, header, separator)
        found = {name: cell for name, cell in zip(header, cells) if cell}
        note = found.pop(NOTE, "")
        yield Line(number, found, note)


def _check_header(where: str, header: list[str], columns: list[str], needed: Iterable[str]):
    while header and not header[-1]:  # empty columns behind the last
        header.pop()
    for i, name in enumerate(header):
        if name not in columns and name != NOTE:
            raise InputError("%s: %s is no column of this table (%s)" % (where, quoted(name), ", ".join(columns)))
        if name in header[:i]:
            raise InputError("%s: the column %s is there twice" % (where, name))
    missing = [name for name in needed if name not in header]
    if missing:
        raise InputError("%s: the column %s is missing" % (where, ", ".join(missing)))


# ------------------------------------------------------------------ what is written


def _without_formula(text: str) -> str:
    """A text that no spreadsheet takes for a formula: an apostrophe stands before it. A number stays a number."""
    return "'" + text if FORMULA.match(text) and not NUMBER.fullmatch(text) else text


def _as_written(cell: str) -> str:
    """The text of a cell that `_without_formula` has made."""
    return cell[1:] if cell.startswith("'") and FORMULA.match(cell) else cell


def _quoted_cell(cell: str, separator: str) -> str:
    """A cell in quotation marks where it needs them. A carriage return needs them too, since a spreadsheet starts a row
    there; and so does a sign of a formula behind the other separator, since a spreadsheet may part lines by that."""
    text = _without_formula(cell)
    return '"%s"' % text.replace('"', '""') if separator in text or QUOTED.search(text) else text


def _line_text(cells: Iterable[object], separator: str) -> str:
    """A line of a table. Most have nothing in them that a cell is changed for, which one look at all of it tells."""
    texts = list(map(str, cells))
    line = separator.join(texts)
    if line.count(separator) == len(texts) - 1 and not any(map(line.__contains__, UNUSUAL)):
        return line + "\n"
    return separator.join(_quoted_cell(text, separator) for text in texts) + "\n"


def table_text(header: Iterable[str], lines: Iterable[Iterable[object]], semicolon: bool = False) -> str:
    """A table as a spreadsheet reads it."""
    separator = ";" if semicolon else ","
    return "".join(_line_text(line, separator) for line in (header, *lines))
