"""The cells of the map for the rows of a report, after a table that says where their vehicles drive."""

import re
from collections.abc import Iterator
from typing import NamedTuple

from evp.explain import call_text
from evp.files import InputError, read_text
from evp.library import Cell, Kind, Library, Refusal, Report, RowCells, Travel
from evp.tables import Line, read_table, table_text
from evp.wording import name_shown, quoted

COLUMNS = ["row", *Travel._fields]
YES_NO = {"yes": True, "no": False, "1": True, "0": False}
EMPTY = Cell(Kind.EMPTY, 0.0, 0.0)


class RowOfCells(NamedTuple):
    """The cells of a row, or of all rows together."""
    row: str
    cells: RowCells


def read_travel(name: str, rows: int) -> list[Travel]:
    """Where the vehicles of each row drive, by a file."""
    return travel_of(read_text(name), name_shown(name), rows)


def travel_of(text: str, label: str, rows: int) -> list[Travel]:
    """Where the vehicles of each row drive: a line for each row, or one with `all` for those that have none."""
    table = read_table(text, label, COLUMNS, COLUMNS)
    found: dict[str, Travel] = {}
    for line in table.lines:
        where = "%s: line %d" % (label, line.number)
        row = line.cells.get("row", "")
        if row != "all" and not (re.fullmatch("[1-9][0-9]{0,3}", row) and int(row) <= rows):
            raise InputError("%s: row: %s is not all or 1 to %d" % (where, quoted(row), rows))
        if row in found:
            raise InputError("%s: row %s is given twice" % (where, row))
        found[row] = _travel(line, where)
    missing = [row for row in map(str, range(1, rows + 1)) if row not in found]
    if missing and "all" not in found:
        raise InputError("%s: row %s has no line, and there is no line for all" % (label, missing[0]))
    return [found.get(str(row), found.get("all")) for row in range(1, rows + 1)]


def _travel(line: Line, where: str) -> Travel:
    town, *numbers = (line.cells.get(name, "") for name in Travel._fields)
    if town not in YES_NO:
        raise InputError("%s: town: %s is not yes or no" % (where, quoted(town)))
    for name, number in zip(Travel._fields[1:], numbers):
        if not re.fullmatch("[0-9]{1,7}", number) or not 1 <= int(number) <= 1_000_000:
            raise InputError("%s: %s: %s is not 1 to 1000000" % (where, name, quoted(number)))
    return Travel(YES_NO[town], *map(int, numbers))


def cells_of(library: Library, report: Report, travels: list[Travel]) -> Iterator[RowOfCells]:
    """The cells of each row, and their sums."""
    sums = [EMPTY] * 3
    try:
        for i, (masses, travel) in enumerate(zip(report.rows, travels), 1):
            cells = library.cells_of_row(masses, travel)
            sums = [library.add_cells(a, b) for a, b in zip(sums, cells)]
            yield RowOfCells(str(i), cells)
    except Refusal as refusal:
        raise InputError("row %d: %s" % (i, call_text(refusal))) from None
    yield RowOfCells("all", RowCells(*sums))


def cells_csv(rows: Iterator[RowOfCells]) -> str:
    return table_text(("row", "road", "kind", "low_mg", "high_mg"), (
        (row, road, cell.kind.name.lower(), int(cell.low), int(cell.high))
        for row, cells in rows for road, cell in zip(RowCells._fields, cells)))
