"""Where the figures of a table are: its header, what each column has, and whether it is long (a figure to a line) or
wide (several beside each other)."""

import re
from collections.abc import Iterable
from functools import lru_cache
from typing import NamedTuple

from evp.figures import TOTAL, Figure
from evp.intake import names, units
from evp.intake.names import SUM, plain
from evp.intake.separators import Line
from evp.library import GROUPS, MECHANISMS

LOOK = 60  # lines in which a header is looked for
SHEET, ROW, MECHANISM, MASS, UNIT, FIGURE, NOTE = "sheet", "row", "mechanism", "mass", "unit", "figure", "note"
ROLES = {  # the names of columns, the best first
    SHEET: ("sheet", "sheets", "sheet name", "file", "filename", "file name", "evp", "evp file", "participant",
            "participants", "name", "student", "team", "region", "country", "inventory", "who", "blatt", "datei",
            "teilnehmer", "fichier", "hoja", "area", "district"),
    ROW: ("row", "rows", "row no", "row number", "category", "vehicle category", "categories", "row category", "group",
          "vehicle group", "vehicle class", "vehicle type", "vehicles", "vehicle", "class", "line", "zeile",
          "kategorie", "ligne", "fila", "no", "nr"),
    MECHANISM: ("mechanism", "mechanisms", "process", "processes", "emission type", "loss", "losses", "loss type",
                "source", "type", "mechanismus", "prozess", "mode", "kind", "evaporation", "emission process"),
    MASS: ("mass", "masses", "filed mass", "mass filed", "value", "values", "result", "results", "amount", "emission",
           "emissions", "nmvoc", "voc", "filed", "quantity", "masse", "wert", "menge", "mass of nmvoc", "nmvoc mass",
           "nmvoc emissions", "nmvoc emission", "emissions nmvoc", "answer", "my result", "valeur", "masa", "valor"),
    UNIT: ("unit", "units", "einheit", "einheiten", "unit of mass", "mass unit", "unite", "unidad", "uom"),
    FIGURE: ("figure", "figures", "figure name", "item", "quantity name", "what", "description", "label"),
    NOTE: ("note", "notes", "remark", "remarks", "comment", "comments", "bemerkung", "anmerkung"),
}
_ROLE_BY_NAME = {name: (role, i) for role, known in ROLES.items() for i, name in enumerate(known)}
OWN = {"verdict", "low_mg", "high_mg"}  # columns of marks.csv, which is no filing
_NUMERIC = re.compile(r"[+-]?[0-9.,'\s]*[0-9][.,][0-9].*|[0-9]{5,}")


class Column(NamedTuple):
    """What a column has: one of the roles, or the masses of a row, a mechanism or one figure; and its unit."""
    role: str
    row: str = ""
    mechanism: str = ""
    unit: str = ""
    rank: int = 0  # 0 is the name itself, more are others for it


class Layout(NamedTuple):
    """The columns of a table by place, the lines above and in the header, and what is passed over."""
    columns: dict[int, Column]
    header: int  # the number of its line; 0 where there is none
    names: list[str]
    passed: list[str]
    title_unit: str = ""
    sure: bool = True

    @property
    def masses(self) -> list[int]:
        """The places of the columns with masses."""
        return [at for at, column in self.columns.items() if column.role == MASS]

    def place(self, role: str) -> int | None:
        return next((at for at, column in self.columns.items() if column.role == role), None)


@lru_cache(maxsize=2048)
def column_of(text: str) -> Column | None:
    """What a header says that its column has; None where it says nothing that is known."""
    name, unit = units.of_header(text)
    word = plain(name)
    if word in _ROLE_BY_NAME:
        role, rank = _ROLE_BY_NAME[word]
        return Column(role, unit=unit if role == MASS else "", rank=rank)
    if not word or len(word) > 60:
        return None
    figure = names.figure_of(word)
    if figure is not None and figure.row != TOTAL:
        return Column(MASS, *figure, unit)
    mechanism = names.mechanism_of(word) if not word.isdigit() else ""
    row = names.row_of(word)
    if mechanism and mechanism != SUM:
        return Column(MASS, mechanism=mechanism, unit=unit)
    if row == TOTAL or mechanism == SUM:
        return Column(MASS, TOTAL, SUM, unit)
    if row:
        return Column(MASS, row, unit=unit)
    near = names.near(word, {name: role for name, (role, _) in _ROLE_BY_NAME.items()}) if len(word) > 4 else ""
    return Column(near, unit=unit if near == MASS else "", rank=50) if near else None


def is_header(cells: list[str]) -> bool:
    """Whether a line names the columns of a table: two of them at least, among them one with masses, and no number with
    decimal places."""
    if any(_NUMERIC.fullmatch(cell) for cell in cells if cell):
        return False
    found = [column for column in map(column_of, filter(None, cells)) if column]
    roles = {column.role for column in found if column.role != MASS}
    plain_masses = [column for column in found if column.role == MASS and not column.row and not column.mechanism]
    wide = [column for column in found if column.role == MASS and (column.row or column.mechanism)]
    words = [column for column in wide if not column.row.isdigit()]
    if plain_masses and (roles - {UNIT, NOTE} or wide):
        return True
    named = {column.mechanism for column in wide if column.mechanism and not column.row}
    if len(named) >= 2 or len(named) == 1 and roles & {ROW, SHEET, FIGURE} and len(found) == len(wide) + len(
            [column for column in found if column.role != MASS]) and not _mixed(wide):
        return bool(roles) or len(named) >= 2
    return len(words) >= 2 and not _mixed(wide) and bool(roles & {SHEET, MECHANISM, ROW, FIGURE} or len(wide) >= 3)


def _mixed(wide: list[Column]) -> bool:
    """Whether columns name rows and mechanisms apart, as the cells of one line of a long table do."""
    rows = any(column.row and not column.mechanism for column in wide)
    return rows and any(column.mechanism and column.mechanism != SUM and not column.row for column in wide)


def _is_upper(cells: list[str]) -> bool:
    """Whether a line names rows alone, as the upper of two lines of a header does."""
    return all(column is not None and column.role == MASS and column.row and column.mechanism in ("", SUM)
               for column in map(column_of, filter(None, cells)))


def is_own(cells: Iterable[str]) -> bool:
    """Whether a header is that of marks.csv."""
    return set(map(str.casefold, cells)) >= OWN


def find(lines: list[Line]) -> Layout | None:
    """The layout of a table by its first lines; None where nothing of a filing is found."""
    for i, (number, cells) in enumerate(lines[:LOOK]):
        if is_header(cells) and not (i + 1 < len(lines) and _is_upper(cells) and is_header(lines[i + 1][1])):
            above = lines[i - 1][1] if i else []
            below = lines[i + 1][1] if i + 1 < len(lines) else []
            title = next(filter(None, (units.of_title(" ".join(cells)) for _, cells in lines[:i])), "")
            return of_header(number, cells, above, below)._replace(title_unit=title)
    return _by_content(lines[:LOOK])


def of_header(number: int, cells: list[str], above: list[str], below: list[str]) -> Layout:
    """The layout that a header gives, with the line above it where that names what its columns are of, and the line
    below where that has their units."""
    found = {at: column for at, cell in enumerate(cells) if cell and (column := column_of(cell))}
    found = _with_upper(found, above)
    for role in (SHEET, ROW, MECHANISM, UNIT, FIGURE, NOTE):
        _keep_best(found, role)
    single = {at for at, column in found.items() if column.role == MASS and not (column.row or column.mechanism)}
    wide = {at: column for at, column in found.items() if column.role == MASS and at not in single}
    if single:  # a long table: names of rows or mechanisms beside it are other columns
        for at in wide:
            del found[at]
        _keep_best(found, MASS)
    elif wide and below and _only_units(below):
        found = {at: column._replace(unit=below[at]) if at in wide and at < len(below) and below[at] else column
                 for at, column in found.items()}
    passed = [cell for at, cell in enumerate(cells) if cell and at not in found]
    return Layout(found, number, cells, passed)


def _with_upper(found: dict[int, Column], above: list[str]) -> dict[int, Column]:
    """Columns such as diurnal, soak, running under cars and again under light-duty: the line above names the rows, each
    in the first of its columns."""
    mechanisms = [column.mechanism for column in found.values() if column.role == MASS and column.mechanism]
    if len(mechanisms) == len(set(mechanisms)) or not above:
        return found
    row, named = "", dict(found)
    for at in range(max(found) + 1):
        if at < len(above) and above[at]:
            row = names.row_of(above[at])
        column = found.get(at)
        if column and column.role == MASS and column.mechanism and row:
            total = row == TOTAL
            named[at] = column._replace(row="all" if total else row) if column.mechanism != SUM else (
                column._replace(row=TOTAL, mechanism=SUM))
    return named


def _keep_best(found: dict[int, Column], role: str) -> None:
    """Of several columns with a role the one with the best name; the others are passed over."""
    places = sorted((column.rank, at) for at, column in found.items() if column.role == role)
    for _, at in places[1:]:
        del found[at]


def _only_units(cells: list[str]) -> bool:
    words = [cell for cell in cells if cell and plain(cell) not in _ROLE_BY_NAME]
    return bool(words) and all(units.is_unit(word) for word in words)


def _by_content(lines: list[Line]) -> Layout | None:
    """The layout of a table without a header that is known: each column by what its cells are."""
    width = max((len(cells) for _, cells in lines), default=0)
    columns = [[cells[at] for _, cells in lines if at < len(cells) and cells[at]] for at in range(min(width, 40))]
    found: dict[int, Column] = {}
    tests = (
        (MECHANISM, lambda cell: names.mechanism_of(cell) in MECHANISMS), (UNIT, units.is_unit),
        (FIGURE, lambda cell: names.figure_of(cell) is not None and not cell.isdigit() and names.row_of(cell) != TOTAL),
        (ROW, lambda cell: names.row_of(cell) in (*GROUPS, TOTAL) or cell.isdigit() and 0 < int(cell[:9]) <= 1000),
        (MASS, lambda cell: bool(re.match(r"[+-]?[0-9.,]*[0-9]", cell))),
        (SHEET, lambda cell: cell.casefold().endswith(".evp")),
    )
    for role, test in tests:
        scores = [(sum(map(test, cells)) / len(cells), -at) for at, cells in enumerate(columns)
                  if cells and at not in found]
        if scores and max(scores)[0] >= (0.5 if role != SHEET else 0.3):
            found[-max(scores)[1]] = Column(role)
    roles = {column.role for column in found.values()}
    if MASS not in roles or not (FIGURE in roles or {ROW, MECHANISM} <= roles):
        return None
    if SHEET not in roles and 0 not in found and columns[0]:
        found[0] = Column(SHEET)
    return Layout(found, 0, [], [], sure=False)
