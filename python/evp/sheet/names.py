"""Names of rows and seasons. The bytes of a sheet have no place for them: they live beside it, in the column `note` of
its tables, in its workbook, or in NAME.names.csv beside NAME.evp.

    record,number,name
    season,1,winter
    row,12,vans of the north
"""

from collections.abc import Sequence
from functools import lru_cache
from pathlib import Path
from typing import NamedTuple

from evp import layout
from evp.files import InputError, read_text
from evp.tables import read_table, table_text
from evp.wording import counted, name_shown, printable, quoted, shortened

COLUMNS = ["record", "number", "name"]
END = ".names.csv"
MOST_NAME = 80  # signs


class Names(NamedTuple):
    """The names of a sheet, in the order of its records; empty where a record has none."""
    seasons: list[str]
    rows: list[str]

    def any(self) -> bool:
        return any(self.seasons) or any(self.rows)

    def season(self, i: int) -> str:
        return _at(self.seasons, i)

    def row(self, i: int) -> str:
        return _at(self.rows, i)

    def of(self, record: str | None, index: int | None) -> str:
        """The name of a record by what an explanation calls it; `index` counts from 1."""
        found = {"season": self.seasons, "row": self.rows}.get(record or "", [])
        return _at(found, (index or 0) - 1)


NO_NAMES = Names([], [])


def _at(names: Sequence[str], i: int) -> str:
    return names[i] if 0 <= i < len(names) else ""


def as_name(word: str) -> str:
    """A name in one line, without what a terminal would obey, and not long."""
    return _as_name(word[:10 * MOST_NAME])


@lru_cache(maxsize=4_096)
def _as_name(word: str) -> str:
    return shortened(printable(" ".join(word.split())), MOST_NAME)


def with_name(words: str, name: str) -> str:
    """What a record is called, with its name behind it: row 2 (vans)."""
    return "%s (%s)" % (words, name) if name else words


def shared_names(a: Names, b: Names) -> Names:
    """The names of two sheets that are compared: what both call a record, or the one that names it."""
    def shared(first: Sequence[str], second: Sequence[str]) -> list[str]:
        many = max(len(first), len(second))
        pairs = ((_at(first, i), _at(second, i)) for i in range(many))
        return [one if one == two or not two else two if not one else "A: %s; B: %s" % (one, two)
                for one, two in pairs]

    return Names(shared(a.seasons, b.seasons), shared(a.rows, b.rows))


def pooled_names(a: Names, b: Names, rows: int) -> Names:
    """The names of two pooled sheets, of which the first has so many rows."""
    return Names(shared_names(a, b).seasons, [*(a.rows or [""] * rows), *b.rows])


def names_text(names: Names) -> str:
    """The table of the names, those that are empty left out."""
    lines = [("season", i, name) for i, name in enumerate(names.seasons, 1) if name]
    lines += [("row", i, name) for i, name in enumerate(names.rows, 1) if name]
    return table_text(COLUMNS, lines)


def names_of(text: str, label: str, data: bytes) -> Names:
    """The names of a table for this sheet; InputError where the table is none, or has a name for a record that the
    sheet does not have."""
    many = {"season": layout.season_count(data), "row": layout.row_count(data)} if len(data) >= 8 else {}
    found: dict[str, list[str]] = {record: [""] * count for record, count in many.items()}
    for line in read_table(text, label, COLUMNS, COLUMNS, str.lower, comments=False).lines:
        record, word = line.cells.get("record", "").lower(), line.cells.get("number", "")
        where = "%s: line %d" % (label, line.number)
        if record not in ("season", "row"):
            raise InputError("%s: record is season or row, not %s" % (where, quoted(record)))
        number = int(word) if word.isascii() and word.isdigit() and len(word) <= 4 else 0
        if not 1 <= number <= many.get(record, 0):
            raise InputError("%s: %s %s: the sheet has %s; are these the names of another sheet?" % (
                where, record, quoted(word), counted(many.get(record, 0), record)))
        found[record][number - 1] = as_name(line.cells.get("name", ""))
    return Names(found.get("season", []), found.get("row", []))


def names_file(sheet: str | Path) -> Path:
    """Where the names of a sheet are: north.names.csv beside north.evp."""
    path = Path(sheet)
    stem = path.name[:-4] if path.name.lower().endswith(".evp") else path.name
    return path.with_name(stem + END)


def names_beside(sheet: str | Path, data: bytes) -> Names:
    """The names beside a sheet; none where there is no such file."""
    if str(sheet) == "-" or not Path(sheet).name:
        return NO_NAMES
    path = names_file(sheet)
    try:
        if not path.is_file():
            return NO_NAMES
    except (OSError, ValueError):
        return NO_NAMES
    return names_of(read_text(path), name_shown(path), data)
