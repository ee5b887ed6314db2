"""The intake: whatever the participants of a course send, read as what it is.

Files are found in folders and archives (find), their text is decoded (decode) and parted into cells (separators,
workbook); a table's header tells where its figures are (layout), and names, numbers and units are read as people write
them (names, numbers, units). A cell that cannot be read is a verdict of that one figure, and everything else is marked.
"""

import os
from collections.abc import Callable, Iterable
from dataclasses import dataclass

from evp.files import InputError
from evp.intake import find, reading, sheets
from evp.intake.find import File
from evp.intake.reading import Reading, Taken
from evp.library import Library
from evp.marking import Marked
from evp.tables import table_text
from evp.wording import name_shown

__all__ = ["ClassFiles", "Reading", "Taken", "filed_of", "filed_for", "read_class", "read_class_of", "readings_csv"]


@dataclass
class ClassFiles:
    """A class: its sheets with their bands, what was filed, the sheets that cannot be read, and all its files."""
    sheets: dict[str, Marked]
    taken: Taken
    unread: list[str]
    sources: list[str]

    @property
    def remarks(self) -> list[str]:
        return self.taken.remarks


def read_class(library: Library, folder: str, filed: Iterable[str], progress: Callable[[int, int], None]) -> ClassFiles:
    """The class of a folder, an archive or a single sheet, and of the tables that `filed` names, each a file, a folder
    or an archive. Sheets among these are taken too."""
    if not os.path.exists(folder):
        raise InputError("%s: a folder with sheets is wanted" % name_shown(folder))
    inside, tables = find.found_in([folder]), find.found_in(list(filed))
    known = {os.path.realpath(file.source) for file in tables if file.source}
    others = [file for file in inside if file.is_sheet or os.path.realpath(file.source or "-") not in known]
    found, rest = sheets.split([*others, *_but(tables, others)])
    if not found:
        raise InputError("%s: no sheet, that is no file whose name ends with .evp" % name_shown(folder))
    own = {id(file) for file in tables}
    return _class(library, found, [file for file in rest if id(file) in own], progress)


def _but(tables: list[File], others: list[File]) -> list[File]:
    """Files without those sheets that are among others already."""
    sheets_there = {os.path.realpath(file.source) for file in others if file.is_sheet and file.source}
    return [file for file in tables if not (file.is_sheet and file.source
                                            and os.path.realpath(file.source) in sheets_there)]


def read_class_of(library: Library, files: Iterable[tuple[str, bytes]], most: int | None = None) -> ClassFiles:
    """The class of the files of a request."""
    given = find.given(files)
    found, rest = sheets.split(given)
    return _class(library, found, rest, lambda done, many: None, most)


def _class(library: Library, found: dict[str, sheets.Found], rest: list[File], progress: Callable[[int, int], None],
           most: int | None = None) -> ClassFiles:
    marked = sheets.mark_all(library, found, progress)
    taken = reading.take(rest, found, most)
    taken.remarks[:0] = [one.remark for one in found.values() if one.remark]
    unread = ["%s: %s" % (one.label, one.unread) for one in found.values() if one.unread]
    sources = [source for one in found.values() for source in one.sources] + taken.used
    return ClassFiles(marked, taken, unread, list(filter(None, sources)))


def filed_of(data: str | bytes, label: str, most: int | None = None, sheet_names: Iterable[str] = ()) -> Taken:
    """The filed masses of one table."""
    content = data.encode("utf-8", "surrogatepass") if isinstance(data, str) else data
    return reading.take([File(label, label, content)], sheet_names, most)


def filed_for(names: Iterable[str], sheet_names: Iterable[str]) -> Taken:
    """The filed masses of files, folders and archives."""
    return reading.take([file for file in find.found_in(names) if not file.is_sheet], sheet_names)


def readings_csv(readings: Iterable[Reading], semicolon: bool) -> str:
    """readings.csv: what was read of cells that were not plain, beside the original."""
    return table_text(Reading._fields, readings, semicolon)
