"""Tables as a workbook, by openpyxl (Debian's python3-openpyxl). The same tables give the same bytes."""

import io
import re
import zipfile
from collections.abc import Iterable, Mapping, Sequence
from datetime import datetime
from importlib.util import find_spec

MOST_EXACT = 2 ** 53  # a spreadsheet's numbers are doubles
MISSING = "no workbook was written, since openpyxl is missing: sudo apt install python3-openpyxl"
FIXED = datetime(2000, 1, 1)
STAMP = re.compile(rb"(<dcterms:(?:created|modified)[^>]*>)[^<]*")

Table = tuple[Sequence[str], Iterable[Sequence[object]]]


def can_write() -> bool:
    return find_spec("openpyxl") is not None


def _cell(value: object) -> object:
    """A number as a number, and a text as a text that is no formula."""
    if isinstance(value, int) and abs(value) > MOST_EXACT:
        return str(value)
    if isinstance(value, str):
        if re.fullmatch(r"[+-]?[0-9]+\.[0-9]+", value):
            return float(value)
        return "'" + value if value[:1] in "=+@-" and value else value
    return value


def workbook(tables: Mapping[str, Table]) -> bytes:
    """A workbook with a table on each of its sheets."""
    from openpyxl import Workbook  # type: ignore[import]
    made = Workbook(write_only=True)
    made.properties.created = FIXED
    for title, (header, lines) in tables.items():
        sheet = made.create_sheet(title)
        sheet.freeze_panes = "A2"
        sheet.append(list(header))
        for line in lines:
            sheet.append([_cell(value) for value in line])
    file = io.BytesIO()
    made.save(file)
    return _without_times(file.getvalue())


def _without_times(data: bytes) -> bytes:
    """The same archive with one time for all of its files, so that it depends on the tables alone."""
    file = io.BytesIO()
    with zipfile.ZipFile(io.BytesIO(data)) as old, zipfile.ZipFile(file, "w", zipfile.ZIP_DEFLATED) as new:
        for name in old.namelist():
            content = STAMP.sub(rb"\g<1>2000-01-01T00:00:00Z", old.read(name))
            new.writestr(zipfile.ZipInfo(name, (2000, 1, 1, 0, 0, 0)), content, zipfile.ZIP_DEFLATED)
    return file.getvalue()
