"""What the fuzzer calls with an input, by the kind of input. Of a bad input nothing but one of PLAIN may come, with a
message that no terminal obeys."""

import csv
import io
import json
import re
import tempfile
from collections.abc import Callable, Iterable
from pathlib import Path

from support import LIBRARY, sample

from evp import marking, sheet
from evp.cells import cells_csv, cells_of, travel_of
from evp.commands import SheetRefused
from evp.desk.command import read_owners
from evp.explain import explain
from evp.files import InputError, text_of
from evp.intake import filed_of
from evp.layout import row_count
from evp.library import Refusal
from evp.pages import forms
from evp.sheet import TextError, doubts, folder_of, folders, take_text

PLAIN = (InputError, TextError, SheetRefused, Refusal)
REGION = sample("region")
SECTION = b"=== "  # starts a line with the name of a table, in an input of several tables
FORMULA = re.compile(r"(?![+-]?[0-9]+(?:[.,][0-9]+)?\Z)[=+@\t\r-]")  # a number with a sign is none


class Fault(Exception):
    """What an input led to and may not."""


def require(holds: bool, what: str):
    if not holds:
        raise Fault(what)


def require_plain(text: str):
    """That a terminal obeys nothing of a text."""
    for line in text.split("\n"):
        require(line.isprintable(), "a message has a sign that a terminal obeys: %r" % line[:300])


def _filed(data: bytes):
    """A table of filed masses, read and marked."""
    table = filed_of(data, "filed.csv", None, ["north.evp", "region.evp"])
    sheets = {"north.evp": marking.marked(LIBRARY, REGION), "region.evp": marking.marked(LIBRARY, b"EVP")}
    marks = marking.marks_of(LIBRARY, sheets, table.filings)
    for line in marking.summary(marks, len(sheets)):
        require_plain(line)
    written = marking.marks_csv(marks, table.semicolon)
    cells = csv.reader(io.StringIO(written, newline=""), delimiter=";" if table.semicolon else ",", strict=True)
    for row in cells:
        require(not any(map(FORMULA.match, row)), "marks.csv has a formula: %r" % row[:5])


def _travel(data: bytes):
    travels = travel_of(text_of(data, "travel.csv"), "travel.csv", row_count(REGION))
    cells_csv(cells_of(LIBRARY, LIBRARY.report(REGION), travels))


def _owners(data: bytes):
    with tempfile.TemporaryDirectory() as folder:
        path = Path(folder) / "owners.csv"
        path.write_bytes(data)
        dealt = read_owners(str(path), row_count(REGION))
    require(len(dealt.owners) == row_count(REGION) and len(dealt.names) == 8, "owners are not those of all rows")
    require_plain("\n".join(dealt.names))


def _text(data: bytes):
    builder = take_text(text_of(data, "sheet.txt"), "sheet.txt: ")
    _sheet(builder.data())
    require_all_plain(doubts(builder))


def require_all_plain(lines: Iterable[str]):
    for line in lines:
        require_plain(line)


def tables_in(data: bytes) -> dict[str, bytes]:
    """The tables of an input: a line `=== name` starts each."""
    found: dict[str, bytes] = {}
    for part in (b"\n" + data).split(b"\n" + SECTION)[1:]:
        name, _, table = part.partition(b"\n")
        known = name.decode("utf-8", "replace")
        found[known if known in folders.TABLES else folders.FLEET] = table
    return found


def _tables(data: bytes):
    """A folder of tables as `evp write` takes it, and as the form does."""
    tables = tables_in(data)
    with tempfile.TemporaryDirectory() as folder:
        for name, table in tables.items():
            (Path(folder) / name).write_bytes(table)
        try:
            builder = folders.take_folder(folder)
            _sheet(builder.data())
            require_all_plain(doubts(builder))
        except PLAIN as error:
            check_message(error)
    forms.check_form(LIBRARY, forms.form_of({**forms.empty_form(), **forms.form_from_tables(tables)}))


def _form(data: bytes):
    try:
        given = json.loads(data.decode("utf-8", "replace"))
    except (ValueError, RecursionError):
        return  # as the page answers it, before the form is read
    found = forms.check_form(LIBRARY, forms.form_of(given))
    json.dumps(found)
    require_plain(found["line"])
    made = forms.made_of(forms.form_of(given))
    if made.data is not None:
        _sheet(made.data)


def _sheet(data: bytes):
    """Bytes as a sheet, accepted or not."""
    found = explain(LIBRARY, data)
    require_plain(found.line)
    require((found.number == 0) == (LIBRARY.check(data) is None), "the explanation is not that of the check")
    if found.number == 0:
        text = sheet.read(data)
        require(sheet.write(text) == data, "the text of a sheet does not give the same sheet")
        LIBRARY.report(data)
    for read in READS:
        try:
            read(data)
        except PLAIN as error:
            check_message(error)


READS: tuple[Callable[[bytes], object], ...] = (
    sheet.read, folder_of, lambda data: forms.form_from(data, "sheet.evp"))
TARGETS: dict[str, Callable[[bytes], None]] = {
    "filed": _filed, "travel": _travel, "owners": _owners, "text": _text, "tables": _tables, "form": _form,
    "sheet": _sheet}


def check_message(error: Exception):
    require_plain(str(error))
    require_all_plain(getattr(error, "messages", ()))


def try_input(kind: str, data: bytes):
    """Fault, or whatever else comes, where an input leads to what it may not."""
    try:
        TARGETS[kind](data)
    except PLAIN as error:
        check_message(error)
