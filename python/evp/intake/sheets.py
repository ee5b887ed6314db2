"""The sheets of a class: files .evp wherever they are, and what participants send in place of one, which is the csv
tables of a sheet in a folder, or a workbook with these tables."""

import hashlib
import re
import tempfile
from collections.abc import Callable
from importlib import import_module
from importlib.util import find_spec
from pathlib import Path, PurePosixPath
from typing import NamedTuple

from evp import sheet
from evp.files import InputError, digest_of
from evp.intake.find import File
from evp.intake.workbook import kind_of
from evp.library import SHEET_BYTES, Library
from evp.marking import Marked, marked
from evp.sheet import TextError
from evp.sheet.folders import FLEET, SEASONS, TABLES


class Found(NamedTuple):
    """A sheet before it is marked: its bytes or why there are none, where it comes from, and what to say of it."""
    data: bytes
    label: str
    digest: str = ""
    unread: str = ""
    remark: str = ""
    sources: tuple[str, ...] = ()


def split(files: list[File]) -> tuple[dict[str, Found], list[File]]:
    """The sheets among files by the names that people file under, and the other files."""
    by_path: dict[str, Found] = {}
    rest: list[File] = []
    folders = _table_folders(files)
    for file in files:
        if file.is_sheet:
            by_path[file.path] = _of_file(file)._replace(sources=(file.source,))
        elif file.folder in folders and file.name.casefold() in TABLES:
            continue
        elif _is_sheet_workbook(file):
            by_path[_evp(file.path)] = _of_workbook(file)._replace(sources=(file.source,))
        else:
            rest.append(file)
    for folder, tables in folders.items():
        name = _evp(folder or _top_name(tables))
        if name not in by_path:
            by_path[name] = _of_tables(tables, folder)._replace(sources=tuple(file.source for file in tables))
    return _named(by_path), rest


def _evp(path: str) -> str:
    return re.sub(r"\.(?:xlsx|ods)$", "", path, flags=re.IGNORECASE) + ".evp"


def _named(by_path: dict[str, Found]) -> dict[str, Found]:
    """Sheets by the names of their files; by their paths where several have one name."""
    names: dict[str, list[str]] = {}
    for path in by_path:
        names.setdefault(PurePosixPath(path).name, []).append(path)
    found = {}
    for path, sheet_found in by_path.items():
        name = PurePosixPath(path).name
        same = [by_path[other].data for other in names[name]]
        if len(names[name]) == 1 or names[name][0] == path and same.count(same[0]) == len(same) and same[0]:
            found[name] = sheet_found
        elif not (same.count(same[0]) == len(same) and same[0]):
            found[path] = sheet_found
    return dict(sorted(found.items()))


def _of_file(file: File) -> Found:
    if file.problem:
        return Found(b"", file.label, unread=file.problem)
    digest = hashlib.sha256(file.data).hexdigest()
    if len(file.data) > SHEET_BYTES and file.source and file.source.casefold().endswith(".evp"):
        try:
            digest = digest_of(file.source, file.data)
        except InputError:
            digest = ""
    return Found(file.data, file.label, digest)


# ------------------------------------------------------------------ tables in place of a sheet


def _table_folders(files: list[File]) -> dict[str, list[File]]:
    """The folders that have the tables of a sheet."""
    folders: dict[str, list[File]] = {}
    for file in files:
        if file.name.casefold() in TABLES and not file.problem:
            folders.setdefault(file.folder, []).append(file)
    return {folder: tables for folder, tables in folders.items()
            if {SEASONS, FLEET} <= {file.name.casefold() for file in tables}}


def _top_name(tables: list[File]) -> str:
    """The name of the folder that was named itself."""
    return Path(tables[0].source).resolve().parent.name if tables[0].source else "sheet"


def _of_tables(tables: list[File], folder: str) -> Found:
    """The sheet that tables make. They are put into a folder of their own, since they may come from an archive."""
    label = "%s (csv tables)" % (folder or _top_name(tables))
    with tempfile.TemporaryDirectory(prefix="evp-") as name:
        for file in tables:
            (Path(name) / file.name.casefold()).write_bytes(file.data)
        try:
            data = sheet.take_folder(name).data()
        except (InputError, TextError) as error:
            first = str(error).split("\n", 1)[0].replace(name + "/", "").replace(name, folder or "the folder")
            return Found(b"", label, unread="no sheet can be made of these tables: %s" % first)
    return Found(data, label, remark="%s: the sheet is made from its csv tables" % label)


def _is_sheet_workbook(file: File) -> bool:
    """Whether a workbook has the tables of a sheet and not filed masses; where it can be told at all."""
    if not file.data.startswith(b"PK\3\4") or kind_of(file.data) != "xlsx":
        return False
    names = _tab_names(file.data)
    return {"seasons", "fleet"} <= names


def _tab_names(data: bytes) -> set[str]:
    import io
    import zipfile
    try:
        with zipfile.ZipFile(io.BytesIO(data)) as archive, archive.open("xl/workbook.xml") as opened:
            text = opened.read(1_000_000).decode("utf-8", "replace")
    except Exception:  # it is reported when the workbook is read
        return set()
    return {name.casefold() for name in re.findall(r'<sheet [^>]*?name="([^"]*)"', text)}


def _of_workbook(file: File) -> Found:
    """The sheet of a workbook with its tables, by the reader of evp.sheet where that has one."""
    if find_spec("evp.sheet.books") is None:
        return Found(b"", file.label, unread="a workbook with the tables of a sheet; save them as csv, or make the "
                     "sheet with evp write")
    books = import_module("evp.sheet.books")
    try:
        return Found(books.book_of(file.data, file.label).data(), file.label,
                     remark="%s: the sheet is made from this workbook" % file.label)
    except (InputError, TextError) as error:
        return Found(b"", file.label, unread="no sheet can be made of this workbook: %s" % str(error).split("\n", 1)[0])


def mark_all(library: Library, found: dict[str, Found], progress: Callable[[int, int], None]) -> dict[str, Marked]:
    """The bands of all sheets."""
    sheets = {}
    for i, (name, one) in enumerate(found.items()):
        progress(i, len(found))
        sheets[name] = Marked(b"", "", {}, unread=one.unread) if one.unread else marked(library, one.data, one.digest)
    progress(len(found), len(found))
    return sheets
