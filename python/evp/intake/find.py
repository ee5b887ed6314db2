"""The files of a class wherever they are: in folders and below them, in zip archives, or as they were sent to the
server. What nobody files (lock files, what an operating system leaves) is passed over."""

import io
import os
import re
import stat
import unicodedata
import zipfile
from collections.abc import Iterable, Iterator
from pathlib import Path, PurePosixPath
from typing import NamedTuple

from evp.files import FileError, InputError, failed, read_some
from evp.intake.decode import MOST_TEXT
from evp.intake.numbers import NotRead
from evp.intake.workbook import kind_of
from evp.library import SHEET_BYTES
from evp.wording import name_shown

MOST_FILES = 5_000  # of all that is named
MOST_MEMBERS = 2_000  # of an archive
MOST_UNPACKED = 200_000_000  # bytes of all members that are read
MOST_DEPTH = 3  # archives in archives
MOST_FOLDERS = 12  # folders in folders
SKIPPED = re.compile(r"(?:^|/)(?:__MACOSX|\.[^/]*|~\$[^/]*|\.~lock\.[^/]*|Thumbs\.db|desktop\.ini|Icon\r)(?:/|$)",
                     re.IGNORECASE)
OUTSIDE = "a link that leads out of the folder, and is not followed"


class File(NamedTuple):
    """A file that was found: how it is shown, its path below what was named, with / between, and its bytes, or why
    they cannot be read."""
    label: str
    path: str
    data: bytes
    problem: str = ""
    source: str = ""  # the file of the disk that it is or comes from
    size: int = 0  # of the whole file, where more than a sheet was not read

    @property
    def name(self) -> str:
        return PurePosixPath(self.path).name

    @property
    def folder(self) -> str:
        parent = str(PurePosixPath(self.path).parent)
        return "" if parent == "." else parent

    @property
    def is_sheet(self) -> bool:
        return self.name.casefold().endswith(".evp") or self.data[:3] == b"EVP" and not self.name.casefold().endswith(
            (".csv", ".txt", ".tsv"))


class _Room:
    """How much may still be read."""

    def __init__(self) -> None:
        self.files, self.bytes = MOST_FILES, MOST_UNPACKED

    def take(self, size: int) -> None:
        self.files, self.bytes = self.files - 1, self.bytes - size
        if self.files < 0:
            raise InputError("more than %d files; mark them in parts" % MOST_FILES)
        if self.bytes < 0:
            raise InputError("more than %d MB in all; mark them in parts" % (MOST_UNPACKED // 1_000_000))


def found_in(names: Iterable[str | os.PathLike[str]]) -> list[File]:
    """All files below what is named on a command line: files, folders and archives, in the order of their names."""
    room, found = _Room(), []
    for name in names:
        path = Path(name)
        if str(name) != "-" and path.is_dir():
            found += list(_in_folder(path, path, room, 0))
        else:
            found += _unpacked(_from_disk(str(name), "standard input" if str(name) == "-" else path.name, room), room)
    return found


def _from_disk(name: str, path: str, room: _Room) -> File:
    """A file that a command names: FileError where it cannot be read."""
    most = SHEET_BYTES if name.casefold().endswith(".evp") else MOST_TEXT
    data = read_some(name, most)
    room.take(len(data))
    return File(name_shown(name), unicodedata.normalize("NFC", path), data, source=name)


def _in_folder(folder: Path, top: Path, room: _Room, depth: int) -> Iterator[File]:
    try:
        entries = sorted(folder.iterdir())
    except OSError as error:
        raise failed(folder, error) from None
    for entry in entries:
        path = entry.relative_to(top).as_posix()
        if SKIPPED.search("/" + entry.name) and not entry.name.casefold().endswith(".evp"):
            continue
        label = name_shown(entry)
        if entry.is_symlink() and not entry.resolve().is_relative_to(top.resolve()):
            yield File(label, path, b"", OUTSIDE, str(entry))
        elif entry.is_dir():
            if depth < MOST_FOLDERS and not entry.is_symlink():
                yield from _in_folder(entry, top, room, depth + 1)
        elif _is_plain(entry):
            try:
                yield from _unpacked(_from_disk(str(entry), path, room), room)
            except FileError as error:
                yield File(label, path, b"", error.reason, str(entry))


def _is_plain(path: Path) -> bool:
    """Whether a path is a file that can be read without waiting; a pipe may never end."""
    try:
        return stat.S_ISREG(path.stat().st_mode)
    except OSError:
        return True  # it is reported when it is read


def given(files: Iterable[tuple[str, bytes]]) -> list[File]:
    """The files of a request, archives unpacked."""
    room, found = _Room(), []
    for name, data in files:
        if SKIPPED.search("/" + name) and not name.casefold().endswith(".evp"):
            continue
        room.take(len(data))
        found += _unpacked(File(name_shown(name), unicodedata.normalize("NFC", name), data), room)
    return found


# ------------------------------------------------------------------ archives


def _unpacked(file: File, room: _Room, depth: int = 0) -> list[File]:
    """A file, or those of the archive that it is."""
    if not file.data.startswith(b"PK\3\4") or kind_of(file.data) != "zip":
        return [file]
    if len(file.data) > MOST_TEXT:
        return [file._replace(data=b"", problem="this archive has more than %d MB" % (MOST_TEXT // 1_000_000))]
    if depth >= MOST_DEPTH:
        return [file._replace(data=b"", problem="archives within archives within archives are not unpacked")]
    try:
        with zipfile.ZipFile(io.BytesIO(file.data)) as archive:
            members = [member for member in archive.infolist() if not member.is_dir() and (
                not SKIPPED.search("/" + member.filename) or member.filename.casefold().endswith(".evp")
                and "__MACOSX" not in member.filename and not PurePosixPath(member.filename).name.startswith("._"))]
            if len(members) > MOST_MEMBERS:
                return [file._replace(data=b"", problem="this archive has more than %d files" % MOST_MEMBERS)]
            found = []
            for member in members:
                found += _unpacked(_member(archive, member, file, room), room, depth + 1)
            return found
    except (zipfile.BadZipFile, OSError, ValueError, NotImplementedError, RuntimeError, EOFError):
        return [file._replace(data=b"", problem="this archive is damaged; send it again")]


def _member(archive: zipfile.ZipFile, member: zipfile.ZipInfo, file: File, room: _Room) -> File:
    """A file of an archive; no more of it is unpacked than a table or a sheet has."""
    name = unicodedata.normalize("NFC", _name_of(member)).replace("\\", "/")
    inner = "/".join(part for part in name.split("/") if part not in ("", ".", ".."))
    path = "%s/%s" % (re.sub(r"\.zip$", "", file.path, flags=re.IGNORECASE), inner)
    label = "%s: %s" % (file.label, name_shown(inner))
    if member.flag_bits & 1:
        return File(label, path, b"", "it has a password; pack it without one", file.source)
    most = SHEET_BYTES if inner.casefold().endswith(".evp") else MOST_TEXT
    try:
        with archive.open(member) as opened:
            data = opened.read(most + 1)
    except NotRead as error:
        return File(label, path, b"", str(error), file.source)
    except (zipfile.BadZipFile, OSError, ValueError, NotImplementedError, RuntimeError, EOFError, Exception):
        return File(label, path, b"", "it cannot be unpacked; send the archive again", file.source)
    room.take(len(data))
    return File(label, path, data, source=file.source)


def _name_of(member: zipfile.ZipInfo) -> str:
    """The name of a member. Where the archive does not say that it is UTF-8, it often is all the same."""
    if member.flag_bits & 0x800:
        return member.filename
    try:
        return member.filename.encode("cp437").decode("utf-8")
    except (UnicodeEncodeError, UnicodeDecodeError):
        return member.filename
