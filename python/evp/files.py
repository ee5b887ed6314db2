"""Files that are read and written, with messages for who named them."""

import contextlib
import errno
import hashlib
import os
import secrets
import stat
import sys
from collections.abc import Iterable
from pathlib import Path

from evp.library import SHEET_BYTES
from evp.wording import name_shown

TEXT_BYTES = 16_000_000  # no text or table of a sheet is longer
SAVE = "save it as UTF-8, in Excel as \"CSV UTF-8\""


class InputError(Exception):
    """What was named cannot be read or written, or is not understood: a message, or several, each a line; `more` are
    those that were counted alone."""

    def __init__(self, message: str, more: int = 0):
        super().__init__(message)
        self.more = more


class FileError(InputError):
    """A file that cannot be read or written, and why."""

    def __init__(self, name: str | os.PathLike, reason: str):
        super().__init__("%s: %s" % (name_shown(name), reason))
        self.reason = reason


def _reason(error: OSError) -> str:
    reasons = {
        FileNotFoundError: "there is no such file", IsADirectoryError: "this is a folder, and a file is wanted",
        PermissionError: "you have no right to it", NotADirectoryError: "a part of its path is a file, not a folder",
        FileExistsError: "there is such a file already; --force writes over it",
    }
    return reasons.get(type(error), error.strerror or str(error))


def failed(name: str | os.PathLike, error: OSError) -> FileError:
    return FileError(name, _reason(error))


def read_some(name: str | os.PathLike, most: int) -> bytes:
    """The first bytes of a file, or of standard input for `-`: one more than `most` where there are more."""
    if name == "-" and sys.stdin is None:
        raise FileError(name, "it is closed")
    try:
        if name == "-":
            return sys.stdin.buffer.read(most + 1)
        with open(name, "rb") as file:
            return file.read(most + 1)
    except OSError as error:
        raise failed(name, error) from None
    except ValueError:  # a zero byte in the name
        raise FileError(name, "this is no name of a file") from None


def read_sheet(name: str | os.PathLike) -> bytes:
    """The bytes of a sheet; no more than tell that it is too long."""
    return read_some(name, SHEET_BYTES)


def digest_of(name: str | os.PathLike, data: bytes) -> str:
    """The SHA-256 of a sheet: of the bytes that were read, or of the whole file where it has more than a sheet."""
    if len(data) <= SHEET_BYTES:
        return hashlib.sha256(data).hexdigest()
    found = hashlib.sha256()
    try:
        with open(name, "rb") as file:
            while part := file.read(1 << 20):
                found.update(part)
    except OSError as error:
        raise failed(name, error) from None
    return found.hexdigest()


def read_text(name: str | os.PathLike) -> str:
    """The text of a file in UTF-8, with or without a byte order mark."""
    return text_of(read_some(name, TEXT_BYTES), name_shown(name))


def text_of(data: bytes, shown: str) -> str:
    """The text of the bytes of a file, which messages call `shown`."""
    if data.startswith((b"\xff\xfe", b"\xfe\xff")):
        raise InputError("%s: this is UTF-16; %s" % (shown, SAVE))
    if data.startswith(b"PK\3\4"):
        raise InputError("%s: this is a workbook or an archive; save its tables as csv, in Excel as \"CSV UTF-8\"" % (
            shown))
    if data.startswith(b"EVP"):
        raise InputError("%s: this is a sheet, and a text or a table is wanted; evp read makes a text of it" % shown)
    if not data.strip():
        raise InputError("%s: the file is empty" % shown)
    zero = data.find(0)
    if zero >= 0 and _every_second(data[:64]):
        raise InputError("%s: this looks like UTF-16; %s" % (shown, SAVE))
    if zero >= 0:
        raise InputError("%s: this is no text: byte %d is 0" % (shown, zero))
    if len(data) > TEXT_BYTES:
        raise InputError("%s: more than %d MB; no text of a sheet is so long" % (shown, TEXT_BYTES // 1_000_000))
    try:
        return data.decode("utf-8-sig")
    except UnicodeDecodeError as error:
        line = data.count(b"\n", 0, error.start) + 1
        raise InputError("%s: line %d: byte %d (%02x hexadecimal) is no UTF-8; %s" % (
            shown, line, error.start, data[error.start], SAVE)) from None


def _every_second(data: bytes) -> bool:
    """Whether every second byte is 0 and no other, as in a text of plain letters in UTF-16."""
    halves = data[0::2], data[1::2]
    return any(not any(one) and other and all(other) for one, other in (halves, halves[::-1]))


# ------------------------------------------------------------------ files that are written


def same_file(one: str | os.PathLike, other: str | os.PathLike) -> bool:
    """Whether two names are of one file: the same path, or the same file through a symbolic or a hard link."""
    if "-" in (one, other):
        return one == other
    try:
        return os.path.samefile(one, other)
    except OSError:  # one of them is not there yet
        return os.path.realpath(one) == os.path.realpath(other)
    except ValueError:  # a zero byte in a name
        return False


def check_target(target: str | os.PathLike, force: bool, sources: Iterable[str | os.PathLike] = ()):
    """InputError where a file would be written over one that it is made from, or over any other without force."""
    if target == "-":
        return
    if any(same_file(target, source) for source in sources if source != "-"):
        raise InputError("%s: this would overwrite what it is made from; name another file" % name_shown(target))
    if not force and os.path.isfile(target) and _stream(target) is None:
        raise failed(target, FileExistsError())


def write_file(name: str | os.PathLike, data: bytes, force: bool = False,
               sources: Iterable[str | os.PathLike] = ()):
    """Writes a file whole or not at all, or standard output for `-`; over one that is there only by force, and never
    over one of `sources`, from which it is made."""
    if name == "-":
        sys.stdout.buffer.write(data)
        sys.stdout.buffer.flush()
        return
    check_target(name, force, sources)
    try:
        stream = _stream(name)
        if stream is not None:
            _write_stream(stream, data)
        else:
            _write_whole(name, data, force)
    except FileNotFoundError:
        raise FileError(name, "there is no such folder") from None
    except ValueError:  # a zero byte in the name
        raise FileError(name, "this is no name of a file") from None
    except OSError as error:
        raise failed(name, IsADirectoryError() if os.path.isdir(name) else error) from None


def _stream(name: str | os.PathLike) -> str | os.PathLike | int | None:
    """What to open where bytes go through a file and do not stay in it, as through a terminal, /dev/null or a FIFO, or
    the number of the stream that has the file open already, as /dev/stdout has; None for all others."""
    try:
        found = os.stat(name)
    except (OSError, ValueError):
        return None
    if stat.S_ISCHR(found.st_mode) or stat.S_ISFIFO(found.st_mode):
        return name
    for descriptor in (1, 2):
        with contextlib.suppress(OSError):  # it is closed
            if os.path.samestat(found, os.fstat(descriptor)):
                return descriptor
    return None


def _write_stream(stream: str | os.PathLike | int, data: bytes):
    sys.stdout.flush()  # what was printed before comes before
    with open(os.dup(stream) if isinstance(stream, int) else stream, "wb") as file:
        file.write(data)


def _write_whole(name: str | os.PathLike, data: bytes, force: bool):
    """Writes under another name in the same folder, and gives the file its name once all of it is on the disk: until
    then the old file is there, and after a failure too."""
    target = os.path.realpath(name) if force else os.fspath(name)  # by force a link stays, and its target is new
    if not force and os.path.lexists(target):
        raise FileExistsError
    if os.path.exists(target) and not os.path.isfile(target):
        raise OSError(errno.EINVAL, "this is a device or a socket, and a file is wanted")
    folder = os.path.dirname(target)
    part = os.path.join(folder, ".evp-%s.part" % secrets.token_hex(8))
    try:
        with open(part, "xb") as file:
            _keep_rights(file.fileno(), target)
            file.write(data)
            file.flush()
            os.fsync(file.fileno())
        if force:
            os.replace(part, target)
        else:
            _name_new(part, target)
    finally:
        with contextlib.suppress(OSError):  # it has its name by now, or nothing of it is kept
            os.unlink(part)
    _sync_folder(folder or ".")


def _keep_rights(descriptor: int, target: str):
    """Gives a file the rights of the one in whose place it comes; PermissionError where that one is read-only."""
    try:
        old = os.stat(target)
    except FileNotFoundError:
        return
    if not os.access(target, os.W_OK):
        raise PermissionError
    with contextlib.suppress(PermissionError):  # another user's file that this one may write
        os.fchown(descriptor, old.st_uid, old.st_gid)
    os.fchmod(descriptor, stat.S_IMODE(old.st_mode))


def _name_new(part: str, target: str):
    """Gives a file its name where no file has it; FileExistsError where one has, even if it came a moment ago."""
    try:
        os.link(part, target)
        return
    except FileExistsError:
        raise
    except OSError:  # a file system without hard links, as that of a USB stick: take the name first
        os.close(os.open(target, os.O_CREAT | os.O_EXCL | os.O_WRONLY, 0o666))
    os.replace(part, target)


def _sync_folder(folder: str):
    """Puts the new name on the disk too; not every file system can."""
    with contextlib.suppress(OSError):
        descriptor = os.open(folder, os.O_RDONLY)
        try:
            os.fsync(descriptor)
        finally:
            os.close(descriptor)


def make_folder(name: str | os.PathLike) -> Path:
    try:
        Path(name).mkdir(parents=True, exist_ok=True)
    except FileExistsError:
        raise InputError("%s: this is a file, and a folder is wanted" % name_shown(name)) from None
    except OSError as error:
        raise failed(name, error) from None
    return Path(name)
