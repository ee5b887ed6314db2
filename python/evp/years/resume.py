"""What is done already: the answers of finished sheets, kept in OUT/.state, so that a stopped run goes on.

An answer is kept under the digest of the sheet's bytes and the library's version: a changed sheet, and every sheet
under another library, is calculated again.
"""

import contextlib
import fcntl
import hashlib
import sqlite3
from collections.abc import Iterable, Iterator
from pathlib import Path
from typing import IO

from evp.files import FileError, InputError, failed, make_folder
from evp.library import Library
from evp.wording import name_shown
from evp.years.project import STATE
from evp.years.run import Options

FOLDER = STATE
ANSWERS = "answers.sqlite"


def key_start(library: Library, options: Options) -> str:
    """What keys of one library and of one choice of tables start with."""
    asked = "".join(sign for sign, wanted in (("s", options.seasons), ("r", options.rows)) if wanted)
    return "%s %s " % (".".join(map(str, library.version())), asked or "-")


def key_of(start: str, data: bytes) -> str:
    return start + hashlib.sha256(data).hexdigest()


class Store:
    """The answers of finished sheets."""

    def __init__(self, path: Path) -> None:
        self._path = path
        try:
            self._open()
        except sqlite3.DatabaseError:  # damaged, as by a full disk: everything is calculated again
            path.unlink(missing_ok=True)
            self._open()

    def _open(self) -> None:
        self._base = sqlite3.connect(self._path, isolation_level=None)
        self._base.execute("pragma journal_mode = wal")
        self._base.execute("pragma synchronous = normal")
        self._base.execute("create table if not exists answer (key text primary key, text text) without rowid")

    def __contains__(self, key: str) -> bool:
        return self._base.execute("select 1 from answer where key = ?", (key,)).fetchone() is not None

    def put(self, keys: Iterable[str], answers: Iterable[str]) -> None:
        """Keeps answers, all of them or none; an answer that is there already stays."""
        try:
            self._base.execute("begin")
            self._base.executemany("insert or ignore into answer values (?, ?)", zip(keys, answers))
            self._base.execute("commit")
        except sqlite3.OperationalError as error:
            raise FileError(self._path, str(error)) from None

    def get(self, key: str) -> str:
        found = self._base.execute("select text from answer where key = ?", (key,)).fetchone()
        return str(found[0]) if found else ""

    def drop_others(self, start: str) -> None:
        """Forgets the answers of other libraries."""
        version = start.partition(" ")[0]
        self._base.execute("delete from answer where key not like ?", (version + " %",))

    def close(self) -> None:
        self._base.close()


@contextlib.contextmanager
def state_of(out: Path) -> Iterator[Path]:
    """The folder .state of a result, for one run at a time."""
    folder = make_folder(out / FOLDER)
    try:
        lock: IO[str] = (folder / "lock").open("w")
    except OSError as error:
        raise failed(folder / "lock", error) from None
    with lock:
        try:
            fcntl.flock(lock, fcntl.LOCK_EX | fcntl.LOCK_NB)
        except OSError:
            raise InputError("%s: another evp years writes there; wait for it or name another folder" % (
                name_shown(out))) from None
        yield folder
