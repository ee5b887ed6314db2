"""The file of a course's ledger, in SQLite: the sheet, the owners and the people it was opened with, every call that
was answered, and digests of what these calls led to and of the owners and people.

A call is in the file before it is answered, and stays there if the power fails: synchronous is FULL. The journal has
what a commit changes, and is cut to nothing by it (TRUNCATE); it is not written ahead (WAL). So the one file has every
call, and a teacher who copies it while the desk runs does not leave the last calls behind in a second file.

While a desk has the file no other process has it (locking_mode EXCLUSIVE): two desks would each keep a ledger of their
own. The lock ends with the process, however that ends.
"""

import contextlib
import hashlib
import os
import sqlite3
import stat
from collections.abc import Iterable, Iterator
from pathlib import Path
from typing import NamedTuple

from evp.files import InputError, failed
from evp.wording import MOST_SHOWN, name_shown, printable

APPLICATION = 0x45565031  # EVP1, in the head of the file
SCHEMA = """
CREATE TABLE opening (sheet BLOB NOT NULL, owners BLOB NOT NULL, source TEXT NOT NULL) STRICT;
CREATE TABLE people (who INTEGER PRIMARY KEY, name TEXT NOT NULL, secret BLOB NOT NULL) STRICT;
CREATE TABLE calls (
    serial INTEGER PRIMARY KEY, who INTEGER NOT NULL, kind TEXT NOT NULL, line INTEGER NOT NULL,
    vehicles INTEGER NOT NULL, number INTEGER NOT NULL) STRICT;
CREATE TABLE digests (sheet BLOB NOT NULL, words BLOB NOT NULL, people BLOB) STRICT;
"""
OLD_DIGESTS, DIGESTS = ["sheet", "words"], ["sheet", "words", "people"]  # columns: until version 1.0, and now
JOURNAL = bytes.fromhex("d9d505f920a163d7")  # how a journal of SQLite starts
KNOWN = {  # of SQLite's messages the usual ones, in plain words
    "database or disk is full": "the disk is full",
    "disk I/O error": "the disk could not be read or written",
    "database is locked": "another desk has it open",
    "file is not a database": "this is no ledger of a course",
    "unable to open database file": "it cannot be opened",
    "attempt to write a readonly database": "it cannot be written: the file or its file system is read-only",
}
LAST = "SELECT coalesce(max(serial), 0) FROM calls"


class NoLedger(sqlite3.DatabaseError):
    """A file that is no ledger, or no whole one; why, in words."""


class StoreError(Exception):
    """The file could not take a call, as where the disk is full. Nothing of it is in the file."""


class StoreLost(Exception):
    """What the file has is no longer known; a desk that starts anew reads it."""


class Person(NamedTuple):
    """Who has a link: 0 is the marker, 1 to 8 are participants. Of the secret its hash is kept."""
    who: int
    name: str
    secret: bytes


class Opening(NamedTuple):
    """What a ledger was opened with; `source` is the name of the sheet's file."""
    sheet: bytes
    owners: bytes
    source: str


class StoredCall(NamedTuple):
    """A call, and the number that the library answered. The row counts from 1."""
    who: int
    kind: str
    row: int
    vehicles: int
    number: int


class Digests(NamedTuple):
    """Of a ledger's sheet and of its words."""
    sheet: bytes
    words: bytes


class Store:
    """The file, held by this process alone."""

    def __init__(self, path: str | os.PathLike, pages: int | None = None):
        """Opens a file that is there; with `pages` it grows to so many of SQLite's pages at most."""
        self.path = Path(path)
        self._last = 0  # serial of a call
        _check_name(path)
        if not self.path.exists():
            raise InputError("%s: there is no such ledger; --new SHEET makes one" % name_shown(path))
        self.had_journal = _is_journal(files_of(path)[1])  # of a server that was killed; SQLite is about to undo it
        try:
            with self._reading():
                self._connect(pages)
                self._own()
                self.opening, self.people = self._opening(), self._people()
                self._compare_people()
        except InputError:
            self.close()
            raise

    @contextlib.contextmanager
    def _reading(self) -> Iterator[None]:
        """Whatever SQLite or Python finds wrong with the bytes of the file is an InputError. A damaged file may have
        columns of other names, texts that are no UTF-8 and values of another kind."""
        shown = name_shown(self.path)
        try:
            yield
        except NoLedger as error:
            raise InputError("%s: %s%s" % (shown, error, self.about_journal())) from None
        except sqlite3.Error as error:
            reason = KNOWN.get(str(error), "the file is damaged: %s" % printable(str(error))[:MOST_SHOWN])
            raise InputError("%s: %s%s" % (shown, reason, self.about_journal())) from None
        except (UnicodeError, TypeError, ValueError, AttributeError, OverflowError, MemoryError):
            raise InputError("%s: the file is damaged: it has values that no ledger has%s" % (
                shown, self.about_journal())) from None

    def about_journal(self) -> str:
        """What to do where a file is not whole, and a journal was beside it that may belong to another."""
        name = name_shown(files_of(self.path)[1])
        return "; %s was beside it: if this ledger is a copy that you put back, remove %s and put the copy back " \
            "again" % (name, name) if self.had_journal else ""

    def _connect(self, pages: int | None):
        # by its whole path, since SQLite takes some names for no file
        self._db = sqlite3.connect(os.path.abspath(self.path), timeout=1, isolation_level=None, check_same_thread=False)
        for setting in ("locking_mode = EXCLUSIVE", "journal_mode = TRUNCATE", "synchronous = FULL"):
            self._db.execute("PRAGMA " + setting)
        if pages:
            self._db.execute("PRAGMA max_page_count = %d" % pages)
        self._db.execute("BEGIN EXCLUSIVE")
        self._db.execute("COMMIT")

    def _own(self):
        """InputError where the file is not a whole ledger."""
        if self._value("PRAGMA application_id") != APPLICATION:
            raise NoLedger("this is no ledger of a course")
        found = self._value("PRAGMA quick_check(1)")
        if found != "ok":
            raise NoLedger("the file is damaged: %s" % printable(" ".join(str(found).split()))[:MOST_SHOWN])
        self._last = self._value(LAST)

    def _value(self, query: str):
        return self._db.execute(query).fetchone()[0]

    # ------------------------------------------------------------------ what it has

    def _opening(self) -> Opening:
        found = self._db.execute("SELECT sheet, owners, source FROM opening").fetchone()
        if found is None:
            raise NoLedger("the file is damaged: it has no sheet")
        return Opening(*found)

    def _people(self) -> list[Person]:
        found = [Person(*row) for row in self._db.execute("SELECT who, name, secret FROM people ORDER BY who")]
        if [person.who for person in found] != list(range(9)):
            raise NoLedger("the file is damaged: it has not nine people")
        if not all(person.name.isprintable() for person in found):  # for a terminal
            raise NoLedger("the file is damaged: a name has signs that none has")
        return found

    def _digest_columns(self) -> list[str]:
        return [name for _, name, *_ in self._db.execute("PRAGMA table_info(digests)")]

    def _compare_people(self):
        """That owners, names and keys are those that were kept. A file of version 1.0 has no digest of them yet, and
        gets one when it is next served."""
        columns = self._digest_columns()
        if columns == OLD_DIGESTS:
            return
        if columns != DIGESTS:
            raise NoLedger("the file is damaged: its digests have other columns")
        found = self._db.execute("SELECT people FROM digests").fetchone()
        if found is not None and found[0] != people_digest(self.opening, self.people):
            raise NoLedger("a name, a key or the owner of a row is not as it was kept; the file was "
                                        "changed or is damaged, and nothing is served")

    @property
    def digests(self) -> Digests:
        with self._reading():
            found = self._db.execute("SELECT sheet, words FROM digests").fetchone()
            return Digests(*(found or (b"", b"")))

    def calls(self) -> list[StoredCall]:
        """Every call, in order."""
        with self._reading():
            found = self._db.execute("SELECT who, kind, line, vehicles, number FROM calls ORDER BY serial")
            return [StoredCall(*row) for row in found]

    # ------------------------------------------------------------------ what it takes

    def make_ready(self):
        """Before a ledger is served: InputError where the file cannot be written. A full disk may have room later, so
        that it is no reason. A file of version 1.0 gets its digest of people."""
        try:
            self._db.execute("BEGIN")
            is_old = self._digest_columns() == OLD_DIGESTS
            if is_old:
                self._db.execute("ALTER TABLE digests ADD COLUMN people BLOB")
            self._db.execute("UPDATE digests SET people = ?", (people_digest(self.opening, self.people),))
            self._db.execute("COMMIT" if is_old else "ROLLBACK")
        except sqlite3.Error as error:
            with contextlib.suppress(sqlite3.Error):
                self._db.execute("ROLLBACK")
            if "full" in str(error):
                return
            reason = "its folder cannot be written" if "unable to open" in str(error) else _reason(error)
            raise InputError("%s: %s; a server keeps every call in it, so nothing is served" % (
                name_shown(self.path), reason)) from None

    def append(self, calls: Iterable[StoredCall], digests: Digests):
        """All of these calls, safe on the disk, or none of them."""
        try:
            self._db.execute("BEGIN")
            self._db.executemany(
                "INSERT INTO calls (who, kind, line, vehicles, number) VALUES (?, ?, ?, ?, ?)", calls)
            self._db.execute("UPDATE digests SET sheet = ?, words = ?", digests)
            self._db.execute("COMMIT")
        except sqlite3.Error as error:
            self._take_back()
            raise StoreError(_reason(error)) from None
        self._last = self._value(LAST)

    def _take_back(self):
        """After a failure: nothing of the calls is in the file, or StoreLost."""
        try:
            if self._db.in_transaction:
                self._db.execute("ROLLBACK")
            if self._value(LAST) != self._last:
                raise StoreLost("a call was kept although keeping it failed")
        except sqlite3.Error as error:
            raise StoreLost(_reason(error)) from None

    def renew(self, who: int, secret: bytes):
        """Another secret for one of the people: the old link no longer works. InputError where it cannot be kept."""
        people = [person._replace(secret=secret) if person.who == who else person for person in self.people]
        with self._reading():
            try:
                self._db.execute("BEGIN")
                self._db.execute("UPDATE people SET secret = ? WHERE who = ?", (secret, who))
                if self._digest_columns() == DIGESTS:
                    self._db.execute("UPDATE digests SET people = ?", (people_digest(self.opening, people),))
                self._db.execute("COMMIT")
            except sqlite3.Error:
                with contextlib.suppress(sqlite3.Error):
                    self._db.execute("ROLLBACK")
                raise
        self.people = people

    def close(self):
        if hasattr(self, "_db"):
            self._db.close()


def files_of(path: str | os.PathLike) -> list[str]:
    """The file of a ledger, and those that SQLite keeps beside it for a time."""
    return [os.fspath(path) + end for end in ("", "-journal", "-wal", "-shm")]


def people_digest(opening: Opening, people: Iterable[Person]) -> bytes:
    """SHA-256 of the owners of the rows and of the people, each part behind its length."""
    found = hashlib.sha256()
    for part in (opening.owners, *(part for who, name, secret in people for part in (
            who.to_bytes(1, "little"), name.encode("utf-8", "surrogatepass"), secret))):
        found.update(len(part).to_bytes(8, "little") + part)
    return found.digest()


def _is_journal(path: str) -> bool:
    """Whether a file is a journal that is not done with: one that is has nothing in it, or zeros at its start."""
    try:
        with open(path, "rb") as file:
            return file.read(len(JOURNAL)) == JOURNAL
    except OSError:
        return False


def _check_name(path: str | os.PathLike):
    """InputError where the name is of no plain file, before anything is written."""
    if os.path.basename(os.fspath(path)) == ":memory:":
        raise InputError("%s: this is SQLite's name for no file; name a file" % name_shown(path))
    try:
        mode = os.stat(path).st_mode
    except (OSError, ValueError):  # it is not there, or opening it says what is wrong
        return
    if not stat.S_ISREG(mode):
        kind = "a folder" if stat.S_ISDIR(mode) else "a FIFO" if stat.S_ISFIFO(mode) else "a device or a socket"
        raise InputError("%s: this is %s, and a ledger is a file" % (name_shown(path), kind))


def create(path: str | os.PathLike, opening: Opening, people: Iterable[Person], digests: Digests):
    """Makes the file, readable to its owner alone; never over one that is there."""
    _check_name(path)
    people = list(people)
    try:
        os.close(os.open(path, os.O_CREAT | os.O_EXCL | os.O_WRONLY, 0o600))
    except FileExistsError:
        raise InputError("%s: there is such a file already; a ledger is never written over" % (
            name_shown(path))) from None
    except OSError as error:
        raise failed(path, error) from None
    try:
        db = sqlite3.connect(os.path.abspath(path), isolation_level=None)
        try:
            db.execute("PRAGMA synchronous = FULL")
            db.execute("PRAGMA application_id = %d" % APPLICATION)
            db.executescript("BEGIN;" + SCHEMA)
            db.execute("INSERT INTO opening VALUES (?, ?, ?)", opening)
            db.executemany("INSERT INTO people VALUES (?, ?, ?)", people)
            db.execute("INSERT INTO digests VALUES (?, ?, ?)", (*digests, people_digest(opening, people)))
            db.execute("COMMIT")
        finally:
            db.close()
    except sqlite3.Error as error:
        os.unlink(path)
        raise InputError("%s: %s" % (name_shown(path), _reason(error))) from None


def _reason(error: sqlite3.Error) -> str:
    """What SQLite says, in plain words where it is one of the usual."""
    return KNOWN.get(str(error), str(error))
