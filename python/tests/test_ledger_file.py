"""The file of a ledger: damaged, of an older layout, read-only, put back beside another's journal, or no file."""

import contextlib
import io
import os
import random
import shutil
import signal
import sqlite3
import stat
import subprocess
import sys
import unittest

from desk_support import HAS_MODULES
from support import LIBRARY, SAMPLES, DeskTestCase, run
from test_desk import made_ledger

from evp.desk import ledger, store
from evp.desk.command import _Replaying
from evp.desk.ledger import CourseLedger, Wanted
from evp.files import InputError

SHEET = SAMPLES / "region.evp"
TRIALS = int(os.environ.get("EVP_DAMAGED_LEDGERS", "300"))
CHANGED = "a name, a key or the owner of a row is not as it was kept"


def damaged(data: bytes, draw: random.Random) -> bytes:
    """A file with some bytes changed, zeroed, cut off or exchanged."""
    found, kind = bytearray(data), draw.randrange(6)
    place = draw.randrange(len(found))
    if kind == 0:
        found[place] ^= 1 << draw.randrange(8)
    elif kind == 1:
        for _ in range(draw.randrange(1, 20)):
            found[draw.randrange(len(found))] = draw.randrange(256)
    elif kind == 2:
        length = draw.choice((1, 16, 512))
        found[place:place + length] = bytes(len(found[place:place + length]))
    elif kind == 3:
        del found[place:]
    elif kind == 4:
        other = draw.randrange(len(found))
        found[place:place + 64], found[other:other + 64] = found[other:other + 64], found[place:place + 64]
    else:  # where most of what a reader takes is: in the texts and names of the schema and of the people
        text = draw.choice((b"people", b"digests", b"calls", b"participant", b"kind", b"secret", b"TEXT", b"STRICT"))
        place = found.find(text, place if found.find(text, place) >= 0 else 0)
        found[place + draw.randrange(len(text))] = draw.randrange(256)
    return bytes(found)


class LedgerFileTestCase(DeskTestCase):
    def setUp(self):
        super().setUp()
        self.file = self.folder / "course.db"

    def played(self, calls: int = 6) -> dict[int, str]:
        """A ledger with some calls."""
        keys = made_ledger(self.file)
        course = CourseLedger(LIBRARY, store.Store(self.file))
        for i in range(calls):
            course.call(1 + i % 8, Wanted("arrive", 1 + i % 8, 10 + i))
        course.close()
        return keys

    def change(self, statement: str, *values: object):
        with contextlib.closing(sqlite3.connect(self.file)) as db, db:
            db.execute(statement, values)

    def opened(self) -> tuple:
        """What a ledger has, all that a teacher or a participant would miss."""
        kept = store.Store(self.file)
        try:
            return kept.people, kept.opening.owners, kept.calls(), CourseLedger(LIBRARY, kept).read(0).sheet
        finally:
            kept.close()


class DamagedTest(LedgerFileTestCase):
    def test_damaged(self):
        """A damaged file is refused in a sentence, or opens as it was."""
        self.played(40)
        whole, draw, refused = self.file.read_bytes(), random.Random(37), 0
        before = self.opened()
        for trial in range(TRIALS):
            self.file.write_bytes(damaged(whole, draw))
            try:
                people, owners, calls, sheet = self.opened()
                self.assertEqual((people, owners, calls, sheet), before, trial)
            except InputError as error:
                refused += 1
                self.assertTrue(str(error).startswith(str(self.file) + ": "), error)
                self.assertTrue(str(error).isprintable(), error)
                self.assertNotIn("another desk", str(error))
        self.assertGreater(refused, TRIALS // 10)

    def test_people(self):
        """A changed name, key or owner is told."""
        for statement in ("UPDATE people SET secret = zeroblob(32) WHERE who = 3",
                          "UPDATE people SET name = 'another' WHERE who = 3",
                          "UPDATE opening SET owners = CAST(x'02' || substr(owners, 2) AS BLOB)",
                          "UPDATE digests SET people = zeroblob(32)", "UPDATE digests SET people = NULL"):
            self.played()
            self.change(statement)
            with self.assertRaisesRegex(InputError, CHANGED):
                store.Store(self.file)
            found = run("desk", self.file, "--export", "-")
            self.assert_plain(found, 2)
            self.assertIn(CHANGED, found.err)
            self.file.unlink()

    def test_column_of_another_name(self):
        """As where a byte of the schema is changed; it was a fault of evp itself."""
        self.played()
        self.change("ALTER TABLE calls RENAME COLUMN line TO lines")
        with self.assertRaisesRegex(InputError, "the file is damaged: no such column: line"):
            self.opened()

    def test_text_that_is_none(self):
        self.played()
        self.change("UPDATE calls SET kind = CAST(x'ff61' AS TEXT) WHERE serial = 2")
        with self.assertRaisesRegex(InputError, "damaged"):
            self.opened()


class OldLayoutTest(LedgerFileTestCase):
    """A ledger that was made before there was a digest of people."""

    def setUp(self):
        super().setUp()
        self.played()
        self.change("ALTER TABLE digests DROP COLUMN people")

    def test_opened(self):
        before = self.file.read_bytes()
        self.assert_plain(run("desk", self.file, "--export", self.folder / "now.evp"), 0)
        self.assertEqual(self.file.read_bytes(), before)

    def test_gets_its_digest(self):
        found = store.Store(self.file)
        found.make_ready()
        found.close()
        self.opened()
        self.change("UPDATE people SET secret = zeroblob(32) WHERE who = 3")
        with self.assertRaisesRegex(InputError, CHANGED):
            store.Store(self.file)

    def test_renewed(self):
        for is_old in (True, False):
            found = store.Store(self.file)
            found.renew(3, ledger.hash_of("another"))
            self.assertEqual(found.people[3].secret, ledger.hash_of("another"))
            found.make_ready()
            found.close()
            self.assertEqual(self.opened()[0][3].secret, ledger.hash_of("another"), is_old)


class NoFileTest(LedgerFileTestCase):
    def test_names(self):
        os.mkfifo(self.folder / "fifo")
        (self.folder / "inner").mkdir()
        here = os.getcwd()
        os.chdir(self.folder)
        self.addCleanup(os.chdir, here)
        for name, said in ((":memory:", "this is SQLite's name for no file"), ("./:memory:", "SQLite's name"),
                           ("fifo", "this is a FIFO, and a ledger is a file"),
                           ("inner", "this is a folder, and a ledger is a file"),
                           ("/dev/null", "this is a device or a socket, and a ledger is a file")):
            for words in ((), ("--new", SHEET)):
                with self.subTest(name=name, words=words):
                    found = run("desk", name, *words, "--export", "-")
                    self.assert_plain(found, 2)
                    self.assertIn(said, found.err)
        self.assertEqual(sorted(os.listdir()), ["fifo", "inner"])
        self.assertTrue(stat.S_ISFIFO(os.stat("fifo").st_mode))

    def test_read_only(self):
        """Told before a link is shown; an export, which writes nothing into it, is made."""
        self.played()
        with self.read_only():
            found = store.Store(self.file)
            with self.assertRaisesRegex(InputError, "cannot be written.*so nothing is served"):
                found.make_ready()
            with self.assertRaisesRegex(InputError, "cannot be written"):
                found.renew(3, bytes(32))
            found.close()
            self.assert_plain(run("desk", self.file, "--export", "-"), 0)
            if HAS_MODULES:
                for words in ((), ("--renew", "3")):
                    found = run("desk", self.file, "--port", "0", *words)
                    self.assert_plain(found, 2)
                    self.assertIn("cannot be written", found.err)
                    self.assertNotIn("/ledger/", found.out)
        self.opened()

    @contextlib.contextmanager
    def read_only(self):
        """The superuser may write any file, so that for one only a file system is read-only."""
        if os.getuid():
            self.file.chmod(0o400)
            yield
            self.file.chmod(0o600)
            return
        mounts = [["mount", "--bind", self.folder, self.folder], ["mount", "-o", "remount,ro,bind", self.folder]]
        if any(subprocess.run(words, capture_output=True).returncode for words in mounts):
            self.skipTest("nothing can be mounted here")
        try:
            yield
        finally:
            subprocess.run(["umount", self.folder], check=True)


class JournalTest(LedgerFileTestCase):
    """A journal that a killed server left behind."""

    # writes half of a transaction, puts it on the disk, and ends as by kill -9
    KILLED = """
import os, sqlite3, sys
db = sqlite3.connect(sys.argv[1], isolation_level=None)
db.execute("PRAGMA journal_mode = TRUNCATE")
db.execute("PRAGMA cache_size = 1")
db.execute("PRAGMA cache_spill = 1")
db.execute("BEGIN")
db.executemany("INSERT INTO calls (who, kind, line, vehicles, number) VALUES (1, 'arrive', 1, 1, 0)", [()] * 40_000)
os.kill(os.getpid(), 9)
"""

    def killed(self):
        found = subprocess.run([sys.executable, "-c", self.KILLED, self.file])
        self.assertEqual(found.returncode, -signal.SIGKILL)
        self.assertGreater(self.file.with_name("course.db-journal").stat().st_size, 0)

    def test_undone(self):
        self.played()
        before = self.opened()
        self.killed()
        found = store.Store(self.file)
        self.assertTrue(found.had_journal)
        found.close()
        self.assertEqual(self.opened(), before)
        self.assertFalse(store.Store(self.file).had_journal)

    def test_older_copy(self):
        """Put back beside the journal of the later file, the copy is not whole, and it is said what to do."""
        self.played(10)
        copy = self.folder / "copy.db"
        shutil.copy(self.file, copy)
        course = CourseLedger(LIBRARY, store.Store(self.file))
        for _ in range(20):
            course.call(1, Wanted("arrive", 1, 1))
        course.close()
        self.killed()
        shutil.copy(copy, self.file)
        with self.assertRaises(InputError) as found:
            self.opened()
        self.assertIn("course.db-journal was beside it: if this ledger is a copy that you put back, remove",
                      str(found.exception))
        self.file.with_name("course.db-journal").unlink()
        shutil.copy(copy, self.file)
        self.assertEqual(len(self.opened()[2]), 10)


class ReplayTest(LedgerFileTestCase):
    def test_said_when_it_takes_long(self):
        out = io.StringIO()
        with contextlib.redirect_stderr(out):
            slow = _Replaying("course.db")
            slow(100, 160_000)
            self.assertEqual(out.getvalue(), "")
            slow._start -= 2
            slow(200, 160_000)
            slow(300, 160_000)
        self.assertEqual(out.getvalue(), "course.db: playing 160,000 calls again; 200 after a second\n")


if __name__ == "__main__":
    unittest.main()
