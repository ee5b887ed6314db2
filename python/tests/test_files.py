"""Files that are none: nothing makes a command fail without words, print more than a screen, or wait for long."""

import json
import os
import random
import resource
import shutil
import signal
import subprocess
import sys
import tempfile
import threading
import unittest
from pathlib import Path
from unittest import mock

from support import DEFAULT_SIGNALS, TEXT, TOP, DeskTestCase, run, run_without_rights, sample

from evp import library, sheet
from evp.masses import shown

# A program that is evp with another command in place of `evp species`.
COMMAND = """
import signal, sys, time
sys.path.insert(0, sys.argv[1])
from evp import cli, commands
%s
commands.species = command
sys.argv[1:] = ["species", "a.evp"]
sys.exit(cli.main())
"""
DESTROYED = COMMAND % """
class Held:
    def __del__(self):
        signal.raise_signal(signal.SIGINT)

def command(given):
    Held()
    while True:
        time.sleep(1)
"""
UNFINISHED = COMMAND % """
def held():
    try:
        yield
    finally:
        raise ValueError("this is not finished")

def command(given):
    unfinished = held()
    next(unfinished)
    signal.raise_signal(signal.SIGINT)
"""
READERS = (("check",), ("explain",), ("show",), ("write",), ("read",), ("convert", "--to", "4"), ("species",))


class BadFilesTest(DeskTestCase):
    """Each command that reads a file, on files that are not what it wants."""

    def assert_each(self, path, *said: str, status: int | tuple[int, ...] = 2):
        for command, *options in READERS:
            with self.subTest(command=command):
                found = run(command, path, *options)
                self.assert_plain(found, status)
                self.assertTrue(any(word in found.out + found.err for word in said), found)
                self.assertLess(len(found.out + found.err), 2000)

    def test_300_megabytes_of_zeros(self):
        path = self.put("zeros.evp", b"")
        os.truncate(path, 300_000_000)
        self.assert_each(path, "its first 25,257 bytes are 0", "this is no text: byte 0 is 0",
                         "this is no sheet; it has more than 25,256 bytes", status=(1, 2))
        os.truncate(path, 20_000)
        self.assertIn("all its bytes are 0", run("check", path).out)

    def test_300_megabytes_behind_a_sheet(self):
        path = self.put("long.evp", sample("example"))
        os.truncate(path, 300_000_000)
        for command in ("check", "explain"):
            self.assertIn("more than 25,256 bytes, and the head asks for 136",
                          run(command, path).out)

    def test_read_makes_no_text_of_a_text(self):
        for content, said in ((TEXT.encode(), "this looks like a text: evp write makes a sheet of it"),
                              (b"\xef\xbb\xbf" + TEXT.encode(), "this looks like a text"),
                              (b"PK\3\4" + bytes(9999), "this looks like a workbook"),
                              (bytes(9999), "all its bytes are 0")):
            found = run("read", self.put("a.evp", content))
            self.assert_plain(found, 2)
            self.assertIn("a.evp: this is no sheet; " + said, found.err)

    def test_folder(self):
        for command, *options in READERS:
            found = run(command, self.folder, *options)
            self.assert_plain(found, 2)
            said = "there is no parking.csv" if command == "write" else "this is a folder, and a file is wanted"
            self.assertIn(said, found.err)

    def test_none(self):
        self.assert_each(self.folder / "none.evp", "there is no such file")
        self.assert_each(self.put("file", b"x") / "below", "a part of its path is a file")
        self.assert_each("a" * 5000, "File name too long")
        self.assert_each("a\0b", "this is no name of a file")

    def test_empty(self):
        self.assert_each(self.put("empty", b""), "the file is empty", "0 bytes, too few for a head", status=(1, 2))

    def test_pipe(self):
        """A pipe gives a sheet, or zeros without an end."""
        pipe = self.folder / "pipe"
        os.mkfifo(pipe)
        for content, many, status in ((sample("region"), 1, 0), (bytes(65536), 5000, 1)):
            writer = threading.Thread(target=self.fill, args=(pipe, content, many))
            writer.start()
            found = run("check", pipe)
            writer.join(20)
            self.assertFalse(writer.is_alive())
            self.assert_plain(found, status)

    @staticmethod
    def fill(pipe, content: bytes, many: int):
        try:
            with open(pipe, "wb", buffering=0) as file:
                for _ in range(many):
                    file.write(content)
        except BrokenPipeError:
            pass

    def test_device(self):
        self.assert_plain(run("check", "/dev/zero"), 1)
        self.assert_plain(run("write", "/dev/zero"), 2)

    def test_standard_input(self):
        self.assertEqual(run("check", "-", given=sample("region")).out,
                         "standard input: accepted: version 1, 4 seasons, 24 rows\n")

    def test_no_right(self):
        """Files and folders that are closed to who calls."""
        os.chmod(self.folder, 0o755)
        path, text = self.put("secret.evp", sample("region")), self.put("a.txt", TEXT)
        locked = self.put("locked/seasons.csv", "days\n").parent
        for closed in (path, locked):
            os.chmod(closed, 0)
            self.addCleanup(os.chmod, closed, 0o755)
        for name, *words in (
            (path, "check", path), (path, "show", path), (path, "read", path), (path, "write", path),
            (path, "compare", path, path), (locked / "grid.csv", "write", locked),
            (locked, "mark", locked, "--filed", path, "-o", "-"),
            (locked / "a.evp", "write", text, "-o", locked / "a.evp"),
            (locked / "seasons.csv", "template", locked), (locked / "below", "template", locked / "below"),
        ):
            with self.subTest(words=words):
                self.assertEqual(run_without_rights(*words), (2, "", "evp: %s: you have no right to it\n" % name))

    def test_strange_name(self):
        found = run("check", self.put("a\x1b[2J\nb.evp", b"x"))
        self.assertNotIn("\x1b", found.out)
        self.assertEqual(found.out.count("\n"), 1)

    def test_target(self):
        """A target that cannot be written."""
        source = self.put("a.txt", TEXT)
        for target, said in ((self.folder, "this is a folder, and a file is wanted"),
                             (self.folder / "none" / "a.evp", "there is no such folder"),
                             (source / "a.evp", "a part of its path is a file, not a folder")):
            for force in ((), ("--force",)):
                found = run("write", source, "-o", target, *force)
                self.assert_plain(found, 2)
                self.assertEqual(found.err, "evp: %s: %s\n" % (target, said))
        self.assertIn("a folder is wanted", run("template", source).err)

    def test_command_line(self):
        for words in ((), ("check",), ("convert", "a.evp"), ("convert", "a.evp", "--to", "5"),
                      ("show", "a", "--unit", "lb"), ("show", "a", "--unit", "x" * 9999), ("check", "--" + "\x1b[2J"),
                      ("show", "a", "\x1b[2J" * 999), ("\x1b[2J" * 999,), ("--\n" * 99,)):
            found = run(*words)
            self.assert_plain(found, 2)
            self.assertRegex(found.err, "--help (says|lists) ")
            self.assertNotIn("\x1b", found.err)
            self.assertLess(len(found.err), 600)
        for words, said in (
            ((), "a command is wanted: check, explain, show, convert, write, read, template, mark, "),
            (("chek", "a.evp"), "there is no command 'chek'; did you mean evp check?"),
            (("nothing",), "there is no command 'nothing'; evp --help lists them"),
            (("convert", "a.evp"), "the following arguments are required: --to; evp convert --help says more"),
            (("convert", "a.evp", "--to", "\u0663"),
             "argument --to: '\u0663' is none of 2, 3, 4; evp convert --help says more"),
        ):
            self.assertIn("evp: %s" % said, run(*words).err)

    def test_help(self):
        for command in "check explain show write read template convert mark compare species cells pool".split():
            found = run(command, "--help")
            self.assertEqual(found.status, 0)
            self.assertIn("example:\n  evp %s " % command, found.out)
            self.assertIn("Exit status 0 fine", found.out)

    def test_fault_of_its_own(self):
        """Even then there is no traceback."""
        from evp import commands
        kept, commands.explain = commands.explain, lambda *_: 1 // 0
        try:
            found = run("check", self.put("a.evp", sample("region")))
        finally:
            commands.explain = kept
        self.assertEqual(found.status, 2)
        self.assertIn("this is a fault of evp itself: ZeroDivisionError", found.err)
        self.assertNotIn("Traceback", found.err)

    def test_name_that_is_no_text(self):
        """A name that is no UTF-8, on the command line and in a folder."""
        path = os.fsencode(self.folder) + b"/caf\xe9.evp"
        with open(path, "wb") as file:
            file.write(sample("example"))
        self.assertIn("caf?.evp: accepted", run("check", os.fsdecode(path)).out)
        self.assertEqual(json.loads(run("check", os.fsdecode(path), "--json").out)[0]["file"], os.fsdecode(path))
        filed = self.put("filed.csv", "sheet,row,mechanism,mass,unit\n")
        self.assert_plain(run("mark", self.folder, "--filed", filed, "-o", self.folder / "m.csv"), 1)
        self.assertIn(b"caf\xe9.evp,,,,,missing,", (self.folder / "m.csv").read_bytes())


class DesignTableTest(DeskTestCase):
    """What was tried when the desk was designed, and what is said of it now: a line with the file, and no traceback."""

    def said(self, content: bytes | str | None, name: str = "a.txt") -> str:
        """What `write` says first of a text, or of a file that is not there."""
        path = self.put(name, content) if content is not None else self.folder / name
        found = run("write", path, "-o", self.folder / "a.evp", "--force")
        self.assert_plain(found, (0, 1, 2))
        self.assertTrue(found.err.startswith("evp: "), found)
        return found.err.replace("%s/" % self.folder, "").splitlines()[0]

    def test_numbers(self):
        self.assertEqual(self.said(TEXT.replace("trips=4.80", "trips=2,40")),
                         "evp: a.txt: line 5: trips: '2,40' is no number; the decimal sign is a point: 2.40")

    def test_cp1252(self):
        self.assertEqual(self.said(("# Düsseldorf\n" + TEXT).encode("cp1252")),
                         "evp: a.txt: line 1: byte 3 (fc hexadecimal) is no UTF-8; save it as UTF-8, in Excel as "
                         '"CSV UTF-8"')

    def test_byte_order_mark(self):
        path = self.put("a.txt", b"\xef\xbb\xbf" + TEXT.encode())
        self.assertEqual((run("write", path).status, run("write", path, "--force").err), (0, ""))

    def test_empty_binary_and_missing(self):
        draw = random.Random(1)
        self.assertEqual(self.said(b""), "evp: a.txt: the file is empty")
        self.assertEqual(self.said(None, "none.txt"), "evp: none.txt: there is no such file")
        self.assertEqual(self.said(bytes(10) + draw.randbytes(2_000_000)), "evp: a.txt: this is no text: byte 0 is 0")
        for name in ("utf-16-le", "utf-16-be"):
            self.assertEqual(self.said(TEXT.encode(name)),
                             'evp: a.txt: this looks like UTF-16; save it as UTF-8, in Excel as "CSV UTF-8"')
        binary = self.said(bytes(draw.randrange(128, 256) for _ in range(2_000_000)))
        self.assertRegex(binary, r"^evp: a.txt: line 1: byte \d+ \([0-9a-f]{2} hexadecimal\) is no UTF-8; save it as")

    def test_accepted_without_a_word(self):
        for text, said in (
            (TEXT.replace(" vehicles=18400", ""), "line 5: vehicles left out, so 0"),
            (TEXT.replace("lowest=14.5 highest=29.0", "lowest=41 highest=49.5"),
             "line 4: lowest 41, highest 49.5: is this °F? In °C it would be 5.0 and 9.7"),
            (TEXT + TEXT.splitlines()[4],
             "lines 5, 7: these rows are alike in all but vehicles; was one entered twice?"),
        ):
            self.assertEqual(self.said(text), "evp: note: a.txt: " + said)

    def test_refused_sheet(self):
        """`refused 19 at 136`: which row, which of three reasons, which value."""
        found = run("check", self.put_sheet("a.evp", TEXT.replace("load=32.0", "load=70.0")))
        self.assertIn("refused 19 at 144: row 2: load 70.0 g is above m_sat 60.0 g; write at most 60.0", found.out)

    def test_rounded_masses(self):
        """A filed mass is compared as what rounds to it."""
        self.put_sheet("a.evp", TEXT)
        band = library.load().report(sheet.write(TEXT)).total
        filed = self.put("f.csv", "sheet,row,mechanism,mass,unit\na.evp,total,,%s,t\n" % shown(band, "t").split()[0])
        found = run("mark", self.folder, "--filed", filed, "-o", self.folder / "m.csv")
        self.assertEqual((found.status, found.out.splitlines()[0]), (0, "1 sheet, 1 figure: 1 agrees"))

    def test_status(self):
        """Status 0, 1 or 2, and the file that is named is the one that is read."""
        good, bad = self.put("good.evp", sample("region")), self.put("bad.evp", sample("region")[:-1])
        names = good, bad, self.folder / "none"
        self.assertEqual([run("check", name, given=b"").status for name in names], [0, 1, 2])


class WidthTest(DeskTestCase):
    """What is printed for a terminal of 80 columns."""

    @mock.patch.dict(os.environ, COLUMNS="80")
    def test_help_and_tables(self):
        shown_lines = []
        for command in "check explain show write read template convert mark compare species cells pool".split():
            shown_lines += run(command, "--help").out.splitlines()
        for name in ("region", "survey", "odometer", "districts", "table-3-5"):
            shown_lines += run("show", TOP / "samples" / (name + ".evp")).out.splitlines()
        shown_lines += run("show", TOP / "samples" / "course" / "north.evp", "--unit", "kg").out.splitlines()
        shown_lines += run("compare", TOP / "samples" / "region.evp", TOP / "samples" / "survey.evp").out.splitlines()
        shown_lines += run("species", TOP / "samples" / "region.evp").out.splitlines()
        own = [line for line in shown_lines if "samples/" not in line and "row,town" not in line]
        self.assertEqual([line for line in own if len(line) > 80], [])


class StartTest(unittest.TestCase):
    """The command itself."""

    def test_evp(self):
        found = subprocess.run([TOP / "evp", "check", TOP / "samples" / "region.evp"], capture_output=True, text=True,
                               cwd="/")
        self.assertEqual((found.returncode, found.stdout), (0, "%s: accepted: version 1, 4 seasons, 24 rows\n" % (
            TOP / "samples" / "region.evp")))

    def test_a_reader_that_leaves(self):
        line = "'%s' show samples/districts.evp | head -1" % (TOP / "evp")
        found = subprocess.run(line, shell=True, capture_output=True, text=True, cwd=TOP)
        self.assertEqual(found.stderr, "")

    def in_shell(self, line: str) -> tuple[int, str, str]:
        """A line of a shell, in which evp is the command."""
        plain = {name: word for name, word in os.environ.items() if not name.startswith("PYTHON")}
        found = subprocess.run(line.replace("evp ", "'%s' " % (TOP / "evp"), 1), shell=True, capture_output=True,
                               text=True, cwd=TOP, env=plain)  # as who calls has it: output is kept back
        return found.returncode, found.stdout, found.stderr

    def test_streams_that_are_closed_or_full(self):
        """What cannot be printed is said, and ends with 2; a closed standard error changes no status."""
        for line, said in (
            ("evp show samples/region.evp >/dev/full", "standard output: No space left on device"),
            ("evp read samples/region.evp >/dev/full", "standard output: No space left on device"),
            ("evp convert samples/region.evp --to 4 -o - >/dev/full", "standard output: No space left on device"),
            ("evp --help >/dev/full", "standard output: No space left on device"),
            ("evp check samples/region.evp >&-", "standard output: it is closed"),
            ("evp check - <&-", "standard input: it is closed"),
        ):
            self.assertEqual(self.in_shell(line), (2, "", "evp: %s\n" % said), line)
        for stream in ("2>&-", "2>/dev/full"):
            self.assertEqual(self.in_shell("evp check none.evp " + stream), (2, "", ""))
            self.assertEqual(self.in_shell("evp show samples/course/heath.evp " + stream), (1, "", ""))

    def interrupted(self, command: list, pipe: Path) -> tuple[int, str]:
        """What a command says and ends with that gets Ctrl-C as soon as it reads a pipe."""
        with subprocess.Popen([*DEFAULT_SIGNALS, *command], stderr=subprocess.PIPE, text=True) as process:
            with open(pipe, "wb"):  # waits until it reads
                process.send_signal(signal.SIGINT)
                return process.wait(20), process.stderr.read()

    def test_a_file_that_cannot_be_finished(self):
        """A new one is taken away again; the limit stands for a disk that is full."""
        with tempfile.TemporaryDirectory() as folder:
            source, target = Path(folder) / "a.txt", Path(folder) / "a.evp"
            source.write_text(TEXT)
            found = subprocess.run([TOP / "evp", "write", source], capture_output=True, text=True,
                                   preexec_fn=lambda: resource.setrlimit(resource.RLIMIT_FSIZE, (100, 100)))
            self.assertEqual((found.returncode, found.stderr, target.exists()),
                             (2, "evp: %s: File too large\n" % target, False))

    def test_interrupt(self):
        """Ctrl-C, while a command waits and while evp starts: a line and status 130, as of any program."""
        with tempfile.TemporaryDirectory() as folder:
            pipe = Path(folder) / "pipe"
            os.mkfifo(pipe)
            self.assertEqual(self.interrupted([TOP / "evp", "check", pipe], pipe), (130, "evp: stopped\n"))
            copy = Path(folder) / "evp"
            shutil.copy(TOP / "evp", copy)
            (Path(folder) / "python" / "evp").mkdir(parents=True)
            (Path(folder) / "python" / "evp" / "cli.py").write_text("open(%r).read()\n" % str(pipe))
            self.assertEqual(self.interrupted([copy], pipe), (130, "evp: stopped\n"))

    def test_interrupt_in_a_destructor(self):
        """There Python goes on after KeyboardInterrupt. The command ends as everywhere else, and so do exceptions that
        come of Ctrl-C where nobody can catch them: nothing of them is printed."""
        for source in (DESTROYED, UNFINISHED):
            found = subprocess.run([*DEFAULT_SIGNALS, sys.executable, "-c", source, TOP / "python"],
                                   capture_output=True, text=True, timeout=60)
            self.assertEqual((found.returncode, found.stdout, found.stderr), (130, "", "evp: stopped\n"))

    def test_a_terminal_without_signs(self):
        changed = {**os.environ, "PYTHONIOENCODING": "ascii"}
        found = subprocess.run([TOP / "evp", "template", "--help"], capture_output=True, text=True, env=changed)
        self.assertEqual((found.returncode, found.stderr), (0, ""))

    def test_no_library(self):
        changed = {**os.environ, "EVP_LIBRARY": "/none.so"}
        found = subprocess.run([TOP / "evp", "check", "x"], capture_output=True, text=True, env=changed)
        self.assertEqual(found.returncode, 2)
        self.assertIn("evp: the library cannot be loaded: ", found.stderr)


if __name__ == "__main__":
    unittest.main()
