"""Several processes, stopped runs that go on, and memory."""

import fcntl
import io
import os
import signal
import sqlite3
import subprocess
import sys
import time
import unittest
from pathlib import Path
from unittest import mock

from support import DEFAULT_SIGNALS, TOP, DeskTestCase, library
from years.making import many_sheets, read, sheet_of, without_workbook, years

from evp.years import run, work
from evp.years.resume import ANSWERS, FOLDER

WAIT = 30  # seconds at most


def files_of(out: Path) -> dict[str, bytes]:
    return {path.name: path.read_bytes() for path in out.iterdir() if path.is_file()}


def kept(out: Path) -> int:
    """How many answers a run has kept so far."""
    try:
        base = sqlite3.connect("file:%s?mode=ro" % (out / FOLDER / ANSWERS), uri=True)
        try:
            return int(base.execute("select count(*) from answer").fetchone()[0])
        finally:
            base.close()
    except sqlite3.OperationalError:  # not made yet
        return 0


class RunTest(DeskTestCase):
    def setUp(self):
        super().setUp()
        if "same_bytes" not in self.id():
            without_workbook(self)

    def start(self, *words: object) -> subprocess.Popen:
        """The command as a process of its own."""
        started = subprocess.Popen(
            [*DEFAULT_SIGNALS, sys.executable, TOP / "evp", "years", self.folder / "p", "-o", self.folder / "out",
             *map(str, words)],
            stdout=subprocess.PIPE, stderr=subprocess.PIPE, text=True, start_new_session=True,
            env={**os.environ, "EVP_LIBRARY": str(library.find())})
        self.addCleanup(started.communicate)
        self.addCleanup(started.kill)
        return started

    def wait_for(self, many: int):
        end = time.monotonic() + WAIT
        while kept(self.folder / "out") < many:
            self.assertLess(time.monotonic(), end)
            time.sleep(0.02)

    def goes_on(self, many: int, done: int):
        """The same command calculates the rest alone, and gives what a run that was never stopped gives."""
        with mock.patch.object(run, "answer_of", side_effect=run.answer_of) as asked:
            self.assert_plain(years(self.folder / "p", "-o", self.folder / "out", "--jobs", 1), 0)
        self.assertEqual(asked.call_count, many - done)
        self.assert_plain(years(self.folder / "p", "-o", self.folder / "fresh", "--jobs", 1), 0)
        self.assertEqual(files_of(self.folder / "out"), files_of(self.folder / "fresh"))

    def test_same_bytes_whatever_the_number_of_processes(self):
        many_sheets(self.folder / "p", 25)
        (self.folder / "p/bad-1990.evp").write_bytes(b"EVP")
        found = []
        for jobs in (1, 2, 3):
            out = self.folder / ("out%d" % jobs)
            self.assert_plain(years(self.folder / "p", "-o", out, "--jobs", jobs, "--rows"), 1)
            found.append(files_of(out))
        self.assertIn("results.csv", found[0])
        self.assertEqual(found[0], found[1])
        self.assertEqual(found[0], found[2])

    def test_killed_in_the_middle(self):
        many_sheets(self.folder / "p", 160, 250)
        started = self.start("--jobs", 2)
        self.wait_for(8)
        os.killpg(started.pid, signal.SIGKILL)
        started.wait()
        done = kept(self.folder / "out")
        self.assertLess(done, 160, "it was not in the middle")
        self.assertFalse((self.folder / "out/results.csv").exists())
        self.goes_on(160, done)

    def test_stopped_by_ctrl_c(self):
        many_sheets(self.folder / "p", 160, 250)
        started = self.start("--jobs", 2)
        self.wait_for(8)
        os.killpg(started.pid, signal.SIGINT)
        out, err = started.communicate(timeout=WAIT)
        self.assertEqual(started.returncode, 130, err)
        self.assertNotIn("Traceback", err)
        self.assertIn("the same command goes on", err)
        done = kept(self.folder / "out")
        self.assertLess(done, 160, "it was not in the middle")
        self.goes_on(160, done)

    def test_a_changed_sheet_alone_is_calculated_again(self):
        many_sheets(self.folder / "p", 12)
        self.assert_plain(years(self.folder / "p", "-o", self.folder / "out"), 0)
        (self.folder / "p/r0-1985.evp").write_bytes(sheet_of(77))
        self.goes_on(12, 11)

    def test_sheets_of_the_same_bytes_are_calculated_once(self):
        for year in range(1990, 1996):
            self.put("p/%d.evp" % year, sheet_of())
        with mock.patch.object(run, "answer_of", side_effect=run.answer_of) as asked:
            self.assert_plain(years(self.folder / "p", "-o", self.folder / "out", "--jobs", 1), 0)
        self.assertEqual(asked.call_count, 1)
        self.assertEqual(len(read(self.folder / "out/results.csv")), 13 * 6)

    def test_another_library_calculates_all_again(self):
        many_sheets(self.folder / "p", 5)
        self.assert_plain(years(self.folder / "p", "-o", self.folder / "out"), 0)
        with mock.patch.object(library.Library, "version", return_value=(9, 0, 0)):
            self.goes_on(5, 0)

    def test_damaged_state(self):
        many_sheets(self.folder / "p", 5)
        self.assert_plain(years(self.folder / "p", "-o", self.folder / "out"), 0)
        (self.folder / "out" / FOLDER / ANSWERS).write_bytes(b"no database" * 999)
        self.goes_on(5, 0)

    def test_one_run_at_a_time(self):
        many_sheets(self.folder / "p", 2)
        self.assert_plain(years(self.folder / "p", "-o", self.folder / "out"), 0)
        with (self.folder / "out" / FOLDER / "lock").open("w") as lock:
            fcntl.flock(lock, fcntl.LOCK_EX)
            found = years(self.folder / "p", "-o", self.folder / "out")
        self.assert_plain(found, 2)
        self.assertIn("another evp years", found.err)

    def test_a_process_that_is_ended(self):
        many_sheets(self.folder / "p", 8)
        with mock.patch.object(run, "answer_of", side_effect=lambda *_: os._exit(9)):
            found = years(self.folder / "p", "-o", self.folder / "out", "--jobs", 2)
        self.assert_plain(found, 2)
        self.assertIn("was ended from outside", found.err)
        self.goes_on(8, 0)

    def test_few_are_read_ahead(self):
        """Memory does not grow with the number of sheets: few chunks are read and not answered."""
        read_ahead, answered = [0], 0

        def chunks():
            for i in range(200):
                read_ahead[0] += 1
                yield run.Chunk([str(i)], [b"EVP"])

        for keys, _ in run.run_local(chunks(), run.Options(), 2):
            answered += len(keys)
            self.assertLessEqual(read_ahead[0] - answered, 2 * run.AHEAD)
        self.assertEqual(answered, 200)


class BarTest(unittest.TestCase):
    def lines(self, terminal: bool) -> str:
        err = io.StringIO()
        err.isatty = lambda: terminal
        clock = mock.patch.object(run.time, "monotonic", side_effect=range(0, 999, 5))
        with mock.patch.object(sys, "stderr", err), clock:
            bar = run.Bar(100)
            for done in (0, 25, 100):
                bar(done)
        return err.getvalue()

    def test_on_a_terminal(self):
        self.assertIn("25 of 100 sheets, 00:30 left", self.lines(True))
        self.assertTrue(self.lines(True).endswith("\n"))

    def test_elsewhere(self):
        self.assertEqual(self.lines(False), "")


class NeedsTest(DeskTestCase):
    def test_without_packages(self):
        """What is missing is said in one sentence, and the tables are made."""
        many_sheets(self.folder / "p", 3)
        found = subprocess.run(
            [sys.executable, "-c", WITHOUT, TOP / "python", "years", self.folder / "p", "-o", self.folder / "out"],
            capture_output=True, text=True, env={**os.environ, "EVP_LIBRARY": str(library.find())})
        self.assertEqual(found.returncode, 0, found.stderr)
        self.assertIn("sudo apt install python3-openpyxl", found.stderr)
        self.assertIn("sudo apt install python3-jinja2", found.stderr)
        self.assertTrue((self.folder / "out/results.csv").exists())
        self.assertFalse((self.folder / "out/results.xlsx").exists())
        found = subprocess.run(
            [sys.executable, "-c", WITHOUT, TOP / "python", "years", self.folder / "p", "-o", self.folder / "out",
             "--scheduler", "127.0.0.1:1"], capture_output=True, text=True,
            env={**os.environ, "EVP_LIBRARY": str(library.find())})
        self.assertEqual(found.returncode, 2, found.stderr)
        self.assertIn("sudo apt install python3-distributed", found.stderr)

    def test_work_has_the_files_of_the_documents(self):
        self.assertEqual((work.RESULTS, work.WORKBOOK, work.NFR), ("results.csv", "results.xlsx", "nfr.csv"))


WITHOUT = """
import sys
import importlib.util as util
sys.path.insert(0, sys.argv.pop(1))
gone, find = ("openpyxl", "jinja2", "markupsafe", "distributed"), util.find_spec
util.find_spec = lambda name, *more: None if name in gone else find(name, *more)
for name in gone:
    sys.modules[name] = None
from evp.cli import main
sys.exit(main())
"""

if __name__ == "__main__":
    unittest.main()
