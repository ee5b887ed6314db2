"""The runs of the programs: wrong programs, each a few lines of shell, are found."""

import signal
import subprocess
import sys
import tempfile
import unittest
from pathlib import Path
from unittest import mock

from tools import reckoning
from tools.check import runs
from tools.command import SAMPLES, TOP
from tools.reckoning import species
from tools.tests.support import sample
from tools.vectors import pools

SHEET, REPORT = sample("example", ".evp"), sample("example", ".report")
REFUSED = SHEET[:-1]


class Reports(unittest.TestCase):
    def test_the_stored_reports(self):
        for file in sorted(SAMPLES.glob("*.evp")):
            stored = file.with_suffix(".report").read_bytes()
            self.assertIsNone(runs.report_fault(file.read_bytes(), stored), file)

    def test_what_is_not_one_report(self):
        lines = REPORT.splitlines(keepends=True)
        for text in (b"", 2 * REPORT, REPORT[:-1], b"refused 1 at 0\n", b"".join(lines[:-1]),
                     b"".join([*lines, lines[-1]]), b"".join([lines[0], *lines[2:], lines[1]]),
                     REPORT.replace(b"cars", b"light")):
            self.assertIsNotNone(runs.report_fault(SHEET, text), text)

    def test_another_sum(self):
        *most, last = sample("region", ".report").split()
        text = sample("region", ".report").replace(last, b"%d" % (int(last) + 1))
        self.assertEqual(runs.report_fault(sample("region", ".evp"), text), "other sums than those of its rows")


class Programs(unittest.TestCase):
    """Programs in a folder of their own, which answer the example and what is not that by fixed texts."""

    def setUp(self):
        folder = tempfile.TemporaryDirectory()
        self.addCleanup(folder.cleanup)
        self.folder = Path(folder.name)
        self.enterContext(mock.patch.object(runs, "BIN", self.folder))
        self.listed = species.text(1, int(REPORT.split()[-1])).encode()
        self.put("report", REPORT)
        self.put("species", self.listed)

    def put(self, name: str, text: bytes, script: str = "", status: int | None = None):
        """A program that writes a text; it ends with the status of that text, or with another."""
        if status is None:
            status = 1 if text.startswith(b"refused") else 0
        script = script or 'cat "${1:--}" > "$0.read"; cat "$0.text"; exit %d' % status
        (self.folder / (name + ".text")).write_bytes(text)
        (self.folder / name).write_text("#!/bin/sh\n%s\n" % script)
        (self.folder / name).chmod(0o755)

    def told(self, data: bytes) -> list[str]:
        return list(runs.sheet_faults(runs.Run("a sheet", data, reckoning.check(data)), self.folder))

    def test_right_ones(self):
        self.assertEqual(self.told(SHEET), [])

    def test_a_program_that_answers_nothing_or_twice_or_refuses(self):
        for name, right in (("report", REPORT), ("species", self.listed)):
            for wrong in (b"", 2 * right, b"refused 1 at 0\n"):
                self.put(name, wrong)
                self.assertNotEqual(self.told(SHEET), [], (name, wrong[:20]))
            self.put(name, right)

    def test_another_exit_status(self):
        line = b"refused %d at %d\n" % reckoning.check(REFUSED)
        for name, right in (("report", REPORT), ("species", self.listed)):
            for status in (1, 2):
                self.put(name, right, status=status)
                self.assertNotEqual(self.told(SHEET), [], (name, status))
            self.put(name, right)
        for name in ("report", "species"):
            self.put(name, line)
        for name in ("report", "species"):
            for status in (0, 2):
                self.put(name, line, status=status)
                self.assertNotEqual(self.told(REFUSED), [], (name, status))
            self.put(name, line)

    def test_a_refused_sheet_is_refused_by_its_number_and_place(self):
        line = b"refused %d at %d\n" % reckoning.check(REFUSED)
        for name in ("report", "species"):
            self.put(name, line)
        self.assertEqual(self.told(REFUSED), [])
        self.put("report", 2 * line)
        self.assertNotEqual(self.told(REFUSED), [])
        self.put("report", line)
        self.put("species", b"refused 1 at 0\n")
        self.assertNotEqual(self.told(REFUSED), [])

    def test_a_program_that_reads_standard_input_alone(self):
        self.put("species", self.listed, 'if [ -n "$1" ]; then echo refused 1 at 0; else cat "$0.text"; fi')
        self.assertEqual(self.told(SHEET), ["species, a sheet, by a file: another answer"])

    def test_a_pool_that_takes_the_first_sheet_twice(self):
        first, second = pools.NORTH.data(), pools.SOUTH.data()
        pair = ("north and south", first, second)
        usage = 'if [ $# != 2 ]; then echo "usage: pool FIRST SECOND" >&2; exit 2; fi\n' \
            'for f; do [ -e "$f" ] || { echo "pool: cannot open $f: No such file or directory" >&2; exit 2; }; done\n'
        self.put("pool", runs.pair_answer(first, second)[0], usage + 'cat "$0.text"')
        self.assertEqual(list(runs.pair_faults([pair], self.folder)), [])
        self.put("pool", runs.pair_answer(first, first)[0], usage + 'cat "$0.text"')
        self.assertEqual(len(list(runs.pair_faults([pair], self.folder))), 1)
        self.put("pool", b"first sheet: refused 1 at 0\n", usage + 'cat "$0.text" >&2; exit 1')
        self.assertEqual(len(list(runs.pair_faults([pair], self.folder))), 1)
        self.put("pool", runs.pair_answer(first, second)[0], usage.replace("exit 2", "exit") + 'cat "$0.text"')
        self.assertEqual(len(list(runs.pair_faults([pair], self.folder))), 5)


# a command that runs a program which reads nothing, and writes to it more than a pipe holds
CALLING = """\
import argparse, sys
from pathlib import Path
from tools import command
from tools.check import runs, samples
parser = argparse.ArgumentParser()
parser.set_defaults(run=lambda _: print(%s(Path("true"), data=bytes(10 ** 6))))
sys.exit(command.run(parser, []))
"""


class Pipes(unittest.TestCase):
    """A program that ends while it is written to has its answer, and the command goes on."""

    def test_a_program_that_reads_nothing(self):
        for name, text in (("runs.answered", "(b'', b'', 0)\n"), ("runs.in_pieces", "(b'', b'', 0)\n"),
                           ("samples.printed", "b''\n")):
            with self.subTest(function=name):
                run = subprocess.run(
                    [sys.executable, "-c", CALLING % name], cwd=TOP, capture_output=True, text=True, timeout=60)
                self.assertEqual((run.stdout, run.stderr, run.returncode), (text, "", 0))

    def test_a_command_ends_with_its_reader_all_the_same(self):
        before = signal.signal(signal.SIGPIPE, signal.SIG_DFL)
        self.addCleanup(signal.signal, signal.SIGPIPE, before)
        runs.answered(Path("true"))
        self.assertEqual(signal.getsignal(signal.SIGPIPE), signal.SIG_DFL)


class Sheets(unittest.TestCase):
    def test_the_edges_are_there(self):
        found = {len(run.data): run.refusal for run in runs.all_runs()}
        self.assertEqual([found[size] for size in (0, 1, runs.LONGEST + 1)], [(1, 0), (1, 0), (7, 0)])
        self.assertIn(None, [run.refusal for run in runs.all_runs() if len(run.data) == runs.LONGEST])

    def test_every_number_of_a_sheet_is_there(self):
        numbers = {run.refusal[0] for run in runs.all_runs() if run.refusal}
        self.assertEqual(numbers, {*range(1, 22), 24, 25, 26})

    def test_too_few_runs_are_told(self):
        self.assertEqual(list(runs.few(runs.Counts(70, 100, 100))), [])
        self.assertEqual(len(list(runs.few(runs.Counts(69, 99, 0)))), 3)


if __name__ == "__main__":
    unittest.main()
