"""The table of the gate's times."""

import contextlib
import io
import tempfile
import unittest
from pathlib import Path

from tools import crates
from tools.command import run
from tools.make import times
from tools.make.__main__ import parser
from tools.make.error import MakeError

LOG = """\
rt: numbers is kept: an earlier run on this machine proved the same files over the same libraries
rt: cells proved
rt: shares proved
rt: cells: trying its must-fail edits (2)
rt: bounds proved
rt: bounds: its tests are proved
rt: must-fail cells/exact_zero.edit: refused, as it must be: proofs/A.antt:8:59: error: x
rt: must-fail cells/band.edit: refused, as it must be
rt: must-fail bounds/entry.edit: refused, as it must be: proofs/A.antt:8:59: error: x
7 passed, 0 failed
"""
TIMES = """\
0.4 rt: numbers is kept: an earlier run on this machine proved the same files over the same libraries
7.2 rt: cells proved
9.0 rt: shares proved
9.1 rt: cells: trying its must-fail edits (2)
1311.6 rt: bounds proved
1500.0 rt: bounds: its tests are proved
"""


class TimesTest(unittest.TestCase):
    """Times read from a log, and laid out."""

    def test_table(self):
        lines = times.table(times.read(LOG, TIMES), ["numbers", "cells", "shares", "bounds"]).splitlines()
        self.assertEqual(lines[2:], [
            "| numbers | kept |  | shares | 9 |  |  |  |  |",
            "| cells | 7 | 2 | bounds | 1312 | 1 |  |  |  |",
        ])
        self.assertTrue(all(line.count("|") == 10 for line in lines))

    def test_crate_without_a_time(self):
        with self.assertRaisesRegex(MakeError, "no time of exact, sheet"):
            times.table(times.read(LOG, TIMES), ["numbers", "exact", "sheet"])

    def test_edit_of_no_crate(self):
        with self.assertRaises(MakeError):
            times.read("rt: must-fail cells/band.edit: refused, as it must be\n", TIMES.replace("cells", "exact"))

    def page(self, log: str, said: str, steps: str) -> str:
        """The page, which the gate writes beside the log."""
        with tempfile.TemporaryDirectory() as folder:
            path = Path(folder, "rt-ci.log")
            path.write_text(log, encoding="utf-8")
            path.with_name("rt-ci.times").write_text(said, encoding="utf-8")
            path.with_name("steps.log").write_text(steps, encoding="utf-8")
            made, = times.files(path)
            words = ["times", str(path), "--to", str(path.with_name("TIMES.md"))]
            with contextlib.redirect_stdout(io.StringIO()):
                self.assertEqual(run(parser(), words), 0)
            self.assertEqual(path.with_name("TIMES.md").read_bytes(), made.data)
        self.assertEqual(made.path, "docs/TIMES.md")
        return made.data.decode()

    def test_page(self):
        """docs/TIMES.md has a time of every crate and of every step, and the sums."""
        names = crates.names()
        log = "".join("rt: %s proved\n" % crate for crate in names)
        said = "".join("%d.2 rt: %s proved\n" % (1 + (crate == "exact"), crate) for crate in names)
        log += "".join("rt: must-fail exact/%s.edit: refused, as it must be: x\n" % edit for edit in "ef")
        steps = "the tests of tools/: 23 s\nrt ci: 1600 s\nthe whole gate: 1743 s\n"
        text = self.page(log, said, steps)
        self.assertEqual(text.count("| 1 |"), len(names) - 1)
        self.assertIn("| exact | 2 | 2 |", text)
        self.assertIn("%d crates were proved in this run, the last of them, `exact`, after 2 s; 0 were kept. rt ci "
                      "took\n1,600 s" % len(names), text)
        self.assertIn("The whole gate took 29 minutes.", text)
        self.assertTrue(text.endswith("| the tests of tools/ | 23 |\n| rt ci | 1,600 |\n"), text[-200:])
        kept = self.page(log.replace(" proved", " is kept: an earlier run"), "", steps)
        self.assertIn("\n0 crates were proved in this run; %d were kept. rt ci took" % len(names), kept)

    def test_gate_that_did_not_end(self):
        with self.assertRaisesRegex(MakeError, "the time of the whole gate"):
            times.read_steps("the tests of tools/: 23 s\nrt ci: 1600 s\n")
