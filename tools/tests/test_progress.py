"""How far rt ci is, told from its log."""

import io
import unittest

from tools import crates, progress

LOG = """\
rt: another line of rt
== numbers
note: no function with a body is declared, so nothing was lowered
rt: numbers proved
rt: text is kept: an earlier run on this machine proved the same files over the same libraries
fn vectors::text: proved
rt: text: its tests are proved
rt: text: trying its must-fail edits (1)
rt: text: 1 of its 2 must-fail edits were tried by an earlier run on this machine, and nothing that they stand on has \
changed
rt: must-fail text/first.edit: refused, as it must be: ./proofs/A.antt:8:59: error: `f`: the two types differ
rt: must-fail text/second.edit: refused, as it must be: note: src/lib.rt:3:1: it is not proved that what the function
rt: report ran, and wrote what its file stdout has
rt: report ran (built by Rattle's own compiler), and wrote what its file stdout has
rt: ok; handles allowed: none; must-fail edits: 2 refused; every proof and must-fail edit was done in this run
4 passed, 0 failed
"""

WRONG = """\
rt: numbers proved
== text
fn text::decimal::put: proved
./proofs/Proof.antt:21:6: error: these two are not the same
  the left side
logic=not-proved functions=0
rt: text NOT PROVED
rt: must-fail numbers/first.edit: NOT REFUSED: the crate is still proved with this edit
rt: report: what the program wrote, out/stdout, is not what its file stdout has: they differ first at byte 1, line 1
rt: FAILED: text numbers/first.edit report (run)
1 passed, 3 failed
"""


def told(log: str, is_terminal: bool = False) -> tuple[str, list[str]]:
    """What is printed of a log, and what is wrong with it; every line of it is kept."""
    kept, out = io.StringIO(), io.StringIO()
    steps = progress.Progress(progress.Wanted(crates=2, edits=2), out, is_terminal)
    progress.follow(io.StringIO(log), kept, io.StringIO(), steps)
    assert kept.getvalue() == log
    return out.getvalue(), list(steps.faults())


class ProgressTest(unittest.TestCase):
    """The lines of a log that went well, and of one that did not."""

    def test_steps(self):
        text, faults = told(LOG)
        self.assertEqual(text.splitlines(), [
            "1 of 2 crates, 0 of 2 edits", "2 of 2 crates, 0 of 2 edits", "2 of 2 crates, 1 of 2 edits",
            "2 of 2 crates, 2 of 2 edits", LOG.splitlines()[-2], "4 passed, 0 failed",
        ])
        self.assertEqual(faults, [])

    def test_terminal(self):
        """One line that is written over, and the end stays."""
        text, _ = told(LOG, is_terminal=True)
        self.assertEqual(text.count("\n"), 3)
        self.assertTrue(text.endswith("\r\x1b[K2 of 2 crates, 2 of 2 edits\n4 passed, 0 failed\n"))

    def test_times(self):
        """When rt's own lines came."""
        times, clock = io.StringIO(), iter(range(100))
        progress.follow(io.StringIO(LOG), io.StringIO(), times, progress.Progress(
            progress.Wanted(crates=2, edits=2), io.StringIO(), False), lambda: next(clock))
        lines = times.getvalue().splitlines()
        self.assertEqual(lines[:2], ["1.0 rt: another line of rt", "2.0 rt: numbers proved"])
        self.assertEqual(len(lines), len([line for line in LOG.splitlines() if line.startswith("rt: ")]))

    def test_failure(self):
        text, faults = told(WRONG)
        lines = text.splitlines()
        self.assertIn("./proofs/Proof.antt:21:6: error: these two are not the same", lines)
        self.assertNotIn("fn text::decimal::put: proved", lines, "what went well before the error")
        self.assertIn("rt: text NOT PROVED", lines)
        self.assertIn("rt: must-fail numbers/first.edit: NOT REFUSED: the crate is still proved with this edit", lines)
        self.assertIn("rt: report: what the program wrote, out/stdout, is not what its file stdout has: they differ "
                      "first at byte 1, line 1", lines)
        self.assertEqual(lines[-2:], ["rt: FAILED: text numbers/first.edit report (run)", "1 passed, 3 failed"])
        self.assertEqual(faults, ["3 failed"])

    def test_what_is_no_good_end(self):
        """Edits that are bad fail no rt ci, and are a fault all the same."""
        bad = LOG.replace("2 refused; ", "1 refused, 1 bad; ")
        limit = LOG.replace("2 refused; ", "2 refused, 1 of them only by a limit, 12 bad; ")
        for log, faults in ((bad, ["1 must-fail edits are bad"]), (limit, ["12 must-fail edits are bad"]),
                            (LOG.replace("2 refused; ", "2 refused, 0 bad; "), []),
                            (LOG.partition("rt: ok")[0], ["rt ci has not said how many passed and failed"]),
                            (LOG.replace("rt: ok;", "rt: note:"), ["rt ci has not said that it is ok"]),
                            ("0 passed, 1 failed\n", ["1 failed"]), ("", [
                                "rt ci has not said how many passed and failed"])):
            with self.subTest(log=log[-200:]):
                self.assertEqual(told(log)[1], faults)

    def test_what_is_shown_at_once(self):
        for line in ("rt: text: its tests are NOT PROVED", "rt: must-fail a/b.edit: BAD EDIT: it changes nothing",
                     "rt: must-fail a/b.edit: NOT TRIED: its check was killed", "rt: text: its tests FAILED",
                     "rt: crates/a/must-fail/x: BAD EDIT: an edit stands right in must-fail/",
                     "rt: pool (built by Rattle's own compiler; the LLVM build passed): the program ended with 1",
                     "rt: pool: the program had not ended after 120 seconds",
                     "rt: text NOT PROVED: its library a failed"):
            self.assertEqual(told(line + "\n")[0].splitlines(), [line])

    def test_parts(self):
        """A long way is told in twenty lines."""
        out = io.StringIO()
        steps = progress.Progress(progress.Wanted(100, 100), out, False)
        for i in range(100):
            steps.take("rt: a%d proved" % i)
        for i in range(100):
            steps.take("rt: must-fail a/e%d.edit: refused, as it must be: x" % i)
        self.assertEqual(out.getvalue().count("\n"), progress.PARTS)
        self.assertTrue(out.getvalue().endswith("100 of 100 crates, 100 of 100 edits\n"))


class CratesTest(unittest.TestCase):
    """crates.txt as it is read."""

    def test_sections(self):
        found = crates.read("# The crates.\n\n# Low: the first.\na:\nb: a libc\n\n# High: the last.\nc: a b\n")
        self.assertEqual([(section.title, section.about) for section in found],
                         [("Low", "the first."), ("High", "the last.")])
        self.assertEqual(found[0].crates, [("a", [], False), ("b", ["a"], False)])
        self.assertEqual(found[1].crates, [("c", ["a", "b"], False)])

    def test_static_library(self):
        found = crates.read("# The crates.\n\n# Low: the first.\na:\na_c staticlib: a std\n")
        self.assertEqual(found[0].crates, [("a", [], False), ("a_c", ["a"], True)])

    def test_line_that_is_neither(self):
        with self.assertRaisesRegex(ValueError, "line 3"):
            crates.read("# The crates.\n# Low: the first.\nb a\n")

    def test_ours(self):
        names = crates.names()
        self.assertEqual(len(names), len(set(names)))
        self.assertGreater(sum(map(crates.edits_of, names)), 100)
