"""What the check of the must-fail edits sees."""

import tempfile
import unittest
from pathlib import Path
from unittest import mock

from tools.check import edits

GOOD = "# the error is what is proved\nfile: specs/A.antt\nold: 3 + 1\nnew: 3 + 2\n"
LOG = "note: some words\n%s\n  more of it\nlogic=not-proved\n"
DIFFER = "A.antt:3:1: error: `f`: as printed, the two types differ only where one has `4` (expected)"

# First errors as rt must-fail shows them, cut after 160 characters, and as rt check shows them.
CANISTER = ("./proofs/Alike.antt:62:27: error: `canister-counts`: as printed, the two types differ only where one has "
            "`255` (expected), right after `canister_of (code_of Sma")
ORDER_EXCHANGED = ("./proofs/Agree.antt:260:5: error: `row-agrees`: as printed, the two types first differ where one "
                   "has `row_finding` (expected), right after `Checks (`, and the o")
NINE_HAS_3 = ("./proofs/Classes.antt:47:121: error: `pair-tests`: expected type `last_technology 9 ≡ 2`, but this has "
              "type `last_technology 9 ≡ last_technology 9`")
TOWN_AS_WORDS = """\
./proofs/CellNumbers.antt:113:18: error: `row-untold`: give a proof of that as the last argument, \
`rw L t` (`rw L ?` shows it as a hole's goal), or add what is missing to the list
  `rw` has no last argument, so what it leaves must be a path whose two ends are equal, and `Path RowCellsAnswer \
(row.Refused 28 0) (handed_row w NoTravel)` is none
"""
FEEDBACK = ("./proofs/Loss.antt:36:5: error: `feedback-most`: `omega`: the goal does not follow from what it read. "
            "All of that holds, and the goal fails, at `k` = 0, `k / 2 ")
EURO_3 = ("note: src/classes.rt:53:1: it is not proved that what the function ensures holds when it returns "
          "(`returns-in-0-to-3`)")
ONE_UNIT_LESS = """\
./proofs/PowerBound.antt:174:27: error: `product-below`: `omega` found no proof, and no values at which \
the goal fails: what it read and the goal's failing hold together at fractions, and it found no whole numbers at which \
they do. The goal may be false, or need reasoning about whole numbers that `omega` does not have. It read 3 hypotheses
"""


class FormTest(unittest.TestCase):
    """The lines of an edit, and its old text."""

    def faults(self, text: str) -> list[edits.Fault]:
        """What is wrong with an edit of a crate that has one file."""
        with tempfile.TemporaryDirectory() as folder:
            crate = Path(folder)
            (crate / "specs").mkdir()
            (crate / "must-fail").mkdir()
            (crate / "proofs").mkdir()
            for name in ("specs/A.antt", "proofs/P.antt"):
                (crate / name).write_text("f = 3 + 1\ng = 1 + 1\n")
            edit = crate / "must-fail/a.edit"
            edit.write_text(text)
            return edits.form_faults(edit)

    def test_good(self):
        self.assertEqual(self.faults(GOOD), [])
        self.assertEqual(self.faults(GOOD + "old: g = 1\nnew:\n"), [], "two pairs, and nothing in place of the second")

    def test_faults(self):
        for text, line, what in (
            (GOOD.replace("old: 3 + 1\n", "old: f = 3 + 1\ng = 1 + 1\n"), 3, "an old: that no new: follows"),
            (GOOD.replace("new: 3 + 2\n", "new: 3 + 2\n    + 1\n"), 5, "a line that rt passes over"),
            (GOOD + "\n", 5, "a line that rt passes over"),
            (GOOD.replace("old:", "old :"), 3, "a line that rt passes over"),
            (GOOD.replace("old: 3 + 1\n", ""), 3, "a new: without an old: before it"),
            (GOOD.replace("new: 3 + 2\n", ""), 3, "an old: that no new: follows"),
            (GOOD.replace("old: 3 + 1\n", "old: 3 + 1\nold: 3 + 1\n"), 3, "an old: that no new: follows"),
            (GOOD.replace("file: specs/A.antt\n", ""), 3, "no file: before it"),
            (GOOD.replace("specs/A", "specs/B"), 3, "specs/B.antt is no file of the crate"),
            (GOOD.replace("specs/A", "proofs/P"), 3, "proofs/P.antt is neither code nor a definition"),
            (GOOD.replace("old: 3 + 1", "old: 3 + 7"), 3, "its old text is 0 times in specs/A.antt"),
            (GOOD.replace("old: 3 + 1", "old:  + 1"), 3, "its old text is 2 times in specs/A.antt"),
            (GOOD + "old: 3 + 1\nnew: 3\n", 5, "its old text is 0 times in specs/A.antt"),
            (GOOD.replace("new: 3 + 2", "new: 3 + 1"), 3, "its new text is the old one"),
            (GOOD.split("\n", 1)[1], 1, "no line says what it would break"),
            ("# nothing\n", 1, "it changes nothing"),
        ):
            with self.subTest(what=what, text=text):
                self.assertIn((line, what), [(fault.line, fault.what[:len(what)]) for fault in self.faults(text)])


class TryTest(unittest.TestCase):
    """One edit that is tried: done while rt runs, and undone behind it."""

    def tried(self, status: int, log: str) -> tuple[str, list[str]]:
        with tempfile.TemporaryDirectory() as folder:
            file, edit = Path(folder, "specs/A.antt"), Path(folder, "must-fail/a.edit")
            for path, text in ((file, "f = 3 + 1\n"), (edit, GOOD)):
                path.parent.mkdir()
                path.write_text(text)

            def rt(words, cwd, **_):
                self.assertEqual(cwd, Path(folder))
                self.assertEqual((words, file.read_text()), (["rt", "check"], "f = 3 + 2\n"))
                return mock.Mock(returncode=status, stdout=log.encode())
            with mock.patch.object(edits.subprocess, "run", rt):
                found = edits.try_edit(edit)
            self.assertEqual(file.read_text(), "f = 3 + 1\n")
        return found

    def test_refused(self):
        said, faults = self.tried(1, LOG % DIFFER)
        self.assertEqual((said, faults), ("refused by a fact, two types that differ: %s more of it" % DIFFER, []))

    def test_no_fact(self):
        self.assertIn("a name that is gone", self.tried(1, LOG % "A.antt:3:1: error: `x` is not in scope")[1][0])

    def test_no_counterexample(self):
        said, faults = self.tried(1, ONE_UNIT_LESS)
        self.assertTrue(said.startswith("not proved; no counterexample shown"), said)
        self.assertEqual(faults, [])

    def test_proved(self):
        self.assertIn("still proved", self.tried(0, "logic=proved\n")[1][0])


class RefusalTest(unittest.TestCase):
    """The first error of a check."""

    def shown(self, log: str, why: str = "") -> edits.Refusal:
        return edits.refusal(edits.first_error(log), why)

    def test_types_differ(self):
        for log in (CANISTER, ORDER_EXCHANGED, NINE_HAS_3, NINE_HAS_3.partition("`, but")[0]):
            with self.subTest(log=log):
                shown = self.shown(log)
                self.assertEqual(shown.said.partition(": ")[0], "refused by a fact, two types that differ")
                self.assertEqual(shown.fault, "")

    def test_ends_differ(self):
        shown = self.shown(TOWN_AS_WORDS)
        self.assertEqual(shown.said.partition(": ")[0], "refused by a fact, an equation whose ends differ")
        self.assertEqual(shown.fault, "")

    def test_indices_differ(self):
        error = ("A.antt:10:13: error: `returns`: computed as far as they go, the two indices are "
                 "`2` (the constructor's) and `1` (the expected type's) this `unread` lands at index `2`")
        today = ("./proofs/evp_run/Answers.antt:9:41: error: `returns-then-not-input-clause-ran`: this `unread` "
                 "lands at index `2` (position 1) but the expected type `goal.the-as")
        for text, what in ((error, "indices"), (today, "types")):
            shown = self.shown(LOG % text)
            self.assertEqual(shown.said.partition(": ")[0], "refused by a fact, two %s that differ" % what)
            self.assertEqual(shown.fault, "")

    def test_a_computed_test(self):
        error = ("A.antt:92:20: error: `start-width`: computed as far as they go, the two sides are "
                 "`Prim.Unit {?ℓ0}` (left) and `Prim.⊥` (right)")
        self.assertEqual(self.shown(LOG % error).said.partition(": ")[0],
                         "refused by a fact, a computed test that is false")
        waiting = error.replace("`Prim.⊥`", "`Prim.Unit {0}`")
        self.assertTrue(self.shown(LOG % waiting).said.startswith(edits.NO_COUNTEREXAMPLE))

    def test_values(self):
        shown = self.shown(FEEDBACK)
        self.assertEqual(shown.said.partition(": ")[0], "refused by a fact, values at which the goal fails")
        self.assertEqual(shown.fault, "")

    def test_no_proof_found(self):
        for log in (ONE_UNIT_LESS, EURO_3):
            with self.subTest(log=log):
                shown = self.shown(log)
                self.assertTrue(shown.said.startswith(
                    "not proved; no counterexample shown; no line `# why:` says why it is false: "), shown.said)
                self.assertEqual(shown.fault, "")

    def test_no_proof_found_of_what_is_false(self):
        shown = self.shown(ONE_UNIT_LESS, "643 was measured")
        self.assertEqual(shown.said.partition(": ")[0],
                         "not proved; no counterexample shown; false because 643 was measured")
        self.assertEqual(shown.fault, "")

    def test_nothing_is_shown_by_what_does_not_fit(self):
        for error, what in (
            ("A.antt:3:1: error: `goal` has no `a` that can be named from here", "a goal that is named otherwise"),
            ("A.antt:3:1: error: `x` is not in scope", "a name that is gone"),
            ("A.antt:3:1: error: `f`: no module is found by the path `w.before`", "a name that is gone"),
            ("A.antt:3:1: error: record `Args` has no field `x`", "a field that is gone"),
            ("A.antt:3:1: error: expected a term", "a file that does not parse"),
        ):
            with self.subTest(error=error):
                shown = self.shown(LOG % error, "a reason does not help")
                self.assertEqual((shown.said, shown.fault.partition(":")[0]), ("", what))

    def test_no_error(self):
        self.assertEqual(self.shown("logic=not-proved\n").fault, "no error in its log")

    def test_first_counts(self):
        log = LOG % DIFFER + LOG % "A.antt:9:1: error: `x` is not in scope"
        self.assertEqual(self.shown(log).fault, "")
        self.assertEqual(edits.first_error(log), DIFFER + " more of it")

    def test_reason(self):
        self.assertEqual(edits.reason(GOOD), "")
        self.assertEqual(edits.reason("# a\n# why: 643 was\n# why: measured\n" + GOOD), "643 was measured")


class LogsTest(unittest.TestCase):
    """All edits of the crates, with what a log says of them."""

    def setUp(self):
        folder = tempfile.TemporaryDirectory()
        self.addCleanup(folder.cleanup)
        self.top = Path(folder.name)
        patch = mock.patch.object(edits, "TOP", self.top)
        patch.start()
        self.addCleanup(patch.stop)
        self.log = "rt: a proved\n"

    def add(self, name: str, text: str, said: str) -> None:
        for path, content in ((self.top / "crates/a/must-fail" / (name + ".edit"), text),
                              (self.top / "crates/a/specs/A.antt", "f = 3 + 1\n")):
            path.parent.mkdir(parents=True, exist_ok=True)
            path.write_text(content)
        self.log += "rt: must-fail a/%s.edit: %s\n" % (name, said)

    def test_each_kind(self):
        refused = "refused, as it must be: "
        self.add("differs", GOOD, refused + CANISTER)
        self.add("unproved", GOOD, refused + EURO_3)
        self.add("measured", "# why: 643 was measured\n" + GOOD, refused + ONE_UNIT_LESS[:160])
        self.assertEqual(list(edits.faults(self.log)), [])
        self.assertEqual(list(edits.unproved(self.log)), [
            "crates/a/must-fail/measured.edit: not proved; no counterexample shown; false because 643 was measured",
            "crates/a/must-fail/unproved.edit: not proved; no counterexample shown; "
            "no line `# why:` says why it is false"])

    def test_no_refusal(self):
        for said, fault in (
            ("refused, as it must be (only because a proof file names what the edit took away, so this says little of "
             "the contract: change a value and keep the names): proofs/A.antt:3:1: error: `x` is not in scope",
             "refused (only because a proof file names what the edit took away)"),
            ("refused, as it must be (only by a limit of the prover, which gave no verdict, so this says less of the "
             "contract: choose a change that it refuses sooner): x",
             "refused (only by a limit of the prover, which gave no verdict)"),
            ("BAD EDIT: an 'old:' text is in src/lib.rt 0 times, and not once",
             "BAD EDIT: an 'old:' text is in src/lib.rt 0 times, and not once"),
            *[(said, said) for said in ("NOT REFUSED: the crate is still proved with this edit",
                                        "NOT TRIED: its check was killed")],
            ("refused, as it must be", "no error in its log"),
        ):
            with self.subTest(said=said):
                self.log = ""
                self.add("one", GOOD, said)
                self.assertEqual(list(edits.faults(self.log)), ["crates/a/must-fail/one.edit: " + fault])

    def test_no_log(self):
        self.add("differs", GOOD, "refused, as it must be: " + CANISTER)
        self.assertEqual(list(edits.faults("rt: a proved\n")),
                         ["crates/a/must-fail/differs.edit: the log says nothing of it; rt must-fail a tries it"])
        self.assertEqual(list(edits.faults()), [])
