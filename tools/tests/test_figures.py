"""What the check of the figures sees."""

import unittest
from unittest import mock

from tools.check import figures

FACTS = {"sheets": "1896", "pairs": "40", "pools": "135", "off": "0.695"}
CLAIMS = ("{sheets} sheets", "{pairs} pairs of lists", "{pools} pairs of lists to pool", "off | {off} µg |")
GOOD = "1,896 sheets, 40 pairs of lists and 135 pairs of lists to pool. off | 0.695 µg |"


@mock.patch.object(figures, "CLAIMS", CLAIMS)
class FiguresTest(unittest.TestCase):
    """Figures of a text against facts."""

    def faults(self, words: str) -> list[str]:
        texts = [figures.Text("a.md", words)]
        found = figures.standing(texts)
        return [*figures.stale(found, FACTS), *figures.unheld(found, texts)]

    def test_good(self):
        self.assertEqual(self.faults(GOOD), [])
        self.assertEqual(self.faults(GOOD.replace("1,896", "1896")), [])

    def test_stale(self):
        for old, new in (("1,896", "1,894"), ("40", "41"), ("135", "134"), ("0.695", "0.694")):
            with self.subTest(new=new):
                self.assertEqual(len(self.faults(GOOD.replace(old, new))), 1)

    def test_claim_that_stands_nowhere(self):
        self.assertEqual(self.faults(GOOD.replace("sheets", "pages")), ["no document says '{sheets} sheets'"])

    def test_figure_that_nothing_holds(self):
        found = self.faults(GOOD + " And 2,660 calls.")
        self.assertEqual(found, ["a.md: nothing is held against '2,660 calls.'"])
        self.assertEqual(self.faults(GOOD + " And 3 calls."), [], "one digit")


class FactsTest(unittest.TestCase):
    """The facts, and the documents."""

    def test_templates(self):
        pattern, names = figures.pattern_of("calls {calls} right *")
        self.assertEqual(names, ["calls"])
        self.assertRegex("calls 6792 right 6792", pattern)
