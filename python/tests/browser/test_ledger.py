"""The course's ledger in a real browser: an arrival by a participant is seen by the marker and not by another."""

import sys
import tempfile
import unittest
from pathlib import Path

from driving import SAMPLES, TOP, BrowserTestCase, Keys

sys.path.append(str(TOP / "python" / "tests"))  # behind this folder, which has a test_desk too

from desk_support import HOST, Desk  # noqa: E402

MARKER, ONE, TWO = 0, 1, 2


class LedgerTestCase(BrowserTestCase):
    """A desk of its own, with the links of the marker and of two participants."""

    def setUp(self):
        super().setUp()
        folder = tempfile.TemporaryDirectory()
        self.addCleanup(folder.cleanup)
        self.desk = Desk(Path(folder.name) / "course.db", "--new", SAMPLES / "region.evp")
        self.addCleanup(self.desk.close)

    def visit(self, who: int, rest: str = ""):
        self.open("http://%s:%d%s%s" % (HOST, self.desk.port, self.desk.links[who], rest))

    def source(self, who: int) -> str:
        self.visit(who)
        return self.browser.page_source

    def await_calls(self, count: int):
        """Until the page is one with so many calls: the one that is left may still be there."""
        self.wait(lambda: self.one("[data-calls]").get_attribute("data-calls") == str(count), "%d calls" % count)

    def vehicles(self, row: int) -> str:
        """Of a row on the marker's page."""
        found = next(line for line in self.all("table.rows tr") if line.find_elements("css selector", "td.at")
                     and line.find_element("css selector", "td.at").text == str(row))
        return found.find_element("css selector", "td[data-l=vehicles]").text


class TestLedger(LedgerTestCase):

    def test_an_arrival_is_seen_by_the_marker_and_not_by_another(self):
        other = self.source(TWO)
        self.visit(MARKER)
        self.assertEqual(self.vehicles(1), "18,400")
        total = self.text(".facts .mg")
        self.visit(ONE)
        self.one("#n1").send_keys("250")
        self.one("#row1 button[value=arrive]").click()
        self.await_calls(1)
        self.assertEqual(self.text("#answer .h"), "Done: 250 vehicles arrived at row 1.")
        self.assertEqual(self.text("#row1 .count"), "18,650 vehicles")
        self.browser.refresh()  # makes no call
        self.await_calls(1)
        self.visit(MARKER)
        self.assertEqual(self.vehicles(1), "18,650")
        self.assertNotEqual(self.text(".facts .mg"), total)
        self.assertEqual(self.source(TWO), other)

    def test_by_keyboard_alone(self):
        self.visit(ONE)
        self.tab_to("#n9")
        self.press("40", Keys.ENTER)  # arrive is the first button
        self.await_calls(1)
        self.tab_to("#n9")
        self.press("15", Keys.TAB, Keys.TAB, Keys.SPACE)
        self.await_calls(2)
        self.assertEqual(self.text("#answer .h"), "Done: 15 vehicles departed from row 9.")
        self.tab_to("arrive 15")
        self.press(Keys.ENTER)
        self.await_calls(3)
        self.assertEqual(self.text("#answer .h"), "Done: 15 vehicles arrived at row 9.")

    def test_a_refusal(self):
        self.visit(ONE)
        self.one("#n17").send_keys("9999999")
        self.one("#row17 button[value=depart]").click()
        self.await_calls(1)
        self.assertRegex(self.text("#answer"), "Refused 29: row 17 has [0-9,]+ vehicles, so 9,999,999 cannot depart")
        self.one("#n17").send_keys("2.5")  # the browser itself says that this is no whole number
        self.one("#row17 button[value=depart]").click()
        self.assertEqual(self.all("#n17:invalid")[0].get_attribute("id"), "n17")
        self.await_calls(1)

    def test_a_page_that_is_out_of_date(self):
        self.visit(ONE)
        self.desk.client(self.desk.links[ONE]).call("arrive", 1, 5)
        self.one("#n1").send_keys("7")
        self.one("#row1 button[value=arrive]").click()
        self.wait(lambda: self.all(".answer.no"), "the call is not made")
        self.assertIn("the page was older than your last call", self.text("#answer"))
        self.assertEqual(self.text("#row1 .count"), "18,405 vehicles")
        self.console()  # the browser notes the status 409

    def test_sizes_and_colours(self):
        """Nothing is cut off, overlaps or is too faint, and the same on paper."""
        for kind, row, vehicles in (("arrive", 1, 250), ("depart", 9, 20), ("depart", 17, 10 ** 6), ("arrive", 2, 5)):
            self.desk.client(self.desk.links[ONE]).call(kind, row, vehicles)
        seen = 0
        for who, rest in ((ONE, ""), (MARKER, ""), (MARKER, "?bands=mg")):
            self.visit(who, rest)
            seen += self.check_looks("the page of %d%s" % (who, rest))
            self.check_paper("the page of %d%s" % (who, rest))
        self.open("http://%s:%d/ledger/none" % (HOST, self.desk.port))
        self.check_looks("turned away")
        self.console()  # the browser notes the status 404
        self.assertGreater(seen, 1_000)


if __name__ == "__main__":
    unittest.main()
