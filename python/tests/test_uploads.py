"""What is made of an upload stays small: bad lines are counted, nothing of a request is kept for the next, and a page
lists a bounded number of figures."""

import io
import tracemalloc
import unittest

from desk_support import HAS_MODULES, NO_MODULES
from support import LISTS, TEXT, DeskTestCase, run, sample

from evp import sheet
from evp.intake import filed_of, reading
from evp.sheet import TextError
from evp.wording import apart

HEADER = "sheet,row,mechanism,mass,unit\n"
BAD = 20_000  # lines
MOST_MEMORY = 20  # times the bytes of a table; one object for each bad line takes some 350


def peak_of(call) -> int:
    """The most bytes that Python has had at a time while it ran."""
    tracemalloc.start()
    try:
        call()
        return tracemalloc.get_traced_memory()[1]
    finally:
        tracemalloc.stop()


class BadLinesTest(DeskTestCase):
    def test_memory(self):
        """Of bad lines no more than some are kept one by one; the others are counted."""
        text = HEADER + "a.evp,x,soak,2,t\n" * BAD
        found = filed_of(text, "filed.csv", None, ["a.evp"])
        self.assertEqual(len(found.filings), reading.MOST_UNREAD + 1)
        self.assertIn("15,000 lines more cannot be read", found.filings[-1].problem)
        self.assertEqual(found.unread, ["filed.csv: 20,000 lines cannot be read"])
        self.assertLess(peak_of(lambda: filed_of(text, "filed.csv", None, ["a.evp"])), MOST_MEMORY * len(text))

    def test_text_of_a_sheet(self):
        text = LISTS + "x\n" * BAD
        with self.assertRaises(TextError) as found:
            sheet.write(text)
        self.assertEqual((len(found.exception.messages), found.exception.more), (20, BAD - 20))

        def read():
            with self.assertRaises(TextError):
                sheet.write(text)
        self.assertLess(peak_of(read), MOST_MEMORY * len(text))

    def test_command(self):
        """The first are told, and how many there are besides."""
        folder = self.put_sheet("sheets/north.evp", TEXT).parent
        filed = self.put("filed.csv", HEADER + "north.evp,x,soak,2,t\n" * 1_000)
        found = run("mark", folder, "--filed", filed)
        self.assert_plain(found, 1)
        self.assertTrue(found.out.startswith("1 sheet, 1,000 figures: 1,000 unreadable\n"), found.out)
        found = run("write", self.put("north.txt", LISTS + "x\n" * 1_000), "-o", "-")
        self.assertEqual(found.err.splitlines()[-1], "evp: 981 more such messages")

    def test_nothing_is_kept(self):
        """Row numbers of one table are gone when the next is read."""
        tables = [HEADER + "".join("a,%d,soak,1,g\n" % row for row in range(first, first + 2_000))
                  for first in range(1, 12_001, 2_000)]
        filed_of(tables[0], "filed.csv")
        tracemalloc.start()
        try:
            for text in tables:
                filed_of(text, "filed.csv")
            self.assertLess(tracemalloc.get_traced_memory()[0], 500_000)
        finally:
            tracemalloc.stop()


@unittest.skipUnless(HAS_MODULES, NO_MODULES)
class PageTest(DeskTestCase):
    @classmethod
    def setUpClass(cls):
        from flask import Flask

        from evp.pages.routes import blueprint
        app = Flask("a test")
        app.register_blueprint(blueprint)
        cls.client = app.test_client()

    def post(self, path: str, lines: str):
        files = [(io.BytesIO(data), name) for name, data in (
            ("region.evp", sample("region")), ("filed.csv", (HEADER + lines).encode()))]
        return self.client.post(path, data={"files": files}, content_type="multipart/form-data",
                                follow_redirects=True)

    def test_bad_lines(self):
        """They are told for their sheet, of many no more than a page lists."""
        for path in ("/class", "/open", "/sheet"):
            found = self.post(path, "region.evp,x,soak,2,t\n" * 10_000 + "region.evp,1,soak,2,t\n")
            text = found.get_data(as_text=True)
            self.assertEqual(found.status_code, 200)
            self.assertIn("is no row; write a number from 1", text)
            self.assertLess(len(text), 4_000_000)

    def test_too_many_lines(self):
        from evp.pages.routes import MOST_FILED
        found = self.post("/class", "x\n" * (MOST_FILED + 1))
        self.assertEqual(found.status_code, 400)
        self.assertIn("filed.csv: more than %s lines at once" % apart(MOST_FILED), found.get_data(as_text=True))

    def test_many_names(self):
        from evp.pages.classes import MOST_NAMES
        found = self.post("/class", "".join("%d,1,soak,1,g\n" % name for name in range(MOST_NAMES + 500)))
        text = found.get_data(as_text=True)
        self.assertEqual((found.status_code, text.count('class="more look"')), (200, MOST_NAMES))
        self.assertIn("501 further lines not listed here: marks.csv has every", text)
        self.assertIn("2,500 names without a sheet", text)

    def test_many_figures(self):
        from evp.pages.sheets import MOST_FIGURES
        found = self.post("/sheet", "".join("region.evp,%d,soak,1,g\n" % row for row in range(1, MOST_FIGURES + 26)))
        text = found.get_data(as_text=True)
        self.assertEqual((found.status_code, text.count('<th role="rowheader" scope="row">row ')), (200, MOST_FIGURES))
        self.assertIn("25 further figures not listed here: evp mark -o", text)


if __name__ == "__main__":
    unittest.main()
