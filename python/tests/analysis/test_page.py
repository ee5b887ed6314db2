"""docs/SERIES.md: its commands print what it says.

    python3 python/tests/analysis/test_page.py --write    puts what they print into it
"""

import sys
import unittest
from importlib.util import find_spec
from pathlib import Path

sys.path.append(str(Path(__file__).resolve().parents[1]))

from support import TOP  # noqa: E402
from test_course import made  # noqa: E402

from evp.analysis.changes import ORDER  # noqa: E402
from evp.analysis.uncertainty import COLUMNS, INPUTS  # noqa: E402

PAGE = TOP / "docs" / "SERIES.md"


class SeriesPageTest(unittest.TestCase):
    @unittest.skipUnless(find_spec("jinja2") and find_spec("openpyxl"), "jinja2 or openpyxl is missing")
    def test_page(self):
        text = PAGE.read_text(encoding="utf-8")
        self.assertEqual(made(PAGE).splitlines(), text.splitlines())
        self.assertGreaterEqual(text.count("$ ./evp "), 6)

    def test_the_order_is_the_stated_one(self):
        words = " ".join(PAGE.read_text(encoding="utf-8").split())
        places = [words.index(group.title, words.index("always this one")) for group in ORDER]
        self.assertEqual(places, sorted(places))

    def test_the_table_of_inputs(self):
        words = PAGE.read_text(encoding="utf-8")
        for name in (*COLUMNS, *INPUTS):
            self.assertRegex(words, r"\b%s\b" % name)


if __name__ == "__main__":
    if "--write" in sys.argv:
        PAGE.write_text(made(PAGE), encoding="utf-8")
    else:
        unittest.main()
