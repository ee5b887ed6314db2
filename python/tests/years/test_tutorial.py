"""docs/YEARS.md: its commands print what it says.

    /usr/bin/python3 python/tests/years/test_tutorial.py --write    puts what they print into it
"""

import sys
import unittest
from pathlib import Path

sys.path.insert(0, str(Path(__file__).resolve().parents[1]))

from support import TOP  # noqa: E402
from test_course import made  # noqa: E402

PAGE = TOP / "docs" / "YEARS.md"

try:
    import jinja2  # noqa: F401
    import openpyxl  # noqa: F401
    HAS_PACKAGES = True
except ImportError:
    HAS_PACKAGES = False


@unittest.skipUnless(HAS_PACKAGES, "not run: sudo apt install python3-jinja2 python3-openpyxl")
class TutorialTest(unittest.TestCase):
    def test_what_the_commands_print(self):
        text = PAGE.read_text(encoding="utf-8")
        self.assertEqual(made(PAGE).splitlines(), text.splitlines())
        for words in ("2013 Coast", "trips a day of row", "with the trips a day of 2012 it would be"):
            self.assertIn(words, text)


if __name__ == "__main__":
    if sys.argv[1:] == ["--write"]:
        PAGE.write_text(made(PAGE), encoding="utf-8")
    else:
        unittest.main()
