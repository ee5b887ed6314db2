"""The picture of figures."""

import math
import unittest
from xml.etree import ElementTree

from tools.make import pictures
from tools.make.error import MakeError

TEXT = "# measured\ntitle Rows & time\n1 61.5\n10 440  # ten\n32 1390.25\n1000 42900\n"


def parts(text: str, name: str) -> list[ElementTree.Element]:
    """The elements of this name in the picture of a text."""
    return ElementTree.fromstring(pictures.drawn(text)).findall("{http://www.w3.org/2000/svg}" + name)


def dots(text: str) -> list[tuple[float, float]]:
    return [(float(dot.get("cx")), float(dot.get("cy"))) for dot in parts(text, "circle")]


class PicturesTest(unittest.TestCase):
    """Where the figures stand, and texts that cannot be drawn."""

    # rows from 1 to 1,000 over 530 units, microseconds from 10 to 100,000 over 330
    PLACES = [(80 + 530 * math.log10(n) / 3, 380 - 330 * (math.log10(us) - 1) / 4)
              for n, us in ((1, 61.5), (10, 440), (32, 1390.25), (1000, 42900))]

    def test_figures(self):
        for found, expected in zip(dots(TEXT), self.PLACES, strict=True):
            self.assertLess(math.dist(found, expected), 0.1)
        self.assertNotEqual(pictures.drawn(TEXT), pictures.drawn(TEXT.replace("440", "550")))

    def test_even_line(self):
        """It goes through the last figure."""
        even, = (line for line in parts(TEXT, "line") if line.get("stroke-dasharray"))
        ends = [float(even.get(name)) for name in ("x1", "y1", "x2", "y2")]
        self.assertLess(math.dist(ends, (80, 380 - 330 * (math.log10(42.9) - 1) / 4, *self.PLACES[3])), 0.2)

    def test_words(self):
        said = [words.text for words in parts(TEXT, "text")]
        for words in ("Rows & time", "rows", "microseconds", "1", "10", "100", "1,000", "10,000", "100,000",
                      "dashed: 42.9 microseconds for each row"):
            self.assertIn(words, said)
        self.assertEqual(said.count("1,000"), 2, "on both axes")
        by_season = pictures.drawn(TEXT, "season")
        self.assertIn(">seasons<", by_season)
        self.assertIn("42.9 microseconds for each season", by_season)

    def test_faulty_texts(self):
        for faulty, message in (
            ("", "two figures wanted"), ("1 2", "two figures wanted"), ("1 2\n1 3", "line 2: rows do not go up"),
            ("5 2\n1 3", "line 2: rows do not go up"), ("1 2\n2 x", "line 2: rows and microseconds wanted"),
            ("1 2\n\n2", "line 3: rows and"), ("1 0\n2 1", "line 1: rows and"), ("0 1\n2 1", "line 1: rows and"),
            ("1 2 3\n2 1", "line 1: rows and"), ("1 nan\n2 1", "line 1: rows and"), ("1.5 1\n2 1", "line 1: rows and"),
        ):
            with self.subTest(text=faulty), self.assertRaisesRegex(MakeError, "^" + message):
                pictures.drawn(faulty)

    def test_few_figures(self):
        """A single power of ten, and figures below 1."""
        for few in ("10 3\n11 3", "1 10\n10 100", "1 0.02\n3 0.05"):
            self.assertTrue(all(80 <= x <= 610 and 50 <= y <= 380 for x, y in dots(few)), few)
