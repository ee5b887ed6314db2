"""The picture of the layers, and the table of the crates."""

import unittest
from xml.etree import ElementTree

from tools import crates
from tools.make import crate_table, layers
from tools.make.error import MakeError

SVG = "{http://www.w3.org/2000/svg}"


class LayersTest(unittest.TestCase):
    """Every crate stands in the picture, inside its layer."""

    def setUp(self):
        self.sections = crates.sections()
        self.picture = ElementTree.fromstring(layers.drawn(self.sections))

    def test_names(self):
        said = [text.text for text in self.picture.findall(SVG + "text") if text.get("class") == "name"]
        self.assertCountEqual(said, crates.names())

    def test_places(self):
        """No box passes the edge of the picture, and the lowest layer stands at the bottom."""
        width, height = (float(self.picture.get(name)) for name in ("width", "height"))
        for rect in self.picture.findall(SVG + "rect"):
            x, y, across, down = (float(rect.get(name)) for name in ("x", "y", "width", "height"))
            self.assertTrue(0 <= x and x + across <= width and 0 <= y and y + down <= height, rect.attrib)
        titles = [text.text.strip() for text in self.picture.findall(SVG + "text") if text.get("class") == "title"]
        self.assertEqual(titles, [section.title + ":" for section in reversed(self.sections)])

    def test_looks(self):
        for name, look in (("exact", "laws"), ("sheet", "laws"), ("fields", "code"), ("report", "program")):
            self.assertEqual(layers.look_of(name), look, name)

    def test_stands_on(self):
        low, high = crates.read("#\n# Low: a.\na:\nb: a\n\n# High: b.\nc: b\n")
        self.assertEqual((layers.stands_on(low, [low, high]), layers.stands_on(high, [low, high])), ([], ["Low"]))


class CrateTableTest(unittest.TestCase):
    """The table keeps its words, and has every crate."""

    SECTIONS = crates.read("#\n# Low: the first.\nnumbers:\n\n# High: the last.\nsheet: numbers\n")
    LINES = "| `sheet` | | | The sheet. |\n| `numbers` | x | 9 | Numbers. |\n"

    def page(self, lines: str) -> str:
        return "before\n" + crate_table.START + lines + crate_table.END + "behind\n"

    def test_order(self):
        made = crate_table.made(self.page(self.LINES), self.SECTIONS)
        self.assertTrue(made.startswith("before\n") and made.endswith("behind\n"))
        self.assertLess(made.index("| `numbers` | laws |  | Numbers. |"), made.index("### High"))
        self.assertIn("| `sheet` | laws | %d | The sheet. |" % crates.edits_of("sheet"), made)
        self.assertEqual(crate_table.made(made, self.SECTIONS), made)

    def test_missing(self):
        for lines, fault in (("", "does not say what `numbers` is"),
                             (self.LINES + "| `gone` | | | Gone. |\n", "a line of `gone`")):
            with self.assertRaisesRegex(MakeError, fault):
                crate_table.made(self.page(lines), self.SECTIONS)
        with self.assertRaisesRegex(MakeError, "no place"):
            crate_table.made("nothing", self.SECTIONS)


if __name__ == "__main__":
    unittest.main()
