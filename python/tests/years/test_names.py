"""The year and the region of a name or of a cell."""

import unittest
from pathlib import PurePath

import support  # noqa: F401  # where evp is

from evp.sheet.words import TextError
from evp.years.naming import NO_END, NO_START, Span, name_of, region_key, spans_of

NAMES = {
    "1990": (1990, ""), "north-1990": (1990, "north"), "1990_north": (1990, "north"), "north/1990": (1990, "north"),
    "1990/north": (1990, "north"), "inventory_2023_final": (2023, ""), "Baden-Württemberg 1995":
    (1995, "Baden-Württemberg"), "Nord_Ost_2001": (2001, "Nord_Ost"), "DE2100-1990": (1990, "DE2100"),
    "inventory_2023_2024-05-17": (2023, ""), "north1990": (1990, "north"), "1990_v2024": (1990, ""),
    "Saint Étienne (1999)": (1999, "Saint Étienne"), "New York 2001": (2001, "New York"),
    "North/inventory 2001 v2": (2001, "North"),
}
SPANS = {
    "": [(NO_START, NO_END)], "all": [(NO_START, NO_END)], "1990": [(1990, 1990)], "1990.0": [(1990, 1990)],
    "1990-1999": [(1990, 1999)], "1990 – 1999": [(1990, 1999)], "1990 to 1999": [(1990, 1999)], "2005-":
    [(2005, NO_END)], "-1999": [(NO_START, 1999)], "from 2000": [(2000, NO_END)], "up to 1995": [(NO_START, 1995)],
    "1990, 1992-1994": [(1990, 1990), (1992, 1994)],
}


class NamesTest(unittest.TestCase):
    def test_names(self):
        for name, (year, region) in NAMES.items():
            self.assertEqual(name_of(PurePath(name)), ([year], region), name)

    def test_without_a_year_or_with_several(self):
        for name, years in (("north", []), ("final", []), ("12345", []), ("1990-1991", [1990, 1991])):
            self.assertEqual(name_of(PurePath(name)).years, years)

    def test_one_region_in_several_spellings(self):
        self.assertEqual(len({region_key(word) for word in ("Su\u0308d  Tirol", "süd tirol", "SÜD Tirol")}), 1)
        self.assertNotEqual(region_key("north"), region_key("north east"))

    def test_cells(self):
        for word, spans in SPANS.items():
            self.assertEqual(list(spans_of(word)), [Span(*span) for span in spans], word)

    def test_cells_that_are_no_year(self):
        for word in ("90", "199O", "3000", "1999-1990", "year", "1990-19x"):
            with self.assertRaises(TextError, msg=word):
                spans_of(word)


if __name__ == "__main__":
    unittest.main()
