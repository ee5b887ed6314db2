"""What a sheet would have by the misreadings of the guidebook that document 01 names."""

import unittest

from tools import reckoning
from tools.reckoning import Reading
from tools.tests.support import FEW_CELLS, sheet_of

SEASON = "season days=10 lowest=15.0 highest=30.0 vp=60.0\n"
ROW = ("row class=1 technology=%d canister=%s carburettor=50 hot=50 fill=40 vehicles=10 trips=2 minutes=10 load=%s "
       "saturation=%s\n")


def masses(canister: str, load: str = "40.0", saturation: str = "45.0", **misread: bool):
    """The masses of a row with this canister, read right or not."""
    row = ROW % (0, "none", "0", "0") if canister == "none" else ROW % (1, canister, load, saturation)
    return reckoning.masses(sheet_of(FEW_CELLS + SEASON + row), 0, reading=Reading(**misread))


class ReadingTest(unittest.TestCase):
    def test_divided(self):
        """Small and large change places, and medium stays."""
        self.assertEqual(masses("small", divided=True), masses("large"))
        self.assertEqual(masses("large", divided=True), masses("small"))
        self.assertEqual(masses("medium", divided=True), masses("medium"))
        self.assertNotEqual(masses("small"), masses("large"))

    def test_cut(self):
        """Less where the canister overflows, and the same where it does not."""
        right, cut = masses("small"), masses("small", cut=True)
        self.assertLess(cut[0], right[0])
        self.assertLess(cut[1], right[1])
        self.assertEqual(masses("medium", "0", "100.0", cut=True), masses("medium", "0", "100.0"))
        self.assertEqual(masses("none", cut=True), masses("none"))

    def test_cooling(self):
        """More diurnal mass, nothing else; a parking that only warms has the same."""
        right, misread = masses("none"), masses("none", cooling=True)
        self.assertGreater(misread[0], right[0])
        self.assertEqual(misread[1:], right[1:])
        text = "durations 0 0 0 0 1%s\nhours%s 1%s\n" % (" 0" * 19, " 0" * 11, " 0" * 12)  # 9:30 to 12:00
        sheet = sheet_of(text + SEASON + ROW % (0, "none", "0", "0"))
        self.assertEqual(reckoning.masses(sheet, 0, reading=Reading(cooling=True)), reckoning.masses(sheet, 0))


if __name__ == "__main__":
    unittest.main()
