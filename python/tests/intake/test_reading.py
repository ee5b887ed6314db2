"""What is read of every way of filing, and of numbers, units and names, without the library."""

import sys
import unittest
from pathlib import Path

sys.path.insert(0, str(Path(__file__).resolve().parents[2]))

from intake.ways import WAYS, Way

from evp.figures import Figure
from evp.intake import filed_of, reading

SOAK, OTHERS = Figure("cars", "soak"), (Figure("cars", "running"), Figure("1", "diurnal"), Figure("total", ""))


class ReadTest(unittest.TestCase):
    """What is read of each, without the library."""

    def test_ways(self):
        for way in WAYS:
            with self.subTest(way.name):
                taken = filed_of(way.data, way.file, None, ["north.evp", "south.evp", "west.evp"])
                found = {filing.figure: filing for filing in taken.filings if filing.sheet == "north.evp"}
                self.assertEqual(taken.unread, [])
                for figure in OTHERS:
                    self.assertIn(figure, found, taken)
                    self.assertIsNotNone(found[figure].filed, found[figure])
                self.check(way, [filing for filing in taken.filings if filing.figure == SOAK or filing.problem])

    def check(self, way: Way, filings: list):
        if not way.reason:
            self.assertEqual([filing for filing in filings if filing.figure == SOAK and filing.filed is None], [])
            values = {round(reading._value(filing)[0] * 10.0 ** (reading._value(filing)[1] - 6), 6)
                      for filing in filings if filing.figure == SOAK and filing.sheet == "north.evp"}  # in kg
            self.assertEqual(values, {13300.0 if "0.0133'" in way.name else 13303.0})
        else:
            self.assertTrue(any(way.reason in filing.problem for filing in filings), filings)
            self.assertFalse(any(filing.figure == SOAK and filing.filed for filing in filings))


if __name__ == "__main__":
    unittest.main()
