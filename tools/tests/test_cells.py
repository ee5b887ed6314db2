"""Doubles and the cells of the map."""

import math
import random
import struct
import unittest
from fractions import Fraction

from tools.reckoning import cells
from tools.vectors import cells as vectors


def double_bits(x: float) -> int:
    return struct.unpack("<Q", struct.pack("<d", x))[0]


class DoublesTest(unittest.TestCase):
    """The bits of doubles against those of the machine's."""

    def test_whole_numbers(self):
        powers = [2 ** k + d for k in range(11, 53) for d in (-1, 0, 1)]
        for n in [*range(2000), *powers, 2 ** 53 - 1, 2 ** 53, 2 ** 53 + 2, 2 ** 64]:
            self.assertEqual(cells.bits_of(n), double_bits(float(n)), "bits of %d" % n)
            self.assertEqual(cells.mass_of(cells.bits_of(n)), n if n <= 2 ** 53 else None, "mass of %d" % n)

    def test_values(self):
        for x in (0.0, -0.0, 0.5, -1.5, 5e-324, -5e-324, 2.2250738585072014e-308, 1e300, 0.1, 1 - 2 ** -53):
            self.assertEqual(cells.value_of(double_bits(x)), Fraction(x), "value of %r" % x)

    def test_what_is_no_mass(self):
        for x in (math.inf, -math.inf, math.nan, -math.nan):
            self.assertIsNone(cells.value_of(double_bits(x)), x)
            self.assertIsNone(cells.mass_of(double_bits(x)), x)
        for bits in cells.NANS:
            self.assertTrue(math.isnan(struct.unpack("<d", struct.pack("<Q", bits))[0]), "NaN %x" % bits)
        self.assertEqual(cells.mass_of(double_bits(-0.0)), 0)
        self.assertIsNone(cells.mass_of(double_bits(-5e-324)))


class CellsTest(unittest.TestCase):
    """Cells in exact fractions, on the rows and sums of the vectors."""

    @classmethod
    def setUpClass(cls):
        cls.rows, cls.sums = vectors.found()

    def test_worked_row(self):
        number, place, found = cells.cells_of_row(vectors.WORKED)
        worked = [(cell.kind, cells.mass_of(cell.low), cells.mass_of(cell.high)) for cell in found]
        self.assertEqual((number, place), (0, 0))
        self.assertEqual(worked, [(2, 12834493, 12834499), (2, 844988, 844990), (2, 501817, 501819)])

    def test_shares(self):
        """The parts of each mechanism add up to 1, rural to highway as the products stand."""
        for row in self.rows:
            if cells.refusal_of(row) == "travel":
                continue
            travel, parts = row.travel, cells.shares(row.travel)
            diurnal, soak, _ = parts
            self.assertEqual([sum(mechanism) for mechanism in parts], [1, 1, 1], travel)
            self.assertEqual(diurnal[1] * travel.highway_mileage * travel.rural_speed,
                             diurnal[2] * travel.rural_mileage * travel.highway_speed, travel)
            self.assertEqual((diurnal[0], soak[0]), (Fraction(11, 12), 1) if travel.town else (0, 0), travel)

    def test_enclosure(self):
        """A row's exact shares lie in its cells, which are not wider than they must be."""
        for row in self.rows:
            if cells.refusal_of(row) is not None:
                continue
            lows, highs = row.words[::2], row.words[1::2]
            for (low, high), road in zip(cells.limits_of(row), zip(*cells.shares(row.travel))):
                exact_low, exact_high = (sum(mass * part for mass, part in zip(masses, road))
                                         for masses in (lows, highs))
                self.assertTrue(low <= exact_low and exact_high <= high, row)
                self.assertLess(high - low, exact_high - exact_low + 6, row)

    def test_sums_in_any_order(self):
        chance = random.Random(6)
        handed = [cell for pair in self.sums for cell in pair]
        for _ in range(2000):
            a, b, c = chance.choices(handed, k=3)
            self.assertEqual(cells.add_cells(a, b), cells.add_cells(b, a))
            orders = set()
            for x, y, z in ((a, b, c), (b, c, a), (c, a, b)):
                number, place, cell = cells.add_cells(x, y)
                orders.add((number, place, cell) if number else cells.add_cells(cell, z))
            self.assertEqual(len(orders), 1, orders)
