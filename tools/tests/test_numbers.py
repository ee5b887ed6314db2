"""Numbers, weights and tables of the reckoning."""

import unittest
from fractions import Fraction

from tools import reckoning
from tools.reckoning.factors import Escape, day_of
from tools.tests.support import COLD, sheet_of


class ExamplesTest(unittest.TestCase):
    """The examples marked P of document 01."""

    def test_series(self):
        self.assertEqual(reckoning.series(1, 2), Fraction(5, 2))
        self.assertEqual(reckoning.series(1, 3), Fraction(8, 3))
        self.assertEqual(reckoning.E(-1, 2), Fraction(2, 5))
        self.assertEqual(reckoning.E(0, 2), 1)
        self.assertLess(abs(reckoning.E(-1, 2, "decimal") - Fraction(2, 5)), Fraction(1, 10 ** 100))

    def test_root(self):
        for T, root in ((4, 32), (9, 243), (-5, 0)):
            self.assertEqual(reckoning.power_2_5(T, 40), root, "at %d" % T)
        bracket = Fraction("6.1656e-6") * reckoning.power_2_5(4, 40) + Fraction("0.0206")
        self.assertEqual(bracket, Fraction("0.0207972992"), "bracket of eq. 14 at 4")

    def test_marks(self):
        season = reckoning.Season(1, 0, 0, 600)
        self.assertEqual(reckoning.canister_a_b(season, 20), (Fraction("-10.6"), Fraction("0.108")))
        self.assertEqual(reckoning.WEIGHTS[28], 10 ** 9)
        self.assertEqual(reckoning.start_mark(1, 24), 26, "12 h that end at hour 1")
        self.assertEqual(reckoning.start_mark(24, 1), 47, "half an hour that ends at hour 24")

    def test_breakthrough_from_m_sat(self):
        sheet = sheet_of(COLD % ("20.0", "35.0", "60.0", 1, 1, "small", 35, "class", "50.0", "50.0"))
        for mode in ("exact", "decimal"):
            with self.subTest(mode=mode):
                day = day_of(sheet.seasons[0], 5, mode)
                v = day.numbers.number(Fraction(7, 4))
                self.assertEqual(Escape(day, sheet.rows[0], 3).of(v), v)


class NumbersTest(unittest.TestCase):
    """The root, decimals, the weights and the table of classes."""

    def test_root_is_cut(self):
        for T in (Fraction(1, 3), Fraction(7), Fraction(355, 10), Fraction(2, 10 ** 9)):
            root = reckoning.power_2_5(T, 40)
            self.assertTrue(root ** 2 <= T ** 5 < (root + Fraction(1, 2 ** 40)) ** 2, "root at %s" % T)

    def test_decimals_are_cut(self):
        self.assertEqual(reckoning.cut(Fraction(2, 3)), "0." + "6" * 30)
        self.assertEqual(reckoning.cut(Fraction(-5, 2)), "-2.5" + "0" * 29)

    def test_weights(self):
        weights = reckoning.WEIGHTS
        self.assertEqual(len(weights), 48)
        for n in (40, 60):
            for i, weight in enumerate(weights):
                apart = abs(weight - 10 ** 9 * reckoning.E(reckoning.weight_exponent(i), n))
                self.assertLess(apart, Fraction(1, 2), "weight %d at n = %d" % (i, n))
        for k in range(24):
            late, early = (28 + k) % 48, 28 - k
            self.assertEqual(weights[late], weights[early], "weights %d and %d, alike about 14 h" % (late, early))
            self.assertLess(weights[(late + 1) % 48], weights[late], "weight %d does not fall" % late)
        self.assertEqual(min(weights), weights[4], "the lowest weight, at 2 h")
        self.assertEqual(reckoning.weight_exponent(48), reckoning.weight_exponent(0), "hour 24 and hour 0")

    def test_class_table(self):
        expected = {
            (1, 0): (50, 0), (1, 1): (50, 1), (1, 2): (50, 1), (1, 3): (50, 2), (1, 5): (50, 2),
            (2, 0): (60, 0), (2, 2): (60, 1), (2, 4): (60, 2),
            (3, 0): (75, 0), (3, 1): (75, 2), (3, 2): (75, 2), (3, 3): (75, 3), (3, 5): (75, 3),
            (4, 0): (60, 0), (4, 1): (60, 1), (4, 5): (60, 2), (4, 6): None,
            (5, 0): (5, 0), (5, 3): (5, 0), (5, 4): None, (6, 3): (8, 0), (7, 2): (10, 0),
            (8, 3): (18, 0), (8, 4): None, (9, 0): (20, 1), (9, 2): (20, 1), (9, 3): None,
            (0, 0): None, (10, 0): None, (1, 6): None, (255, 255): None,
        }
        for pair, entry in expected.items():
            self.assertEqual(reckoning.table_entry(*pair), entry, "class and technology %s" % (pair,))
        pairs = sum(reckoning.table_entry(c, t) is not None for c in range(256) for t in range(256))
        self.assertEqual(pairs, 43)
