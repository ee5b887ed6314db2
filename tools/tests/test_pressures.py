"""The pairs of sheets that are alike but for a pressure."""

import math
import unittest

from tools import reckoning
from tools.check import pressures


def enclosing(data: bytes) -> list[list[int]]:
    """The words of a report whose first row has its exact masses cut down and up."""
    return [[edge(mass) for mass in pressures.exact(data, 0)[0] for edge in (math.floor, math.ceil)]]


class PressuresTest(unittest.TestCase):
    """What would be wrong with a pair is seen."""

    @classmethod
    def setUpClass(cls):
        cls.pairs = list(pressures.pairs())
        cls.pair = cls.pairs[0]
        cls.lower, cls.higher = enclosing(cls.pair.lower), enclosing(cls.pair.higher)

    def test_pairs(self):
        self.assertEqual(list(pressures.missing(self.pairs)), [])
        for pair in self.pairs:
            self.assertIsNone(reckoning.check(pair.lower), pair.words)
            self.assertIsNone(reckoning.check(pair.higher), pair.words)

    def test_a_pair_in_order(self):
        self.assertEqual(list(pressures.faults(self.pair, self.lower, self.higher)), [])

    def test_turned_round(self):
        turned = self.pair._replace(lower=self.pair.higher, higher=self.pair.lower)
        found = list(pressures.faults(turned, self.higher, self.lower))
        self.assertEqual(sum("below the other's low" in fault for fault in found), 3)
        self.assertEqual(sum("exact mass falls" in fault for fault in found), 6, "n = 40 and 60")

    def test_a_low_above_the_mass(self):
        raised = [[self.higher[0][0] + 1, *self.higher[0][1:]]]
        self.assertTrue(any("not in its band" in fault for fault in pressures.faults(self.pair, self.lower, raised)))

    def test_a_pair_left_out(self):
        self.assertTrue(list(pressures.missing(self.pairs[1:])))

    def test_another_temperature(self):
        warmer = bytearray(self.pair.higher)
        warmer[self.pair.place - 2] ^= 1
        self.assertTrue(list(pressures.missing([self.pair._replace(higher=bytes(warmer)), *self.pairs[1:]])))
