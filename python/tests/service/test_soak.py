"""The gate's share of the soak test: EVP_SOAK_SECONDS seconds of it, 30 where none are named."""

import os
import sys
import unittest

from types import SimpleNamespace

from desk_support import HAS_MODULES, NO_MODULES
from support import DeskTestCase

from service.soak import compared_exactly, compared_loosely, soak

ONE, TWO, THREE = ("arrive", 1, 5), ("depart", 9, 2), ("arrive", 1, 7)


class JudgeTest(unittest.TestCase):
    """What the soak test finds wrong with the calls of a ledger."""

    def test_of_one_who_waits_for_answers(self):
        person = SimpleNamespace(who=1, answered=[ONE, TWO], asked=[ONE, TWO, THREE])
        for kept in ([ONE, TWO], [ONE, TWO, THREE]):
            self.assertEqual(compared_exactly(person, kept), [])
        for kept in ([ONE], [TWO, ONE], [ONE, TWO, TWO], [ONE, TWO, THREE, THREE], []):
            self.assertNotEqual(compared_exactly(person, kept), [], kept)

    def test_of_one_who_leaves(self):
        person = SimpleNamespace(who=8, answered=[TWO], asked=[ONE, TWO, THREE])
        for kept in ([TWO], [ONE, TWO], [ONE, TWO, THREE]):
            self.assertEqual(compared_loosely(person, kept), [])
        for kept in ([], [ONE], [TWO, TWO], [ONE, ONE, TWO], [TWO, ("arrive", 1, 8)]):
            self.assertNotEqual(compared_loosely(person, kept), [], kept)


@unittest.skipUnless(HAS_MODULES, NO_MODULES)
class SoakTest(DeskTestCase):
    def test_all_at_once(self):
        result = soak(self.folder, float(os.environ.get("EVP_SOAK_SECONDS", "30")))
        print(result.text(), file=sys.stderr)
        self.assertEqual(result.problems, [])


if __name__ == "__main__":
    unittest.main()
