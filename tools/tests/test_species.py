"""The species of a mass."""

import random
import re
import unittest
from fractions import Fraction

from tools.command import TOP
from tools.reckoning import species
from tools.tests.support import NAMES, sample
from tools.vectors.species import reported

HUNDREDTHS = [int(100 * share) for share in species.SHARES]


class SpeciesTest(unittest.TestCase):
    """Table 3-14 and the split of a total."""

    def test_table(self):
        sizes = [len(list(species.entries(printed))) for printed in species.GROUPS.values()]
        self.assertEqual(sizes, [10, 10, 2, 7], "species in each group")
        self.assertEqual(sum(species.SHARES), Fraction("100.01"))

    def test_split(self):
        """Against whole numbers, with one division for two sums of shares."""
        self.assertEqual(species.split(10001), HUNDREDTHS)
        self.assertEqual(species.split(1), [0] * 27 + [1, 0])
        chance = random.Random("species")
        for total in [0, 10000, 2 ** 64 - 1] + [chance.getrandbits(chance.randint(1, 64)) for _ in range(200)]:
            reached = [total * sum(HUNDREDTHS[:i]) // 10001 for i in range(30)]
            self.assertEqual(species.split(total), [b - a for a, b in zip(reached, reached[1:])],
                             "species of %d" % total)

    def test_text(self):
        self.assertEqual(species.text(4, 0), "EVP 4 total 0\n" + "".join("%s 0\n" % name for name in species.NAMES))

    def test_totals_of_samples(self):
        for name in NAMES:
            version, total = reported(name)
            self.assertTrue(version == sample(name, ".evp")[3] and total > 0 or name == "example", "total of %s" % name)


class FilesTest(unittest.TestCase):
    """The same names and shares in other files."""

    def found(self, path: str, pattern: str) -> list:
        return re.findall(pattern, (TOP / path).read_text(encoding="utf-8"), re.DOTALL)

    def test_header(self):
        array, = self.found("include/evaporation.h", r"evp_species_names\[EVP_SPECIES_COUNT\] = \{(.*?)\};")
        self.assertEqual(re.findall(r'"([^"]*)"', array), species.NAMES)

    def test_crate_table(self):
        rows = self.found("crates/speciation/specs/Table.antt", r'\("([^"]*)" has (\d+)\) ∷')
        self.assertEqual(rows, [(name, str(share)) for name, share in zip(species.NAMES, HUNDREDTHS)])

    def test_crate_values(self):
        worked = self.found("crates/speciation/proofs/Values.antt", r"species_masses (\d+)\s+≡((?: \d+ ∷|\s)+)\[\]")
        self.assertEqual([int(total) for total, _ in worked], [10001, 1000])
        for total, masses in worked:
            self.assertEqual([int(mass) for mass in re.findall(r"\d+", masses)], species.split(int(total)),
                             "species of " + total)
