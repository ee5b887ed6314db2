"""Filed masses, and why a sheet is refused."""

import unittest
from fractions import Fraction

from tools.reckoning import check
from tools.reckoning.findings import NOTHING, explain, largest_saturation
from tools.reckoning.format import Season
from tools.reckoning.marking import AGREES, FITS, HIGH, LOW, UNREADABLE, interval, mark
from tools.reckoning.quantities import canister_a_b
from tools.reckoning.tables import CANISTER_S
from tools.tests.support import NAMES, sample
from tools.vectors import marks as mark_vectors
from tools.vectors.sheets import findings as finding_vectors
from tools.vectors.sheets.case import Case


class MarkTest(unittest.TestCase):
    """What a band says of a figure."""

    def test_interval(self):
        self.assertEqual(interval((2834, 3, 3)), (2_833_500_000, 2_834_500_000))
        self.assertEqual(interval((0, 0, 0)), (Fraction(-1, 2), Fraction(1, 2)))

    def test_verdicts(self):
        """Both ends of the rounding count, and a distance is cut down."""
        for filed, band, expected in (
            ((2834, 3, 3), (2_834_491_356, 2_834_497_572), (AGREES, 0)),
            ((2834, 3, 3), (2_834_491_356, 2_834_500_000), (AGREES, 0)),
            ((2834, 3, 3), (2_834_491_356, 2_834_500_001), (FITS, 0)),
            ((2834, 3, 3), (2_834_500_001, 2_834_500_002), (LOW, 1)),
            ((2834, 3, 3), (1, 2_833_499_999), (HIGH, 1)),
            ((5, 1, 0), (1, 1), (LOW, 0)),
            ((15, 1, 0), (1, 1), (HIGH, 0)),
            ((1, 7, 0), (0, 0), (UNREADABLE, 0)),
            ((10 ** 18, 3, 0), (0, 0), (UNREADABLE, 0)),
            ((10 ** 9, 0, 3), (0, 0), (UNREADABLE, 0)),
            ((1, 0, 4), (1, 1), (UNREADABLE, 0)),
        ):
            self.assertEqual(mark(filed, band), expected, "%s in %s" % (filed, band))


class VectorTest(unittest.TestCase):
    """The vectors notice what would be wrong with them."""

    def test_marks(self):
        found = mark_vectors.vectors()
        self.assertEqual(list(mark_vectors.missing(found)), [])
        first = next(i for i, vector in enumerate(found) if vector.verdict == (FITS, 0))
        found[first] = found[first]._replace(verdict=(AGREES, 0))
        self.assertIn("is not what rounding gives", " ".join(mark_vectors.missing(found)))
        self.assertIn("0 figures are unreadable", list(mark_vectors.missing([])))

    def test_rounding(self):
        """A mass half way rounds both ways."""
        self.assertEqual(mark_vectors.rounded(2_834_500_000, (2834, 3, 3)), {2834, 2835})
        self.assertEqual(mark_vectors.rounded(2_834_499_999, (2834, 3, 3)), {2834})
        self.assertEqual(mark_vectors.rounded(5, (50, 1, 0)), {50})

    def test_findings(self):
        """A finding with another value, within its limits, or with a limit that does not mend the sheet."""
        data = sample("example", ".evp")
        data = data[:5] + bytes([13]) + data[6:]
        found = explain(data)
        self.assertEqual(list(finding_vectors.faults_of(data, found)), [])
        for change in ({"value": 14}, {"most": 13}, {"least": 14}):
            self.assertNotEqual(list(finding_vectors.faults_of(data, found._replace(**change))), [])
        vectors = [finding_vectors.Vector(Case("thirteen seasons", data, (4, 6)), found)]
        said = list(finding_vectors.missing(vectors))
        self.assertIn("thirteen seasons: number or place is not the check's", said)
        self.assertIn("number 26 reason 1: 0 sheets", said)

    def test_ends_of_limits(self):
        """Of 1 to 12 seasons a set wants 0 and 13, which are refused, and 1 and 12, which pass."""
        one = sample("example", ".evp")
        twelve = one[:5] + bytes([12]) + one[6:112] + one[104:112] * 11 + one[112:]
        wanted = {
            "one below the least": one[:5] + bytes([0]) + one[6:],
            "one above the most": one[:5] + bytes([13]) + one[6:],
            "the least, which passes": one, "the most, which passes": twelve,
        }
        for left_out in wanted:
            vectors = [finding_vectors.Vector(Case(words, data, None), explain(data))
                       for words, data in wanted.items() if words != left_out]
            said = [fault for fault in finding_vectors.missing_ends(vectors) if fault.startswith("number 4 reason 1:")]
            self.assertEqual(said, ["number 4 reason 1: no sheet has " + left_out])


class FindingTest(unittest.TestCase):
    """What is found on a sheet."""

    def test_samples(self):
        for name in NAMES:
            data = sample(name, ".evp")
            self.assertEqual(explain(data), NOTHING, name)

    def test_every_byte(self):
        """Number and place are those of the check, whichever byte is changed; the value is outside its limits."""
        for name in ("example", "odometer"):
            data = sample(name, ".evp")
            for at in range(len(data)):
                for value in (0, 255):
                    changed = data[:at] + bytes([value]) + data[at + 1:]
                    found = explain(changed)
                    self.assertEqual((found.number, found.place), check(changed) or (0, 0),
                                     "byte %d of %s" % (at, name))
                    self.assertTrue(found == NOTHING or not found.least <= found.value <= found.most)

    def test_largest(self):
        """The largest m_sat passes and the next does not."""
        for season in (Season(90, 0, 150, 600), Season(1, -300, 500, 1100), Season(1, 500, 500, 300)):
            a, b = canister_a_b(season, Fraction(season.highest, 10))
            for canister, s in CANISTER_S.items():
                for limit in (0, 3):
                    most = largest_saturation(limit, season, canister)
                    self.assertLessEqual(a + b * s * Fraction(most, 10), limit)
                    self.assertGreater(a + b * s * Fraction(most + 1, 10), limit)
