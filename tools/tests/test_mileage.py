"""The load that a mileage makes."""

import math
import random
import unittest
from collections import Counter
from collections.abc import Iterator
from fractions import Fraction
from unittest import mock

from tools import reckoning
from tools.reckoning.mileage import MOST_TRIED, NEAR, driven, load_of, starting_load
from tools.reckoning.numbers import BITS, ExactNumbers, ScaledNumbers
from tools.tests.support import grid_text, sheet_of

# The coldest and largest canister: a and b, s.
COLDEST = (*reckoning.canister_a_b(reckoning.Season(1, -300, -300, 1100), Fraction(-30)), Fraction(1, 2))


def driven_canisters(count: int, seed: int) -> Iterator[tuple]:
    """a and b at a mark, s, a mileage and an m_sat as number 25 lets them pass,
    many of them near what the canister can have at most."""
    draw = random.Random(seed)
    for _ in range(count):
        lowest, highest = sorted(draw.choice((-300, 500, draw.randint(-300, 500))) for _ in range(2))
        season = reckoning.Season(1, lowest, highest, draw.choice((300, 1100, draw.randint(300, 1100))))
        s = draw.choice(tuple(reckoning.CANISTER_S.values()))
        a, b = reckoning.canister_a_b(season, Fraction(highest, 10))
        top = math.floor(-10 * a / (b * s))
        m_sat = Fraction(draw.choice((top, top, draw.randint(0, top), 0, 1)), 10)
        T = draw.choice((Fraction(highest, 10), reckoning.temperature(season, draw.randrange(48))))
        M = draw.choice((1, 16, 17, 10 ** 6, draw.randint(17, 2000), round(math.exp(draw.uniform(2.8, 13.8)))))
        yield *reckoning.canister_a_b(season, T), s, M, m_sat


class MileageTest(unittest.TestCase):
    """Starting loads."""

    def test_every_multiple(self):
        """Found between two ends as by trying every multiple from 0 on, which takes nothing for granted."""
        kinds = Counter()
        for n in range(2, MOST_TRIED + 1):
            for a, b, s, M, m_sat in driven_canisters(24, n):
                # E_n is far below e^y here; and each multiple is tried
                M, m_sat = 1 + M % 60, min(m_sat, Fraction(241, 10))
                tried = starting_load(a, b, s, M, m_sat, n, "exact")
                self.assertEqual(starting_load(a, b, s, M, m_sat, n), tried, "n = %d" % n)
                kinds["0" if tried == 0 else "m_sat" if tried == m_sat else "between"] += 1
        self.assertGreater(min(kinds[kind] for kind in ("0", "m_sat", "between")), 10, kinds)

    def test_logarithms(self):
        """Eqs. 9 and 12: s.g is 8.13 ln M - 22.92, or the canister is empty or full."""
        found = 0
        for n, near in ((40, 1e-7), (60, 1e-10)):
            for a, b, s, M, m_sat in driven_canisters(150, n):
                m = starting_load(a, b, s, M, m_sat, n)
                kept = 8.13 * math.log(M) - 22.92
                if M <= 16:
                    self.assertEqual(m, 0, "%d km" % M)
                elif m == m_sat:
                    self.assertLess(float(s) * (float(m_sat) - math.exp(a + b * s * m_sat)), kept + 1e-6,
                                    "full after %d km" % M)
                else:
                    self.assertTrue((m * 2 ** n).denominator == 1 and 0 < m < m_sat, "load after %d km" % M)
                    self.assertAlmostEqual(float(s) * (float(m) - math.exp(a + b * s * m)), kept, delta=near)
                    found += 1
        self.assertGreater(found, 60, "loads between 0 and m_sat")

    def test_reached(self):
        """The multiple reaches M and the one before it does not, in fractions."""
        confirmed = 0
        for n, cases in ((40, 40), (60, 12)):
            numbers = ExactNumbers(n)
            for a, b, s, M, m_sat in driven_canisters(cases, 8):
                m = starting_load(a, b, s, M, m_sat, n)
                last = Fraction(math.floor(m_sat * 2 ** n), 2 ** n)
                if m == m_sat and (m != last or driven(numbers, a, b, s, m) < M):
                    self.assertLess(driven(numbers, a, b, s, last), M, "the last multiple")
                    continue
                self.assertGreaterEqual(driven(numbers, a, b, s, m), M)
                if m:
                    self.assertLess(driven(numbers, a, b, s, m - Fraction(1, 2 ** n)), M, "a smaller load")
                    confirmed += 1
        self.assertGreater(confirmed, 12)

    def test_decimals(self):
        """How far decimals are off at the largest exponent of eq. 12, where the canister is full."""
        m = Fraction(3057, 10)
        exact = driven(ExactNumbers(40), *COLDEST, m)
        self.assertLess(abs(driven(ScaledNumbers(40), *COLDEST, m) - exact * 2 ** BITS), NEAR / 2 ** 16)

    def test_met_exactly(self):
        """A mileage that is met exactly, and one just above it: no decimals tell, and fractions are asked."""
        for k in (1, 1000, 123457):
            m = Fraction(k, 2 ** 12)
            met = driven(ExactNumbers(12), *COLDEST, m)
            for more, expected in ((0, m), (Fraction(1, 10 ** 300), m + Fraction(1, 2 ** 12)),
                                   (-Fraction(1, 10 ** 300), m)):
                with mock.patch("tools.reckoning.mileage.ExactNumbers", wraps=ExactNumbers) as asked:
                    self.assertEqual(starting_load(*COLDEST, met + more, Fraction(100), 12), expected,
                                     "%d multiples" % k)
                    asked.assert_called()
        met = driven(ExactNumbers(5), *COLDEST, Fraction(77, 32))
        self.assertEqual(starting_load(*COLDEST, met, Fraction(10), 5, "exact"), Fraction(77, 32))

    def test_beyond_0(self):
        """A canister with a + b.s.m_sat above 0 is not taken."""
        with self.assertRaises(ValueError):
            starting_load(*COLDEST, 100, Fraction(3058, 10), 40)

    def test_running_load(self):
        """In running the load is that of T2: with the load of T1 written instead,
        soak is the same and running is not."""
        read = sheet_of(grid_text({(5, 13): 1}) + "season days=1 lowest=5.0 highest=45.0 vp=60.0\n"
                        "row class=9 technology=0 tank=150.0 saturation=36.1 mileage=47000\n")
        season, row = read.seasons[0], read.rows[0]
        loads = [load_of(row, season, reckoning.temperature(season, i), 40, "decimal")
                 for i in (reckoning.start_mark(13, 5), 26)]
        self.assertTrue(0 < loads[0] < loads[1] < Fraction(361, 10), "loads at T1 and T2: %s" % loads)
        found = reckoning.seven_factors(read, 0, 0)
        for load, as_found in zip(loads, ([1, 2, 3, 4], [5, 6, 7])):
            with mock.patch("tools.reckoning.factors.load_of", return_value=load):
                written = reckoning.seven_factors(read, 0, 0)
            self.assertEqual([k for k in range(1, 8) if written[k - 1] == found[k - 1]], as_found)
