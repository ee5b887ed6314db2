"""The table of Θ that tools.make writes into crates/bounds."""

import math
import unittest

from tools.make.theta import CELLS, LEVELS, ROWS, STEP, UNIT


class Theta(unittest.TestCase):
    def test_starts_at_1(self) -> None:
        """Θ(t) = 1 + t + 3/2 t^2 + ..."""
        self.assertEqual(ROWS[0], (UNIT, UNIT // STEP, 3 * UNIT // (2 * STEP ** 2)))

    def test_is_a_fixed_point(self) -> None:
        """A cell's first coefficient is 2 to 3 units below the number with Θ = exp(t Θ)."""
        for k in range(1, CELLS):
            theta = (ROWS[k][0] + 2.5) / UNIT
            self.assertAlmostEqual(theta, math.exp(k / STEP * theta), delta=2 / UNIT)

    def test_the_cells_meet(self) -> None:
        """At the end of a cell the quadratic is at most Θ, 2 units above the next cell's start, and near it."""
        for row, following in zip(ROWS, ROWS[1:]):
            below = following[0] + 2 - sum(row)
            self.assertGreaterEqual(below, 0)
            # E(t P) is at most 16 units above P, and so Θ at most 16 / (1 - t Θ), where t Θ is below 0.36
            self.assertLessEqual(below, 25)

    def test_levels(self) -> None:
        """A level is E at the exponent of its cell's start, rounded down."""
        for k, level in enumerate(LEVELS):
            exact = 2 ** 40 * math.exp(k * ROWS[k][0] / (STEP * UNIT))
            self.assertAlmostEqual(level, exact - 0.5, delta=0.6)


if __name__ == "__main__":
    unittest.main()
