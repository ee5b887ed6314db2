"""The table of Θ, the number with Θ = E(t Θ), for t up to a quarter: a quadratic on each cell of width 2^-11.

On the cell that starts at t = k/2048 it is Taylor's quadratic of Θ in the place s
in the cell, from 0 to 1, its three coefficients rounded down in units of 2^-31.
The first is 2 units lower still, but where Θ is 1, so that the quadratic stays
below Θ on the whole cell: that it does is proved in crates/bounds/proofs/ThetaTable,
where the levels are a witness.
"""

import math
from decimal import Decimal, localcontext

CELLS = 513
STEP = 2048
UNIT = 2 ** 31
LOWER = 2

# A level is E(k p0 / 2^42) in units of 2^-40, rounded down, by a sum up to this power.
LEVEL_UNIT = 2 ** 40
LEVEL_POWER = 14
LEVEL_SCALE = UNIT * STEP


def coefficients(k: int) -> tuple[int, int, int]:
    """Those of a cell. With w = t Θ, w = t exp(w); Θ' = Θ^2/(1 - w), and so on by the same rule."""
    with localcontext() as context:
        context.prec = 60
        t = Decimal(k) / STEP
        w = t
        for _ in range(8):
            power = t * w.exp()
            w += (power - w) / (1 - power)
        value, slope = w.exp(), 1 / (1 - w)
        first = value * value * slope / STEP
        second = value ** 3 * slope * slope * (2 + slope) / 2 / STEP ** 2
        lower = LOWER if k else 0
        return int(value * UNIT) - lower, int(first * UNIT), int(second * UNIT)


def level(k: int, value: int) -> int:
    """E(k p0 / 2^42) from below, for the first coefficient p0 of a cell."""
    exponent, total = k * value, 0
    for i in range(LEVEL_POWER + 1):
        total += exponent ** i * LEVEL_SCALE ** (LEVEL_POWER - i) * (math.factorial(LEVEL_POWER) // math.factorial(i))
    return LEVEL_UNIT * total // (LEVEL_SCALE ** LEVEL_POWER * math.factorial(LEVEL_POWER))


ROWS = [coefficients(k) for k in range(CELLS)]
LEVELS = [level(k, row[0]) for k, row in enumerate(ROWS)]
