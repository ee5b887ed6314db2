"""The tables of the guidebook as document 01 has them: Table 3-11, the canisters, and the weights of the 48 marks."""

import decimal
from fractions import Fraction

NONE, SMALL, MEDIUM, LARGE, BY_CLASS = 0, 1, 2, 3, 255
CANISTER_NAMES = {NONE: "none", SMALL: "small", MEDIUM: "medium", LARGE: "large"}

# s of eq. 9: a small canister fills sooner, so its s is the larger one.
CANISTER_S = {SMALL: Fraction(2), MEDIUM: Fraction(1), LARGE: Fraction(1, 2)}

# Table 3-11: class, name, tank in litres, canister at technology 0, 1, 2, ...
# A technology beyond the end of its list is not in the table.
CLASS_TABLE = (
    (1, "car below 1.4 l", 50, (NONE, SMALL, SMALL, MEDIUM, MEDIUM, MEDIUM)),
    (2, "car 1.4 to 2.0 l", 60, (NONE, SMALL, SMALL, MEDIUM, MEDIUM, MEDIUM)),
    (3, "car above 2.0 l", 75, (NONE, MEDIUM, MEDIUM, LARGE, LARGE, LARGE)),
    (4, "light-duty", 60, (NONE, SMALL, SMALL, MEDIUM, MEDIUM, MEDIUM)),
    (5, "moped", 5, (NONE, NONE, NONE, NONE)),
    (6, "two-stroke", 8, (NONE, NONE, NONE, NONE)),
    (7, "four-stroke below 250 cm3", 10, (NONE, NONE, NONE, NONE)),
    (8, "four-stroke up to 750 cm3", 18, (NONE, NONE, NONE, NONE)),
    (9, "four-stroke above 750 cm3", 20, (SMALL, SMALL, SMALL)),
)


def table_entry(vehicle_class: int, technology: int) -> tuple[int, int] | None:
    """(tank in litres, canister code) of a pair, or None where it is absent."""
    for number, _, tank, canisters in CLASS_TABLE:
        if number == vehicle_class and 0 <= technology < len(canisters):
            return tank, canisters[technology]
    return None


def weight_exponent(i: int) -> Fraction:
    """The exponent -0.0247.d^2 of mark i, as a fraction; d is the hours of the
    shorter way round the day to 14:00, at most 12."""
    one_way = abs(Fraction(i, 2) - 14)
    return -Fraction(247, 10000) * min(one_way, 24 - one_way) ** 2


def _weights() -> tuple[int, ...]:
    # Decimal's exp is correctly rounded, so 60 digits leave the nearest whole
    # number in no doubt unless the value lies within 10^-40 of a half; that
    # is looked at rather than trusted.
    found = []
    with decimal.localcontext() as context:
        context.prec = 60
        for i in range(48):
            y = weight_exponent(i)
            value = (decimal.Decimal(y.numerator) / decimal.Decimal(y.denominator)).exp()
            value *= 10 ** 9
            nearest = int(value.to_integral_value(decimal.ROUND_HALF_EVEN))
            distance = abs(value - nearest)
            assert abs(distance - decimal.Decimal("0.5")) > decimal.Decimal("1e-40")
            found.append(nearest)
    return tuple(found)


WEIGHTS = _weights()
