"""Two lists of parkings multiplied out: the grid of their products, which has the same exact masses (docs/SHEET.md)."""

import math
from collections.abc import Sequence

from evp.sheet.words import TextError
from evp.wording import apart

MOST_COUNT = 65_535  # that a count of a grid can be
MOST_SUM = 1_000  # that the counts of a list can have together


def products(durations: Sequence[int], hours: Sequence[int]) -> bytes:
    """The grid of two lists, end hour by end hour; where a product is too large for a count, of the lists with common
    factors taken out. TextError where it is too large even then."""
    if max(durations) * max(hours) > MOST_COUNT:
        durations, hours = ([count // math.gcd(*counts) for count in counts] for counts in (durations, hours))
    if max(durations) * max(hours) > MOST_COUNT:
        raise TextError("a product of the two lists is %d, and a count of a grid is at most %d" % (
            max(durations) * max(hours), MOST_COUNT))
    return b"".join((d * h).to_bytes(2, "little") for h in hours for d in durations)


def check_sum(counts: Sequence[int], what: str) -> None:
    """TextError where a list breaks the rule that lists have in version 1, where no grid is made of them."""
    if not 1 <= sum(counts) <= MOST_SUM:
        raise TextError("the counts of the 24 %s sum to %s; write counts that sum to 1 to %s" % (
            what, apart(sum(counts)), apart(MOST_SUM)))
