"""The input of vectors_marks: filed figures and bands, with the verdict that the reckoning gives.

The file says in four bytes how many figures there are. Each then has seven
numbers of eight bytes: the digits, how many of them stand behind the point, the
unit (0 mg, 1 g, 2 kg, 3 t), the low and the high of the band in milligrams, the
verdict (0 agrees, 1 fits, 2 low, 3 high, 4 unreadable) and how many whole
milligrams the figure is off. Every number has its lowest byte first.

Around both ends of what a figure stands for every band is tried that starts and
ends at, beside or a milligram off them. The verdicts are held a second time
against rounding: a mass rounds to the figure, up or down where it is half way,
or to more, or to less.
"""

import hashlib
from collections import Counter
from collections.abc import Iterator
from decimal import ROUND_HALF_DOWN, ROUND_HALF_UP, Context, Decimal
from itertools import chain, combinations_with_replacement
from math import ceil, floor
from typing import NamedTuple

from tools.reckoning.marking import AGREES, FITS, HIGH, LOW, UNITS, UNREADABLE, Band, Filed, Verdict, interval, mark
from tools.vectors.frame import VectorSet, packed

UNIT_NAMES = ("mg", "g", "kg", "t")
VERDICT_NAMES = ("agrees", "fits", "low", "high", "unreadable")
WORD = 2 ** 64 - 1

# Figures of each unit: with ends that are whole milligrams and ends that are not, 0 and the largest among them.
EDGED: tuple[Filed, ...] = (
    (2834, 3, 3), (0, 0, 3), (999_999_999, 0, 3), (44, 0, 3), (730406, 6, 3),
    (51273, 1, 2), (1, 0, 2), (999_999_999_999, 0, 2),
    (845, 0, 1), (1005, 3, 1), (7, 4, 1), (10 ** 18 - 1, 3, 1),
    (1, 0, 0), (5, 1, 0), (50, 1, 0), (123_456_789, 6, 0),
)
# On both sides of each limit of what is read: the last place, the mass and the digits.
LIMITS: tuple[tuple[Filed, bool], ...] = tuple(chain.from_iterable(
    (((1, power + 6, unit), True), ((1, power + 7, unit), False), ((0, power + 7, unit), False),
     ((10 ** (18 - power) - 1, 0, unit), True), ((10 ** (18 - power), 0, unit), False),
     ((10 ** 18 - 1, power, unit), True), ((10 ** 18, power, unit), False), ((10 ** 18, power + 6, unit), False),
     ((WORD, 0, unit), False), ((WORD, power + 6, unit), False), ((1, WORD, unit), False))
    for unit, power in enumerate(UNITS)))


class Vector(NamedTuple):
    filed: Filed
    band: Band
    verdict: Verdict


def edges(filed: Filed) -> list[int]:
    """The whole milligrams at both ends of what a figure stands for, beside them and one further."""
    found = set()
    for end in interval(filed):
        found |= {floor(end) - 1, floor(end), ceil(end), ceil(end) + 1}
    return sorted(point for point in found if point >= 0)


def edge_bands(filed: Filed) -> Iterator[Band]:
    yield from combinations_with_replacement(edges(filed), 2)
    yield from ((0, point) for point in edges(filed))
    yield 0, WORD
    yield WORD, WORD
    yield max(edges(filed)), min(edges(filed))  # no band, and it has a verdict


def limit_bands(filed: Filed, read: bool) -> Iterator[Band]:
    """The figure itself, where it is read, and all that there is."""
    if read:
        yield edges(filed)[0], edges(filed)[-1]
        yield edges(filed)[-1], WORD
    yield 0, WORD


def scattered(count: int) -> Iterator[tuple[Filed, Band]]:
    """Figures and bands of all sizes, near each other or not; the same in every run and on every machine."""
    for i in range(count):
        digest = hashlib.sha256(b"mark %d" % i).digest()
        digits = int.from_bytes(digest[:8], "little") >> (10 + digest[8] % 54)
        filed = digits, digest[9] % 6, digest[10] % 4
        if interval(filed) is None:
            continue
        least, most = interval(filed)
        start = max(floor(least + (most - least) * (digest[11] - 128) / 64) - digest[12] % 3, 0)
        yield filed, (start, start + (int.from_bytes(digest[13:17], "little") >> digest[17] % 32))


def vectors() -> list[Vector]:
    """No figure with a band twice."""
    pairs = chain(
        ((filed, band) for filed in EDGED for band in edge_bands(filed)),
        ((filed, band) for filed, read in LIMITS for band in limit_bands(filed, read)),
        scattered(120))
    return [Vector(filed, band, mark(filed, band)) for filed, band in dict.fromkeys(pairs)]


# ------------------------------------------------------------------ what they show


def rounded(mass: int, filed: Filed) -> set[int]:
    """The digits that a mass has with as many places, rounded up and down where it is half way."""
    _, places, unit = filed
    exact = Context(prec=60)
    moved = Decimal(mass).scaleb(places - UNITS[unit], exact)
    return {int(moved.quantize(Decimal(1), how, exact)) for how in (ROUND_HALF_UP, ROUND_HALF_DOWN)}


def by_rounding(filed: Filed, band: Band) -> int:
    """The verdict as one who rounds the ends of the band would give it."""
    digits, (low, high) = filed[0], (rounded(end, filed) for end in band)
    if digits in low and digits in high:
        return AGREES
    if min(low) > digits:
        return LOW
    return HIGH if max(high) < digits else FITS


def missing(found: list[Vector]) -> Iterator[str]:
    """What the verdicts as a whole should show and do not."""
    counts = Counter(vector.verdict[0] for vector in found)
    for number, least in ((AGREES, 100), (FITS, 100), (LOW, 50), (HIGH, 50), (UNREADABLE, 25)):
        if counts[number] < least:
            yield "%d figures are %s" % (counts[number], VERDICT_NAMES[number])
    for filed, read in LIMITS:
        if (interval(filed) is not None) != read:
            yield "%s is read or not against the design" % said(filed)
    for vector in found:
        if vector.verdict[0] != UNREADABLE and vector.band[0] <= vector.band[1]:
            if by_rounding(vector.filed, vector.band) != vector.verdict[0]:
                yield "%s: %s is not what rounding gives" % (said(vector.filed), VERDICT_NAMES[vector.verdict[0]])
    offs = {vector.verdict for vector in found}
    if not {(LOW, 0), (LOW, 1), (HIGH, 0), (HIGH, 1)} <= offs:
        yield "no figure that is off by less than a milligram, or by one"
    if {vector.filed[2] for vector in found} != set(range(len(UNITS))):
        yield "not every unit"


def said(filed: Filed) -> str:
    digits, places, unit = filed
    return "%d with %d places, %s" % (digits, places, UNIT_NAMES[unit])


def encoded(found: list[Vector]) -> bytes:
    return packed(4, [len(found)]) + b"".join(packed(8, (*filed, *band, *verdict)) for filed, band, verdict in found)


def lines(found: list[Vector]) -> Iterator[str]:
    for position, (filed, band, (verdict, off)) in enumerate(found, 1):
        yield "%4d  %-48s  %20d to %20d mg  %s %d" % (position, said(filed), *band, VERDICT_NAMES[verdict], off)


VECTORS = VectorSet("vectors_marks", vectors, encoded, lines, missing)
