"""The input of vectors_species: totals with the masses of their species.

Every number of the file has eight bytes, the lowest first: how many totals,
then for each the total and its 29 masses.
"""

import hashlib
from collections.abc import Iterator
from fractions import Fraction
from itertools import chain
from math import floor

from tools.command import SAMPLES
from tools.reckoning.species import SHARES, TABLE, split
from tools.vectors.frame import VectorSet, packed

Vector = tuple[int, list[int]]  # a total and its masses

MOST = 2 ** 64 - 1
DEMANDED = (0, 1, 10_000, 10_001, MOST)  # by request Eleven


def reported(name: str) -> tuple[int, int]:
    """The version and the high total of a sample, by its stored report."""
    words = (SAMPLES / (name + ".report")).read_text().split()
    return int(words[1]), int(words[-1])


def sample_totals() -> list[int]:
    return [reported(path.stem)[1] for path in sorted((SAMPLES).glob("*.evp"))]


def scattered(count: int) -> Iterator[int]:
    """Totals of all sizes, the same in every run and on every machine."""
    for i in range(count):
        digest = hashlib.sha256(b"species %d" % i).digest()
        yield int.from_bytes(digest[:8], "little") >> digest[8] % 64


def totals() -> list[int]:
    """Those of the request and of the samples; around multiples of 10,001 and
    powers of 2 and 10; the least of which a species gets anything; and others."""
    bases = [10_001 * k for k in (1, 2, 10_000, 10_001, MOST // 10_001)]
    bases += [2 ** k for k in (1, 8, 13, 32, 53, 63)] + [10 ** k for k in (2, 3, 4, 6, 9, 12, 19)]
    found = [*DEMANDED, *sample_totals(), *(base + k for base in bases for k in (-1, 0, 1)), MOST - 1]
    found += [-(-10_001 // int(100 * share)) for share in SHARES if share]
    return list(dict.fromkeys(total for total in chain(found, scattered(100)) if total <= MOST))


def vectors() -> list[Vector]:
    return [(total, split(total)) for total in totals()]


def missing(found: list[Vector]) -> Iterator[str]:
    """What the masses as a whole should show and do not."""
    if sum(SHARES) != Fraction("100.01") or len(TABLE) != 29:
        yield "the shares of %d species sum to %s percent" % (len(TABLE), sum(SHARES))
    if not set(DEMANDED) <= {total for total, _ in found}:
        yield "not every total that is demanded"
    for total, masses in found:
        exact = [total * share / sum(SHARES) for share in SHARES]
        if sum(masses) != total:
            yield "%d: the species do not add up" % total
        if any(abs(mass - part) > 1 for mass, part in zip(masses, exact)):
            yield "%d: a species is further than one from its share" % total
        if any(mass for mass, share in zip(masses, SHARES) if not share):
            yield "%d: a species with share 0 has some" % total
    if not any(sum(floor(total * share / sum(SHARES)) for share in SHARES) < total for total, _ in found):
        yield "no total that shares cut one by one fall short of"


def encoded(found: list[Vector]) -> bytes:
    return packed(8, [len(found)]) + b"".join(packed(8, [total, *masses]) for total, masses in found)


def lines(found: list[Vector]) -> Iterator[str]:
    for position, (total, masses) in enumerate(found, 1):
        yield "%4d  %20d  %s" % (position, total, " ".join(map(str, masses)))


VECTORS = VectorSet("vectors_species", vectors, encoded, lines, missing)
