"""The input of vectors_bounds: exponents and temperatures with their exact values.

Every number has eight bytes, the lowest first: how many exponents, how many
temperatures, then three numbers for each of them. These are the exponent z as
the crate holds it, (z + 16).10^14, and 2^40.E(z) cut to a whole number for
n = 40 and for n = 60; and the temperature T as the crate holds it,
(T + 30).10^10, and 2^24.T^2.5 likewise.
"""

import hashlib
import math
from collections.abc import Iterator
from fractions import Fraction
from itertools import chain

from tools import reckoning
from tools.vectors.frame import VectorSet, packed

Vectors = tuple[list[tuple[int, ...]], list[tuple[int, ...]]]  # of exponents and of temperatures

TERMS = (40, 60)
EXPONENT_UNIT = 10 ** 14
EXPONENT_SHIFT = 16
EXPONENT_LIMIT = 201 * 10 ** 13  # the first that is not served
COARSE_STEP = EXPONENT_UNIT // 16
FINE_STEP = EXPONENT_UNIT // 4096
DEGREE = 10 ** 10
DEGREES_SHIFT = 30
DEGREES_LIMIT = 95 * DEGREE  # the last that is served


def held_exponent(z: Fraction) -> int:
    """z as the crate holds it, cut to 10^-14."""
    return math.floor((z + EXPONENT_SHIFT) * EXPONENT_UNIT)


def held_degrees(T: Fraction) -> int:
    """T in degrees C as the crate holds it."""
    return math.floor((T + DEGREES_SHIFT) * DEGREE)


def scattered(name: str, count: int, first: int, beyond: int) -> list[int]:
    """Numbers from first to beyond - 1 with no order in them, the same in
    every run and on every machine."""
    digests = (hashlib.sha256(("%s %d" % (name, i)).encode()).digest() for i in range(count))
    return [first + int.from_bytes(digest, "little") % (beyond - first) for digest in digests]


def around(x: int) -> list[int]:
    return [x - 1, x, x + 1]


def sheet_exponents() -> list[int]:
    """What an accepted sheet can bring, from one end to the other."""
    heat = [Fraction(716, 10 ** 4) * T for T in range(-30, 57)]
    vapour = [Fraction(205, 10 ** 4) * vp for vp in range(30, 111, 5)]
    permeation = [Fraction(4, 10 ** 3) * vp for vp in range(30, 111, 5)]
    canister = [Fraction(-146, 10) + Fraction(4, 10) * i for i in range(45)]
    return [held_exponent(z) for z in heat + vapour + permeation + canister]


def canister_exponents() -> list[int]:
    """a + b.s.m at the ends of temperature and vapour pressure: the canister
    empty, and loaded in tenths of a gram as far as check 20 allows."""
    found = []
    for T in (-30, 0, 50):
        for vp in (300, 1100):
            season = reckoning.Season(1, 10 * T, 10 * T, vp)
            a, b = reckoning.canister_a_b(season, Fraction(T))
            found.append(held_exponent(a))
            for s in reckoning.CANISTER_S.values():
                most = math.floor((3 - a) / (b * s) * 10)
                found.append(held_exponent(a + b * s * Fraction(most, 10)))
    return found


def boundary_exponents() -> list[int]:
    """The first and the last of all, both sides of entries of the two tables
    and of the ends of the ranges that the program tells apart."""
    found = [0, 1, EXPONENT_LIMIT - 2, EXPONENT_LIMIT - 1]
    for h in (1, 22, 128, 222, 255, 256, 257, 292, 293, 304, 305, 313, 320, 321):
        found += around(h * COARSE_STEP)
    for h in (22, 222, 255, 256, 292, 303, 320):
        for m in (1, 128, 255):
            found += around(h * COARSE_STEP + m * FINE_STEP)
    for z in (Fraction(23, 10), Fraction(3), Fraction(36, 10)):
        found += around(held_exponent(z))
    return found


def scattered_exponents() -> list[int]:
    """All over; more of them where both table entries are 1 and where the
    first is; and just below the end of each range, where the error is
    largest."""
    zero = held_exponent(0)
    found = scattered("exponent", 60, 0, EXPONENT_LIMIT)
    found += scattered("quadratic", 60, zero, zero + FINE_STEP)
    found += scattered("fine", 60, zero, zero + COARSE_STEP)
    for end in (Fraction(23, 10), Fraction(3), Fraction(36, 10), Fraction(41, 10)):
        beyond = held_exponent(end)
        found += scattered("exponent below %s" % end, 30, beyond - EXPONENT_UNIT // 20, beyond)
    return found


def exponents() -> list[int]:
    return sorted({*sheet_exponents(), *canister_exponents(), *boundary_exponents(), *scattered_exponents()})


def temperatures() -> list[int]:
    """Every whole degree, both sides of 0 and of whole squares, whose root is
    exact, and others."""
    found = {held_degrees(T) for T in range(-30, 66)}
    for T in (0, 1, 4, 9, 16, 25, 36, 49, 64):
        found.update(around(held_degrees(T)))
    found.update(scattered("temperature", 40, 0, DEGREES_LIMIT + 1))
    return sorted(found)


def exponential(x: int, n: int) -> int:
    z = Fraction(x, EXPONENT_UNIT) - EXPONENT_SHIFT
    return math.floor(2 ** 40 * reckoning.E(z, n))


def power(held: int, n: int) -> int:
    return math.floor(2 ** 24 * reckoning.power_2_5(Fraction(held, DEGREE) - DEGREES_SHIFT, n))


def found() -> Vectors:
    """Each exponent and each temperature with its exact values, cut."""
    return (
        [(x, *(exponential(x, n) for n in TERMS)) for x in exponents()],
        [(held, *(power(held, n) for n in TERMS)) for held in temperatures()],
    )


def encoded(vectors: Vectors) -> bytes:
    return packed(8, chain(map(len, vectors), chain.from_iterable(chain.from_iterable(vectors))))


def lines(vectors) -> Iterator[str]:
    for name, unit, shift, values in zip(
            ("exponent", "temperature"), (EXPONENT_UNIT, DEGREE), (EXPONENT_SHIFT, DEGREES_SHIFT), vectors):
        for position, (held, *exact) in enumerate(values, 1):
            yield "%s %d: %s  %s" % (name, position, reckoning.cut(Fraction(held, unit) - shift, 14),
                                     " ".join(map(str, exact)))


VECTORS = VectorSet("vectors_bounds", found, encoded, lines)
