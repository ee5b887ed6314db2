"""Inputs changed by chance, from a seed: the same seed and corpus give the same inputs."""

import random
import re
from collections.abc import Callable, Sequence

MOST = 400_000  # bytes of an input
NUMBERS = tuple(b"0 -1 1 9 00 1e9 1.5 1,5 255 256 65535 65536 10000000 10000001 4294967296 18446744073709551615 "
                b"18446744073709551616 99999999999999999999999999999999 -0 +1 0x10 1_000 inf nan".split()) + (
    "\N{ARABIC-INDIC DIGIT THREE}".encode(), "\N{SUPERSCRIPT TWO}".encode(), b"")
SIGNS = (
    b"\x00", b"\n", b"\r", b"\r\n", b"\t", b'"', b"'", b",", b";", b"=", b"#", b":", b" ", b"\xef\xbb\xbf", b"\xff",
    b"\xc3", b"\x1b[31m", b"\x07", b"\x7f", "\N{RIGHT-TO-LEFT OVERRIDE}".encode(), "\N{LINE SEPARATOR}".encode(),
    b"\xc2\x85", "\N{GRINNING FACE}".encode(), b"\xed\xa0\x80", b"=1+1", b"@SUM(1)", b"-2+3", b"{", b"}", b"[", b"]",
    b"null", b"true", b"\\u0000", b"\\ud800", b"%00", b"%2e%2e/", b"sep=;\n", b"total", b"all")
Change = Callable[[bytes, random.Random, Sequence[bytes]], bytes]


def _slice(data: bytes, chance: random.Random, most: int = 200) -> tuple[int, int]:
    start = chance.randrange(len(data) + 1)
    return start, min(len(data), start + chance.randrange(1, most))


def _flip(data: bytes, chance: random.Random, others: Sequence[bytes]) -> bytes:
    if not data:
        return data
    at = chance.randrange(len(data))
    return data[:at] + bytes([data[at] ^ 1 << chance.randrange(8)]) + data[at + 1:]


def _insert(data: bytes, chance: random.Random, others: Sequence[bytes]) -> bytes:
    at = chance.randrange(len(data) + 1)
    return data[:at] + chance.choice(SIGNS) + data[at:]


def _delete(data: bytes, chance: random.Random, others: Sequence[bytes]) -> bytes:
    start, end = _slice(data, chance)
    return data[:start] + data[end:]


def _repeat(data: bytes, chance: random.Random, others: Sequence[bytes]) -> bytes:
    start, end = _slice(data, chance)
    return data[:end] + data[start:end] * chance.choice((1, 2, 10, 1_000)) + data[end:]


def _random(data: bytes, chance: random.Random, others: Sequence[bytes]) -> bytes:
    start, end = _slice(data, chance, 16)
    return data[:start] + chance.randbytes(end - start) + data[end:]


def _splice(data: bytes, chance: random.Random, others: Sequence[bytes]) -> bytes:
    other = chance.choice(others)
    start, end = _slice(other, chance, 2_000)
    at = chance.randrange(len(data) + 1)
    return data[:at] + other[start:end] + data[at + chance.choice((0, end - start)):]


def _number(data: bytes, chance: random.Random, others: Sequence[bytes]) -> bytes:
    found = list(re.finditer(rb"[0-9]+", data[:20_000]))
    if not found:
        return data
    place = chance.choice(found)
    return data[:place.start()] + chance.choice(NUMBERS) + data[place.end():]


def _word(data: bytes, chance: random.Random, others: Sequence[bytes]) -> bytes:
    """A word in place of another of the same corpus."""
    words = re.findall(rb"[A-Za-z_-]{2,}", chance.choice(others)[:20_000])
    found = list(re.finditer(rb"[A-Za-z_-]{2,}", data[:20_000]))
    if not words or not found:
        return data
    place = chance.choice(found)
    return data[:place.start()] + chance.choice(words) + data[place.end():]


def _lines(data: bytes, chance: random.Random, others: Sequence[bytes]) -> bytes:
    """A line twice, away, or elsewhere; or all lines long."""
    lines = data.split(b"\n")
    at, to = chance.randrange(len(lines)), chance.randrange(len(lines))
    how = chance.randrange(4)
    if how == 0:
        lines.insert(to, lines[at])
    elif how == 1:
        del lines[at]
    elif how == 2:
        lines[at], lines[to] = lines[to], lines[at]
    else:
        lines[at] *= chance.choice((2, 200, 5_000))
    return b"\n".join(lines)


def _encode(data: bytes, chance: random.Random, others: Sequence[bytes]) -> bytes:
    """As another program saves it."""
    how = chance.randrange(5)
    if how == 0:
        return data.decode("utf-8", "replace").encode("utf-16")
    if how == 1:
        return b"\xef\xbb\xbf" + data
    if how == 2:
        return data.replace(b"\n", chance.choice((b"\r\n", b"\r", b"\n\n")))
    return data.replace(b",", b";") if how == 3 else data[:chance.randrange(len(data) + 1)]


CHANGES: tuple[Change, ...] = (
    _flip, _flip, _insert, _insert, _delete, _repeat, _random, _splice, _number, _number, _word, _word, _lines, _encode)


def mutated(data: bytes, chance: random.Random, others: Sequence[bytes]) -> bytes:
    """An input from one of a corpus, with one to six changes."""
    for _ in range(chance.choice((1, 1, 2, 3, 6))):
        data = chance.choice(CHANGES)(data, chance, others)[:MOST]
    return data
