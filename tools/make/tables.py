"""The tables of E and of Θ in crates/bounds, one computation for all places where they stand.

The two tables of the exponential: an entry is 2^40 E(c) cut to a whole number,
for the exact c = k/step. It is cut from a number that is below E(c) for every
truncation of the series from its N on, so that it is a lower bound for all of
them; and it is at most one unit too low.

The two tables of the short exponential are made of these.

The two tables of E at whole c, up to 14: 2^30 E(c) from below and from above,
for every truncation from 40 on. The table of Θ is in theta.py.
"""

import re
import textwrap
from collections.abc import Iterator
from fractions import Fraction

from tools.command import TOP, MadeFile
from tools.make.error import MakeError
from tools.make.theta import LEVELS, ROWS

UNIT = 2 ** 40
FAR_UNIT = 2 ** 30


def series(y: Fraction, n: int) -> tuple[Fraction, Fraction]:
    """1 + y + .. + y^n/n!, and its last term."""
    term = total = Fraction(1)
    for i in range(1, n + 1):
        term = term * y / i
        total += term
    return total, term


def bounds(y: Fraction, n: int) -> tuple[Fraction, Fraction]:
    """Two numbers between which every longer sum lies: the terms after y^n/n!
    are at most a geometric series."""
    total, last = series(y, n)
    return total, total + last * y / (n + 1 - y)


def entry(c: Fraction, n: int) -> int:
    """2^40 E(c), cut."""
    low, high = bounds(abs(c), n)
    if c < 0:
        low, high = 1 / high, 1 / low
    cut = UNIT * low // 1
    if UNIT * high > cut + 1:
        raise MakeError("the entry at %s is more than one unit wide at n = %d" % (c, n))
    return int(cut)


# below 0 the series stands in a denominator, and 40 terms are needed for one unit
COARSE = [entry(Fraction(h - 256, 16), 40 if h < 256 else 30) for h in range(322)]
MIDDLE = [entry(Fraction(m, 4096), 8) for m in range(256)]


def fine(d: int) -> int:
    """2^40 E(d/10^14), cut as the program cuts it, for d below 10^14/16: an entry of MIDDLE times a quadratic."""
    m, r = divmod(d, 10 ** 14 // 4096)
    rest = r * 2 ** 26 // 5 ** 14
    return MIDDLE[m] * (UNIT + rest + rest * rest // (2 * UNIT)) // UNIT


# the tables of the short exponential, in fewer bits
HIGH = [h // 2 ** 13 for h in COARSE[:305]]
FINEST = [fine(j * 5 ** 14) // 2 ** 10 for j in range(1024)]
FAR = [int(FAR_UNIT * bounds(Fraction(c), 40)[0] // 1) for c in range(15)]
FAR_ABOVE = [int(-(-FAR_UNIT * bounds(Fraction(c), 40)[1] // 1)) for c in range(15)]


def source(entries: list[int]) -> str:
    """As rt fmt lays an array out: many entries to a line where each has at most ten digits, else one."""
    words = ["%d," % entry for entry in entries]
    if any(len(word) > 11 for word in words):
        return "".join("    %s\n" % word for word in words)
    return textwrap.fill(" ".join(words), 99, initial_indent="    ", subsequent_indent="    ") + "\n"


def listed(entries: list[int], width: int = 8) -> str:
    """As a list of antt up to its end, so many to a line."""
    rows = [entries[i:i + width] for i in range(0, len(entries), width)]
    return "\n".join("    " + " ∷ ".join(map(str, row)) + " ∷" for row in rows) + " "


def rows_source(rows: list[list[int]]) -> str:
    """An array of arrays, a row to a line."""
    return "".join("    [%s],\n" % ", ".join(map(str, row)) for row in rows)


def rows_listed(rows: list[list[int]]) -> str:
    """As a list of lists of antt up to its end, three to a line."""
    words = ["(%s ∷ []) ∷" % " ∷ ".join(map(str, row)) for row in rows]
    return "\n".join("    " + " ".join(words[i:i + 3]) for i in range(0, len(words), 3)) + " "


# the file, what stands before the entries, the entries, and what stands after them
PLACES = [
    ("crates/bounds/src/exp.rt", r"static COARSE: \[u64; 322\] = \[\n", source(COARSE), r"\];"),
    ("crates/bounds/src/exp.rt", r"static MIDDLE: \[u64; 256\] = \[\n", source(MIDDLE), r"\];"),
    ("crates/bounds/src/short.rt", r"static HIGH: \[u64; 305\] = \[\n", source(HIGH), r"\];"),
    ("crates/bounds/src/short.rt", r"static FINEST: \[u64; 1024\] = \[\n", source(FINEST), r"\];"),
    ("crates/bounds/specs/Exponential.antt", r"\ncoarse =\n", listed(COARSE), r"\[\]\n"),
    ("crates/bounds/specs/Exponential.antt", r"\nmiddle =\n", listed(MIDDLE), r"\[\]\n"),
    ("crates/bounds/src/whole.rt", r"static FAR: \[u64; 15\] = \[\n", source(FAR), r"\];"),
    ("crates/bounds/specs/WholeExponents.antt", r"\nfar =\n", listed(FAR), r"\[\]\n"),
    ("crates/bounds/specs/WholeExponents.antt", r"\nfar_above =\n", listed(FAR_ABOVE), r"\[\]\n"),
    ("crates/bounds/src/theta.rt", r"static THETAS: \[\[u64; 3\]; 513\] = \[\n", rows_source(ROWS), r"\];"),
    ("crates/bounds/specs/Theta.antt", r"\nthetas =\n", rows_listed(ROWS), r"\[\]\n(?=\n)"),
    ("crates/bounds/proofs/ThetaTable.antt", r"\nlevels =\n", listed(LEVELS, 6), r"\[\]\n"),
]


def files() -> Iterator[MadeFile]:
    """The files with their tables put in; each is written once, with all of its tables."""
    texts = {path: (TOP / path).read_text(encoding="utf-8") for path, *_ in PLACES}
    for path, before, entries, after in PLACES:
        pattern = "(%s).*?(?=%s)" % (before, after)
        texts[path], found = re.subn(pattern, lambda match: match.group(1) + entries, texts[path], flags=re.S)
        if found != 1:
            raise MakeError("%s: no place for a table" % path)
    return (MadeFile(path, text.encode()) for path, text in texts.items())
