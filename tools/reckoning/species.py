"""The species of a mass by Table 3-14, in exact fractions, from the printed percents."""

import re
from collections.abc import Iterator
from fractions import Fraction
from itertools import accumulate
from math import floor

# Table 3-14 as it is printed, in percent of the mass.
GROUPS = {
    "alkanes": """ethane 0.30, propane 5.15, i-butane 4.38, n-butane 5.86, i-pentane 10.69, n-pentane 7.72,
        2-methylpentane 14.02, 3-methylpentane 25.14, n-hexane 2.02, n-heptane 1.65""",
    "alkenes": """ethene 0.05, propene 0.28, 1-butene 0.72, trans-2-butene 1.19, isobutene 0.12, cis-2-butene 1.05,
        1,3 butadiene 0.00, trans-2-pentene 1.60, cis-2-pentene 0.75, isoprene 0.00""",
    "alkines": "propyne 0.07, acetylene 0.01",
    "aromatics": """benzene 0.97, toluene 3.94, ethylbenzene 3.52, m-xylene 5.79, o-xylene 2.52,
        1,2,4-trimethylbenzene 0.50, 1,3,5-trimethylbenzene 0.00""",
}


def entries(printed: str) -> Iterator[tuple[str, Fraction]]:
    """The names, with - for a space, and the shares of a group. A comma before
    a space parts two species; a name has commas of its own."""
    for entry in re.split(r",\s+", printed):
        name, share = entry.rsplit(" ", 1)
        yield name.replace(" ", "-"), Fraction(share)


TABLE = [entry for printed in GROUPS.values() for entry in entries(printed)]
NAMES = [name for name, _ in TABLE]
SHARES = [share for _, share in TABLE]


def split(total: int) -> list[int]:
    """The masses of the species: of each the whole part of what it and those
    before it have, less that of those before it."""
    reached = [floor(total * part / sum(SHARES)) for part in accumulate(SHARES, initial=0)]
    return [after - before for before, after in zip(reached, reached[1:])]


def text(version: int, total: int) -> str:
    """What the program `species` prints for an accepted sheet."""
    lines = ["EVP %d total %d" % (version, total)]
    lines += ["%s %d" % entry for entry in zip(NAMES, split(total))]
    return "".join(line + "\n" for line in lines)
