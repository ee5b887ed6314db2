"""The program `report` on 40 pairs of sheets that are alike but for one season's vapour pressure, ten of each version.

Of every row without canister and every mechanism: the exact mass of the sheet
with the higher pressure is at least that of the other, by the reckoning at
n = 40 and n = 60; its high word is never below the other's low; and every exact
mass lies between its low and its high. The lines of docs/READING.md that show a
row with a canister, whose masses fall with a higher pressure, must be what the
program prints.

The masses are decimals that are off by less than 10^-84 g, and the same where
the pressures are. A tenth of kPa moves what a season adds to a mass by some
2500th of that, so no order hangs on the last places.

The program is target/bin/report, which c/programs puts there as `rt ci` made it.
"""

from collections.abc import Iterator
from fractions import Fraction
from itertools import product
from typing import NamedTuple

from tools import reckoning
from tools.check.samples import REPORT, blocks, printed
from tools.command import SAMPLES, TOP
from tools.vectors.chance import chance_grid_plan, chance_many_plan, chance_metered_plan, chance_plan
from tools.vectors.plans import BY_CLASS, EMPTY, Plan, Record, fitted, most

LEAST, MOST = 300, 1100  # tenths of kPa

PRESSURES = (
    (LEAST, MOST), (LEAST, LEAST + 1), (MOST - 1, MOST), (LEAST, 600), (600, 900), (700, MOST), (600, 601), (850, 850),
    (455, 712), (511, 512),
)

# Seasons and rows; in version 4 one has 40 rows.
SIZES = ((1, 1), (1, 4), (2, 3), (3, 2), (4, 2), (2, 4), (3, 3), (2, 5), (1, 6), (2, 2))

PLANS = {
    1: chance_plan,
    2: lambda seasons, rows: chance_grid_plan(seasons, rows, 1_000_000 // (seasons + rows)),
    3: chance_metered_plan,
    4: lambda seasons, rows: chance_many_plan(seasons, 40 if rows == 6 else rows + 1),
}

NS = (40, 60)
MECHANISMS = ("diurnal", "soak", "running")

# The sheet of docs/READING.md: its summer, counted from 0, at another pressure.
SHOWN_SHEET, SHOWN_SEASON, SHOWN_PRESSURE, SHOWN_ROWS = "region", 2, 700, (1, 22)


class Pair(NamedTuple):
    """Two sheets that differ in the pressure of one season, which stands at a place;
    `lower` has the lower."""
    words: str
    place: int
    lower: bytes
    higher: bytes


# ------------------------------------------------------------------- the pairs


def settled(plan: Plan) -> Plan:
    """The plan, with no canister that holds more than its seasons let pass."""
    for i, row in enumerate(plan.rows):
        canister = fitted(row)
        if canister:
            top = min(most(canister, season, 0 if row["mileage"] else 3) for season in plan.seasons)
            saturation = min(row["saturation"], top)
            plan = plan.changed("rows", i, {"saturation": saturation, "load": min(row["load"], saturation)})
    return plan


def open_row(i: int) -> Record:
    """What makes a row one without canister: by its class, or written."""
    without = {"canister": BY_CLASS, "technology": 0, "class": 1 + i // 2 % 8} if i % 2 else {"canister": 0}
    return {**without, **EMPTY, "mileage": 0, "vehicles": 1000 + 997 * i, "trips": 100 + 110 * i, "fill": 9 * i}


def pairs() -> Iterator[Pair]:
    for version, (i, size) in product(PLANS, enumerate(SIZES)):
        season, (low, high) = i % size[0], PRESSURES[i]
        plan = PLANS[version](*size).changed("rows", 0, open_row(i))
        lower = settled(plan.changed("seasons", season, {"vp": low}))
        higher = lower.changed("seasons", season, {"vp": high})
        words = "version %d, %d seasons, %d rows, season %d from %d to %d" % (
            version, size[0], len(plan.rows), season, low, high)
        yield Pair(words, lower.place("seasons", season) + 6, lower.data(), higher.data())


def unlike(pair: Pair) -> list[int]:
    """The places at which a pair differs."""
    return [at for at, (a, b) in enumerate(zip(pair.lower, pair.higher, strict=True)) if a != b]


def missing(every: list[Pair]) -> Iterator[str]:
    """What the pairs should show and do not."""
    for pair in every:
        if not set(unlike(pair)) <= {pair.place, pair.place + 1}:
            yield "%s: differs at %s" % (pair.words, unlike(pair))
    for version, pressures in product(PLANS, PRESSURES):
        ends = "from %d to %d" % pressures
        if not any(pair.words.startswith("version %d," % version) and pair.words.endswith(ends) for pair in every):
            yield "no pair of version %d %s" % (version, ends)


# --------------------------------------------------------------- what is asked


def open_rows(data: bytes) -> list[int]:
    """The rows without canister, counted from 0."""
    rows = reckoning.read(data).rows
    return [i for i, row in enumerate(rows) if reckoning.canister_of(row) == reckoning.NONE]


def row_words(report: str) -> list[list[int]]:
    """The six words of each row of a report."""
    return [[int(word) for word in line.split()[2:]] for line in report.splitlines() if line.startswith("row ")]


def report_of(data: bytes) -> str:
    """What the program prints for an accepted sheet."""
    text = printed(REPORT, data).decode()
    if not text.startswith("EVP "):
        raise ValueError("the program prints %r for an accepted sheet" % text)
    return text


def exact(data: bytes, i: int) -> list[list[Fraction]]:
    """The exact masses of a row in milligrams, for each n."""
    sheet = reckoning.read(data)
    return [[1000 * mass for mass in reckoning.masses(sheet, i, n)] for n in NS]


def faults(pair: Pair, lower: list[list[int]], higher: list[list[int]]) -> Iterator[str]:
    """What does not hold of a pair with these words of its rows."""
    for i in open_rows(pair.lower):
        masses = list(zip(NS, exact(pair.lower, i), exact(pair.higher, i)))
        for m, name in enumerate(MECHANISMS):
            where = "%s: row %d, %s" % (pair.words, i + 1, name)
            (low, high), (other_low, other_high) = (words[i][2 * m:2 * m + 2] for words in (lower, higher))
            if low > other_high:
                yield "%s: the high %d is below the other's low %d" % (where, other_high, low)
            for n, less, more in masses:
                if less[m] > more[m]:
                    yield "%s: the exact mass falls, n = %d" % (where, n)
                if not (low <= less[m] <= high and other_low <= more[m] <= other_high):
                    yield "%s: an exact mass is not in its band, n = %d" % (where, n)


# ------------------------------------------------------------- docs/READING.md


def shown() -> Iterator[str]:
    """The rows of a sample that docs/READING.md shows, at two pressures."""
    data = (SAMPLES / (SHOWN_SHEET + ".evp")).read_bytes()
    at = reckoning.seasons_start(data) + 8 * SHOWN_SEASON + 6
    changed = data[:at] + SHOWN_PRESSURE.to_bytes(2, "little") + data[at + 2:]
    for sheet in (data, changed):
        lines = report_of(sheet).splitlines(keepends=True)
        yield "".join(lines[row] for row in SHOWN_ROWS)


def shown_faults() -> Iterator[str]:
    texts = list(shown())
    stand = blocks((TOP / "docs" / "READING.md").read_text(encoding="utf-8"))
    for text in texts:
        if text not in stand:
            yield "docs/READING.md does not show\n" + text
    (_, before), (_, after) = map(row_words, texts)
    if not any(after[2 * m + 1] < before[2 * m] for m in range(3)):
        yield "no mass of the row with a canister falls"


class Counts(NamedTuple):
    """How much was compared: pairs, rows without canister, and masses whose bands are apart."""
    pairs: int
    rows: int
    apart: int


def check() -> tuple[list[str], Counts]:
    """What is wrong, and how much was compared."""
    if not REPORT.exists():
        return ["no target/bin/report; rt ci and bash c/programs make it"], Counts(0, 0, 0)
    every = list(pairs())
    found, rows, apart = list(missing(every)), 0, 0
    for pair in every:
        words = [row_words(report_of(data)) for data in (pair.lower, pair.higher)]
        found += faults(pair, *words)
        for i in open_rows(pair.lower):
            rows += 1
            apart += sum(words[0][i][2 * m + 1] < words[1][i][2 * m] for m in range(3))
    return found + list(shown_faults()), Counts(len(every), rows, apart)
