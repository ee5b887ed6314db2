"""Guesses at why a filed mass is wrong: its unit, a figure exchanged with another, or a misreading of the guidebook.

A guess about the unit or an exchange asks the library for the verdict on the same digits elsewhere. What a sheet would
have by a misreading is the second reckoning's under tools/, which the repository has and a release has not. Reading
mark 48 as hour 24, once a misreading, is none since the day's curve runs through midnight.
"""

import math
import sys
from bisect import bisect_left, bisect_right
from collections import Counter
from collections.abc import Callable, Iterator, Sequence
from fractions import Fraction
from functools import cached_property
from typing import NamedTuple

from evp import layout
from evp.figures import TOTAL, Figure
from evp.library import MECHANISMS, TOP, Band, Filed, Library, Outcome, Unit
from evp.marking import Filing, Mark, Marked
from evp.masses import POWERS, UNITS
from evp.wording import counted, name_shown

ALL = range(1, 10)
GROUP_CLASSES = {"cars": range(1, 4), "light": range(4, 5), "two": range(5, 10), "all": ALL, TOTAL: ALL}
WRONG = ("low", "high")
UNIT_POWERS = {UNITS[name]: power for name, power in POWERS.items()}
UNITS_BY_POWER = {power: name for name, power in POWERS.items()}
TRIES = 480  # rows times seasons that one run takes through the misreadings: some seconds
MOST_NEAR = 20  # figures that one is compared with
BY_CHANCE = 10  # a figure tells another row where not one wrong figure in so many sheets would tell one by chance


class Misreading(NamedTuple):
    """A misreading that document 01 names, and where a row cannot show it."""
    name: str  # of the second reckoning's reading
    words: str
    unseen: str
    rows: Callable[[dict[str, int]], bool]  # that it can touch
    mechanisms: tuple[str, ...] = MECHANISMS


MISREADINGS = (
    Misreading("cooling", "vapour counted while it cools", "no parking cools", lambda row: True, ("diurnal",)),
    Misreading("divided", "load divided by s, not multiplied", "no canister is small or large",
               lambda row: layout.canister_of(row) in (1, 3)),
    Misreading("cut", "vapour cut off at m_sat", "no canister overflows", lambda row: layout.canister_of(row) != 0),
)


def with_hints(library: Library, sheets: dict[str, Marked], filings: list[Filing], marks: list[Mark],
               progress: Callable[[int, int], None]) -> tuple[list[Mark], list[str]]:
    """The marks with a guess in the note of each wrong figure, and what to say of the guesses."""
    filed: dict[str, dict[Figure, Filing]] = {}
    for filing in filings:
        if filing.filed is not None and not filing.tens:
            filed.setdefault(filing.sheet, {})[filing.figure] = filing
    wrong: dict[str, list[int]] = {}
    for i, mark in enumerate(marks):
        if mark.verdict in WRONG and not filings[i].tens:
            wrong.setdefault(mark.sheet, []).append(i)
    guessers = {name: Guesser(library, sheets[name], filed[name], [filings[i] for i in places])
                for name, places in wrong.items()}
    try_misreadings(list(guessers.values()), progress)
    hinted = list(marks)
    for name, places in wrong.items():
        notes = guessers[name].notes()
        for i in places:
            hinted[i] = marks[i]._replace(note="%s; %s" % (marks[i].note, notes[filings[i].figure]))
    return hinted, _remarks(guessers)


def plainly_explained(library: Library, sheets: dict[str, Marked], filings: list[Filing],
                      marks: list[Mark]) -> set[str]:
    """The sheets whose wrong figures are all explained by a unit, by rounding, or by an exchange."""
    filed: dict[str, dict[Figure, Filing]] = {}
    wrong: dict[str, list[Filing]] = {}
    for filing, mark in zip(filings, marks):
        if filing.filed is not None and not filing.tens:
            filed.setdefault(filing.sheet, {})[filing.figure] = filing
            if mark.verdict in WRONG:
                wrong.setdefault(filing.sheet, []).append(filing)
    return {name for name, found in wrong.items()
            if not Guesser(library, sheets[name], filed[name], found).left()}


def try_misreadings(guessers: list["Guesser"], progress: Callable[[int, int], None]):
    """Tries the misreadings on the figures without a guess. Reckoning a row takes some milliseconds for each season, so
    the sheets share what TRIES allows; what is left goes to those that a misreading has begun to explain."""
    wanting = [guesser for guesser in guessers if guesser.left()]
    if not reckoning() or not wanting:
        return
    share = TRIES // (len(MISREADINGS) * len(wanting))
    for done, guesser in enumerate(wanting, 1):
        guesser.misread(MISREADINGS, max(share, guesser.seasons))
        progress(done, len(wanting))
    begun = [guesser for guesser in wanting if guesser.explained and guesser.untried()]
    rest = TRIES - sum(guesser.tries for guesser in wanting)
    for guesser in begun:
        guesser.misread(list(guesser.explained), rest // len(begun))


def _remarks(guessers: dict[str, "Guesser"]) -> list[str]:
    """The guesses, then what has none and why."""
    found, none = [], []
    for name, guesser in guessers.items():
        shown, counts = name_shown(name), Counter(filter(None, guesser.guesses.values()))
        found += ["  guess: %s: %s: %s" % (shown, counted(counts[guess], "figure"), guess) for guess in counts]
        left = guesser.left()
        if left:
            some = " (misreadings tried on %d of its %s)" % (
                guesser.rows_tried, counted(layout.row_count(guesser.sheet.data), "row")) if guesser.untried() else ""
            none.append("  no guess: %s: %s%s" % (shown, counted(len(left), "figure"), some))
            none += ["  cannot show: %s: %s" % (shown, unseen) for unseen in guesser.cannot_show()]
    return found + none


def _pair(a: Figure, b: Figure) -> tuple[str, str]:
    """What of two figures is exchanged, the same words for both of them."""
    names = (a.mechanism, b.mechanism) if a.row == b.row else (a.row_name, b.row_name)
    return min(names), max(names)


def _scaled(filed: Filed, power: int) -> Filed | None:
    """The same digits with a last place 10^power times as large; None where the library reads no such place."""
    places = UNIT_POWERS[Unit.T] - (UNIT_POWERS[filed.unit] - filed.places + power)
    return Filed(filed.digits, places, Unit.T) if places >= 0 else None


def _distinct(filed: Filed, band: Band) -> Fraction:
    """How many masses up to a figure can be told apart by its last place and a band of this width."""
    last = Fraction(10) ** (UNIT_POWERS[filed.unit] - filed.places)
    return filed.digits * last / (last + band.high - band.low)


def _around(filed: Filed) -> tuple[int, int]:
    """Whole milligrams around all that a figure stands for."""
    power = UNIT_POWERS[filed.unit] - filed.places
    if power >= 0:
        return (filed.digits - 1) * 10 ** power, (filed.digits + 1) * 10 ** power
    return (filed.digits - 1) // 10 ** -power, (filed.digits + 1) // 10 ** -power + 1


class Nearby:
    """The bands of one mechanism by size, to find the few that a figure may stand for."""

    def __init__(self, bands: list[tuple[Band, Figure]]):
        self.bands = sorted(bands)
        self.lows = [band.low for band, _ in self.bands]
        self.widest = max(band.high - band.low for band, _ in self.bands)

    def of(self, filed: Filed) -> list[Figure]:
        least, most = _around(filed)
        here = slice(bisect_left(self.lows, least - self.widest), bisect_right(self.lows, most))
        return [figure for band, figure in self.bands[here] if band.high >= least]


class Guesser:
    """Guesses for the wrong figures of one sheet."""

    def __init__(self, library: Library, sheet: Marked, filings: dict[Figure, Filing], wrong: list[Filing]):
        self.library, self.sheet, self.filings = library, sheet, filings
        self.kept: dict[tuple[int, str], list[Fraction]] = {}  # milligrams of a row by the name of a misreading
        self.explained: Counter[Misreading] = Counter()  # figures that a misreading explains
        self.skipped: set[tuple[Figure, str]] = set()  # figures with the name of a misreading that was not tried
        self.many = len(wrong)
        self.guesses = {filing.figure: self._plain(filing) for filing in wrong}

    def left(self) -> list[Figure]:
        """The figures without a guess."""
        return [figure for figure, guess in self.guesses.items() if not guess]

    def untried(self) -> set[Figure]:
        """Those of them that some misreading was not tried on."""
        return {figure for figure, _ in self.skipped if not self.guesses[figure]}

    def notes(self) -> dict[Figure, str]:
        """What to say of each wrong figure."""
        untried = self.untried()
        return {figure: "guess: " + guess if guess else
                "no guess, misreadings not tried" if figure in untried else "no guess"
                for figure, guess in self.guesses.items()}

    # -------------------------------------------------------------- units, rounding, exchanges

    def _plain(self, filing: Filing) -> str:
        return self._unit(filing) or self._rounding(filing) or self._exchange(filing)

    def _fits(self, filed: Filed | None, band: Band) -> bool:
        """Whether a figure is right for a band."""
        return filed is not None and self.library.mark(filed, band).outcome in (Outcome.AGREES, Outcome.FITS)

    def _unit(self, filing: Filing) -> str:
        """The same digits in another unit, or 1,000 times as large or as small where there is no such unit."""
        filed, band = filing.filed, self.sheet.bands[filing.figure]
        for power in (3, -3, 6, -6, 9, -9) if filed.digits else ():
            unit = UNITS_BY_POWER.get(UNIT_POWERS[filed.unit] + power)
            if (unit or abs(power) == 3) and self._fits(_scaled(filed, power), band):
                return "the figure is in %s, not in %s" % (unit, filing.unit) if unit else (
                    "the figure is 1,000 times too %s" % ("small" if power > 0 else "large"))
        return ""

    def _rounding(self, filing: Filing) -> str:
        """The figure that is one more in its last place."""
        more = filing.filed._replace(digits=filing.filed.digits + 1)
        return "cut, not rounded" if self._fits(more, self.sheet.bands[filing.figure]) else ""

    @cached_property
    def _nearby(self) -> dict[str, Nearby]:
        by_mechanism: dict[str, list[tuple[Band, Figure]]] = {}
        for figure, band in self.sheet.bands.items():
            by_mechanism.setdefault(figure.mechanism, []).append((band, figure))
        return {mechanism: Nearby(bands) for mechanism, bands in by_mechanism.items()}

    def _exchange(self, filing: Filing) -> str:
        """A figure of the same mechanism or the same row that this one would be right for, alone among them."""
        figure, digits = filing.figure, filing.filed.digits
        if figure.row == TOTAL or not digits:
            return ""
        near = self._nearby[figure.mechanism].of(filing.filed)
        if len(near) > MOST_NEAR:  # so few digits tell no figure
            return ""
        near += [Figure(figure.row, mechanism) for mechanism in MECHANISMS]
        found = [other for other in near if other != figure and self._fits(filing.filed, self.sheet.bands[other])]
        band = self.sheet.bands[figure]
        both = [other for other in found if other in self.filings and self._fits(self.filings[other].filed, band)]
        if len(both) == 1:
            return "%s and %s are exchanged" % _pair(figure, both[0])
        if len(found) != 1:
            return ""
        by_chance = BY_CHANCE * self.many * len(self._nearby[figure.mechanism].bands)
        return "this is the mass of %s" % found[0].name if (
            _distinct(filing.filed, self.sheet.bands[found[0]]) >= by_chance) else ""

    # -------------------------------------------------------------- misreadings

    @property
    def seasons(self) -> int:
        return layout.season_count(self.sheet.data)

    @property
    def tries(self) -> int:
        """What the second reckoning was asked for: rows times seasons."""
        return self.seasons * len(self.kept)

    @property
    def rows_tried(self) -> int:
        return len({i for i, _ in self.kept})

    def misread(self, misreadings: Sequence[Misreading], share: int):
        """Tries misreadings on the figures without a guess, those of single rows first, each on as many rows as its
        share allows; then on the other rows, where all of them can be, to say whether the sheet can show it."""
        left = {misreading: share // self.seasons for misreading in misreadings}
        for figure in sorted(self.left(), key=lambda figure: len(self._rows(figure.row))):
            self.skipped |= {(figure, misreading.name) for misreading in misreadings}
            for misreading in sorted(misreadings, key=lambda one: -self.explained[one]):
                touched = self._touched(figure, misreading)
                rows = sum((i, misreading.name) not in self.kept for i in touched)
                if rows > left[misreading]:
                    if self.explained[misreading]:  # what is left of all shares goes to this one
                        break
                    continue
                self.skipped.remove((figure, misreading.name))
                left[misreading] -= rows
                if touched and self._explains(misreading, figure):
                    self.guesses[figure] = misreading.words
                    self.explained[misreading] += 1
                    break
        for misreading in misreadings if self.left() else ():
            rows = [i for i in self._rows_of(misreading) if (i, misreading.name) not in self.kept]
            if len(rows) <= left[misreading]:
                for i in rows:
                    self._reckon(i, misreading)

    def _touched(self, figure: Figure, misreading: Misreading) -> list[int]:
        """The rows of a figure whose masses a misreading can change."""
        if figure.row != TOTAL and figure.mechanism not in misreading.mechanisms:
            return []
        return [i for i in self._rows(figure.row) if misreading.rows(self._records[i])]

    def _rows_of(self, misreading: Misreading) -> list[int]:
        """All rows that a misreading can touch."""
        return [i for i, record in enumerate(self._records) if misreading.rows(record)]

    def _explains(self, misreading: Misreading, figure: Figure) -> bool:
        misread, right = self._misread(figure, misreading), self.sheet.bands[figure]
        same = right.low <= misread.low and misread.high <= right.high
        return not same and self._fits(self.filings[figure].filed, misread)

    def cannot_show(self) -> Iterator[str]:
        """Which misreadings this sheet cannot tell from the right reading: every row has been tried, and the misread
        masses of all lie in their bands."""
        if not reckoning():
            yield "misreadings (the second reckoning, tools/, is not there)"
            return
        for misreading in MISREADINGS:
            if all(self._is_same(i, misreading) for i in self._rows_of(misreading)):
                yield "%s (%s)" % (misreading.words, misreading.unseen)

    def _is_same(self, i: int, misreading: Misreading) -> bool:
        """Whether a row was tried, and its misread masses lie in its bands."""
        misread = self.kept.get((i, misreading.name))
        bands = (self.sheet.bands[Figure(str(i + 1), mechanism)] for mechanism in MECHANISMS)
        return misread is not None and all(
            band.low <= mass <= band.high for band, mass in zip(bands, misread))

    def _misread(self, figure: Figure, misreading: Misreading) -> Band:
        """The mass that a figure would have, cut down and up to milligrams."""
        mechanisms = MECHANISMS if figure.row == TOTAL else (figure.mechanism,)
        low = high = Fraction(0)
        for i in self._rows(figure.row):
            for mechanism in mechanisms:
                band = self._misread_row(i, mechanism, misreading)
                low, high = low + band[0], high + band[1]
        return Band(math.floor(low), math.ceil(high))

    @cached_property
    def _records(self) -> list[dict[str, int]]:
        return [layout.row(self.sheet.data, i) for i in range(layout.row_count(self.sheet.data))]

    def _rows(self, row: str) -> Sequence[int]:
        """The rows of a figure, counted from 0."""
        if row not in GROUP_CLASSES:
            return (int(row) - 1,)
        return [i for i, record in enumerate(self._records) if record["class"] in GROUP_CLASSES[row]]

    def _misread_row(self, i: int, mechanism: str, misreading: Misreading) -> tuple[Fraction | int, Fraction | int]:
        """Both ends of a row's mass: its band where the misreading cannot touch it."""
        if mechanism not in misreading.mechanisms or not misreading.rows(self._records[i]):
            return self.sheet.bands[Figure(str(i + 1), mechanism)]
        milligrams = self._reckon(i, misreading)[MECHANISMS.index(mechanism)]
        return milligrams, milligrams

    def _reckon(self, i: int, misreading: Misreading) -> list[Fraction]:
        """The masses of a row by a misreading, each row once."""
        key = i, misreading.name
        if key not in self.kept:
            second = reckoning()
            grams = second.masses(self._second_sheet, i, reading=second.Reading(**{misreading.name: True}))
            self.kept[key] = [1000 * mass for mass in grams]
        return self.kept[key]

    @cached_property
    def _second_sheet(self):
        return reckoning().read(self.sheet.data)


def reckoning():
    """The second reckoning, or None where it is not there."""
    if not (TOP / "tools" / "reckoning").is_dir():
        return None
    if str(TOP) not in sys.path:
        sys.path.append(str(TOP))
    from tools import reckoning as second
    return second
