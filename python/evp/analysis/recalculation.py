"""Two submissions of a series side by side, year by year: what a recalculation changed."""

from collections.abc import Iterable, Iterator
from dataclasses import dataclass
from fractions import Fraction

from evp.analysis.series import Key, Result, Results
from evp.analysis.telling import signed
from evp.figures import TOTAL
from evp.library import GROUPS, MECHANISMS, Band
from evp.masses import shown
from evp.show import aligned
from evp.tables import table_text
from evp.wording import apart, counted

CATEGORIES = (*GROUPS, TOTAL)
COLUMNS = ("year", "region", "category", "mechanism", "old_low_mg", "old_high_mg", "new_low_mg", "new_high_mg",
           "difference_low_mg", "difference_high_mg", "percent", "verdict", "note")
VERDICTS = {
    "higher": "certainly higher", "lower": "certainly lower", "same": "the same band",
    "overlap": "cannot be decided: the bands overlap", "only old": "only in the old submission",
    "only new": "only in the new submission", "refused": "no mass",
}


@dataclass(frozen=True)
class Recalculated:
    """A figure of both submissions; None where one has no such line."""
    key: Key
    old: Result | None
    new: Result | None

    @property
    def bands(self) -> tuple[Band, Band] | None:
        """Both bands, where both submissions have a mass."""
        if self.old and self.new and self.old.band and self.new.band:
            return self.old.band, self.new.band
        return None

    @property
    def difference(self) -> Band | None:
        """Milligrams between which the new mass less the old one lies: low - high and high - low."""
        if self.bands is None:
            return None
        old, new = self.bands
        return Band(new.low - old.high, new.high - old.low)

    @property
    def percent(self) -> Fraction | None:
        """The difference of the middles of the bands in percent of the old one; None where that is 0."""
        if self.bands is None or not sum(self.bands[0]):
            return None
        old, new = (Fraction(sum(band)) for band in self.bands)
        return 100 * (new - old) / old

    @property
    def verdict(self) -> str:
        if self.old is None or self.new is None:
            return "only new" if self.old is None else "only old"
        if self.bands is None:
            return "refused"
        old, new = self.bands
        if old == new:
            return "same"
        return "higher" if new.low > old.high else "lower" if new.high < old.low else "overlap"

    @property
    def note(self) -> str:
        """Why a submission has no mass."""
        sides = (("old", self.old), ("new", self.new))
        return "; ".join(f"{name}: {result.reason}" for name, result in sides if result and result.reason)


def _order(key: Key) -> tuple[object, ...]:
    """Year by year, the total of a region before its parts."""
    category = CATEGORIES.index(key.category) if key.category in CATEGORIES else len(CATEGORIES)
    mechanism = MECHANISMS.index(key.mechanism) if key.mechanism in MECHANISMS else -1
    return key.region, key.year, -category, mechanism, key.category, key.mechanism


def recalculation(old: Results, new: Results) -> list[Recalculated]:
    """Every figure that one of the submissions has."""
    keys = sorted(old.keys() | new.keys(), key=_order)
    return [Recalculated(key, old.get(key), new.get(key)) for key in keys]


def totals_of(found: Iterable[Recalculated]) -> list[Recalculated]:
    return [line for line in found if line.key.category == TOTAL]


def percent_words(percent: Fraction | None) -> str:
    if percent is None:
        return ""
    return f"{float(percent):+.3f}" if percent else "0.000"


def _ends(result: Result | None) -> tuple[object, object]:
    return (result.band.low, result.band.high) if result and result.band else ("", "")


def table_lines(found: Iterable[Recalculated]) -> Iterator[tuple[object, ...]]:
    for line in found:
        key, difference = line.key, line.difference or ("", "")
        yield (key.year, key.region, key.category, key.mechanism, *_ends(line.old), *_ends(line.new), *difference,
               percent_words(line.percent), VERDICTS[line.verdict], line.note)


def recalculation_csv(found: Iterable[Recalculated], semicolon: bool = False) -> str:
    lines = table_lines(found)
    if semicolon:
        lines = ((*line[:10], str(line[10]).replace(".", ","), *line[11:]) for line in lines)
    return table_text(COLUMNS, lines, semicolon)


# ------------------------------------------------------------------ in words


def counts_words(totals: list[Recalculated]) -> str:
    """How many years changed which way."""
    counts = {name: sum(line.verdict == name for line in totals) for name in VERDICTS}
    told = [f"{apart(counts[name])} {VERDICTS[name]}" for name in VERDICTS if counts[name]]
    return f"{counted(len(totals), 'total')}: {', '.join(told)}."


def largest(totals: list[Recalculated]) -> Recalculated | None:
    """The total that changed most, in percent."""
    changed = [line for line in totals if line.percent and line.verdict in ("higher", "lower")]
    return max(changed, key=_percent_size) if changed else None


def _percent_size(line: Recalculated) -> float:
    return 0.0 if line.percent is None else abs(float(line.percent))


def name_of(key: Key) -> str:
    return f"{key.region} {key.year}".strip()


def mass_words(result: Result | None) -> str:
    if result is None:
        return "-"
    return shown(result.band) if result.band else "no mass"


def recalculation_lines(found: list[Recalculated], most: int = 14) -> Iterator[str]:
    """For the screen: the totals, those that changed most where there are many."""
    totals = totals_of(found)
    shown_lines = [line for line in totals if line.verdict != "same"]
    yield counts_words(totals)
    if not shown_lines:
        return
    left_out = len(shown_lines) - most
    if left_out > 0:
        ranked = sorted(shown_lines, key=lambda line: -abs(line.percent) if line.percent is not None else -10 ** 9)
        kept = {line.key for line in ranked[:most]}
        shown_lines = [line for line in shown_lines if line.key in kept]
    yield ""
    wide = max(len(VERDICTS[line.verdict]) for line in shown_lines)
    lines = [("", "old", "new", "difference", "%", "")]
    lines += [(name_of(line.key), mass_words(line.old), mass_words(line.new),
               signed(line.difference) if line.difference else "", percent_words(line.percent),
               VERDICTS[line.verdict].ljust(wide)) for line in shown_lines]
    yield from aligned(lines, 1)
    if left_out > 0:
        yield f"{apart(left_out)} more with smaller changes; the table has them all."

