"""The pages of an analysis, and the fragment that shows what changed between two sheets."""

from collections.abc import Sequence
from dataclasses import dataclass
from fractions import Fraction
from functools import cache
from pathlib import Path

import jinja2
from markupsafe import Markup

from evp.analysis.changes import Changes, Step, changes_of
from evp.analysis.pictures import DOWN, NARROW_WIDTH, UP, WHOLE, WIDE_WIDTH, Chart, Line, span_bar, two_bars
from evp.analysis.recalculation import (
    VERDICTS, Recalculated, counts_words, largest, mass_words, name_of, percent_words, totals_of,
)
from evp.analysis.sensitivity import Draw, End, Sensitivity, Summary, between, convergence, middle, summary_of
from evp.analysis.telling import SAME, inputs_shown, signed, signed_mg, step_words
from evp.analysis.uncertainty import Uncertainty, names_of
from evp.analysis.values import Names, NoNames
from evp.library import Band, Library, load
from evp.pages.render import environment, render
from evp.pages.words import minus
from evp.wording import apart, name_shown

TEMPLATES = Path(__file__).resolve().parent / "templates"
TONNE = 10 ** 9  # milligrams
MOST_REGIONS = 40  # with a picture of their own


@cache
def _environment() -> jinja2.Environment:
    made: jinja2.Environment = environment(TEMPLATES)
    made.filters.update(signed=lambda band: minus(signed(band)), signed_mg=lambda mg: minus(signed_mg(mg)))
    return made


# ------------------------------------------------------------------ what changed


def changes_fragment(changes: Changes, names: tuple[str, str] = ("A", "B")) -> Markup:
    """A table of what changed, for a page: the steps as bars that start where the one before ends."""
    most = max(1, *(band.high for step in changes.steps for band in (step.before.total, step.after.total)),
               changes.a.total.high)

    def whole_bar(band: Band) -> Markup:
        return span_bar(0, middle(band) / most, WHOLE)

    def step_bar(step: Step) -> Markup:
        ends = middle(step.before.total) / most, middle(step.after.total) / most
        return span_bar(*ends, UP if ends[1] >= ends[0] else DOWN)

    biggest = max(changes.steps, key=lambda step: abs(step.low + step.high), default=None)
    total = Band(changes.b.total.low - changes.a.total.high, changes.b.total.high - changes.a.total.low)
    html = _environment().get_template("changes_part.html").render(
        changes=changes, names=names, total=total if changes.steps else Band(0, 0),
        largest=biggest if len(changes.steps) > 1 else None, whole_bar=whole_bar, step_bar=step_bar,
        step_words=lambda step: minus(step_words(step)),
        inputs=lambda step: [minus(words) for words in inputs_shown(step.changes)])
    return Markup(html)


def changes_table(a: bytes, b: bytes, names: tuple[str, str] = ("A", "B"), library: Library | None = None,
                  records: tuple[Names, Names] = (NoNames(), NoNames())) -> Markup:
    """What changed between two accepted sheets, as HTML for the inside of a page; `records` are the names of their rows
    and seasons."""
    return changes_fragment(changes_of(library or load(), a, b, *records), names)


# ------------------------------------------------------------------ recalculation


def _year_ticks(first: int, last: int, narrow: bool) -> list[tuple[float, str]]:
    step = next(step for step in (1, 2, 5, 10, 20, 50) if (last - first) / step <= (5 if narrow else 14))
    return [(year, str(year)) for year in range(first, last + 1) if year % step == 0]


def _points(lines: Sequence[Recalculated], side: str) -> list[tuple[float, float] | None]:
    """A point for each year, and a gap where there is no mass."""
    found = {line.key.year: getattr(line, side) for line in lines}
    years = range(min(found), max(found) + 1)
    results = [(year, found.get(year)) for year in years]
    return [(year, middle(result.band) / TONNE) if result and result.band else None for year, result in results]


def _series_chart(lines: Sequence[Recalculated], label: str, width: int) -> Markup:
    old, new = _points(lines, "old"), _points(lines, "new")
    years = [line.key.year for line in lines]
    top = max([point[1] for point in (*old, *new) if point] or [1.0]) or 1.0
    chart = Chart(width, min(years), max(years), top * 1.05)
    content = Markup("").join((
        chart.grid(), chart.marks(_year_ticks(min(years), max(years), width == NARROW_WIDTH)),
        chart.line(Line(old, "stroke:var(--line);stroke-width:2;stroke-dasharray:5 3", "fill:var(--line)")),
        chart.line(Line(new, "stroke:var(--ink);stroke-width:2", "fill:var(--ink)"))))
    return chart.svg(label, content, "t")


def page_recalculation(found: list[Recalculated], names: tuple[str, str]) -> str:
    """Both submissions, as pictures by region and as a table."""
    totals = totals_of(found)
    regions = list(dict.fromkeys(line.key.region for line in totals))[:MOST_REGIONS]
    pictures = []
    for region in regions:
        lines = [line for line in totals if line.key.region == region]
        label = f"Totals of {region or 'the series'} in the old and in the new submission; the table has all values"
        pictures.append((region, [_series_chart(lines, label, width) for width in (WIDE_WIDTH, NARROW_WIDTH)]))
    html: str = render(
        "recalculation.html", made=_environment(), names=[name_shown(name) for name in names], totals=totals,
        counts=counts_words(totals), largest=largest(totals), pictures=pictures, name_of=name_of,
        mass=lambda result: mass_words(result).replace("-", "–"), verdicts=VERDICTS, percent=_percent)
    return html


def _percent(percent: Fraction | None) -> str:
    return str(minus(percent_words(percent)))


# ------------------------------------------------------------------ sensitivity


def share_words(share: float) -> str:
    return str(minus(f"{100 * share:+.1f} %"))


@dataclass(frozen=True)
class _ShownEnd:
    total: Band | None
    difference: Band | None
    share: float
    limited: bool
    refusal: str


@dataclass(frozen=True)
class _ShownLine:
    """A line of the tornado."""
    name: str
    words: str
    distribution: str
    low: _ShownEnd
    high: _ShownEnd
    bar: Markup


def _shown_end(end: End, base: Band) -> _ShownEnd:
    if end.total is None:
        return _ShownEnd(None, None, 0.0, end.limited, end.refusal)
    share = (middle(end.total) - middle(base)) / middle(base) if middle(base) else 0.0
    return _ShownEnd(end.total, between(end.total, base), share, end.limited, "")


def _tornado(one: Sensitivity, lines: Sequence[Uncertainty]) -> list[_ShownLine]:
    """The lines of the tornado, all bars on one scale around the total of the sheet."""
    most = max((effect.size(one.base) for effect in one.effects), default=0.0) or 1.0
    names, found = names_of(lines), []

    def place(end: End) -> float | None:
        return None if end.total is None else 0.5 + 0.49 * (middle(end.total) - middle(one.base)) / most

    for effect in one.effects:
        line = lines[effect.line]
        low, high = (_shown_end(end, one.base) for end in (effect.low, effect.high))
        found.append(_ShownLine(names[effect.line], line.words, line.distribution, low, high,
                                two_bars(place(effect.low), place(effect.high), 0.5)))
    return found


def _convergence_chart(steps: Sequence[Summary], width: int) -> Markup:
    """The mean and the interval by the number of draws, each step as wide as the next."""
    lows = [middle(step.lower) / TONNE for step in steps]
    highs = [middle(step.upper) / TONNE for step in steps]
    means = [middle(step.mean) / TONNE for step in steps]
    span = (max(highs) - min(lows)) or max(highs) or 1.0
    chart = Chart(width, 0, max(1, len(steps) - 1), max(highs) + 0.1 * span, max(0.0, min(lows) - 0.1 * span))
    every = max(1, len(steps) // 5) if width == NARROW_WIDTH else 1
    ticks = [(float(i), apart(step.draws)) for i, step in enumerate(steps) if (len(steps) - 1 - i) % every == 0]
    content = Markup("").join((
        chart.area(list(enumerate(lows)), list(enumerate(highs))), chart.grid(), chart.marks(ticks),
        chart.line(Line(list(enumerate(means)), "stroke:var(--ink);stroke-width:2", "fill:var(--ink)"))))
    return chart.svg("Mean and 95 % interval by the number of draws; the table has all values", content, "t")


def counts_of_draws(draws: Sequence[Draw], lines: Sequence[Uncertainty]) -> str:
    """How many draws were made again, and how many had a value at a limit."""
    again = sum(draw.tries - 1 for draw in draws)
    limited = sum(bool(draw.limited) for draw in draws)
    names = names_of(lines)
    which = ", ".join(name for number, name in enumerate(names) if any(number in draw.limited for draw in draws))
    told = f"Tries that the library refused, and that were drawn again: {apart(again)}. "
    return told + (f"In {apart(limited)} of {apart(len(draws))} draws a value was set to the limit of its field "
                   f"({which})." if limited else "No value was outside the limits of its field.")


def page_sensitivity(ones: Sequence[Sensitivity], lines: Sequence[Uncertainty], draws: Sequence[Draw], name: str,
                     seed: int) -> str:
    """The tornado and the convergence of the last sheet, and the intervals of all."""
    last = len(ones) - 1
    totals = [[draw.totals[i] for draw in draws] for i in range(len(ones))] if draws else []
    summaries = [(one.name, one.base, summary_of(found)) for one, found in zip(ones, totals)]
    steps = convergence(totals[last]) if draws else []
    html: str = render(
        "sensitivity.html", made=_environment(), name=name_shown(name), sheet=name_shown(ones[last].name),
        same=SAME, one=ones[last], tornado=_tornado(ones[last], lines), summary=summaries[last][2] if draws else None,
        steps=steps, charts=[_convergence_chart(steps, width) for width in (WIDE_WIDTH, NARROW_WIDTH)] if steps else [],
        seed=seed, counts=counts_of_draws(draws, lines), summaries=summaries, share=share_words, many=len(ones))
    return html
