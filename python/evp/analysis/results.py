"""The tables of a sensitivity analysis, and its words for the screen."""

from collections.abc import Iterator, Sequence
from dataclasses import dataclass

from evp.analysis.sensitivity import Draw, End, Sensitivity, Summary, between, convergence, middle, summary_of
from evp.analysis.telling import SAME, signed
from evp.analysis.uncertainty import Uncertainty, names_of
from evp.library import Band
from evp.masses import shown
from evp.show import aligned
from evp.wording import shortened

EFFECT_COLUMNS = (
    "sheet", "rank", "input", "where", "uncertainty", "distribution", "base_low_mg", "base_high_mg",
    "lower_low_mg", "lower_high_mg", "lower_percent", "upper_low_mg", "upper_high_mg", "upper_percent", "note")
SUMMARY_COLUMNS = (
    "sheet", "draws", "base_low_mg", "base_high_mg", "mean_low_mg", "mean_high_mg", "lower_low_mg", "lower_high_mg",
    "upper_low_mg", "upper_high_mg", "lower_percent", "upper_percent", "standard_error_percent")
DRAW_COLUMNS = ("draw", "sheet", "low_mg", "high_mg", "tries", "limited")


@dataclass(frozen=True)
class Analysis:
    """All of a sensitivity analysis: of each sheet its effects, and the draws of all."""
    lines: tuple[Uncertainty, ...]
    ones: tuple[Sensitivity, ...]
    draws: tuple[Draw, ...]

    def totals(self, sheet: int) -> list[Band]:
        return [draw.totals[sheet] for draw in self.draws]


def _percent(band: Band | None, base: Band) -> str:
    if band is None or not middle(base):
        return ""
    return f"{100 * (middle(band) - middle(base)) / middle(base):+.4f}"


def _ends(band: Band | None) -> tuple[object, object]:
    return ("", "") if band is None else (band.low, band.high)


def _end_note(end: End, name: str) -> str:
    at_limit = f"{name}: set to a limit of the field" if end.limited else ""
    return f"{name}: {end.refusal}" if end.refusal else at_limit


def effect_lines(found: Analysis) -> Iterator[tuple[object, ...]]:
    for one in found.ones:
        for rank, effect in enumerate(one.effects, 1):
            line = found.lines[effect.line]
            notes = filter(None, (_end_note(effect.low, "lower end"), _end_note(effect.high, "upper end")))
            yield (one.name, rank, line.input, line.where, line.words, line.distribution, *one.base,
                   *_ends(effect.low.total), _percent(effect.low.total, one.base),
                   *_ends(effect.high.total), _percent(effect.high.total, one.base), "; ".join(notes))


def _summary_line(name: str, base: Band, s: Summary) -> tuple[object, ...]:
    return (name, s.draws, *base, *s.mean, *s.lower, *s.upper, f"{100 * s.share(s.lower):+.4f}",
            f"{100 * s.share(s.upper):+.4f}", f"{100 * s.error:.4f}")


def summary_lines(found: Analysis) -> Iterator[tuple[object, ...]]:
    for i, one in enumerate(found.ones):
        yield _summary_line(one.name, one.base, summary_of(found.totals(i)))


def convergence_lines(found: Analysis) -> Iterator[tuple[object, ...]]:
    for i, one in enumerate(found.ones):
        for step in convergence(found.totals(i)):
            yield _summary_line(one.name, one.base, step)


def draw_lines(found: Analysis) -> Iterator[tuple[object, ...]]:
    names = names_of(found.lines)
    for draw in found.draws:
        limited = "; ".join(names[number] for number in sorted(draw.limited))
        for one, total in zip(found.ones, draw.totals):
            yield draw.number, one.name, *total, draw.tries, limited


# ------------------------------------------------------------------ for the screen


def _end_words(end: End, base: Band) -> str:
    if end.total is None:
        return shortened(end.refusal, 24)
    if end.total == base:
        return SAME
    return f"{signed(between(end.total, base))} ({float(_percent(end.total, base) or 0):+.1f} %)"


def screen_lines(found: Analysis, most: int = 12) -> Iterator[str]:
    """The ranking of the last sheet, and what the draws of it say."""
    one, names = found.ones[-1], names_of(found.lines)
    yield f"{one.name}: {shown(one.base)} with the inputs of the sheet"
    yield ""
    lines = [("input", "uncertainty", "lower end", "upper end")]
    lines += [(names[effect.line], found.lines[effect.line].words, _end_words(effect.low, one.base),
               _end_words(effect.high, one.base)) for effect in one.effects[:most]]
    yield from aligned(lines, 2)
    if len(one.effects) > most:
        yield f"and {len(one.effects) - most} more with smaller effects"
    if found.draws:
        yield ""
        yield from _draw_words(summary_of(found.totals(len(found.ones) - 1)))


def _draw_words(s: Summary) -> Iterator[str]:
    yield (f"{s.draws:,} draws: mean {shown(s.mean)}, 95 % between {shown(s.lower)} and {shown(s.upper)} "
           f"({100 * s.share(s.lower):+.1f} % and {100 * s.share(s.upper):+.1f} %)")
    yield f"standard error of the mean: {100 * s.error:.2f} %"
