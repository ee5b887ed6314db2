"""How much the uncertainty of the inputs matters: one input after another, and by random draws.

Every mass is the library's report of a sheet whose inputs were moved. The band of a report is the width of the
computation; what is found here is the uncertainty that the inputs bring.

A draw has a random number for each line of the table, and all rows and seasons of the line move together with it. The
numbers come from Python's Mersenne Twister, seeded by the seed, the number of the draw and the number of the try: the
results do not depend on how many processes share the work. Values outside the limits of a field are set to the limit; a
sheet that the library refuses all the same is drawn again. Both are counted. In a series one draw holds for all sheets.
"""

import math
import os
from collections.abc import Callable, Iterator, Sequence
from dataclasses import dataclass
from functools import partial
from random import Random

from evp.analysis.targets import Plan, moved
from evp.analysis.uncertainty import Move, Uncertainty
from evp.explain import explain
from evp.files import InputError
from evp.library import Band, Library, Refusal
from evp.workers import Workers

MOST_TRIES = 200  # of one draw
LEAST_SHARE = 2.0 ** -60  # in place of 0, which no quantile has
CHUNKS = 8  # of the work of a process at least, so that all end at about the same time
MOST_REPORTS = 100  # of a chunk, so that the bar moves often
ENDED = ("a process that made draws was ended from outside, perhaps for want of memory; call again, or with "
         "--workers 1")
Progress = Callable[[int, int], object]


def middle(band: Band) -> float:
    return (band.low + band.high) / 2


def between(after: Band, before: Band) -> Band:
    """Milligrams between which the difference of two exact masses lies."""
    return Band(after.low - before.high, after.high - before.low)


# ------------------------------------------------------------------ one input after another


@dataclass(frozen=True)
class End:
    """The total with an input at one of its ends, or why the sheet is refused there."""
    total: Band | None
    refusal: str
    limited: bool


@dataclass(frozen=True)
class Effect:
    """What a line of the table does to the total of a sheet."""
    line: int
    low: End
    high: End

    def size(self, base: Band) -> float:
        """The larger of the two differences, for the order of the lines."""
        return max((abs(middle(end.total) - middle(base)) for end in (self.low, self.high) if end.total), default=0.0)


@dataclass(frozen=True)
class Sensitivity:
    """The effects of all lines on a sheet, the largest first."""
    name: str
    base: Band
    effects: tuple[Effect, ...]


def _total(library: Library, data: bytes) -> Band:
    """The total of a report, which has its last two words."""
    return Band(*library.words(data)[-2:])


def _end(library: Library, plan: Plan, number: int, move: Move) -> End:
    moves: list[Move | None] = [None] * len(plan.values)
    moves[number] = move
    data, limited = moved(plan, moves)
    try:
        return End(_total(library, data), "", bool(limited))
    except Refusal:
        return End(None, explain(library, data).line, bool(limited))


def one_at_a_time(library: Library, plan: Plan, lines: Sequence[Uncertainty]) -> Sensitivity:
    """Each line of the table at its lower and at its upper end, all others as in the sheet."""
    base, effects = library.report(plan.data).total, []
    for number, line in enumerate(lines):
        ends = line.ends(plan.values[number])
        effects.append(Effect(number, *(_end(library, plan, number, move) for move in ends)))
    return Sensitivity(plan.name, base, tuple(sorted(effects, key=lambda effect: -effect.size(base))))


# ------------------------------------------------------------------ random draws


@dataclass(frozen=True)
class Draw:
    """The totals of all sheets of a draw, how many tries it took, and the lines with a value set to a limit."""
    number: int
    tries: int
    limited: frozenset[int]
    totals: tuple[Band, ...]


def _moves(lines: Sequence[Uncertainty], plan: Plan, shares: Sequence[float]) -> list[Move | None]:
    return [line.drawn(share, value) for line, share, value in zip(lines, shares, plan.values)]


def _try(library: Library, plans: Sequence[Plan], lines: Sequence[Uncertainty], shares: Sequence[float]
         ) -> tuple[list[Band], set[int]]:
    totals, limits = [], set()
    for plan in plans:
        data, limited = moved(plan, _moves(lines, plan, shares))
        limits |= limited
        totals.append(_total(library, data))
    return totals, limits


def draw(library: Library, plans: Sequence[Plan], lines: Sequence[Uncertainty], seed: int, number: int) -> Draw:
    """A draw by its number; InputError where every try is refused."""
    for tries in range(1, MOST_TRIES + 1):
        random = Random(f"{seed} {number} {tries}")
        shares = [max(random.random(), LEAST_SHARE) for _ in lines]
        try:
            totals, limited = _try(library, plans, lines, shares)
        except Refusal as refusal:
            last = refusal
            continue
        return Draw(number, tries, frozenset(limited), tuple(totals))
    raise InputError(f"draw {number}: {MOST_TRIES} tries were refused, the last since {last.text}; "
                     "the uncertainties go far beyond what a sheet may have, so write smaller ones")


@dataclass(frozen=True)
class _Work:
    """What is needed to make draws."""
    library: Library
    plans: tuple[Plan, ...]
    lines: tuple[Uncertainty, ...]
    seed: int


def _part(work: _Work, part: tuple[int, int]) -> list[Draw]:
    return [draw(work.library, work.plans, work.lines, work.seed, number) for number in range(*part)]


def default_workers() -> int:
    return len(os.sched_getaffinity(0)) if hasattr(os, "sched_getaffinity") else os.cpu_count() or 1


def _parts(draws: int, sheets: int, workers: int) -> Iterator[tuple[int, int]]:
    size = max(1, min(math.ceil(draws / (CHUNKS * workers)), MOST_REPORTS // sheets))
    for first in range(1, draws + 1, size):
        yield first, min(first + size, draws + 1)


def run_draws(library: Library, plans: Sequence[Plan], lines: Sequence[Uncertainty], draws: int, seed: int,
              workers: int = 1, progress: Progress = lambda done, many: None) -> list[Draw]:
    """The draws 1 to `draws` in their order, shared among processes."""
    work = _Work(library, tuple(plans), tuple(lines), seed)
    parts, found = list(_parts(draws, len(plans), workers)), []
    if workers == 1:
        for part in parts:
            found += _part(work, part)
            progress(len(found), draws)
        return found
    shared: Workers[tuple[int, int], list[Draw]]
    with Workers(lambda: partial(_part, work), workers, ENDED) as shared:
        for made in shared.in_order(parts):
            found += made
            progress(len(found), draws)
    return found


# ------------------------------------------------------------------ what the draws say


@dataclass(frozen=True)
class Summary:
    """Of so many draws: the mean and the ends of the interval that has 95 % of them, each as a band, since each draw is
    one; and the standard error of the mean as a share of it."""
    draws: int
    mean: Band
    lower: Band
    upper: Band
    error: float

    def share(self, band: Band) -> float:
        """How far a band is from the mean, as a share of it."""
        mean = middle(self.mean)
        return (middle(band) - mean) / mean if mean else 0.0


def summary_of(totals: Sequence[Band]) -> Summary:
    """The mean of exact masses lies between the mean of the lows and that of the highs, and the k-th smallest between
    the k-th smallest low and the k-th smallest high."""
    many = len(totals)
    lows, highs = sorted(band.low for band in totals), sorted(band.high for band in totals)
    mean = Band(sum(lows) // many, -(-sum(highs) // many))
    below = many // 40  # draws outside of the interval, on each side
    middles = [middle(band) for band in totals]
    centre = math.fsum(middles) / many
    variance = math.fsum((value - centre) ** 2 for value in middles) / max(1, many - 1)
    error = math.sqrt(variance / many) / centre if centre else 0.0
    return Summary(many, mean, Band(lows[below], highs[below]), Band(lows[-1 - below], highs[-1 - below]), error)


def checkpoints(draws: int) -> list[int]:
    """10, 20, 50, 100, ... and the last: where convergence is looked at."""
    found, power = [], 10
    while power <= draws:
        found += [step * power for step in (1, 2, 5) if step * power < draws]
        power *= 10
    return [*found, draws]


def convergence(totals: Sequence[Band]) -> list[Summary]:
    return [summary_of(totals[:many]) for many in checkpoints(len(totals))]
