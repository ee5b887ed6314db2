"""The page of a series: the masses of its years with their bands, the filed figures, and outliers."""

from collections.abc import Callable, Iterable, Iterator
from dataclasses import dataclass, field
from functools import cache
from pathlib import Path
from typing import Any

from markupsafe import Markup

from evp.library import Band
from evp.masses import POWERS, best_unit
from evp.pages.render import environment, render, source
from evp.pages.words import about
from evp.wording import apart
from evp.years.filed import FINE, Verdict, power_of
from evp.years.naming import region_key
from evp.years.outliers import SERIES, Outlier
from evp.years.results import ALL_REGIONS, REPORTED, Result, with_sums

TEMPLATES = Path(__file__).resolve().parent / "templates"
MOST_REGIONS = 24  # that the page draws; results.csv has all
WIDE, NARROW = (1180, 210), (360, 190)  # of a picture
LEFT, RIGHT, TOP, BOTTOM = 64, 14, 26, 24  # of its margins


@dataclass(frozen=True)
class Line:
    """A year of a region on the page."""
    year: int
    band: Band | None
    status: str
    reason: str
    outlier: Outlier | None = None
    filed: Verdict | None = None


@dataclass
class Region:
    """A region of the page."""
    name: str
    lines: list[Line] = field(default_factory=list)

    @property
    def highest(self) -> int:
        bands = [line.band.high for line in self.lines if line.band]
        return max(bands, default=0)

    @property
    def unit(self) -> str:
        """The one unit of its masses."""
        return best_unit(self.highest)

    @property
    def worth_a_look(self) -> bool:
        return any(line.outlier or not line.band or line.filed and line.filed.verdict not in FINE
                   for line in self.lines)


# ------------------------------------------------------------------ what the page shows


def _regions(results: Iterable[Result], outliers: list[Outlier], verdicts: list[Verdict]) -> list[Region]:
    """The regions with their years; the sum of all first."""
    away = {(found.year, region_key(found.region)): found for found in outliers}
    filed = {verdict.figure.key[:2]: verdict for verdict in verdicts if verdict.figure.category == "total"}
    found: dict[str, Region] = {}
    for result in with_sums(results):
        entry = result.entry
        if entry.year is None:
            continue
        key = entry.year, region_key(entry.region)
        verdict = filed.get(key) or (filed.get((entry.year, "")) if entry.region == ALL_REGIONS else None)
        region = found.setdefault(key[1], Region(entry.region))
        region.lines.append(Line(entry.year, result.total if result.status == REPORTED else None, result.status,
                                 result.reason, away.get(key), verdict))
    total = found.pop(ALL_REGIONS, None)
    return [*([total] if total else []), *(found[key] for key in sorted(found))]


def page_series(title: str, results: Callable[[], Iterable[Result]], outliers: list[Outlier],
                verdicts: list[Verdict]) -> str:
    """The page. With many regions, those that have nothing to look at are left out."""
    regions = _regions(results(), outliers, verdicts)
    shown = regions if len(regions) <= MOST_REGIONS else (
        regions[:1] + [region for region in regions[1:] if region.worth_a_look])[:MOST_REGIONS]
    years = sorted({line.year for region in regions for line in region.lines})
    bands = [line.band for region in regions for line in region.lines if line.band]
    widest = max((band.high - band.low for band in bands), default=0)
    missing = [result for result in results() if result.status != REPORTED]
    wrong = [verdict for verdict in verdicts if verdict.verdict not in FINE]
    many = sum(len(region.lines) for region in regions if region.name != ALL_REGIONS)
    return render(
        "series.html", made=_own(), title=title, years=years, regions=shown, left_out=len(regions) - len(shown),
        many=many, widest=about(widest), missing=missing, wrong=wrong, outliers=outliers, verdicts=verdicts,
        series_names=SERIES, pictures={region.name: pictures(region, years) for region in shown},
        all_regions=ALL_REGIONS)


@cache
def _own() -> Any:
    made = environment(TEMPLATES)
    style = (TEMPLATES / "series.css").read_text(encoding="utf-8")
    made.globals["css"] = source("style.css") + Markup("\n" + style)
    return made


# ------------------------------------------------------------------ pictures


def pictures(region: Region, years: list[int]) -> Markup:
    """The series of a region, once for a wide and once for a narrow page."""
    return Markup("").join(
        Markup('<svg class="yr-chart %s" viewBox="0 0 %d %d" role="img" aria-label="%s">%s</svg>') % (
            name, *size, "%s: mass of each year. The table below has all values." % (region.name or "All"),
            Markup("").join(_drawn(region, years, size)))
        for name, size in (("yr-wide", WIDE), ("yr-narrow", NARROW)))


def ticks(most: float) -> list[float]:
    """Three to five round numbers from 0 up to `most` or a bit above."""
    if most <= 0:
        return [0.0, 1.0]
    step = 10.0 ** (len(str(int(most))) - 1) if most >= 1 else 10.0 ** -3
    while most / step < 2.5:
        step /= 2
    while most / step > 5:
        step *= 2
    return [step * i for i in range(int(most / step) + 2)]


@dataclass(frozen=True)
class Scale:
    """Where a year and a mass are in a picture."""
    size: tuple[int, int]
    years: list[int]
    top: float  # in milligrams

    def x(self, year: int) -> float:
        span = max(1, self.years[-1] - self.years[0])
        return LEFT + 8 + (self.size[0] - LEFT - RIGHT - 16) * (year - self.years[0]) / span

    def y(self, mass: float) -> float:
        return self.size[1] - BOTTOM - (self.size[1] - TOP - BOTTOM) * mass / self.top


def _drawn(region: Region, years: list[int], size: tuple[int, int]) -> Iterator[Markup]:
    power = 10 ** POWERS[region.unit]
    marks = ticks(region.highest / power)
    scale = Scale(size, years, marks[-1] * power)
    yield from _frame(scale, marks, power, "%s%s a year" % (region.name + ", " if region.name else "", region.unit))
    points = [(scale.x(line.year), scale.y(sum(line.band) / 2)) if line.band else None for line in region.lines]
    for part in _joined(points):
        yield Markup('<path class="yr-line" d="M%s"/>') % "L".join("%.1f %.1f" % point for point in part)
    for line in region.lines:
        yield from _point(scale, line)
    yield from _labels(scale, region.lines)


def _frame(scale: Scale, marks: list[float], power: int, title: str) -> Iterator[Markup]:
    width, height = scale.size
    for mark in marks:
        y = scale.y(mark * power)
        yield Markup('<path class="grid" d="M%d %.1fH%d"/>') % (LEFT, y, width - RIGHT)
        yield Markup('<text class="q" x="%d" y="%.1f" text-anchor="end">%s</text>') % (LEFT - 6, y + 4, _tick(mark))
    step = next(step for step in (1, 2, 5, 10, 20, 50) if (scale.years[-1] - scale.years[0]) / step <= width / 75)
    for year in range(scale.years[0], scale.years[-1] + 1):
        if year % step == 0 or len(scale.years) == 1:
            yield Markup('<text class="q" x="%.1f" y="%d" text-anchor="middle">%d</text>') % (
                scale.x(year), height - 6, year)
    yield Markup('<text class="yr-name" x="%d" y="14">%s</text>') % (LEFT, title)


def _tick(mark: float) -> str:
    return apart(int(mark)) if mark == int(mark) else "%g" % mark


def _joined(points: list[tuple[float, float] | None]) -> Iterator[list[tuple[float, float]]]:
    """The parts of a line; it is broken where a year is missing."""
    part: list[tuple[float, float]] = []
    for point in (*points, None):
        if point is not None:
            part.append(point)
        elif part:
            yield part
            part = []


def _point(scale: Scale, line: Line) -> Iterator[Markup]:
    x = scale.x(line.year)
    if line.band is None:
        yield Markup('<text class="yr-none" x="%.1f" y="%d" text-anchor="middle">?<title>%s</title></text>') % (
            x, scale.size[1] - BOTTOM - 3, "%d: %s" % (line.year, line.reason))
        return
    low, high = (scale.y(end) for end in line.band)
    y, radius = (low + high) / 2, 3 if scale.size == WIDE else 2
    yield Markup('<path class="yr-band" d="M%.1f %.2fV%.2f"/><circle class="yr-dot" r="%d" cx="%.1f" cy="%.1f">'
                 '<title>%d: %s mg</title></circle>') % (
                     x, low, high, radius, x, y, line.year, "%s to %s" % tuple(map(apart, line.band)))
    if line.filed and line.filed.verdict in FINE:
        yield Markup('<circle class="yr-ok" r="%d" cx="%.1f" cy="%.1f"/>') % (radius + 3, x, y)
    elif line.filed and line.filed.verdict in ("low", "high"):
        at = max(TOP - 8.0, scale.y(_milligrams(line.filed)))
        yield Markup('<path class="yr-bad" d="M%.1f %.1fl10 10m0 -10l-10 10"/>') % (x - 5, at - 5)


def _milligrams(verdict: Verdict) -> float:
    return float(verdict.figure.digits * 10.0 ** (power_of(verdict.figure.unit) - verdict.figure.places))


def _labels(scale: Scale, lines: list[Line]) -> Iterator[Markup]:
    for line in lines:
        if line.band is None or line.outlier is None:
            continue
        x, y = scale.x(line.year), scale.y(sum(line.band) / 2)
        right = x + 95 > scale.size[0]
        yield Markup('<path class="yr-mark" d="M%.1f %.1fl6 10h-12z"/>') % (x, y - 17)
        yield Markup('<text class="yr-away" x="%.1f" y="%.1f" text-anchor="%s">%s</text>') % (
            x - 9 if right else x + 9, max(TOP, y - 8), "end" if right else "start",
            "%d: %+d %%" % (line.year, line.outlier.percent))

