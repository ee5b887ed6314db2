"""Small pictures in SVG, in the colours of the pages: light, dark and on paper. Words beside them have every number, so
that a picture inside a table is hidden from a screen reader."""

import math
from collections.abc import Sequence
from dataclasses import dataclass

from markupsafe import Markup

UP, DOWN, WHOLE = "var(--high)", "var(--low)", "var(--bar)"
NARROW_WIDTH, WIDE_WIDTH = 380, 1192


def span_bar(start: float, end: float, colour: str, middle: float | None = None) -> Markup:
    """A bar of a table's cell from one share of its width to another, and an upright line at `middle`."""
    left, width = 100 * min(start, end), max(0.4, 100 * abs(end - start))
    line = Markup("") if middle is None else Markup(
        '<path d="M{0:.2f} 0V16" style="stroke:var(--ink);stroke-width:1" vector-effect="non-scaling-stroke"/>'
    ).format(100 * middle)
    return Markup(
        '<svg viewBox="0 0 100 16" preserveAspectRatio="none" aria-hidden="true" focusable="false" '
        'style="display:block;width:100%;height:16px">'
        '<rect x="{0:.2f}" y="2" width="{1:.2f}" height="12" style="fill:{2}"/>{3}</svg>').format(
            min(left, 100 - 0.4), width, colour, line)


def two_bars(low: float | None, high: float | None, middle: float) -> Markup:
    """The two ends of a tornado's line as bars from the middle: the lower end of the input full, its upper end light
    with an edge."""
    def bar(end: float | None, style: str) -> Markup:
        if end is None:
            return Markup("")
        left, width = 100 * min(middle, end), max(0.4, 100 * abs(end - middle))
        return Markup('<rect x="{0:.2f}" y="{1}" width="{2:.2f}" height="7" style="{3}"/>').format(
            left, 1 if "--low" in style else 10, width, style)

    return Markup(
        '<svg viewBox="0 0 100 18" preserveAspectRatio="none" aria-hidden="true" focusable="false" '
        'style="display:block;width:100%;height:18px">{0}{1}'
        '<path d="M{2:.2f} 0V18" style="stroke:var(--ink);stroke-width:1" vector-effect="non-scaling-stroke"/>'
        '</svg>').format(bar(low, "fill:var(--low)"), bar(high, "fill:var(--high)"), 100 * middle)


def nice_step(most: float, lines: int = 5) -> float:
    """A step of 1, 2 or 5 times a power of ten with which an axis has at most so many lines."""
    if most <= 0:
        return 1.0
    power = 10 ** math.floor(math.log10(most / lines))
    return float(next(step * power for step in (1, 2, 5, 10) if most / (step * power) <= lines))


def axis_words(value: float, step: float) -> str:
    """A number of an axis with as many decimals as its step needs."""
    places = max(0, -math.floor(math.log10(step))) if step < 1 else 0
    return f"{value:,.{places}f}"


@dataclass(frozen=True)
class Line:
    """A line of a chart: its points, None where one is missing, and its style."""
    points: Sequence[tuple[float, float] | None]
    style: str
    dots: str = ""


@dataclass(frozen=True)
class Chart:
    """Where things are in a chart of `width`: x from `first` to `last`, y from 0 or `bottom` to `top`."""
    width: int
    first: float
    last: float
    top: float
    bottom: float = 0.0
    height: int = 230
    left: int = 62

    def x(self, value: float) -> float:
        span = (self.last - self.first) or 1
        return self.left + 10 + (self.width - self.left - 30) * (value - self.first) / span

    def y(self, value: float) -> float:
        span = (self.top - self.bottom) or 1
        return self.height - 28 - (self.height - 56) * (value - self.bottom) / span

    def grid(self) -> Markup:
        """The lines of the y axis with their numbers."""
        step = nice_step(self.top - self.bottom)
        found, value = [], math.ceil(self.bottom / step) * step
        while value <= self.top * (1 + 1e-9):
            y = self.y(value)
            found.append(Markup('<path class="grid" d="M{0} {1:.1f}H{2}"/><text class="q" x="{3}" y="{4:.1f}" '
                                'text-anchor="end">{5}</text>').format(
                self.left, y, self.width - 12, self.left - 6, y + 4, axis_words(value, step)))
            value += step
        return Markup("").join(found)

    def marks(self, ticks: Sequence[tuple[float, str]]) -> Markup:
        """The words under the x axis."""
        return Markup("").join(
            Markup('<text class="q" x="{0:.1f}" y="{1}" text-anchor="middle">{2}</text>').format(
                self.x(value), self.height - 8, words) for value, words in ticks)

    def line(self, line: Line) -> Markup:
        """A line with gaps where points are missing, and a dot at each point where it has dots."""
        path, dots, drawing = [], [], False
        for point in line.points:
            if point is None:
                drawing = False
                continue
            x, y = self.x(point[0]), self.y(point[1])
            path.append(f"{'L' if drawing else 'M'}{x:.1f} {y:.1f}")
            drawing = True
            if line.dots:
                dots.append(Markup('<circle cx="{0:.1f}" cy="{1:.1f}" r="{2}" style="{3}"/>').format(
                    x, y, 2 if self.width == NARROW_WIDTH else 3, line.dots))
        return Markup('<path d="{0}" style="fill:none;{1}"/>{2}').format(
            "".join(path), line.style, Markup("").join(dots))

    def area(self, lows: Sequence[tuple[float, float]], highs: Sequence[tuple[float, float]]) -> Markup:
        """What lies between two lines."""
        there = [f"{self.x(x):.1f} {self.y(y):.1f}" for x, y in lows]
        back = [f"{self.x(x):.1f} {self.y(y):.1f}" for x, y in reversed(highs)]
        return Markup('<path d="M{0}Z" style="fill:var(--c2);fill-opacity:.6"/>').format("L".join(there + back))

    def svg(self, label: str, content: Markup, unit: str) -> Markup:
        kind = "narrow" if self.width == NARROW_WIDTH else "wide"
        return Markup('<svg class="chart {0}" viewBox="0 0 {1} {2}" role="img" aria-label="{3}">'
                      '<text class="q" x="{4}" y="14">{5}</text>{6}</svg>').format(
            kind, self.width, self.height, label, self.left - 40, unit, content)
