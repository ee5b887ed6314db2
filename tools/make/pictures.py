"""docs/pictures/layers.svg, the crates in their layers, from crates.txt; docs/rows.svg and docs/seasons.svg, figures.

docs/rows.svg shows how long the report call takes for how many rows, docs/seasons.svg
for how many seasons. docs/rows.txt has a line for each measurement, the rows and the
microseconds, such as `1000 48210.5`, with rows going up; # starts a comment. A line
`title` and words may stand before them. Both axes are logarithmic. The dashed line is
the even one, on which every row takes the same time; it goes through the last figure.
docs/seasons.txt is read alike.
"""

import math
from collections.abc import Iterator, Sequence
from html import escape
from itertools import product

from tools.command import TOP, MadeFile
from tools.make import layers
from tools.make.error import MakeError

MEASURED = ("row", "season")  # docs/rows.txt and docs/rows.svg, docs/seasons.txt and docs/seasons.svg
WIDTH, HEIGHT = 640, 440
LEFT, RIGHT, TOP_EDGE, BOTTOM = 80, 610, 50, 380
TITLE = "The report call by the rows of its sheet"


def read(text: str) -> tuple[str, list[tuple[int, float]]]:
    """The title, and a pair of rows and microseconds for each figure."""
    title, found = TITLE, []
    for number, line in enumerate(text.splitlines(), 1):
        words = line.partition("#")[0].split()
        if not words:
            continue
        if words[0] == "title":
            title = " ".join(words[1:])
            continue
        try:
            rows, time = int(words[0]), float(words[1])
        except (ValueError, IndexError):
            raise MakeError("line %d: rows and microseconds wanted" % number) from None
        if len(words) != 2 or rows < 1 or not 0 < time < math.inf:
            raise MakeError("line %d: rows and microseconds wanted, both above 0" % number)
        if found and rows <= found[-1][0]:
            raise MakeError("line %d: rows do not go up" % number)
        found.append((rows, time))
    if len(found) < 2:
        raise MakeError("two figures wanted at least, %d found" % len(found))
    return title, found


class Axis:
    """Values from one power of ten to another, as places on the picture."""

    def __init__(self, values: Sequence[float], first: float, last: float):
        self.low, self.high = math.floor(math.log10(min(values))), math.ceil(math.log10(max(values)))
        self.high += self.low == self.high
        self.first, self.last = first, last

    def at(self, value: float) -> float:
        share = (math.log10(value) - self.low) / (self.high - self.low)
        return self.first + share * (self.last - self.first)

    def powers(self) -> list[float]:
        return [10 ** i for i in range(self.low, self.high + 1)]

    def minor(self) -> list[float]:
        """What lies between the powers."""
        return [m * 10 ** i for i, m in product(range(self.low, self.high), range(2, 10))]


def short(value: float) -> str:
    """A number in figures with thousands parted; below 1 as a decimal."""
    return "{:,}".format(value) if value >= 1 else "%g" % value


def line(x1: float, y1: float, x2: float, y2: float, look: str) -> str:
    return '<line x1="%.1f" y1="%.1f" x2="%.1f" y2="%.1f" %s/>' % (x1, y1, x2, y2, look)


def words(x: float, y: float, said: str, look: str) -> str:
    return '<text x="%.1f" y="%.1f" %s>%s</text>' % (x, y, look, escape(said))


GREY, LIGHT, BLACK = 'stroke="#bbbbbb"', 'stroke="#e8e8e8"', 'stroke="#000000"'
MIDDLE, END = 'text-anchor="middle"', 'text-anchor="end"'


def axes(across: Axis, up: Axis, what: str) -> Iterator[str]:
    """The net of both axes with the numbers beside it, and their names."""
    for look, values in ((LIGHT, Axis.minor), (GREY, Axis.powers)):
        yield from (line(across.at(v), TOP_EDGE, across.at(v), BOTTOM, look) for v in values(across))
        yield from (line(LEFT, up.at(v), RIGHT, up.at(v), look) for v in values(up))
    yield line(LEFT, BOTTOM, RIGHT, BOTTOM, BLACK)
    yield line(LEFT, TOP_EDGE, LEFT, BOTTOM, BLACK)
    yield from (words(across.at(v), BOTTOM + 18, short(v), MIDDLE) for v in across.powers())
    yield from (words(LEFT - 8, up.at(v) + 4, short(v), END) for v in up.powers())
    yield words((LEFT + RIGHT) / 2, BOTTOM + 42, what + "s", MIDDLE)
    yield words(LEFT, TOP_EDGE - 10, "microseconds", MIDDLE)


def even(across: Axis, up: Axis, what: str, last_figure: tuple[int, float]) -> Iterator[str]:
    """The line on which each row, or season, takes the same time as in the last figure, as far as the net goes."""
    each = last_figure[1] / last_figure[0]
    first = max(10 ** across.low, 10 ** up.low / each)
    last = min(10 ** across.high, 10 ** up.high / each)
    ends = [place for n in (first, last) for place in (across.at(n), up.at(n * each))]
    yield line(*ends, 'stroke="#1a5fb4" stroke-dasharray="6 4"')
    yield words(RIGHT - 8, BOTTOM - 10, "dashed: %.3g microseconds for each %s" % (each, what), END + ' fill="#1a5fb4"')


def drawn(text: str, what: str = "row") -> str:
    """The picture of the figures in this text."""
    title, found = read(text)
    rows, times = zip(*found)
    across, up = Axis(rows, LEFT, RIGHT), Axis(times, BOTTOM, TOP_EDGE)
    points = [(across.at(n), up.at(time)) for n, time in found]
    parts = [
        '<svg xmlns="http://www.w3.org/2000/svg" width="%d" height="%d" viewBox="0 0 %d %d" '
        'font-family="sans-serif" font-size="12">' % (WIDTH, HEIGHT, WIDTH, HEIGHT),
        '<rect width="%d" height="%d" fill="#ffffff"/>' % (WIDTH, HEIGHT),
        words(WIDTH / 2, 22, title, MIDDLE + ' font-size="15"'),
        *axes(across, up, what), *even(across, up, what, found[-1]),
        '<polyline points="%s" fill="none" stroke="#c01c28"/>' % " ".join("%.1f,%.1f" % point for point in points),
        *('<circle cx="%.1f" cy="%.1f" r="3.5" fill="#c01c28"/>' % point for point in points),
        "</svg>",
    ]
    return "\n".join(parts) + "\n"


def files() -> Iterator[MadeFile]:
    yield from layers.files()
    for what in MEASURED:
        figures = "docs/%ss.txt" % what
        try:
            picture = drawn((TOP / figures).read_text(encoding="utf-8"), what)
        except MakeError as error:
            raise MakeError("%s: %s" % (figures, error)) from None
        yield MadeFile("docs/%ss.svg" % what, picture.encode())
