"""Sums over sheets: pooled where seasons and parking are the same, and as bands where regions have climates of their
own."""

from collections.abc import Iterator, Sequence
from dataclasses import dataclass
from functools import reduce

from evp.figures import Figure, bands
from evp.library import Band, Library, Refusal, Report
from evp.masses import shown
from evp.show import aligned
from evp.tables import table_text
from evp.wording import apart, counted

SENTENCE = ("The low of the sum is the sum of the lows, its high the sum of the highs:\n"
            "the exact sum of the masses lies between. The sheets may differ in seasons,\n"
            "parking and version.")


class PoolRefused(Exception):
    """A pool that was refused: which sheet was added then, and the library's refusal."""

    def __init__(self, index: int, pooled: bytes, refusal: Refusal):
        super().__init__(str(refusal))
        self.index, self.pooled, self.refusal = index, pooled, refusal


def pooled_of(library: Library, sheets: Sequence[bytes]) -> bytes:
    """The first two sheets pooled by the library, the third with these, and so on: all rows in the order of the sheets.
    A sheet that is refused stops it."""
    pooled = sheets[0]
    for index, data in enumerate(sheets[1:], 1):
        try:
            pooled = library.pool(pooled, data)
        except Refusal as refusal:
            raise PoolRefused(index, pooled, refusal) from None
    return pooled


@dataclass(frozen=True)
class Summed:
    """The figures of several reports added up, lows and highs by themselves; rows are left out."""
    names: tuple[str, ...]
    reports: tuple[Report, ...]
    figures: dict[Figure, Band]

    @property
    def total(self) -> Band:
        return self.figures[Figure("total", "")]


def add_bands(one: Band, other: Band) -> Band:
    return Band(one.low + other.low, one.high + other.high)


def summed(names: Sequence[str], reports: Sequence[Report]) -> Summed:
    """The sum of reports of sheets that may have other seasons, parking and versions."""
    figures = [{figure: band for figure, band in bands(report).items() if not figure.row.isdigit()}
               for report in reports]
    return Summed(tuple(names), tuple(reports), {
        figure: reduce(add_bands, (found[figure] for found in figures)) for figure in figures[0]})


def sum_lines(found: Summed, unit: str | None = None) -> Iterator[str]:
    """For the screen: the total of each sheet, then every figure of the sum."""
    lines: list[tuple[str, ...]] = [("sheet", "total", "low mg", "high mg")]
    lines += [(name, shown(report.total, unit), *map(apart, report.total))
              for name, report in zip(found.names, found.reports)]
    lines.append((f"sum of {counted(len(found.names), 'sheet')}", shown(found.total, unit), *map(apart, found.total)))
    yield from aligned(lines, 1)
    yield ""
    figures: list[tuple[str, ...]] = [("sum by category", "mass", "low mg", "high mg")]
    figures += [(figure.name, shown(band, unit), *map(apart, band)) for figure, band in found.figures.items()]
    yield from aligned(figures, 1)
    yield ""
    yield from SENTENCE.splitlines()


def sum_csv(found: Summed) -> str:
    """A line for each figure of each sheet, and of the sum."""
    def lines() -> Iterator[tuple[object, ...]]:
        for name, report in zip(found.names, found.reports):
            for figure, band in bands(report).items():
                if not figure.row.isdigit():
                    yield name, *figure, *band
        for figure, band in found.figures.items():
            yield "sum", *figure, *band
    return table_text(("sheet", "category", "mechanism", "low_mg", "high_mg"), lines())
