"""A report as a table to look at, as csv and as JSON; two reports side by side."""

from collections import Counter
from collections.abc import Iterable, Iterator
from typing import NamedTuple

from evp import layout
from evp.explain import contents
from evp.figures import GROUP_NAMES, TOTAL, Figure, bands, groups
from evp.layout import CLASSES, canister_name, technology_name
from evp.library import MECHANISMS, SPECIES, Band, Masses, Report
from evp.masses import exact, shown
from evp.sheet.names import NO_NAMES, Names
from evp.tables import table_text
from evp.wording import apart, counted, shortened

SHORT_NAMES = {  # of classes, for a table that a terminal has room for
    1: "car < 1.4 l", 2: "car 1.4-2.0 l", 3: "car > 2.0 l", 7: "4-stroke <250", 8: "4-stroke -750", 9: "4-stroke >750",
}


MOST_NAME = 24  # signs of a name in a table for the screen
DASH = "–"  # between two ends, in a table where " to " is too wide


def aligned(lines: Iterable[tuple[str, ...]], left: int) -> Iterator[str]:
    """A table for the screen: so many columns to the left, the others to the right."""
    lines = list(lines)
    widths = [max(map(len, column)) for column in zip(*lines)]
    for line in lines:
        words = [word.ljust(width) if i < left else word.rjust(width)
                 for i, (word, width) in enumerate(zip(line, widths))]
        yield "  ".join(words).rstrip()


def vehicles_of(data: bytes) -> list[int]:
    return [layout.row(data, i)["vehicles"] for i in range(layout.row_count(data))]


def report_lines(file: str, data: bytes, report: Report, unit: str | None = None,
                 names: Names = NO_NAMES) -> Iterator[str]:
    """The table of a sheet: a line for each row, or for mg, where the bands are shown, one for each figure."""
    yield "%s: %s, %s vehicles" % (file, contents(data), apart(sum(vehicles_of(data))))
    yield ""
    if unit == "mg":
        lines = [("", "low mg", "high mg")]
        lines += [(figure.named(names), apart(band.low), apart(band.high)) for figure, band in bands(report).items()]
        yield from aligned(lines, 1)
        yield ""
        yield "The exact masses lie between, both ends included."
        return
    yield from aligned(_table(data, report, unit, names.rows), 5 if any(names.rows) else 4)
    yield ""
    yield "total %s" % shown(report.total, unit)
    yield "Every digit of the computation is certain; --unit mg shows the bands."
    yield "The uncertainty of the inputs is not included: evp sensitivity estimates it."


def _table(data: bytes, report: Report, unit: str | None, row_names: list[str]) -> Iterator[tuple[str, ...]]:
    """One unit for all stands in the header; the rows' names have a column where there are any."""
    def named(name: str) -> tuple[str, ...]:
        return (shortened(name, MOST_NAME),) if any(row_names) else ()

    def cells(masses: Masses) -> Iterator[str]:
        return (shown(band, unit, DASH).removesuffix(" %s" % unit) for band in masses)

    names = ("%s %s" % (name, unit) if unit else name for name in MECHANISMS)
    yield "row", *named("name"), "vehicle", "tech.", "canister", "vehicles", *names
    for i, masses in enumerate(report.rows):
        row = layout.row(data, i)
        technology = technology_name(row["technology"]) if row["technology"] else "conv."
        vehicle = SHORT_NAMES.get(row["class"], CLASSES[row["class"]][0])
        yield (str(i + 1), *named(row_names[i] if i < len(row_names) else ""), vehicle, technology, canister_name(row),
               apart(row["vehicles"]), *cells(masses))
    for name, masses in groups(report):
        yield "", *named(""), GROUP_NAMES[name], "", "", "", *cells(masses)


def report_csv(report: Report, unit: str | None = None, names: Names = NO_NAMES) -> str:
    """A line for each figure, both ends of its band in a unit, mg where none is given; the rows' names last, where
    there are any."""
    unit, has_names = unit or "mg", any(names.rows)

    def name(figure: Figure) -> tuple[str, ...]:
        return (names.row(int(figure.row) - 1) if figure.row.isdigit() else "",) if has_names else ()

    header = ("row", "mechanism", "low", "high", "unit", *(["name"] if has_names else []))
    return table_text(header, (
        (*figure, exact(band.low, unit), exact(band.high, unit), unit, *name(figure))
        for figure, band in bands(report).items()))


def _masses_json(masses: Masses) -> dict:
    return {mechanism: list(band) for mechanism, band in zip(MECHANISMS, masses)}


def report_json(file: str, data: bytes, report: Report, names: Names = NO_NAMES) -> dict:
    """With names, a season or row that has one has it as `name`."""
    def named(name: str) -> dict[str, str]:
        return {"name": name} if name else {}

    rows = []
    for i, masses in enumerate(report.rows):
        row = layout.row(data, i)
        rows.append({
            "row": i + 1, "class": row["class"], "class_name": CLASSES[row["class"]][0],
            "technology": row["technology"], "technology_name": technology_name(row["technology"]),
            "canister": canister_name(row), "vehicles": row["vehicles"], **_masses_json(masses),
            **named(names.row(i))})
    return {
        "file": file, "version": layout.version_of(data),
        "seasons": [{**layout.season(data, i), **named(names.season(i))} for i in range(layout.season_count(data))],
        "rows": rows,
        **{name: _masses_json(masses) for name, masses in groups(report)}, TOTAL: list(report.total),
    }


# ------------------------------------------------------------------ two reports


class Difference(NamedTuple):
    """A figure of two sheets, and what their bands say: higher or lower for certain, alike, or not settled."""
    figure: Figure
    a: Band
    b: Band

    @property
    def verdict(self) -> str:
        if self.b.low > self.a.high:
            return "higher"
        if self.b.high < self.a.low:
            return "lower"
        return "alike" if self.a == self.b else "open"

    def json(self) -> dict:
        return {"row": self.figure.row, "mechanism": self.figure.mechanism, "a": list(self.a), "b": list(self.b),
                "verdict": self.verdict}


def differences(a: Report, b: Report) -> list[Difference]:
    """Of the figures that both have; rows where both have as many."""
    bands_a, bands_b = bands(a), bands(b)
    alike = len(a.rows) == len(b.rows)
    return [Difference(figure, bands_a[figure], bands_b[figure]) for figure in bands_a
            if figure in bands_b and (alike or not figure.row.isdigit())]


def _change(difference: Difference) -> str:
    """The second beside the first in percent, from the middles of their bands."""
    a, b = sum(difference.a), sum(difference.b)
    return "(%+.1f %%)" % (100 * (b - a) / a) if a else ""


def comparison_lines(name_a: str, name_b: str, rows: tuple[int, int], found: list[Difference],
                     names: Names = NO_NAMES) -> Iterator[str]:
    """`rows` are those of each report; names are those that both have, or one has alone."""
    words = {"higher": "B higher", "lower": "B lower", "open": "open: the bands meet"}
    lines = [("", "A", "B", "")]
    for d in found:
        if d.verdict in words:
            change = "" if d.verdict == "open" else " " + _change(d)
            ends = (shown(band, None, DASH) for band in (d.a, d.b))
            lines.append((d.figure.named(names), *ends, words[d.verdict] + change))
    yield "A: %s" % name_a
    yield "B: %s" % name_b
    if rows[0] != rows[1]:
        yield "A has %s and B has %s, so rows are not compared." % tuple(counted(count, "row") for count in rows)
    if len(lines) > 1:
        yield ""
        yield from aligned(lines, 1)
    yield ""
    counts = Counter(difference.verdict for difference in found)
    yield "With bands apart, %d of %d figures are higher in B for certain, and %d lower." % (
        counts["higher"], len(found), counts["lower"])
    yield "%d have the same band in both, %d are open." % (counts["alike"], counts["open"])


# ------------------------------------------------------------------ species


def species_report(file: str, total: int, masses: list[int]) -> Iterator[str]:
    yield "%s: the high total, %s mg, by species" % (file, apart(total))
    yield ""
    yield from aligned(((name, "%s mg" % apart(mass)) for name, mass in zip(SPECIES, masses)), 1)


def species_csv(masses: list[int]) -> str:
    return table_text(("species", "mg"), zip(SPECIES, masses))
