"""The figures of a report by row and mechanism, as they are filed: 1, 2, .., cars, light, two, all, and total."""

from collections.abc import Iterator
from typing import NamedTuple

from evp.library import GROUPS, MECHANISMS, Band, Masses, Report
from evp.sheet.names import Names, with_name

TOTAL = "total"
GROUP_NAMES = {"cars": "cars", "light": "light-duty", "two": "two-wheelers", "all": "all rows"}


class Figure(NamedTuple):
    """Which mass of a report; the mechanism of the total is empty."""
    row: str
    mechanism: str

    @property
    def name(self) -> str:
        return TOTAL if self.row == TOTAL else "%s %s" % (self.row_name, self.mechanism)

    def named(self, names: Names) -> str:
        """The same, with the name of its row: row 2 (vans) soak."""
        if not self.row.isdigit():
            return self.name
        return "%s %s" % (with_name(self.row_name, names.row(int(self.row) - 1)), self.mechanism)

    @property
    def row_name(self) -> str:
        return GROUP_NAMES.get(self.row, "row " + self.row)


def groups(report: Report) -> Iterator[tuple[str, Masses]]:
    for name in GROUPS:
        yield name, getattr(report, name)


def bands(report: Report) -> dict[Figure, Band]:
    """Every figure of a report, in its order."""
    rows = [(str(i), masses) for i, masses in enumerate(report.rows, 1)]
    found = {Figure(row, mechanism): band for row, masses in (*rows, *groups(report))
             for mechanism, band in zip(MECHANISMS, masses)}
    found[Figure(TOTAL, "")] = report.total
    return found
