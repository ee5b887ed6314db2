"""The page of a sheet: where the mass of an accepted one comes from, and why a refused one is refused."""

from typing import NamedTuple

from evp import layout
from evp.doubting import doubt_lines
from evp.explain import explain
from evp.figures import GROUP_NAMES, bands, groups
from evp.layout import CANISTER_NAMES, canister_of
from evp.library import Band, Library, Masses, Report
from evp.marking import Filing, Marked, marks_of
from evp.masses import best_unit
from evp.pages.classes import Judged
from evp.pages.parts import one_vehicle, only_rows, only_season
from evp.pages.refusals import page_refused
from evp.pages.render import render
from evp.pages.words import CLASS_NAMES, canister_words, named_row, parking_words, row_more, season_words
from evp.sheet.names import NO_NAMES, Names, with_name
from evp.wording import name_shown

MOST_ROWS = 200  # that the fleet is told in words for
MOST_FIGURES = 2_000  # filed ones that a page lists


class Part(NamedTuple):
    """A part of the fleet or of the year: its name, what the sheet says of it, and the report of it alone."""
    name: str
    about: str
    vehicles: int
    masses: Masses
    total: Band
    rows: list[int]
    single: Band | None = None  # the mass of one vehicle


def part_of(library: Library, data: bytes, name: str, about: str, rows: list[int]) -> Part:
    """Some rows of the fleet."""
    report = library.report(only_rows(data, rows))
    return Part(name, about, sum(layout.row(data, i)["vehicles"] for i in rows), report.all, report.total, rows)


def _by(library: Library, data: bytes, key, names: dict) -> list[Part]:
    """The fleet parted by what a row has."""
    found: dict = {}
    for i in range(layout.row_count(data)):
        found.setdefault(key(layout.row(data, i)), []).append(i)
    return [part_of(library, data, name, "", found[value]) for value, name in names.items() if value in found]


def _seasons(library: Library, data: bytes, names: Names) -> list[Part]:
    found = []
    for i in range(layout.season_count(data)):
        report = library.report(only_season(data, i))
        words = season_words(layout.season(data, i))
        found.append(Part(with_name("season %d" % (i + 1), names.season(i)), words, 0, report.all, report.total, []))
    return found


def _fleet(library: Library, data: bytes, report: Report, names: Names) -> list[Part]:
    """The rows, most mass first. Of many those with the most are chosen by their three highs, which are shown nowhere
    together: a row's total is the library's."""
    found = []
    heaviest = sorted(range(len(report.rows)), key=lambda i: -sum(band.high for band in report.rows[i]))
    for i in heaviest[:MOST_ROWS]:
        row = layout.row(data, i)
        about = "%s; %s" % (canister_words(row), row_more(row))
        part = part_of(library, data, named_row(row, names.row(i)), about, [i])
        found.append(part._replace(single=library.report(one_vehicle(data, i)).total))
    return sorted(found, key=lambda part: part.total, reverse=True)


def _judged(library: Library, data: bytes, report: Report, filings: list[Filing]) -> list[Judged]:
    """The figures that were filed for this sheet; where there are more than a page lists, those that do not agree come
    first."""
    marked = {filings[0].sheet: Marked(data, "", bands(report))} if filings else {}
    judged = [Judged(filing.figure, filing.filed, mark, filing.tens)
              for filing, mark in zip(filings, marks_of(library, marked, filings))]
    return judged if len(judged) <= MOST_FIGURES else sorted(judged, key=lambda one: one.verdict == "agrees")


def page_sheet(library: Library, name: str, data: bytes, filings: list[Filing] | None = None, served: bool = False,
               packed: dict | None = None, names: Names = NO_NAMES) -> str:
    """The page of a sheet, accepted or refused; `filings` are those for this sheet, where a table of them is given, and
    `names` those of its rows and seasons."""
    explanation = explain(library, data, names)
    if explanation.number:
        return page_refused(library, name, data, explanation, served, packed)
    report = library.report(data)
    unit = best_unit(report.total.high)
    canisters = _by(library, data, canister_of, {code: CANISTER_NAMES[code] for code in (0, 1, 2, 3)})
    classes = _by(library, data, lambda row: row["class"], CLASS_NAMES)
    seasons, fleet = _seasons(library, data, names), _fleet(library, data, report, names)
    vehicles = sum(part.vehicles for part in classes)
    judged = None if filings is None else _judged(library, data, report, filings)
    without = next((part for part in canisters if part.name == "none"), None)
    return render(
        "sheet.html", served, name=name_shown(name), size=len(data), version=layout.version_of(data), report=report,
        parking=parking_words(data), without=without if len(canisters) > 1 and vehicles and report.total.high else None,
        total=report.total, unit=unit, canisters=canisters, classes=classes, seasons=seasons, fleet=fleet,
        row_count=layout.row_count(data), vehicles=vehicles, groups=[(GROUP_NAMES[n], m) for n, m in groups(report)],
        judged=judged and judged[:MOST_FIGURES], more_judged=len(judged or ()) - MOST_FIGURES, packed=packed,
        doubts=list(doubt_lines(library, data, names)), most_class=_most(classes), most_season=_most(seasons),
        most_row=_most(fleet))


def _most(parts: list[Part]) -> Part:
    return max(parts, key=lambda part: part.total.high)
