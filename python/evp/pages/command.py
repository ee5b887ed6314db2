"""The command `evp page`: each page as one file."""

import os
from argparse import Namespace
from collections.abc import Callable, Iterator
from pathlib import Path
from typing import NamedTuple
from urllib.parse import quote

from evp import commands, marking
from evp.cells import read_travel
from evp.explain import explain
from evp.files import InputError, check_target, make_folder, read_sheet, write_file
from evp.intake import filed_for, read_class
from evp.library import Library, Refusal
from evp.pages.needs import require
from evp.sheet.names import shared_names
from evp.wording import name_shown

KINDS = ("class", "sheet", "day", "parking", "fuels", "species", "cells", "pool")
EXAMPLE = ("evp page north.evp --filed filed.csv -o north.html\n"
           "evp page class sheets --filed filed.csv --each pages -o class.html\n"
           "evp page parking north.evp --row 2 -o parking.html\n"
           "evp page fuels summer.evp derogation.evp -o fuels.html")


def with_kind(words: list[str]) -> list[str]:
    """The words of a call; of `evp page SHEET`, which names no kind of page, those of `evp page sheet SHEET`."""
    if words[:1] != ["page"] or len(words) < 2 or words[1] in (*KINDS, "-h", "--help"):
        return words
    first = words[1]
    names_sheet = first.startswith("-") or first.lower().endswith(".evp") or os.path.isfile(first)
    return ["page", "sheet", *words[1:]] if names_sheet else words  # else a kind that is not there, and that is said


def add_parser(add_command: Callable, add):
    """`evp page` among the commands; `add_command` is that of cli."""
    page = add_command(add, "page", None, "makes a page of a class or of a sheet, as one file for a browser", EXAMPLE)
    what = page.add_subparsers(required=True, metavar="WHAT", parser_class=type(page),
                               help="a kind of page; SHEET alone is the same as sheet SHEET")

    def add_page(name: str, run: Callable, about: str, example: str, *operands: str):
        made = add_command(what, name, _needing_jinja(run), about, example, "force")
        for operand in operands:
            made.add_argument(operand.lower(), metavar=operand)
        made.add_argument("-o", dest="output", metavar="FILE", required=True, help="the page, a file of HTML")
        return made

    of_class = add_page("class", page_class, "shows the marks of a class, what is wrong first",
                        "evp page class sheets --filed filed.csv -o class.html", "FOLDER")
    of_class.add_argument("--filed", required=True, action="append", metavar="FILE",
                          help="a table of filed masses, or a folder or zip of them; as often as you like")
    of_class.add_argument("--hints", action="store_true", help="guess at the reason of a wrong figure")
    of_class.add_argument("--each", metavar="FOLDER", help="make the page of each sheet too, and link to it")
    sheet = add_page("sheet", page_sheet, "shows where the mass of a sheet comes from, or why it is refused",
                     "evp page sheet north.evp -o north.html", "SHEET")
    sheet.add_argument("--filed", action="append", metavar="FILE",
                       help="a table: the figures of this sheet are shown with its bands")
    day = add_page("day", page_day, "shows the temperatures of a day, and a parking on them",
                   "evp page day north.evp --row 1 4 -o day.html", "SHEET")
    day.add_argument("--row", type=int, nargs="+", metavar="N",
                     help="one or two rows; else one without canister and one with")
    parking = add_page("parking", page_parking, "shows the parkings by end hour and duration, and what each lets go of",
                       "evp page parking survey.evp --season 2 --row 1 -o parking.html", "SHEET")
    parking.add_argument("--season", type=int, metavar="N", help="the warmest where none is given")
    parking.add_argument("--row", type=int, default=1, metavar="N")
    add_page("fuels", page_fuels, "shows two sheets side by side, and what differs for certain",
             "evp page fuels summer.evp derogation.evp -o fuels.html", "A", "B")
    add_page("species", page_species, "shows the species of the total of a sheet",
             "evp page species north.evp -o species.html", "SHEET")
    cells = add_page("cells", page_cells, "shows the urban, rural and highway cells of a sheet",
                     "evp page cells north.evp --travel travel.csv -o cells.html", "SHEET")
    cells.add_argument("--travel", required=True, metavar="FILE", help="csv, as evp cells has it")
    add_page("pool", page_pool, "shows two sheets of version 4 and the pooled one",
             "evp page pool north.evp south.evp -o pool.html", "FIRST", "SECOND")


class Made(NamedTuple):
    """A page, and what it tells in short where something is wrong."""
    html: str
    wrong: str = ""


def _needing_jinja(run: Callable[[Namespace], Made]) -> Callable[[Namespace], int]:
    """Writes the page that `run` makes; exit status 1 where it tells of something that is wrong."""
    def command(given: Namespace) -> int:
        require("jinja2")
        check_target(given.output, given.force, _sources(given))  # before the work
        made = run(given)
        write_file(given.output, made.html.encode(), given.force, _sources(given))
        if given.output != "-":
            told = ": " + made.wrong if made.wrong else ""
            print("%s: %d bytes%s" % (name_shown(given.output), len(made.html.encode()), told))
        return commands.REFUSED if made.wrong else commands.FINE
    return command


def _sources(given: Namespace) -> Iterator[str | Path]:
    """The files that a page is made from."""
    for name in ("sheet", "a", "b", "first", "second", "travel"):
        if getattr(given, name, None):
            yield getattr(given, name)
    named = [*(getattr(given, "filed", None) or ()), *filter(None, [getattr(given, "folder", None)])]
    for name in named:
        yield name
        if os.path.isdir(name):
            yield from (path for path in Path(name).rglob("*") if path.is_file())


def _chosen(number: int, many: int, what: str) -> int:
    """A season or row counted from 1, as it counts from 0."""
    if not 1 <= number <= many:
        raise InputError("%s %d: the sheet has 1 to %d" % (what, number, many))
    return number - 1


# ------------------------------------------------------------------ the pages


def page_class(given: Namespace) -> Made:
    from evp.pages import classes
    library = commands.get_library()
    found = read_class(library, given.folder, given.filed, commands.Progress())
    sheets, filings = found.sheets, found.taken.filings
    result = commands.marked_class(library, found, given.hints, commands.Progress)
    marks = result.marks
    pages = _each(library, given, sheets, filings) if given.each else {}
    html = classes.page_class(sheets, filings, marks, pages=pages, hints=given.hints, taken=found.taken,
                              remarks=result.remarks)
    return Made(html, _wrong(marks, len(sheets)))


def _wrong(marks: list[marking.Mark], sheets: int) -> str:
    """How many figures have which verdict, where not all are fine."""
    return "" if all(mark.verdict in marking.FINE for mark in marks) else next(marking.summary(marks, sheets))


def _each(library: Library, given: Namespace, sheets: dict[str, marking.Marked],
          filings: list[marking.Filing]) -> dict[str, str]:
    """Writes the page of each sheet; where they stand, as seen from the page of the class."""
    from evp.pages.sheets import page_sheet as page
    folder, links = make_folder(given.each), {}
    start = os.path.dirname(os.path.abspath(given.output))
    for i, (name, sheet) in enumerate(sheets.items(), 1):
        target = folder / ("sheet-%d.html" % i)
        html = page(library, name, sheet.data, [filing for filing in filings if filing.sheet == name])
        write_file(target, html.encode(), given.force, [*_sources(given), given.output])
        links[name] = quote(Path(os.path.relpath(target.resolve(), start)).as_posix())
    return links


def page_sheet(given: Namespace) -> Made:
    from evp.pages.sheets import page_sheet as page
    library, data, name = commands.get_library(), read_sheet(given.sheet), os.path.basename(given.sheet)
    names = commands.find_names(given.sheet, data)
    refusal = explain(library, data, names).line if library.check(data) else ""
    if not given.filed:
        return Made(page(library, name, data, names=names), refusal)
    filings = [filing for filing in filed_for(given.filed, [name]).filings if filing.sheet == name]
    marks = marking.marks_of(library, {name: marking.marked(library, data)}, filings)
    wrong = _wrong(marks, 1) if filings else "%s has no figure for it" % name_shown(given.filed[0])
    return Made(page(library, name, data, filings, names=names), refusal or wrong)


def page_day(given: Namespace) -> Made:
    from evp.pages.days import page_day as page
    library = commands.get_library()
    data, report = commands.read_report(library, given.sheet)
    rows = [_chosen(row, len(report.rows), "--row") for row in given.row or ()]
    return Made(page(library, os.path.basename(given.sheet), data, rows, names=commands.find_names(given.sheet, data)))


def page_parking(given: Namespace) -> Made:
    from evp.pages.parkings import page_parking as page
    library = commands.get_library()
    data, report = commands.read_report(library, given.sheet)
    season = None if given.season is None else _chosen(given.season, data[5], "--season")
    row = _chosen(given.row, len(report.rows), "--row")
    return Made(page(library, os.path.basename(given.sheet), data, season, row,
                     names=commands.find_names(given.sheet, data)))


def page_fuels(given: Namespace) -> Made:
    from evp.pages.fuels import page_fuels as page
    library = commands.get_library()
    sheets = tuple(commands.read_report(library, name)[0] for name in (given.a, given.b))
    beside = shared_names(*(commands.find_names(name, data) for name, data in zip((given.a, given.b), sheets)))
    return Made(page(library, (os.path.basename(given.a), os.path.basename(given.b)), sheets, beside=beside))


def page_species(given: Namespace) -> Made:
    from evp.pages.splits import page_species as page
    library = commands.get_library()
    return Made(page(library, os.path.basename(given.sheet), commands.read_report(library, given.sheet)[0]))


def page_cells(given: Namespace) -> Made:
    from evp.pages.splits import page_cells as page
    library = commands.get_library()
    data, report = commands.read_report(library, given.sheet)
    return Made(page(library, os.path.basename(given.sheet), data, read_travel(given.travel, len(report.rows))))


def page_pool(given: Namespace) -> Made:
    from evp.pages.splits import page_pool as page
    library, names = commands.get_library(), (given.first, given.second)
    sheets = tuple(map(read_sheet, names))
    try:
        pooled = library.pool(*sheets)
    except Refusal as refusal:
        raise commands.SheetRefused(commands.pool_refusal(library, refusal, names, sheets)) from None
    return Made(page(library, tuple(map(os.path.basename, names)), sheets, pooled))
