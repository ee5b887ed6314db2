"""The commands `evp recalculation`, `evp sensitivity` and `evp sum`, and `evp pool` for any number of sheets."""

import sys
import time
from argparse import ArgumentTypeError, Namespace
from collections.abc import Callable, Iterable
from pathlib import Path
from typing import Any

from evp import commands
from evp.analysis import recalculation as recalculated
from evp.analysis import results, series, workbook
from evp.analysis.sensitivity import default_workers, one_at_a_time, run_draws
from evp.analysis.sums import PoolRefused, pooled_of, sum_csv, sum_lines, summed
from evp.analysis.targets import check_targets, plan_of
from evp.analysis.uncertainty import COLUMNS as INPUT_COLUMNS
from evp.analysis.uncertainty import Uncertainty, read_uncertainties
from evp.explain import explain
from evp.files import InputError, check_target, make_folder, read_sheet, same_file, write_file
from evp.layout import row_count
from evp.library import Library
from evp.masses import UNITS
from evp.pages.needs import require
from evp.sheet.names import Names, pooled_names
from evp.tables import table_text
from evp.wording import name_shown, quoted

MOST_DRAWS = 100_000
MOST_REPORTS = 2_000_000  # of all draws, which are kept in memory
MOST_WORKERS = 1_024
SENSITIVITY_EXAMPLE = """evp sensitivity north.evp --inputs inputs.csv -o north-sensitivity
evp sensitivity series --inputs inputs.csv --draws 1000 --seed 1 -o out

inputs.csv, a line for each uncertain input:
%s
vehicles,all,%%,5,,,normal
vp,season 2,kPa,,58.0,63.0,triangular
fill,cars,points,10,,,uniform""" % ",".join(INPUT_COLUMNS)


def _whole(least: int, most: int) -> Callable[[str], int]:
    """The type of an argument that is a whole number within limits."""
    def number(word: str) -> int:
        if not (word.isascii() and word.isdigit() and len(word) < 20 and least <= int(word) <= most):
            raise ArgumentTypeError(f"{quoted(word)} is not a whole number from {least:,} to {most:,}")
        return int(word)
    return number


def add_parser(add_command: Callable[..., Any], add: Any) -> None:
    """The commands among the others; `add_command` is that of cli."""
    recalculation = add_command(
        add, "recalculation", run_recalculation, "shows two submissions of a series side by side, year by year",
        "evp recalculation submission-2025 submission-2026 -o recalculation", "force")
    for name in ("old", "new"):
        recalculation.add_argument(name, metavar=name.upper(), help="results.csv, a folder made by evp years, or a "
                                   "folder of sheets with the year in their names")
    recalculation.add_argument("--semicolon", action="store_true", help="columns separated by ; and a decimal comma")
    sensitivity = add_command(
        add, "sensitivity", run_sensitivity,
        "shows how much the uncertainty of the inputs of a sheet or series matters", SENSITIVITY_EXAMPLE, "force")
    sensitivity.add_argument("sheet", metavar="SHEET|FOLDER",
                             help="a sheet, or a folder of sheets with the year in their names")
    sensitivity.add_argument("--inputs", required=True, metavar="FILE", help="csv: which inputs are uncertain")
    sensitivity.add_argument("--draws", type=_whole(10, MOST_DRAWS), default=0, metavar="N",
                             help="random draws besides one input after another")
    sensitivity.add_argument("--seed", type=_whole(0, 2 ** 63 - 1), default=1, metavar="N",
                             help="another seed gives other draws (1 where none is given)")
    sensitivity.add_argument("--workers", type=_whole(1, MOST_WORKERS), metavar="N",
                             help="processes that share the draws; all processors where none is given")
    for command in (recalculation, sensitivity):
        command.add_argument("-o", dest="output", metavar="FOLDER", required=True,
                             help="csv, xlsx and a page are written there")
    total = add_command(
        add, "sum", run_sum, "adds up the masses of sheets that may have climates of their own, as bands",
        "evp sum north.evp south.evp islands.evp")
    total.add_argument("sheets", nargs="+", metavar="SHEET")
    total.add_argument("--unit", choices=UNITS, help="one unit for all")
    total.add_argument("--csv", action="store_true", help="a line for each figure of each sheet and of the sum")


class _Progress:
    """A bar on standard error where it takes longer than a second, on a terminal alone."""

    def __init__(self, what: str):
        self.what, self.start, self.drawn = what, time.monotonic(), False

    def __call__(self, done: int, many: int) -> None:
        if not sys.stderr.isatty() or not self.drawn and time.monotonic() - self.start < 1:
            return
        self.drawn = True
        bar = ("#" * (40 * done // many)).ljust(40, ".")
        left = (time.monotonic() - self.start) * (many - done) / done
        print(f"\r{bar} {done:,} of {many:,} {self.what}, {left:.0f} s left ", end="\n" if done == many else "",
              file=sys.stderr, flush=True)


def _write_all(folder: str, files: dict[str, bytes], force: bool, sources: Iterable[str | Path]) -> None:
    """Files of a folder: all of them are checked before the first is written."""
    made, kept = make_folder(folder), list(sources)
    for name in files:
        check_target(made / name, force, kept)
    for name, data in files.items():
        write_file(made / name, data, force, kept)


def _require() -> None:
    """Pages need Jinja. Workbooks need openpyxl: where Debian's Python has both it goes on, else none is made."""
    try:
        require("jinja2", "openpyxl")
    except InputError:
        require("jinja2")


def _with_workbook(files: dict[str, bytes], name: str, tables: dict[str, workbook.Table]) -> None:
    """Adds the workbook, or says what is missing for it."""
    if workbook.can_write():
        files[name] = workbook.workbook(tables)
    else:
        print(f"evp: note: {workbook.MISSING}", file=sys.stderr)


def _made(folder: str, files: dict[str, bytes]) -> str:
    return f"{name_shown(folder)}: {', '.join(files)}"


# ------------------------------------------------------------------ recalculation


def run_recalculation(given: Namespace) -> int:
    _require()
    from evp.analysis.pages import page_recalculation
    library = commands.get_library()
    found = recalculated.recalculation(*(series.read_results(library, name) for name in (given.old, given.new)))
    files = {"recalculation.csv": recalculated.recalculation_csv(found, given.semicolon).encode("utf-8-sig"),
             "recalculation.html": page_recalculation(found, (given.old, given.new)).encode()}
    _with_workbook(files, "recalculation.xlsx",
                   {"recalculation": (recalculated.COLUMNS, recalculated.table_lines(found))})
    sources = [*series.sources_of(given.old), *series.sources_of(given.new)]
    _write_all(given.output, files, given.force, sources)
    commands.say(recalculated.recalculation_lines(found))
    print(_made(given.output, files))
    return commands.FINE


# ------------------------------------------------------------------ sensitivity


Sheets = list[tuple[str, bytes]]


def _sheets(library: Library, name: str) -> tuple[Sheets, list[str]]:
    """The sheets to analyse, by name: one, or those of a folder; and a line for each that is refused."""
    if name != "-" and Path(name).is_dir():
        found = [(sheet.name, str(sheet.path), sheet.data) for sheet in series.sheets_of(Path(name))]
    else:
        found = [(Path(name).name if name != "-" else "standard input", name, read_sheet(name))]
    refused = [f"{name_shown(path)}: {explain(library, data).line}" for _, path, data in found if library.check(data)]
    if len(refused) == len(found):
        raise commands.SheetRefused("\n".join(commands.limited(refused, "refused sheets")))
    return [(title, data) for title, _, data in found if not library.check(data)], refused


def _analysis(library: Library, given: Namespace, lines: list[Uncertainty], sheets: Sheets) -> results.Analysis:
    try:
        plans = [plan_of(name, data, lines) for name, data in sheets]
        check_targets(plans, lines)
    except InputError as error:
        raise InputError(f"{name_shown(given.inputs)}: {error}") from None
    if given.draws * len(plans) > MOST_REPORTS:
        raise InputError(f"{given.draws:,} draws of {len(plans):,} sheets are {given.draws * len(plans):,} reports, "
                         f"and one call makes at most {MOST_REPORTS:,}; ask for fewer draws, or take fewer sheets")
    workers = given.workers or default_workers()
    draws = []
    if given.draws:
        draws = run_draws(library, plans, lines, given.draws, given.seed, workers, _Progress("draws"))
    return results.Analysis(tuple(lines), tuple(one_at_a_time(library, plan, lines) for plan in plans), tuple(draws))


def run_sensitivity(given: Namespace) -> int:
    _require()
    from evp.analysis.pages import counts_of_draws, page_sensitivity
    lines, library = read_uncertainties(given.inputs), commands.get_library()
    sheets, refused = _sheets(library, given.sheet)
    found = _analysis(library, given, lines, sheets)
    tables: dict[str, workbook.Table] = {"sensitivity": (results.EFFECT_COLUMNS, list(results.effect_lines(found)))}
    if found.draws:
        tables["summary"] = results.SUMMARY_COLUMNS, list(results.summary_lines(found))
        tables["convergence"] = results.SUMMARY_COLUMNS, list(results.convergence_lines(found))
    files = {f"{name}.csv": table_text(*table).encode("utf-8-sig") for name, table in tables.items()}
    if found.draws:
        files["draws.csv"] = table_text(results.DRAW_COLUMNS, results.draw_lines(found)).encode("utf-8-sig")
    name = Path(given.sheet).name if given.sheet != "-" else "standard input"
    files["sensitivity.html"] = page_sensitivity(found.ones, lines, found.draws, name, given.seed).encode()
    _with_workbook(files, "sensitivity.xlsx", tables)
    _write_all(given.output, files, given.force, [given.inputs, *series.sources_of(given.sheet)])
    commands.say(results.screen_lines(found))
    if found.draws:
        print(counts_of_draws(found.draws, lines))
    print(_made(given.output, files))
    for line in commands.limited(refused, "refused sheets"):
        print(f"evp: left out: {line}", file=sys.stderr)
    return commands.REFUSED if refused else commands.FINE


# ------------------------------------------------------------------ sums and pools


def run_sum(given: Namespace) -> int:
    library = commands.get_library()
    for i, name in enumerate(given.sheets):
        if any(same_file(name, other) for other in given.sheets[:i]):
            raise InputError(f"{name_shown(name)}: this sheet is named twice, so that it would count twice")
    reports = [commands.read_report(library, name)[1] for name in given.sheets]
    found = summed([name_shown(name) for name in given.sheets], reports)
    if given.csv:
        print(sum_csv(found), end="")
    else:
        commands.say(sum_lines(found, given.unit))
    return commands.FINE


def run_pool(given: Namespace) -> int:
    """Pools two sheets or more; the library pools two at a time."""
    if len(given.sheets) < 2:
        raise InputError("a pool is of two sheets or more; name another one")
    library = commands.get_library()
    sheets = [read_sheet(name) for name in given.sheets]
    try:
        pooled = pooled_of(library, sheets)
    except PoolRefused as refused:
        raise commands.SheetRefused(_pool_refusal(library, refused, given.sheets, sheets)) from None
    commands.write_with_names(given.output, pooled, _names_of_pool(given.sheets, sheets), given.force, given.sheets)
    if given.output != "-":
        print("%s: %d bytes, %s" % (name_shown(given.output), len(pooled), explain(library, pooled).line))
    return commands.FINE


def _names_of_pool(names: list[str], sheets: list[bytes]) -> Names:
    """The names of the pooled sheet's records, of those beside the sheets."""
    found, rows = commands.find_names(names[0], sheets[0]), row_count(sheets[0])
    for name, data in zip(names[1:], sheets[1:]):
        found = pooled_names(found, commands.find_names(name, data), rows)
        rows += row_count(data)
    return found


def _pool_refusal(library: Library, refused: PoolRefused, names: list[str], sheets: list[bytes]) -> str:
    """What the library refused: one of the sheets, or the pool with this one."""
    index = refused.index
    if refused.refusal.sheet == 3 and index > 1:
        line = commands.pool_refusal(library, refused.refusal, (names[0], names[index]), (sheets[0], sheets[index]))
        reason = line.partition(": refused ")[2].replace("the two sheets", "the sheets")
        before = ", ".join(name_shown(name) for name in names[:index])
        return f"{before} and {name_shown(names[index])}: refused {reason}"
    pair = (names[0], names[index]), (refused.pooled, sheets[index])
    return str(commands.pool_refusal(library, refused.refusal, *pair))
