"""The command `evp years` and its arguments."""

from argparse import ArgumentTypeError, Namespace
from collections.abc import Callable
from typing import Any

ABOUT = "reports all years and regions of a project: tables, a page of the series, and outliers with their cause"
EXAMPLE = ("evp years sheets -o series\n"
           "evp years country.xlsx -o series --filed filed.csv --seasons\n"
           "evp years tables -o series --decimal comma --jobs 4")


def _jobs(word: str) -> int:
    if not word.isascii() or not word.isdigit() or not 1 <= int(word) <= 1024:
        raise ArgumentTypeError("%r is not 1 to 1024" % word[:40])
    return int(word)


def add_parser(add_command: Callable[..., Any], add: Any) -> None:
    """`evp years` among the commands; `add_command` is that of cli."""
    years = add_command(add, "years", run_years, ABOUT, EXAMPLE, "force")
    years.add_argument("project", metavar="PROJECT", help="a folder of sheets with the year in their names, a folder "
                       "of tables with columns year and region, or a workbook of these")
    years.add_argument("-o", dest="output", metavar="OUT", required=True, help="the folder for results; it is made")
    years.add_argument("--filed", metavar="FILE", help="csv: year,region,category,mechanism,figure,unit")
    years.add_argument("--seasons", action="store_true", help="masses by season too, in nfr.csv; takes twice as long")
    years.add_argument("--rows", action="store_true", help="masses of every row too, in rows.csv")
    years.add_argument("--decimal", choices=("point", "comma"), default="point",
                       help="comma: tables with ; between columns and a decimal comma")
    years.add_argument("--jobs", type=_jobs, metavar="N", help="processes; all cores where none is given")
    years.add_argument("--scheduler", metavar="ADDRESS", help="calculate on a cluster of Dask, as tcp://host:8786")


def run_years(given: Namespace) -> int:
    from evp.years.work import run  # which other commands need not load
    return run(given)
