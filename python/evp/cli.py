"""The command `evp`: its arguments and its exit status."""

import argparse
import difflib
import errno
import io
import os
import signal
import sys
import textwrap
from collections.abc import Callable

from evp import commands, interrupts
from evp.desk.ending import INTERRUPTED, drop
from evp.files import InputError, failed
from evp.library import MissingCall
from evp.masses import UNITS
from evp.wording import MOST_SHOWN, printable, quoted, shortened

TAKES_NO_MORE = (errno.ENOSPC, errno.EDQUOT, errno.EFBIG, errno.EIO)  # what a disk that is full answers, or broken
STATUS = "Exit status 0 fine, 1 refused or a figure wrong,\n2 not readable or not understood, 130 stopped by Ctrl-C."


class Parser(argparse.ArgumentParser):
    """A parser whose help ends with examples, and which says in a line what is wrong with a call."""

    commands: dict[str, "Parser"] = {}

    def __init__(self, *words, example: str, **more):
        lines = "".join("  %s\n" % line for line in example.splitlines())
        super().__init__(*words, epilog="example:\n%s\n%s" % (lines, STATUS),
                         formatter_class=argparse.RawDescriptionHelpFormatter, **more)

    def print_help(self, file=None):
        super().print_help(file)
        sys.stdout.flush()  # so that a full disk is told

    def error(self, message: str):
        self.print_usage(sys.stderr)
        self.exit(2, "evp: %s; %s --help says more\n" % (shortened(printable(message), MOST_SHOWN), self.prog))


def _version(*versions: int) -> Callable[[str], int]:
    """The type of an argument that is a version of the sheet; int() would take the digits of any script."""
    words = list(map(str, versions))

    def version(word: str) -> int:
        if word not in words:
            raise argparse.ArgumentTypeError("%s is none of %s" % (quoted(word), ", ".join(words)))
        return int(word)
    return version


def _add(subparsers, name: str, run, about: str, example: str, *options: str) -> Parser:
    """A command with the options that several have."""
    description = textwrap.fill(about[0].upper() + about[1:] + ".", 79)
    parser = subparsers.add_parser(name, help=about, description=description, example=example)
    parser.set_defaults(run=run)
    if "json" in options:
        parser.add_argument("--json", action="store_true", help="for other programs")
    if "force" in options:
        parser.add_argument("--force", action="store_true", help="write over a file that is there")
    return parser


def parser(words: list[str]) -> Parser:
    """The parser of a call. Where the call names a command of this module it has these alone, else all."""
    top = Parser(
        prog="evp", description="The desk of the evaporation workbook: sheets written, checked, explained,\n"
        "shown and marked. - stands for standard input.",
        example="evp write north.txt\nevp show north.evp\nevp mark sheets --filed filed.csv -o marks.csv")
    add = top.add_subparsers(metavar="COMMAND", parser_class=Parser)
    _add_sheet_commands(add)
    _add_table_commands(add)
    _add_report_commands(add)
    top.commands = add.choices
    if not words or words[0] not in top.commands:
        _add_other_commands(add)
    return top


def _add_sheet_commands(add):
    check = _add(add, "check", commands.check, "says of each sheet whether it is accepted, or why not",
                 "evp check north.evp south.evp", "json")
    check.add_argument("sheets", nargs="+", metavar="SHEET")
    explain = _add(add, "explain", commands.explain_sheet, "says why a sheet is refused, where, and what would pass",
                   "evp explain north.evp", "json")
    explain.add_argument("sheet", metavar="SHEET")
    show = _add(add, "show", commands.show_sheet, "shows the masses of a sheet", "evp show north.evp --unit kg", "json")
    show.add_argument("sheet", metavar="SHEET")
    show.add_argument("--unit", choices=UNITS, help="one unit for all; mg shows the bands")
    show.add_argument("--csv", action="store_true", help="a line for each figure with both ends of its band")
    convert = _add(add, "convert", commands.convert, "makes the same inventory in a later version of the sheet",
                   "evp convert north.evp --to 4 -o north4.evp", "force")
    convert.add_argument("sheet", metavar="SHEET")
    convert.add_argument("--to", type=_version(2, 3, 4), required=True, metavar="2|3|4", help="the later version")
    convert.add_argument("-o", dest="output", metavar="FILE", help="SHEET's name with -version-N where none is given")


def _add_table_commands(add):
    write = _add(add, "write", commands.write_sheet,
                 "makes a sheet from a text, from a workbook, or from a folder with seasons.csv, fleet.csv and "
                 "parking.csv or grid.csv", "evp write north.txt\nevp write north -o north.evp\nevp write north.xlsx",
                 "force")
    write.add_argument("source", metavar="TEXT|BOOK|FOLDER", help="a text as evp read prints it, a workbook .xlsx or "
                       ".ods as evp read --xlsx makes it, or tables as evp template makes them")
    write.add_argument("-o", dest="output", metavar="SHEET",
                       help="the name of the source with .evp where none is given; NAME.names.csv beside it keeps the "
                       "names of rows and seasons")
    write.add_argument("--version", type=_version(1, 2, 3, 4), metavar="1|2|3|4",
                       help="another version than the source makes; lists of parkings are multiplied out where it has "
                       "a grid")
    read = _add(add, "read", commands.read_back, "prints the text of a sheet, or makes its csv files or its workbook",
                "evp read north.evp --csv north\nevp read north.evp --xlsx north.xlsx", "force")
    read.add_argument("sheet", metavar="SHEET")
    what = read.add_mutually_exclusive_group()
    what.add_argument("--csv", metavar="FOLDER", help="make seasons.csv, fleet.csv and parking.csv or grid.csv there")
    what.add_argument("--xlsx", metavar="BOOK", help="make a workbook with the same worksheets")
    template = _add(add, "template", commands.template,
                    "makes empty csv files with every column, its unit and its limits",
                    "evp template north\nevp template north --grid --semicolon", "force")
    template.add_argument("folder", metavar="FOLDER")
    template.add_argument("--grid", action="store_true",
                          help="parkings by end hour and duration together, and a mileage")
    for command in (read, template):
        command.add_argument("--semicolon", action="store_true", help="columns parted by ; and a decimal comma")


def _add_report_commands(add):
    mark = _add(add, "mark", commands.mark, "marks filed masses against the sheets of a folder",
                "evp mark sheets --filed filed.csv -o marks.csv\n"
                "evp mark sheets --filed filed.csv -o marks.csv --hints", "json", "force")
    mark.add_argument("folder", metavar="FOLDER", help="a folder or a zip: the sheets .evp in it, and below it")
    mark.add_argument("--filed", required=True, action="append", metavar="FILE",
                      help="a table of filed masses (csv, xlsx, ods), or a folder or zip of them; as often as you like")
    mark.add_argument("-o", dest="output", metavar="FILE",
                      help="csv: the same columns, then verdict,low_mg,high_mg,off_mg,note,sha256")
    mark.add_argument("--readings", metavar="FILE", help="csv: what was read of cells that were not plain")
    mark.add_argument("--letters", metavar="FOLDER", help="a letter for each participant, a page to print on A4")
    mark.add_argument("--before", metavar="FILE", help="marks.csv of an earlier submission, or its folder, for letters")
    mark.add_argument("--class-table", metavar="FILE", help="a line for each participant, .csv or .xlsx")
    mark.add_argument("--page", metavar="FILE", help="a page of the class for a browser, as evp page class makes it")
    mark.add_argument("--hints", action="store_true", help="guess longer at the reason of a wrong figure")
    compare = _add(add, "compare", commands.compare,
                   "says which masses of two sheets differ for certain, and what each changed input brings",
                   "evp compare summer.evp derogation.evp\nevp compare 2006.evp 2007.evp --csv", "json")
    compare.add_argument("a", metavar="A")
    compare.add_argument("b", metavar="B")
    compare.add_argument("--csv", action="store_true", help="what changed, a line for each group of inputs, in mg")
    species = _add(add, "species", commands.species, "splits the high total of a sheet among the species of Table 3-14",
                   "evp species north.evp --csv")
    species.add_argument("sheet", metavar="SHEET")
    species.add_argument("--csv", action="store_true", help="a line for each species, in mg")
    cells = _add(add, "cells", commands.cells,
                 "makes the urban, rural and highway cells of the rows of a sheet, as csv",
                 "evp cells north.evp --travel travel.csv -o cells.csv\n\ntravel.csv, a line for a row or for all:\n"
                 "row,town,urban_mileage,rural_mileage,highway_mileage,rural_speed,highway_speed\n"
                 "all,yes,40,35,25,60,100", "force")
    cells.add_argument("sheet", metavar="SHEET")
    cells.add_argument("--travel", required=True, metavar="FILE", help="csv: where the vehicles of the rows drive")
    cells.add_argument("-o", dest="output", metavar="FILE", help="csv; printed where none is given")


def _add_other_commands(add):
    """Those of other modules, which take as long to load as all that the commands above need."""
    from evp.analysis import command as analysis_command
    from evp.desk import command as desk_command
    from evp.pages import command as page_command
    from evp.years import command as years_command
    pool = _add(add, "pool", analysis_command.run_pool,
                "pools sheets of version 4 with the same seasons and parking; evp sum adds up others",
                "evp pool north.evp south.evp west.evp -o country.evp", "force")
    pool.add_argument("sheets", nargs="+", metavar="SHEET", help="two sheets or more")
    pool.add_argument("-o", dest="output", metavar="SHEET", required=True)
    for command in (analysis_command, page_command, desk_command, years_command):
        command.add_parser(_add, add)


def _no_command(top: Parser, words: list[str]) -> int | None:
    """What to say where no command is named, or none that there is; the exit status."""
    if not words:
        from evp.desk import command as desk_command
        _complain("a command is wanted: %s\nevp --help says what each does, evp COMMAND --help how" % (
            ", ".join(name for name in top.commands if name != desk_command.ALIAS)))
        return 2
    if words[0].startswith("-") or words[0] in top.commands:
        return None
    near = difflib.get_close_matches(words[0], top.commands, 1)
    _complain("there is no command %s; %s" % (
        quoted(words[0]), "did you mean evp %s?" % near[0] if near else "evp --help lists them"))
    return 2


def _complain(text: str, start: str = "evp: ", more: int = 0):
    """Says what is wrong, a line each; `more` such lines are counted alone."""
    try:
        for line in commands.limited(text.split("\n"), "such messages", more=more):
            print(start + line, file=sys.stderr, flush=True)
    except OSError:  # nobody can be told, and the exit status tells
        drop(sys.stderr)


def main(words: list[str] | None = None) -> int:
    """Runs a command; whatever goes wrong is said in words."""
    if words is None and hasattr(signal, "SIGPIPE"):  # a reader such as head may leave early; the server ignores it
        signal.signal(signal.SIGPIPE, signal.SIG_DFL)
    if words is None:
        interrupts.take_all()
    if sys.stderr is None:  # it is closed, and print would take standard output for it
        sys.stderr = open(os.devnull, "w", encoding="utf-8")
    if sys.stdout is None:
        _complain("standard output: it is closed")
        return 2
    for stream in (sys.stdout, sys.stderr):
        if isinstance(stream, io.TextIOWrapper):  # a terminal may not know a sign
            stream.reconfigure(errors="replace")
    words = sys.argv[1:] if words is None else words
    top = parser(words)
    status = _no_command(top, words)
    return _run(top, words) if status is None else status


def _run(top: Parser, words: list[str]) -> int:
    """The exit status of a command."""
    try:
        if words[0] == "page":
            from evp.pages.command import with_kind
            words = with_kind(words)
        given = top.parse_args(words)
        status = given.run(given)
        sys.stdout.flush()
        return status
    except commands.SheetRefused as refused:
        _complain(str(refused), "")
        return commands.REFUSED
    except InputError as error:
        _complain(str(error), more=error.more)
    except MissingCall as error:
        _complain(str(error))
    except KeyboardInterrupt:  # on a terminal behind ^C, and behind how far it is
        _complain("stopped", "\nevp: " if sys.stderr.isatty() else "evp: ")
        return INTERRUPTED
    except Exception as error:  # no traceback reaches a user
        said = _of_a_file(error) if isinstance(error, OSError) else ""
        if not said and os.environ.get("EVP_TRACEBACK"):
            raise
        _complain(said or "this is a fault of evp itself: %s: %s\nEVP_TRACEBACK=1 says more" % (
            type(error).__name__, printable(str(error))[:MOST_SHOWN]))
    return 2


def _of_a_file(error: OSError) -> str:
    """What is wrong with the file that an error names, or with standard output; empty where it is something else."""
    if error.filename is not None:
        return str(failed(error.filename, error))
    if error.errno not in TAKES_NO_MORE:
        return ""
    drop(sys.stdout)
    return str(failed("standard output", error))
