"""The command: python3 -m tools.vectors SET [--check | --list]."""

import argparse
import sys
import time

from tools.command import add_command, described, report, run, write_or_check
from tools.vectors import bounds, cells, factors, ledgers, marks, pools, reports, shared, sheets, species
from tools.vectors.frame import VectorError

MODULES = {
    "bounds": bounds, "sheets": sheets, "factors": factors, "reports": reports, "cells": cells, "species": species,
    "ledgers": ledgers, "shared": shared, "pools": pools, "marks": marks,
}


def run_set(name: str, given: argparse.Namespace) -> int:
    """Writes a set's files, compares them, or lists its vectors."""
    vectors = MODULES[name].VECTORS
    if given.list:
        for line in vectors.lines(vectors.find()):
            print(line)
        return 0
    begin = time.monotonic()
    try:
        faults = write_or_check(vectors.files(), given.check, "python3 -m tools.vectors " + name)
    except VectorError as error:
        faults = [str(error)]
    if not faults:
        what = "is up to date" if given.check else "written"
        print("crates/%s/stdin %s (%.1f s)" % (vectors.program, what, time.monotonic() - begin), flush=True)
    return report("vectors " + name, faults)


def run_all(given: argparse.Namespace) -> int:
    return max(run_set(name, given) for name in MODULES if name not in given.but)


def add_options(command: argparse.ArgumentParser):
    """--check and --list, of which one at most is given."""
    either = command.add_mutually_exclusive_group()
    either.add_argument("--check", action="store_true", help="write nothing; exit status 1 where a file is another")
    either.add_argument("--list", action="store_true",
                        help="write nothing; print a line for each vector, counted as the program counts")


def parser() -> argparse.ArgumentParser:
    top = argparse.ArgumentParser(prog="python3 -m tools.vectors", **described(
        "Makes the input of the programs vectors_*, with the answers that are expected of them.",
        "python3 -m tools.vectors sheets --check"))
    commands = top.add_subparsers(required=True, metavar="SET")
    for name, module in MODULES.items():
        about, _, form = module.__doc__.partition("\n\n")
        command = add_command(commands, name, about, "python3 -m tools.vectors %s --check" % name, "\n\n" + form)
        add_options(command)
        command.set_defaults(run=lambda given, name=name: run_set(name, given))
    every = add_command(commands, "all", "All of them.", "python3 -m tools.vectors all --but reports --check")
    every.add_argument("--but", nargs="+", default=(), choices=MODULES, metavar="SET", help="leave these out")
    add_options(every)
    every.set_defaults(run=run_all)
    return top


if __name__ == "__main__":
    sys.exit(run(parser()))
