"""The command: python3 -m tools.make WHAT [--check]."""

import argparse
import sys
import time
from collections.abc import Callable, Iterable
from pathlib import Path

from tools.command import MadeFile, add_command, described, report, run, write_or_check
from tools.make import crate_table, pictures, pointers, samples, tables, times, values
from tools.make.error import MakeError

MODULES = {"values": values, "tables": tables, "samples": samples, "pictures": pictures,
           "crates": crate_table, "pointers": pointers}


def make(name: str, check: bool, files_of: Callable[[], Iterable[MadeFile]]) -> int:
    """Writes the files of a module, or compares them."""
    begin = time.monotonic()
    try:
        files = list(files_of())
        faults = write_or_check(files, check, "python3 -m tools.make " + name)
    except (MakeError, OSError) as error:
        return report("make " + name, [str(error)])
    if not faults:
        what = "up to date" if check else "written"
        print("%s: %d files %s (%.1f s)" % (name, len(files), what, time.monotonic() - begin), flush=True)
    return report("make " + name, faults)


def make_all(check: bool) -> int:
    return max(make(name, check, module.files) for name, module in MODULES.items())


def make_times(given: argparse.Namespace) -> int:
    return make("times", given.check, lambda: times.files(Path(given.log), given.to))


def parser() -> argparse.ArgumentParser:
    top = argparse.ArgumentParser(prog="python3 -m tools.make", **described(
        "Makes the files of the repository that are not written by hand.", "python3 -m tools.make all --check"))
    commands = top.add_subparsers(required=True, metavar="WHAT")
    for name, module in MODULES.items():
        about, _, more = module.__doc__.partition("\n\n")
        command = add_command(commands, name, about, "python3 -m tools.make %s --check" % name, "\n\n" + more)
        command.set_defaults(run=lambda given, name=name, module=module: make(name, given.check, module.files))
    about, _, more = times.__doc__.partition("\n\n")
    own = add_command(commands, "times", about, "python3 -m tools.make times target/gate/rt-ci.log", "\n\n" + more)
    own.add_argument("log", metavar="LOG")
    own.add_argument("--to", metavar="FILE", default=times.PAGE, help="where the page goes; %(default)s without it")
    own.set_defaults(run=make_times)
    every = add_command(commands, "all", "All but times, which are measured.", "python3 -m tools.make all --check")
    every.set_defaults(run=lambda given: make_all(given.check))
    for command in commands.choices.values():
        command.add_argument("--check", action="store_true",
                             help="write nothing; exit status 1 where a file is another")
    return top


if __name__ == "__main__":
    sys.exit(run(parser()))
