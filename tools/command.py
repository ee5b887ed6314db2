"""What the commands of this package share: parsers whose help has an example, and files that are written or
compared."""

import argparse
import signal
import sys
from collections.abc import Iterable
from pathlib import Path
from typing import NamedTuple

TOP = Path(__file__).resolve().parent.parent
SAMPLES = TOP / "samples"
OUT = "out"  # the folder of a crate with what rt made of it


def described(description: str, example: str) -> dict:
    """What a parser is made with: its description, and an example behind its arguments."""
    return {
        "description": description, "epilog": "example:\n" + "".join("  %s\n" % line for line in example.splitlines()),
        "formatter_class": argparse.RawDescriptionHelpFormatter,
    }


def add_command(commands, name: str, about: str, example: str, more: str = "") -> argparse.ArgumentParser:
    """A command of a parser: a line in its list, and its own help."""
    return commands.add_parser(name, help=about, **described(about + more, example))


def crate_files(*endings: str) -> list[Path]:
    """The files of all crates' src/, specs/ and proofs/ with one of these endings, in the order of their paths."""
    return [path for path in sorted((TOP / "crates").glob("*/*/**/*"))
            if path.suffix in endings and path.relative_to(TOP).parts[2] != OUT]


class MadeFile(NamedTuple):
    """A file that a command makes, by its path from the top of the repository."""
    path: str
    data: bytes


def write_or_check(files: Iterable[MadeFile], check: bool, command: str) -> list[str]:
    """Writes files; or with `check` writes none and says which are not what the command makes."""
    faults = []
    for made in files:
        path = TOP / made.path
        if not check:
            path.write_bytes(made.data)
        elif not path.exists() or path.read_bytes() != made.data:
            faults.append("%s is not what %s writes" % (made.path, command))
    return faults


def run(parser: argparse.ArgumentParser, words: list[str] | None = None) -> int:
    """Runs the command that the words name, and gives its exit status."""
    if hasattr(signal, "SIGPIPE"):  # a reader such as head may leave early
        signal.signal(signal.SIGPIPE, signal.SIG_DFL)
    given = parser.parse_args(words)
    return given.run(given)


def report(command: str, faults: Iterable[str]) -> int:
    """Prints what is wrong, and gives the exit status: 1 where there is anything."""
    status = 0
    for fault in faults:
        print("%s: %s" % (command, fault), file=sys.stderr)
        status = 1
    return status
