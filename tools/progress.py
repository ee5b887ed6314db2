"""How far rt ci is: one line a step, such as `12 of 56 crates, 30 of 176 edits`, and the whole log in a file.

    rt ci | python3 -m tools.progress target/gate/rt-ci.log

rt ci prints what every crate and every edit says, thousands of lines. This
keeps them all in the file and prints a line where a crate was proved, or where
the edits of a crate are begun: on a terminal one line that is written over,
elsewhere one for each twentieth of the way. What came of the edits rt says at its
end. A step that fails is printed at once, with its first error. The last line is
rt's own, `N passed, M failed`.

Beside the log stands a file whose name ends in .times: when each of rt's own
lines came, in seconds from the start.

The exit status is 1 where that last line is not there or says that something
failed, and where rt calls a must-fail edit bad, which does not fail rt ci.
"""

import argparse
import re
import sys
import time
from collections.abc import Callable, Iterable, Iterator
from pathlib import Path
from typing import NamedTuple, TextIO

from tools import crates
from tools.command import described, report, run

PROVED = re.compile(r"rt: (\w+) (?:proved|is kept: .*)")
BEGUN = re.compile(
    r"rt: \w+: (?:trying its must-fail edits \((\d+)\)|(\d+) of its \d+ must-fail edits were tried by .*)")
REFUSED = re.compile(r"rt: must-fail \w+/\S+: refused, as it must be")
FAILED = re.compile(
    r"rt: (\w+(: its tests are)? NOT PROVED|must-fail \S+: (NOT REFUSED|NOT TRIED|BAD EDIT)|\S+: BAD EDIT|"
    r"\w+: its tests FAILED|\w+( \(built by [^)]*\))?: (the program|what the program wrote)|FAILED:)")
OK = re.compile(r"rt: ok;.*")
BAD = re.compile(r"must-fail edits: [^;]*\b(\d+) bad\b")
LAST = re.compile(r"\d+ passed, (\d+) failed( \(.*\))?")
PARTS = 20  # so many lines tell the whole way, where no terminal is
TOLD, WIDTH = 30, 300  # so much is printed of a failure: lines, and characters of each; the log has all


class Wanted(NamedTuple):
    """How many crates and edits there are."""
    crates: int
    edits: int

    def said(self, proved: int, edits: int) -> str:
        return "%d of %d crates, %d of %d edits" % (proved, self.crates, edits, self.edits)


def first_error(lines: list[str]) -> list[str]:
    """The lines from the first error on, or the last ones where none says so."""
    start = next((i for i, line in enumerate(lines) if re.search(r"\berror\b", line)), max(0, len(lines) - TOLD))
    return [line[:WIDTH] for line in lines[start:start + TOLD]]


class Progress:
    """Counts the steps of a log, and says how far it is."""

    def __init__(self, wanted: Wanted, out: TextIO, is_terminal: bool):
        self.wanted, self.out, self.is_terminal = wanted, out, is_terminal
        self.proved, self.begun, self.refused, self.part = 0, 0, 0, 0
        self.recent: list[str] = []  # what a step says before its last line
        self.ok, self.last = "", ""

    def take(self, line: str):
        """A line of the log, without its end."""
        if PROVED.fullmatch(line):
            self.proved += 1
            self.step()
        elif begun := BEGUN.fullmatch(line):
            self.begun += int(begun[1] or begun[2])
            self.step()
        elif REFUSED.match(line):
            self.refused += 1
            self.step()
        elif FAILED.match(line):
            self.tell([*first_error(self.recent), line])
            self.recent = []
        elif OK.fullmatch(line):
            self.ok = line
            self.tell([line])
        elif LAST.fullmatch(line):
            self.last = line
            self.tell([*([self.said()] if self.is_terminal else []), line])
        else:
            self.recent.append(line)

    def edits(self) -> int:
        """How many edits were begun, or at the end refused."""
        return min(max(self.begun, self.refused), self.wanted.edits)

    def said(self) -> str:
        return self.wanted.said(self.proved, self.edits())

    def step(self):
        """A step forward; the lines before it belong to what went well."""
        self.recent = []
        part = PARTS * (self.proved + self.edits()) // (self.wanted.crates + self.wanted.edits)
        if self.is_terminal:
            print("\r\x1b[K" + self.said(), end="", file=self.out, flush=True)
        elif part > self.part:
            print(self.said(), file=self.out, flush=True)
        self.part = part

    def tell(self, lines: Iterable[str]):
        """Lines that stay."""
        start = "\r\x1b[K" if self.is_terminal else ""
        print(start + "\n".join(lines), file=self.out, flush=True)

    def faults(self) -> Iterator[str]:
        """What is wrong with the run as a whole."""
        last, bad = LAST.fullmatch(self.last), BAD.search(self.ok)
        if not last:
            yield "rt ci has not said how many passed and failed"
        elif int(last[1]):
            yield "%s failed" % last[1]
        elif not self.ok:
            yield "rt ci has not said that it is ok"
        if bad and int(bad[1]):
            yield "%s must-fail edits are bad" % bad[1]


def follow(lines: Iterable[str], log: TextIO, times: TextIO, progress: Progress,
           clock: Callable[[], float] = time.monotonic):
    """Keeps every line in the log, when rt's own came in another file, and says how far it is."""
    began = clock()
    for line in lines:
        log.write(line)
        log.flush()
        if line.startswith("rt: "):
            times.write("%.1f %s" % (clock() - began, line))
        progress.take(line.rstrip("\n"))


def follow_input(given: argparse.Namespace) -> int:
    names = crates.names()
    wanted = Wanted(len(names), sum(map(crates.edits_of, names)))
    progress = Progress(wanted, sys.stdout, sys.stdout.isatty())
    sys.stdin.reconfigure(errors="replace")
    log = Path(given.log)
    with log.open("w", encoding="utf-8") as kept, log.with_suffix(".times").open("w", encoding="utf-8") as times:
        follow(sys.stdin, kept, times, progress)
    return report("progress", progress.faults())


def parser() -> argparse.ArgumentParser:
    about, _, more = __doc__.partition("\n\n")
    top = argparse.ArgumentParser(prog="python3 -m tools.progress", **described(
        about + "\n\n" + more, "rt ci | python3 -m tools.progress target/gate/rt-ci.log"))
    top.add_argument("log", metavar="LOG", help="the file for the whole log")
    top.set_defaults(run=follow_input)
    return top


if __name__ == "__main__":
    sys.exit(run(parser()))
