"""docs/TIMES.md: the gate's time by crate and by step, from the log of rt ci, target/gate/rt-ci.log; or another file.

rt ci says no time of a check or of an edit, and does several at once. So of each
crate of crates.txt, lowest first, the page has the seconds from the start of rt ci
until it was proved, from the file that tools.progress writes beside the log, or
that an earlier run on that machine had proved the same; and how many edits it has.
The steps are those of steps.log beside that log, as `.ci/run` keeps them. `.ci/run`
writes the page of its own run to target/gate/TIMES.md with `--to`; to commit it,
leave --to out.
"""

import re
from collections import Counter
from collections.abc import Iterator
from pathlib import Path
from typing import NamedTuple

from tools import crates
from tools.command import MadeFile
from tools.make.error import MakeError

PAGE = "docs/TIMES.md"
STEPS = "steps.log"
WHOLE, CI = "the whole gate", "rt ci"
COLUMNS = 3
KEPT = "kept"
HEAD = "|" + " Crate | Proved | Edits |" * COLUMNS
TEXT = """\
# The gate's time by crate

Each run of the gate writes this page of itself to target/gate/TIMES.md; docs/TIMES.md is the last that was committed,
of an earlier run. The run had {tests} tests: {crates} crates proved, the programs run behind them, and
{edits} must-fail edits refused. Of each crate stand the seconds from the start of rt ci until it was proved, several at
a time, or `kept` where an earlier run on that machine had proved the same; and how many must-fail edits it has.

{table}
{new} crates were proved in this run, the last of them, `{latest}`, after {most} s; {kept} were kept. rt ci took
{whole} s with the edits and the programs. docs/DECISIONS.md says what an edit may cost.

## By step

The whole gate took {minutes} minutes. The vectors of reports are compared beside the steps before rt ci.

{steps}"""


class Times(NamedTuple):
    """When a crate was proved, None where an earlier run had; and how many of its edits were refused."""
    proved: int | None
    edits: int

    def cells(self, crate: str) -> str:
        return " %s | %s | %s |" % (crate, KEPT if self.proved is None else "%d" % self.proved, self.edits or "")


def read(log: str, times: str) -> dict[str, Times]:
    """The times of the crates in the log of rt ci, and in what stands beside it."""
    proved = {crate: round(float(when)) for when, crate in re.findall(r"^([\d.]+) rt: (\w+) proved$", times, re.M)}
    kept = re.findall(r"^rt: (\w+) is kept: ", log, re.M)
    refused = Counter(re.findall(r"^rt: must-fail (\w+)/\S+: refused", log, re.M))
    for crate in refused:
        if crate not in proved and crate not in kept:
            raise MakeError("an edit of %s, which was not proved" % crate)
    found = {crate: Times(when, refused[crate]) for crate, when in proved.items()}
    return found | {crate: Times(None, refused[crate]) for crate in kept}


def read_steps(log: str) -> dict[str, int]:
    """The seconds of the gate's steps."""
    found = {what: int(seconds) for what, seconds in re.findall(r"^(.+): (\d+) s$", log, re.M)}
    for step in (WHOLE, CI):
        if step not in found:
            raise MakeError("%s does not have the time of %s" % (STEPS, step))
    return found


def table(times: dict[str, Times], names: list[str]) -> str:
    """The lines of the table; the crates go down its columns."""
    missing = [name for name in names if name not in times]
    if missing:
        raise MakeError("the log has no time of %s" % ", ".join(missing))
    cells = [times[name].cells(name) for name in names]
    depth = -(-len(cells) // COLUMNS)
    cells += ["  |  |  |"] * (depth * COLUMNS - len(cells))
    rows = ["|" + "".join(cells[i::depth]) for i in range(depth)]
    return "\n".join([HEAD, "|" + "---|" * 3 * COLUMNS, *rows]) + "\n"


def step_table(steps: dict[str, int]) -> str:
    lines = ["| %s | %s |\n" % (what, "{:,}".format(seconds)) for what, seconds in steps.items() if what != WHOLE]
    return "| Step | Seconds |\n|---|---|\n" + "".join(lines)


def page(times: dict[str, Times], steps: dict[str, int], names: list[str]) -> str:
    """The page of these times."""
    lines = table(times, names)
    edits = sum(times[name].edits for name in names)
    new = {name: proved for name in names if (proved := times[name].proved) is not None}
    latest = max(new, key=new.__getitem__) if new else ""
    text = TEXT.format(
        tests="{:,}".format(len(names) + edits), crates=len(names), edits=edits, table=lines, new=len(new),
        latest=latest, most="{:,}".format(new.get(latest, 0)), kept=len(names) - len(new),
        whole="{:,}".format(steps[CI]), minutes=round(steps[WHOLE] / 60), steps=step_table(steps))
    return text if new else text.replace(", the last of them, ``, after 0 s", "")


def files(log: Path, to: str = PAGE) -> Iterator[MadeFile]:
    said, times, steps = (path.read_text(encoding="utf-8")
                          for path in (log, log.with_suffix(".times"), log.with_name(STEPS)))
    yield MadeFile(to, page(read(said, times), read_steps(steps), crates.names()).encode())
