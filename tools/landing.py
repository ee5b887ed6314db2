"""The check's time before and after a change, by crate: processor seconds of the kit's check on two commits.

    nice -n 19 python3 -m tools.landing 4f3728e 3f15c5b

It checks both commits out into a scratch folder outside the repository and finds
the crates whose own files, or whose line in crates.txt, differ; edits that must
fail are left out, since no check reads them. What these crates depend on is built
first, by `rt lib`, which may take what other copies of the repository kept. Each is
then checked by itself and from nothing, over that, by the kit's `rattle check` with
one job, and the processor time of that run is taken: seconds by the clock depend on
what else runs on the machine. The table is printed as Markdown. With --scratch the
seconds are kept in that folder by the contents of a crate and of all that it depends
on, so that several pairs of commits share them and a run that was interrupted goes on.
"""

import argparse
import hashlib
import json
import re
import resource
import shutil
import signal
import subprocess
import sys
import tempfile
from collections.abc import Iterable, Iterator
from contextlib import ExitStack, contextmanager
from pathlib import Path
from typing import NamedTuple

from tools.command import TOP, described, run

PARTS = ("src", "specs", "proofs")  # what a check reads of a crate
STATIC = "staticlib"  # the word behind the name of a static library
LIMIT = 3600  # seconds by the clock for one check, so that an unattended run ends
SHOWN = 20  # lines of a check that failed


class LandingError(Exception):
    """A commit that cannot be measured."""


class State(NamedTuple):
    """The crates of one commit: the line of each in crates.txt, and a digest of its own files and that line."""
    lines: dict[str, list[str]]
    own: dict[str, str]

    def needs(self, name: str) -> list[str]:
        """The crates of the repository that a crate depends on directly."""
        return [need for need in self.lines[name] if need in self.lines]


class Row(NamedTuple):
    """A crate of the table: its seconds before and after, None where it was not there."""
    name: str
    before: float | None
    after: float | None


def read_lines(text: str) -> dict[str, list[str]]:
    """The crates of a crates.txt, and the words behind each; of a static library the first says that it is one."""
    without = re.sub(r"#.*", "", text)
    found = re.findall(r"^[ \t]*(\w+)((?:[ \t]+%s)?)[ \t]*:(.*)$" % STATIC, without, re.M)
    return {name: (kind + words).split() for name, kind, words in found}


def state_of(text: str, files: Iterable[tuple[str, str]]) -> State:
    """The state by the text of crates.txt and the files below crates/, each with the digest of its contents."""
    lines = read_lines(text)
    own = {name: hashlib.sha256(repr(words).encode()) for name, words in lines.items()}
    for path, digest in sorted(files):
        _, name, part = path.split("/")[:3]
        if name in own and part in PARTS:
            own[name].update(("%s %s\n" % (path, digest)).encode())
    return State(lines, {name: digest.hexdigest() for name, digest in own.items()})


def ordered(names: Iterable[str], state: State) -> list[str]:
    """Crates and all that they depend on, lowest first."""
    found: dict[str, None] = {}

    def visit(name: str):
        if name not in found:
            for need in state.needs(name):
                visit(need)
            found[name] = None

    for name in names:
        visit(name)
    return list(found)


def keys_of(state: State) -> dict[str, str]:
    """A key for each crate, which changes with its files and with those of all that it depends on."""
    keys: dict[str, str] = {}
    for name in ordered(state.lines, state):
        parts = [state.own[name], *(keys[need] for need in state.needs(name))]
        keys[name] = hashlib.sha256(" ".join(parts).encode()).hexdigest()[:24]
    return keys


def changed(before: State, after: State) -> list[str]:
    """The crates whose own files or line differ, lowest first; those that were removed are last."""
    there = [name for name in ordered(after.lines, after) if before.own.get(name) != after.own[name]]
    return there + [name for name in ordered(before.lines, before) if name not in after.lines]


def cell(seconds: float | None, missing: str) -> str:
    return missing if seconds is None else "%.1f" % seconds


def table(rows: Iterable[Row]) -> str:
    """The table of a note, with a last line for the sums."""
    rows = list(rows)
    lines = ["| Crate | Before | After |", "|---|---|---|"]
    lines += ["| %s | %s | %s |" % (row.name, cell(row.before, "new"), cell(row.after, "removed")) for row in rows]
    sums = [sum(seconds or 0.0 for seconds in column) for column in ([r.before for r in rows], [r.after for r in rows])]
    return "\n".join([*lines, "| together | %.1f | %.1f |" % tuple(sums)]) + "\n"


def git(*words: str) -> str:
    """What a command of git prints."""
    ended = subprocess.run(["git", "-C", str(TOP), *words], capture_output=True, text=True)
    if ended.returncode:
        raise LandingError("git %s: %s" % (" ".join(words), ended.stderr.strip()))
    return ended.stdout


def state_at(commit: str) -> State:
    listed = [line.split("\t") for line in git("ls-tree", "-r", commit, "crates/").splitlines()]
    return state_of(git("show", commit + ":crates.txt"), [(path, words.split()[2]) for words, path in listed])


def spent(command: list[str], folder: Path) -> tuple[float, str]:
    """The processor seconds of a command with all that it starts, and what it prints."""
    began = resource.getrusage(resource.RUSAGE_CHILDREN)
    ended = subprocess.run(command, cwd=folder, stdout=subprocess.PIPE, stderr=subprocess.STDOUT, text=True,
                           errors="replace", timeout=LIMIT)
    now = resource.getrusage(resource.RUSAGE_CHILDREN)
    if ended.returncode:
        last = "\n".join(ended.stdout.splitlines()[-SHOWN:])
        raise LandingError("%s in %s has status %d:\n%s" % (" ".join(command), folder, ended.returncode, last))
    return now.ru_utime + now.ru_stime - began.ru_utime - began.ru_stime, ended.stdout


def kit() -> Path:
    """The folder of the kit whose rt is on PATH."""
    found = shutil.which("rt")
    if found is None:
        raise LandingError("rt is not on PATH")
    return Path(found).resolve().parent.parent


def check_words(kit_folder: Path, name: str, state: State, is_program: bool) -> list[str]:
    """The command that checks a crate in its folder from nothing, over what it depends on."""
    below = ordered([name], state)[:-1]
    words = [str(kit_folder / "bin" / "rattle"), "check", "--crate-name", name,
             "src/main.rt" if is_program else "src/lib.rt"]
    for need in ["std", *(word for word in state.lines[name] if word != STATIC)]:
        built = "../%s/out/rlib" % need if need in state.lines else str(kit_folder / "rlibs")
        words += ["--extern", "%s=%s/%s.rlib" % (need, built, need)]
    for folder in [*("../%s/out/rlib" % need for need in below), str(kit_folder / "rlibs")]:
        words += ["-L", "dependency=" + folder]
    words += ["--antt-project", str(kit_folder / "rattle/logic/antt-project.json"),
              "--logic-built", str(kit_folder / "logic_built"), "--links", name + "=", "--jobs", "1"]
    return [*words, "--crate-type", STATIC] if STATIC in state.lines[name] else words


class Records:
    """The seconds of checks, by the key of a crate, in a folder."""

    def __init__(self, folder: Path):
        self.file = folder / "seconds.json"
        self.seconds: dict[str, list[float]] = json.loads(self.file.read_text()) if self.file.exists() else {}

    def taken(self, key: str) -> list[float]:
        return self.seconds.get(key, [])

    def add(self, key: str, seconds: float):
        self.seconds.setdefault(key, []).append(round(seconds, 2))
        self.file.write_text(json.dumps(self.seconds, indent=0))


class Tree:
    """A commit that is checked out, and its crates."""

    def __init__(self, commit: str, folder: Path, records: Records):
        self.commit, self.folder, self.records = commit, folder, records
        self.state = state_at(commit)
        self.keys = keys_of(self.state)
        self.built: set[str] = set()

    def build(self, name: str):
        """Builds what a crate depends on, lowest first."""
        for need in ordered([name], self.state)[:-1]:
            if need not in self.built:
                spent(["rt", "lib"], self.folder / "crates" / need)
                self.built.add(need)

    def check(self, name: str):
        """Proves one crate from nothing, over what it depends on, and records the time."""
        self.build(name)
        folder = self.folder / "crates" / name
        words = check_words(kit(), name, self.state, (folder / "src" / "main.rt").exists())
        seconds, _ = spent(words, folder)
        print("%s %s: %.1f s" % (self.commit, name, seconds), file=sys.stderr, flush=True)
        self.records.add(self.keys[name], seconds)

    def ensure(self, name: str, times: int):
        """Sees to it that a crate was checked at least so many times."""
        while len(self.records.taken(self.keys[name])) < times:
            self.check(name)

    def least(self, name: str) -> float | None:
        """The least of the seconds taken: what disturbs a check only adds to it."""
        return min(self.records.taken(self.keys[name])) if name in self.keys else None


@contextmanager
def checked_out(commit: str, scratch: Path, records: Records) -> Iterator[Tree]:
    """A worktree of a commit, which is removed at the end."""
    folder = Path(tempfile.mkdtemp(prefix=commit + "-", dir=scratch))
    git("worktree", "add", "--detach", "--force", str(folder), commit)
    try:
        yield Tree(commit, folder, records)
    finally:
        git("worktree", "remove", "--force", "--force", str(folder))


def measured(trees: list[Tree], rounds: int, but: list[str]) -> tuple[list[Row], list[Row]]:
    """The crates that changed, and those that did not and were proved anew on the way to them."""
    before, after = trees
    names = [name for name in changed(before.state, after.state) if name not in but]
    orders = [ordered([name for name in names if name in tree.state.lines], tree.state) for tree in trees]
    for times in range(1, rounds + 1):
        for tree, order in zip(trees, orders):
            for name in order:
                tree.ensure(name, times if name in names else 1)
    rows = [Row(name, before.least(name), after.least(name)) for name in names]
    both = [name for name in orders[1] if name in orders[0] and name not in names]
    anew = [Row(name, before.least(name), after.least(name)) for name in both if before.keys[name] != after.keys[name]]
    return rows, anew


def measure(given: argparse.Namespace) -> int:
    with ExitStack() as stack:
        if given.scratch:
            scratch = Path(given.scratch).resolve()
            scratch.mkdir(parents=True, exist_ok=True)
        else:
            scratch = Path(stack.enter_context(tempfile.TemporaryDirectory(prefix="landing-")))
        if scratch.is_relative_to(TOP):
            raise LandingError("%s is in the repository: rt would find the crates of both" % scratch)
        records = Records(scratch)
        trees = [stack.enter_context(checked_out(commit, scratch, records)) for commit in (given.before, given.after)]
        rows, anew = measured(trees, given.rounds, given.but)
    print("Crates that changed between %s and %s, processor seconds\n\n%s" % (given.before, given.after, table(rows)))
    if anew:
        print("Unchanged crates that were proved anew below these\n\n" + table(anew))
    return 0


def measure_or_say(given: argparse.Namespace) -> int:
    signal.signal(signal.SIGTERM, lambda *_: sys.exit(1))  # so that the worktrees are removed then, too
    try:
        return measure(given)
    except (LandingError, subprocess.TimeoutExpired) as fault:
        print("landing: %s" % fault, file=sys.stderr)
        return 1


def parser() -> argparse.ArgumentParser:
    about, _, more = __doc__.partition("\n\n")
    top = argparse.ArgumentParser(prog="python3 -m tools.landing", **described(
        about + "\n\n" + more, "nice -n 19 python3 -m tools.landing --scratch ../landing 4f3728e 3f15c5b"))
    top.add_argument("before", metavar="BEFORE", help="the commit before the change")
    top.add_argument("after", metavar="AFTER", help="the commit with the change")
    top.add_argument("--rounds", type=int, default=1, metavar="N",
                     help="check each crate that changed N times, both commits in turn; the least is printed")
    top.add_argument("--but", nargs="*", default=[], metavar="NAME", help="crates that are not timed")
    top.add_argument("--scratch", metavar="DIR", help="a folder for the seconds that is kept")
    top.set_defaults(run=measure_or_say)
    return top


if __name__ == "__main__":
    sys.exit(run(parser()))
