"""The must-fail edits, crates/*/must-fail/*.edit: does each try what it says, and with --logs, is it refused by a fact?

rt reads an edit line by line: `file:`, `old:` and `new:` each hold for one
line, and any other line is passed over without a word. So an edit whose old or
new text has two lines tries something else than it says. Every line begins with
`#`, `file:`, `old:` or `new:`; an `old:` is followed at once by its `new:`; its
text stands once in the file, where the pairs before it are done; the file is one
of src/ or specs/, since an edit of a proof shows nothing of a contract; and some
line says what the edit would break.

With --logs, the log of `rt ci` or `rt must-fail` must have a line for every edit
that says it was refused. The first error that stands there, cut by rt after 160
characters, must show a goal that fails: two types that differ, an equation or a
computed test that is false, or values at which `omega`'s goal fails.
Where the prover only found no proof, the edited statement may still be true: it is
then not called refused by a fact, and is printed with the line `# why: ..` of the
edit, which says why it is false, or with the remark that no line says it. A name
or a field that is gone, a goal that has another name, or a file that does not
parse shows nothing at all, and is a fault; so is an edit that rt calls bad, that it
did not try, or that only a limit of the prover refused.

With --try, one edit is tried in seconds: it is done in its crate, `rt check` is run
there and the crate's files are put back. Its first error is printed.
"""

import re
import subprocess
from collections.abc import Iterable, Iterator
from pathlib import Path
from typing import NamedTuple

from tools.command import TOP

EDITS = "crates/*/must-fail/*.edit"
# What rt says of an edit: of which crate, which edit, and what came of it.
TRIED = re.compile(r"^rt: must-fail (\w+)/(\S+)\.edit: (.*)", re.M)
REFUSED = "refused, as it must be"

ERROR = re.compile(r": error[:\[]|^error|: no proof: |^note: \S+:\d+:\d+: it is not proved that ")

# First errors that show nothing of a fact, by the words that rattle and antt have for them.
NO_FACTS = {
    "a goal that is named otherwise": r"that can be named from here|(?<!the )expected type `goal\.",
    "a name that is gone": r"is not in scope|has no `[^`]*`|no module is found by the path|was not admitted",
    "a field that is gone": r"has no field",
    "a proof that is asked for": r"no proof: expected",
    "a file that does not parse": r"error: (expected|unexpected|parse|syntax)",
    "a part that is not made": r"the borrow checker does not cover|unsupported-",
    "an argument too many or too few": r"takes \d+ argument|is not a function|too many arguments",
}

# First errors that show a goal that fails: values of omega; two types that differ, in a fact or in a computed test;
# what a `rw` leaves of an equation; a case of a `data` type at another value than the goal's; or a test that computes
# to false.
FACTS = {
    "values at which the goal fails": r"`omega`: .* All of that holds, and the goal fails|"
                                      r"the facts known there allow values a",
    "two types that differ": r"the two types (first differ|differ|are `)|"
                             r"expected type `(?:.*but this has type `|[^`]*$)",
    "an equation whose ends differ": r"must be a path whose two ends are equal, and `.*` is none",
    "two indices that differ": r"the two indices are `.*` \(the constructor's\) and `.*` \(the expected|"
                               r"lands at index `[^`]*` \(position \d+\) but the expected type",
    "a computed test that is false": r"the two sides are `(?:Prim\.)?Unit[^`]*` \(left\) and `(?:Prim\.)?⊥` \(right\)",
}

# Every other first error: the prover gave up, and the edited statement may be true.
NO_COUNTEREXAMPLE = "not proved; no counterexample shown"
NO_REASON = "no line `# why:` says why it is false"


class Fault(NamedTuple):
    """What is wrong with an edit, and in which of its lines."""
    line: int
    what: str


class Change(NamedTuple):
    """A text that is put in place of another, in a file of the crate; `line` is that of its old text."""
    line: int
    file: str
    old: str
    new: str


def read(text: str) -> tuple[list[Change], list[Fault]]:
    """The changes of an edit, as rt reads them, and what is wrong with its form."""
    changes, faults = [], []
    file, old = None, None
    said = False
    for number, line in enumerate(text.splitlines(), 1):
        if old is not None and not line.startswith("new:"):
            faults.append(Fault(number - 1, "an old: that no new: follows"))
            old = None
        if line.startswith("#"):
            said = True
        elif line.startswith("file: "):
            file = line.removeprefix("file: ")
        elif line.startswith("old: "):
            old = line.removeprefix("old: ")
        elif line.startswith("new:"):
            if old is None or file is None:
                faults.append(Fault(number,
                                    "a new: without an old: before it" if old is None else "no file: before it"))
            else:
                changes.append(Change(number - 1, file, old, line.removeprefix("new:").removeprefix(" ")))
            old = None
        else:
            faults.append(Fault(number, "a line that rt passes over: %r" % line))
    if old is not None:
        faults.append(Fault(len(text.splitlines()), "an old: that no new: follows"))
    if not said:
        faults.append(Fault(1, "no line says what it would break"))
    if not changes:
        faults.append(Fault(1, "it changes nothing"))
    return changes, faults


def reason(text: str) -> str:
    """Why an edit's statement is false, as its lines `# why:` say it; empty where it has none."""
    return " ".join(line.removeprefix("# why:").strip() for line in text.splitlines() if line.startswith("# why:"))


def misplaced(changes: Iterable[Change], crate: Path) -> Iterator[Fault]:
    """Changes whose old text is not once in its file, where those before it are done."""
    texts: dict[str, str] = {}
    for change in changes:
        path = crate / change.file
        if not path.is_file():
            yield Fault(change.line, "%s is no file of the crate" % change.file)
            continue
        if not change.file.startswith(("src/", "specs/")):
            yield Fault(change.line, "%s is neither code nor a definition" % change.file)
        text = texts.setdefault(change.file, path.read_text(encoding="utf-8"))
        count = text.count(change.old)
        if count != 1:
            yield Fault(change.line, "its old text is %d times in %s" % (count, change.file))
        if change.old == change.new:
            yield Fault(change.line, "its new text is the old one")
        texts[change.file] = text.replace(change.old, change.new)


def form_faults(edit: Path) -> list[Fault]:
    changes, faults = read(edit.read_text(encoding="utf-8"))
    return faults + list(misplaced(changes, edit.parent.parent))


def first_error(log: str) -> str:
    """The first error of a check, or goal that it left, with the lines that belong to it; empty where there is none."""
    lines = log.splitlines()
    for i, line in enumerate(lines):
        if ERROR.search(line):
            rest = []
            for more in lines[i + 1:]:
                if not more.startswith("  "):
                    break
                rest.append(more.strip())
            return " ".join([line, *rest])
    return ""


class Refusal(NamedTuple):
    """How an edit was refused: what is printed of it, and what is wrong with it, empty where it is as it must be."""
    said: str
    fault: str


def first_of(patterns: dict[str, str], error: str) -> str:
    """The name of the first pattern that an error has; empty where it has none."""
    return next((name for name, pattern in patterns.items() if re.search(pattern, error)), "")


def refusal(error: str, why: str) -> Refusal:
    """What the first error of a check shows; `why` says why the edit is false, where its file does."""
    if not error:
        return Refusal("", "no error in its log")
    nothing = first_of(NO_FACTS, error)
    if nothing:
        return Refusal("", "%s: %s" % (nothing, error[:200]))
    fact = first_of(FACTS, error)
    if fact:
        return Refusal("refused by a fact, %s: %s" % (fact, error[:600]), "")
    because = "false because " + why if why else NO_REASON
    return Refusal("%s; %s: %s" % (NO_COUNTEREXAMPLE, because, error[:600]), "")


def changed(changes: Iterable[Change], crate: Path) -> dict[Path, str]:
    """The files of a crate that an edit changes, as it leaves them."""
    texts: dict[Path, str] = {}
    for change in changes:
        path = crate / change.file
        text = texts.get(path) or path.read_text(encoding="utf-8")
        texts[path] = text.replace(change.old, change.new)
    return texts


def tried(edit: Path) -> str:
    """What `rt check` says of an edit's crate with the edit done; the files are put back, whatever happens."""
    crate = edit.parent.parent
    made = changed(read(edit.read_text(encoding="utf-8"))[0], crate)
    before = {path: path.read_bytes() for path in made}
    try:
        for path, text in made.items():
            path.write_text(text, encoding="utf-8")
        run = subprocess.run(["rt", "check"], cwd=crate, stdout=subprocess.PIPE, stderr=subprocess.STDOUT)
    finally:
        for path, data in before.items():
            path.write_bytes(data)
    if not run.returncode:
        raise ValueError("%s is still proved with this edit" % crate.name)
    return run.stdout.decode(errors="replace")


def try_edit(edit: Path) -> tuple[str, list[str]]:
    """What the first error of one edit shows, and what is wrong with it."""
    found = ["line %d: %s" % fault for fault in form_faults(edit)]
    if found:
        return "", found
    try:
        log = tried(edit)
    except (ValueError, FileNotFoundError) as error:
        return "", [str(error)]
    shown = refusal(first_error(log), reason(edit.read_text(encoding="utf-8")))
    return shown.said, [shown.fault] if shown.fault else []


def outcomes(log: str) -> dict[tuple[str, str], str]:
    """What a log of `rt ci` or `rt must-fail` says of each edit, by its crate and its name."""
    return {(crate, edit): said for crate, edit, said in TRIED.findall(log)}


def logged(edit: Path, said: dict[tuple[str, str], str]) -> Refusal:
    """What a log shows of an edit."""
    crate = edit.parent.parent.name
    outcome = said.get((crate, edit.stem))
    if outcome is None:
        return Refusal("", "the log says nothing of it; rt must-fail %s tries it" % crate)
    if not outcome.startswith(REFUSED):
        return Refusal("", outcome[:200])
    how, _, error = outcome.removeprefix(REFUSED).partition(": ")
    if how:  # in brackets, that a proof names what is gone, or that the prover met a limit
        return Refusal("", "refused" + how.partition(", so this says")[0].rstrip(")") + ")")
    return refusal(error, reason(edit.read_text(encoding="utf-8")))


def unproved(log: str, crates: Iterable[str] = ()) -> Iterator[str]:
    """The edits of which a log shows no counterexample, with why they are false where their files say it."""
    said = outcomes(log)
    for edit in find(crates):
        if logged(edit, said).said.startswith(NO_COUNTEREXAMPLE):
            why = reason(edit.read_text(encoding="utf-8"))
            yield "%s: %s; %s" % (
                edit.relative_to(TOP), NO_COUNTEREXAMPLE, "false because " + why if why else NO_REASON)


def faults(log: str | None = None, crates: Iterable[str] = ()) -> Iterator[str]:
    """What is wrong with the edits of these crates, or of all; with a log, in it too."""
    said = None if log is None else outcomes(log)
    for edit in find(crates):
        name = edit.relative_to(TOP)
        for fault in form_faults(edit):
            yield "%s, line %d: %s" % (name, *fault)
        if said is not None and logged(edit, said).fault:
            yield "%s: %s" % (name, logged(edit, said).fault)


def find(crates: Iterable[str] = ()) -> list[Path]:
    wanted = set(crates)
    return [edit for edit in sorted(TOP.glob(EDITS)) if not wanted or edit.parent.parent.name in wanted]
