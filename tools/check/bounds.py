"""The lower crate: do the crates above it cite its stated bounds alone?

Of the modules in bounds/proofs six are public, and antt lets a crate above cite no
other: Laws, which passes on laws, and the calculus of enclosures. Held here: what
Laws passes on is a field of the record `Laws`, and some crate above cites it; the
calculus takes nothing of a series, a root or a number computed for one; and no
definition of `bounds` is opened, but where the examples of document 01 are computed.
"""

import re
from collections.abc import Iterator
from functools import cache
from pathlib import Path

from tools.command import TOP, crate_files

BOUNDS = TOP / "crates" / "bounds"

# Modules that compute with enclosures, fractions and tables alone.
CALCULUS = {"Within", "Units", "Table", "Line", "ShortLine"}

# The definitions by which others speak of a series, of a root or of values computed for one.
SERIES = {
    "term", "S", "E", "root", "root_from", "coarse", "middle", "constants", "finest", "far", "far_above",
    "thetas", "power",
}

# Where the definitions are opened, for the examples and values that must compute; others open them through this file.
OPEN = "crates/exact/proofs/Open.antt"

USE = re.compile(r"^(?:unfoldable )?(?:pub )?use Rattle\.bounds\.(specs|proofs)\.([\w.]+)\.\{([^}]*)\}", re.M)
DEFINED = re.compile(r"^(?:(?:unfoldable|abbrev) )?pub (?:record )?(\S+) ")


def used(text: str, folder: str) -> Iterator[tuple[str, str]]:
    """The names that a file takes of bounds' definitions or of its laws, each with its module."""
    for where, module, names in USE.findall(text):
        if where == folder:
            yield from ((name, module) for name in names.split(", "))


def laws_file() -> str:
    return (BOUNDS / "proofs" / "Laws.antt").read_text()


def listed(text: str) -> set[str]:
    """The laws that bounds/proofs/Laws passes on."""
    passed = "\n".join(line for line in text.splitlines() if line.startswith("pub use "))
    return {name for name, _ in used(passed, "proofs")}


def fields(text: str) -> set[str]:
    """The names that it puts into fields of the record."""
    return {word for line in re.findall(r" = (.*)", text) for word in re.split(r"[\s;{}().]+", line)}


def public(text: str) -> set[str]:
    """The modules that a list of modules makes public."""
    return set(re.findall(r"^pub mod (\w+)", text, re.M))


def blocks(text: str) -> Iterator[tuple[str, str]]:
    """The definitions of a file, each with its text, without comments."""
    plain = "\n".join(line.split("--")[0].rstrip() for line in text.splitlines())
    for block in re.split(r"\n(?=(?:(?:unfoldable|abbrev) )?pub )", plain):
        if found := DEFINED.match(block):
            yield found[1], block


@cache
def speaking() -> frozenset[str]:
    """The definitions of bounds that speak of a series or a root, themselves or by others."""
    bodies = dict(pair for file in BOUNDS.glob("specs/*.antt") for pair in blocks(file.read_text()))
    words = {name: set(re.split(r"[\s(){}.;,]+", body)) for name, body in bodies.items()}
    found, before = set(SERIES), set()
    while found != before:
        before = set(found)
        found |= {name for name in words if words[name] & before}
    return frozenset(found)


def spoken(text: str) -> list[str]:
    """What a module of the calculus takes that speaks of a series: definitions, and laws of other modules."""
    definitions = [name for name, _ in used(text, "specs") if name in speaking()]
    return definitions + [name for name, module in used(text, "proofs") if module not in CALCULUS]


def shut() -> set[str]:
    """The definitions of bounds that a proof would have to open."""
    files = [*BOUNDS.glob("specs/*.antt"), *BOUNDS.glob("proofs/*.antt")]
    return {name for file in files for name in re.findall(r"^ *unfoldable pub (\S+) :", file.read_text(), re.M)}


def above() -> Iterator[Path]:
    """Every file of proofs and definitions above bounds."""
    for file in crate_files(".antt"):
        if file.relative_to(TOP / "crates").parts[0] != "bounds":
            yield file


def opened(text: str, closed: set[str]) -> list[str]:
    """Definitions of bounds that a file opens."""
    names = {name for line in re.findall(r"^ *unfolding (.*(?:\n {4,}[^=:]*$)*)", text, re.M) for name in line.split()}
    cited = {name for folder in ("specs", "proofs") for name, _ in used(text, folder)}
    return sorted(names & closed & cited)


def computing() -> list[Path]:
    """The files that open the definitions through `definitions`, to compute with them."""
    return [file for file in above() if re.search(r"^ *unfolding .*\bdefinitions\b", file.read_text(), re.M)]


def inside() -> Iterator[str]:
    """What is wrong in bounds itself: modules, laws outside the record, and a calculus that speaks of E."""
    modules = public((BOUNDS / "proofs" / "Lib.antt").read_text())
    yield from ("bounds/proofs/%s is public" % module for module in sorted(modules - CALCULUS - {"Laws"}))
    text = laws_file()
    for name in sorted(listed(text) - fields(text)):
        yield "bounds/proofs/Laws passes on %s, which is no field" % name
    for module in sorted(CALCULUS):
        for name in spoken((BOUNDS / "proofs" / (module + ".antt")).read_text()):
            yield "bounds/proofs/%s takes %s, and is to speak of no series" % (module, name)


def faults() -> list[str]:
    """What is wrong in bounds, definitions that are opened above it, and laws that no crate above cites."""
    closed = shut()
    found = list(inside())
    cited: set[str] = set()
    for file in above():
        place, text = str(file.relative_to(TOP)), file.read_text()
        cited |= {name for name, _ in used(text, "proofs")}
        if place != OPEN:
            found += ["%s opens %s of bounds" % (place, name) for name in opened(text, closed)]
    return found + ["bounds/proofs/Laws lists %s, which no crate above cites" % name
                    for name in sorted(listed(laws_file()) - cited)]
