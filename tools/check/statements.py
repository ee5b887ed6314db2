"""Statements of the crates, read from their files: declarations, imports, and contracts of functions.

Not a command of its own. A statement is a `Place`: a name, with the crate and the file of specs/ that declares it. One
name may be declared in several crates, so that a name is resolved by the `use` lines of the file that mentions it.
"""

import re
from collections.abc import Iterable, Iterator
from functools import cache
from pathlib import Path
from typing import NamedTuple

from tools.check.definitions import clauses
from tools.command import TOP

DECLARATION = re.compile(r" *(?:abbrev |unfoldable )?pub (?:record |data )?([^\s:]+)(.*)")
OTHER = re.compile(r" *(?:pub )?(?:use|mod|module|infix|infixl|infixr)\b")
IMPORT = re.compile(r"use Rattle\.(\w+)\.specs\.([A-Z]\w*)\.\{([^}]*)\}")
WORD = re.compile(r"(?<![^\s(){},;])[^\s(){},;.]+")  # of a projection, as row.class, what stands before the dot


class Place(NamedTuple):
    """Where a definition is: crates/CRATE/specs/FILE.antt, under this name."""
    crate: str
    file: str
    name: str

    @property
    def path(self) -> Path:
        return TOP / "crates" / self.crate / "specs" / (self.file + ".antt")


class Declaration(NamedTuple):
    """What a file declares under a name: how far it is indented, its type, and all of it, a record with its fields."""
    indent: int
    type: str
    text: str


class Contract(NamedTuple):
    """What a function requires, and each clause of what it ensures; empty where it states none."""
    requires: str
    clauses: tuple[str, ...]

    @property
    def ensures(self) -> str:
        return " × ".join(self.clauses)


def one_line(text: str) -> str:
    return " ".join(text.split())


def code_lines(text: str) -> Iterator[str]:
    """The lines of a file of antt, without comments and empty lines."""
    for line in text.splitlines():
        code = re.sub(r"(^|\s)--(\s.*)?$", "", line).rstrip()
        if code:
            yield code


def declarations(text: str) -> dict[str, Declaration]:
    """The public declarations of a file of antt."""
    found: dict[str, tuple[int, list[str], list[str]]] = {}
    indent, types, body = -1, list[str](), list[str]()
    for line in code_lines(text):
        depth = len(line) - len(line.lstrip())
        if indent >= 0 and depth > indent:
            (body or types).append(line)  # until the first equation it is the type that goes on
        elif OTHER.match(line):
            indent = -1
        elif head := DECLARATION.fullmatch(line):
            indent, types, body = depth, [head[2]], []
            found[head[1]] = indent, types, body
        elif indent >= 0:
            body.append(line)
    return {name: Declaration(depth, one_line(" ".join(types)).removeprefix(": "), "\n".join(types + body))
            for name, (depth, types, body) in found.items()}


def imports(text: str) -> dict[str, Place]:
    """The definitions of specs/ that a file takes, by their names."""
    return {name.strip(): Place(crate, file, name.strip())
            for crate, file, names in IMPORT.findall(text) for name in names.split(",")}


@cache
def read(path: Path) -> str:
    return path.read_text(encoding="utf-8")


@cache
def declared(path: Path) -> dict[str, Declaration]:
    return declarations(read(path))


def find(place: Place) -> Declaration | None:
    """The declaration at a place; None where there is none."""
    return declared(place.path).get(place.name) if place.path.is_file() else None


def mentioned(text: str, known: dict[str, Place]) -> frozenset[Place]:
    """The definitions that a text mentions by these names."""
    return frozenset(known[word] for word in WORD.findall(text) if word in known)


def mentions(place: Place) -> frozenset[Place]:
    """The definitions that a definition mentions, those of its own file among them."""
    declaration = find(place)
    if declaration is None:
        return frozenset()
    own = {name: Place(place.crate, place.file, name) for name in declared(place.path)}
    return mentioned(declaration.text, imports(read(place.path)) | own)


def reached(start: Iterable[Place], through: frozenset[str]) -> set[Place]:
    """The definitions that are met from these, each mentioned by the one before it, by way of these names alone."""
    met, waiting = set(start), list(start)
    while waiting:
        place = waiting.pop()
        for further in mentions(place) - met if place.name in through else ():
            met.add(further)
            waiting.append(further)
    return met


def contract(text: str, function: str) -> Contract | None:
    """The contract of a function of a Rattle file; None where there is no such function."""
    found = re.search(r"\bfn %s[(<].*?\{$" % re.escape(function), text, re.S | re.M)
    if not found:
        return None
    said = clauses(found[0])
    requires, ensures = ([clause for kind, clause in said if kind == word] for word in ("requires", "ensures"))
    return Contract(" × ".join(requires), tuple(ensures))


def law_type(path: Path, law: str) -> Declaration | None:
    """What a file of proofs declares under the name of a law; None where it has no such public law."""
    return declared(path).get(law)
