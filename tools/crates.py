"""crates.txt: its sections, and of each crate what it stands on; and the edits of a crate."""

import re
from typing import NamedTuple

from tools.command import TOP

LIST = "crates.txt"
SECTION = re.compile(r"# ([^:]+): (.+)")
CRATE = re.compile(r"(\w+)( staticlib)?:(.*)")


class Crate(NamedTuple):
    """A crate, and those of this repository that its files name; whether it is a static library, for C."""
    name: str
    needs: list[str]
    is_static: bool = False


class Section(NamedTuple):
    """The crates under one comment of the list: its word before the colon, and what follows it."""
    title: str
    about: str
    crates: list[Crate]


def read(text: str) -> list[Section]:
    """The sections of a list, whose first line is a heading; what a crate needs of the kit is left out."""
    found: list[Section] = []
    known = set(re.findall(r"^(\w+)(?: staticlib)?:", text, re.M))
    for number, line in enumerate(text.splitlines(), 1):
        crate, section = CRATE.fullmatch(line), SECTION.fullmatch(line) if number > 1 else None
        if crate and found:
            needs = [need for need in crate[3].split() if need in known]
            found[-1].crates.append(Crate(crate[1], needs, crate[2] is not None))
        elif section:
            found.append(Section(section[1], section[2], []))
        elif line and number > 1:
            raise ValueError("%s, line %d: neither a section, `# Title: what`, nor a crate" % (LIST, number))
    return found


def sections() -> list[Section]:
    return read((TOP / LIST).read_text(encoding="utf-8"))


def names() -> list[str]:
    """All crates, lowest first."""
    return [crate.name for section in sections() for crate in section.crates]


def edits_of(name: str) -> int:
    """How many must-fail edits a crate has."""
    return len(list((TOP / "crates" / name / "must-fail").glob("*.edit")))
