"""The table of the crates in docs/ARCHITECTURE.md, from crates.txt and the words that stand there.

A section of crates.txt is a heading with its table: of each crate its kind, its
must-fail edits and what it is. The words of the last column are written by hand
and kept; a crate without words, or words of a crate that is gone, are an error.
A new crate's line, | `NAME` | | | what it is |, may stand in any of the tables:
it is put in its place.
"""

import re
from collections.abc import Iterator

from tools import crates
from tools.command import TOP, MadeFile
from tools.crates import Section
from tools.make.error import MakeError
from tools.make.layers import look_of

PAGE = "docs/ARCHITECTURE.md"
START = "<!-- The crates: python3 -m tools.make crates puts them in the order of crates.txt -->\n"
END = "<!-- End of the crates -->\n"
HEAD = "| Crate | Kind | Edits | What it is |\n|---|---|---|---|\n"
LINE = re.compile(r"^\| `(\w+)` \|[^|]*\|[^|]*\| (.+) \|$", re.M)


def parts_of(page: str) -> tuple[str, str, str]:
    """What stands before the table, the table, and what stands behind it."""
    before, start, rest = page.partition(START)
    table, end, behind = rest.partition(END)
    if not start or not end:
        raise MakeError("%s has no place for the table: %s .. %s" % (PAGE, START.strip(), END.strip()))
    return before + start, table, end + behind


def section_table(section: Section, words: dict[str, str]) -> str:
    lines = ["| `%s` | %s | %s | %s |\n" % (
        name, look_of(name), crates.edits_of(name) or "", words[name]) for name, *_ in section.crates]
    return "\n### %s\n\n%s\n\n" % (section.title, section.about[0].upper() + section.about[1:]) + HEAD + "".join(lines)


def made(page: str, sections: list[Section]) -> str:
    """The page with the table in the order of the sections."""
    before, table, behind = parts_of(page)
    words = dict(LINE.findall(table))
    names = [crate.name for section in sections for crate in section.crates]
    for name in names:
        if name not in words:
            raise MakeError("%s does not say what `%s` is" % (PAGE, name))
    for name in words:
        if name not in names:
            raise MakeError("%s has a line of `%s`, which crates.txt does not list" % (PAGE, name))
    return before + "".join(section_table(section, words) for section in sections) + "\n" + behind


def files() -> Iterator[MadeFile]:
    yield MadeFile(PAGE, made((TOP / PAGE).read_text(encoding="utf-8"), crates.sections()).encode())
