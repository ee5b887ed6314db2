"""The names that README.md, CONTRIBUTING.md and docs/*.md give: is each file, link and function there?

A path that begins with a folder of the repository, such as crates/fields/src/limits.rt,
must be there, and so must what a link leads to, with its heading; what rt makes in a
crate's folder out/ need not. `name` in crates/../file.rt must be a function, a
constant or a definition of that file; several names may stand before one `in`. In a
path NAME, X, * and {..} stand for any name. `law` in crate/proofs/File must stand in that file; so must, in the
tables of docs/READING.md, the definitions beside crate: File, and that page must
speak of every file of definitions. Whatever else stands as one name in `..` must be
a name of some source file. docs/changes, docs/PORT.md and docs/DESIGN-PASS.md tell how
things were: of these the links alone are looked at.
"""

import re
from collections import Counter
from collections.abc import Iterator
from pathlib import Path

from tools.check.promises import has_word
from tools.command import OUT, TOP

READING = "docs/READING.md"
HISTORY = ("docs/PORT.md", "docs/DESIGN-PASS.md")
FOLDERS = ("crates", "tools", "docs", "python", "bench", "include", "samples", "c")
PATH = re.compile(r"(?<![\w/.:-])((?:%s)/[\w./*-]*\w[\w*/]*)" % "|".join(FOLDERS))
ANY = re.compile(r"\*|\bNAME\b|\bX\b|\.\.|\{")
MADE = re.compile(r"crates/\w+/%s/" % OUT)  # what rt makes, and no file of the repository
LINK = re.compile(r"\[[^\]]*\]\(([^)\s]+)\)")
LAW = re.compile(r"`([^`]+)` in ([a-z_]+/proofs/\w+)")
SPECS = re.compile(r"([a-z_]+): ([A-Z]\w*(?:, [A-Z]\w*)*)")
NAMED = re.compile(r"((?:`[\w·≤⊎-]+`(?:, and |, | and | or )?)+) in (crates/[\w/-]+\.(?:rt|antt))")
NAME = re.compile(r"`([A-Za-z][\w·-]+\w)`")
ELSEWHERE = {"ldconfig", "malloc"}  # names of others that a page speaks of
SOURCES = (".rt", ".antt", ".py", ".h", ".c", ".cc", ".rs", ".edit", ".txt", "")  # what has names, by its ending


def pages() -> list[Path]:
    history = {TOP / page for page in HISTORY}
    return [TOP / "README.md", TOP / "CONTRIBUTING.md", *sorted(set((TOP / "docs").glob("*.md")) - history)]


def words_of(path: Path) -> str:
    """A page with spaces and line ends made one."""
    return " ".join(path.read_text(encoding="utf-8").split())


def named(path: Path) -> Iterator[tuple[str, str]]:
    """The functions that a page names, each with its file."""
    for names, file in NAMED.findall(words_of(path)):
        yield from ((name, file) for name in re.findall(r"`([^`]+)`", names))


def has_name(text: str, name: str) -> bool:
    """Whether a file of Rattle has a function, a constant or a definition of this name."""
    code = r"\b(?:fn|const|struct|enum|mod) %s\b" % re.escape(name)
    definition = r"^ *(?:(?:unfoldable|abbrev|pub|record|data) +)*%s(?= |$)" % re.escape(name)
    return bool(re.search(code, text) or re.search(definition, text, re.M))


def headings(path: Path) -> set[str]:
    """The anchors of a page's headings, as a reader of Markdown makes them: one that is there already gets a number."""
    seen: Counter[str] = Counter()
    found = set()
    for title in re.findall(r"^#+ (.+)$", path.read_text(encoding="utf-8"), re.M):
        anchor = re.sub(r"[^\w\- ]", "", title.lower()).replace(" ", "-")
        found.add("%s-%d" % (anchor, seen[anchor]) if seen[anchor] else anchor)
        seen[anchor] += 1
    return found


def link_faults(path: Path) -> Iterator[str]:
    """Links of a page that lead nowhere."""
    for link in LINK.findall(path.read_text(encoding="utf-8")):
        place, _, heading = link.partition("#")
        if re.match(r"\w+:", place):
            continue
        led = (path.parent / place).resolve() if place else path
        if not led.exists():
            yield "a link to %s, which is not there" % place
        elif heading and led.suffix == ".md" and heading not in headings(led):
            yield "a link to %s, and no heading there is #%s" % (place or "the page itself", heading)


def path_faults(text: str) -> Iterator[str]:
    """Paths of a page's words that are not there."""
    for path in sorted(set(PATH.findall(text))):
        if not (ANY.search(path) or MADE.match(path)
                or any((TOP / (path + end)).exists() for end in ("", ".antt", ".evp"))):
            yield "there is no %s" % path


def function_faults(path: Path) -> Iterator[str]:
    """Names that their files do not have."""
    for name, file in named(path):
        if name.startswith("_"):  # the end of a name that stands before it
            continue
        if (TOP / file).is_file() and not has_name((TOP / file).read_text(encoding="utf-8"), name):
            yield "%s has no %s" % (file, name)


def law_faults(text: str) -> Iterator[str]:
    """Laws that their files do not have."""
    for name, place in LAW.findall(text):
        file = TOP / "crates" / (place + ".antt")
        if not file.is_file() or not has_word(file.read_text(encoding="utf-8"), name):
            yield "crates/%s.antt has no %s" % (place, name)


def source_names() -> set[str]:
    """Every name of a source file, and those of the files and folders themselves."""
    found: set[str] = set()
    for path in TOP.rglob("*"):
        parts = path.relative_to(TOP).parts
        if {"target", OUT, ".git", "docs", "tests"} & set(parts) or path.suffix not in SOURCES:
            continue
        found.add(path.stem)
        if path.is_file() and path.name not in ("stdin", "stdout"):
            found.update(re.findall(r"[\w·-]*\w", path.read_text(encoding="utf-8", errors="replace")))
    return found


def unknown_faults(text: str, known: set[str]) -> Iterator[str]:
    """Names of a page that no source file has."""
    for name in sorted(set(NAME.findall(text)) - known - ELSEWHERE):
        yield "no source file has %s" % name


def spec_faults(text: str) -> Iterator[str]:
    """Definitions in a page's tables that their files do not have: the file in the first cell, or in that of a row
    above where it is empty, and its names in the second."""
    files: list[Path] = []
    for line in text.splitlines():
        cells = [cell.strip() for cell in line.split("|")[1:-1]]
        if len(cells) < 2 or cells[0] and not SPECS.fullmatch(cells[0].split(";")[0]):
            files = []
            continue
        if cells[0]:
            files = [TOP / "crates" / crate / "specs" / (file + ".antt")
                     for crate, named_files in SPECS.findall(cells[0]) for file in named_files.split(", ")]
        yield from ("there is no %s" % file.relative_to(TOP) for file in files if not file.is_file())
        held = " ".join(file.read_text(encoding="utf-8") for file in files if file.is_file())
        yield from ("%s has no %s" % (files[0].relative_to(TOP), name) for name in re.findall(r"`([^`]+)`", cells[1])
                    if files and not has_word(held, name) and "◌%s◌" % name not in held)


def unread_faults(text: str) -> Iterator[str]:
    """Files of definitions that a page does not speak of; Lib only lists those of its crate."""
    told = {(crate, file) for crate, files in SPECS.findall(" ".join(text.split())) for file in files.split(", ")}
    for path in sorted((TOP / "crates").glob("*/specs/*.antt")):
        crate = path.parent.parent.name
        if path.stem != "Lib" and (crate, path.stem) not in told:
            yield "nothing is said of %s: %s" % (crate, path.stem)


def faults() -> Iterator[str]:
    known = source_names()
    for path in pages():
        text = words_of(path)
        for fault in (*link_faults(path), *path_faults(text), *function_faults(path), *law_faults(text),
                      *unknown_faults(text, known)):
            yield "%s: %s" % (path.relative_to(TOP), fault)
    reading = (TOP / READING).read_text(encoding="utf-8")
    yield from ("%s: %s" % (READING, fault) for fault in (*spec_faults(reading), *unread_faults(reading)))
    for path in (*(TOP / page for page in HISTORY), *sorted((TOP / "docs" / "changes").glob("*.md"))):
        yield from ("%s: %s" % (path.relative_to(TOP), fault) for fault in link_faults(path))
