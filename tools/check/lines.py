"""Lines of Markdown, Python and shell files: is each at most 120 characters long? Of Rattle at most 150?

Three kinds of line of Markdown may be longer, since nothing can wrap them: a row
of a table, a line of code or of output (indented or fenced), and one with no
place to break, such as a heading or a long link. Python and shell files have no
such line. Files of Rattle are laid out by `rt fmt`, which wraps nothing and puts the
lemmas of a function's `#[tactic(..)]` on one line, however long that is; one of
them, of computed values, is written by a program and has longer lines. Files
under target/ are not read.

--wrap writes the paragraphs and items of Markdown anew that have a longer line.
"""

import re
from collections.abc import Iterator
from pathlib import Path
from typing import NamedTuple

from tools.command import OUT, TOP

LIMIT = 120
RATTLE, RATTLE_LIMIT = (".rt", ".antt"), 150
MADE = TOP / "crates/exact/proofs/Values.antt"  # fractions of a hundred digits
TACTIC = "#[tactic("
SKIPPED = {"target", OUT, ".git", "__pycache__"}

ITEM = re.compile(r"( *)([-*+]|\d+[.)]) +")
FENCE = re.compile(r" *(```|~~~)")
# What would be read as something else at the start of a line.
STARTS = re.compile(r"[-*+]$|\d+[.)]$|[#>|]|[=-]+$|```|~~~")


class Block(NamedTuple):
    """Lines of Markdown that belong together; where `is_text`, they may be wrapped."""
    first: int
    lines: list[str]
    is_text: bool


def files() -> Iterator[Path]:
    """The files whose lines are looked at, by their names or their first line."""
    for path in sorted(TOP.rglob("*")):
        if not path.is_file() or SKIPPED & set(path.relative_to(TOP).parts):
            continue
        if path.suffix in (".md", ".py", ".sh", *RATTLE) and path != MADE:
            yield path
        elif not path.suffix:
            with path.open("rb") as file:
                if re.match(rb"#!.*\b(bash|sh|python3)\b", file.readline()):
                    yield path


def indent_of(line: str) -> int:
    return len(line) - len(line.lstrip(" "))


def blocks(text: str) -> Iterator[Block]:
    """The blocks of a text in their order."""
    held: list[str] = []
    start, fenced, margin = 1, False, 0  # the margin is where the text of an item stands
    for number, line in enumerate([*text.splitlines(), ""], 1):
        fence, begins = FENCE.match(line), ITEM.match(line)
        is_code = fenced or fence or line.startswith(("|", "#")) or not held and indent_of(line) >= margin + 4
        if held and (not line.strip() or begins or is_code):
            yield Block(start, held, True)
            held = []
        if not line.strip() or is_code:
            yield Block(number, [line], False)
        else:
            if not held:
                start = number
                margin = len(begins.group()) if begins else min(margin, indent_of(line))
            held.append(line)
        if fence:
            fenced = not fenced


def words_of(text: str) -> list[str]:
    """The words of a text; a short piece of code is one of them."""
    parts = re.findall(r"(?:`[^`]{1,60}`|\S)+", text)
    return [" ".join(part.split()) for part in parts]


def wrapped(lines: list[str]) -> list[str]:
    """The same words in lines up to the limit, an item's further lines under its first word."""
    begins = ITEM.match(lines[0])
    first = begins.group() if begins else re.match(" *", lines[0]).group()
    indent = " " * len(first)
    words = words_of(" ".join([lines[0][len(first):], *lines[1:]]))
    made, current = [], []
    for word in words:
        if current and len(indent) + len(" ".join([*current, word])) > LIMIT:
            carried = [word]
            while STARTS.match(carried[0]) and len(current) > 1:
                carried.insert(0, current.pop())
            made.append(" ".join(current))
            current = carried
        else:
            current.append(word)
    made.append(" ".join(current))
    return [(indent if i else first) + line for i, line in enumerate(made)]


def rewrapped(text: str) -> str:
    """A text of Markdown whose paragraphs and items have no longer line than they must."""
    made = []
    for block in blocks(text):
        long = block.is_text and any(len(line) > LIMIT for line in block.lines)
        made += wrapped(block.lines) if long else block.lines
    return "\n".join(made[:-1]) + "\n"


def long_lines(text: str, suffix: str) -> Iterator[int]:
    """The lines of a text that are too long; in Markdown those that could be shorter."""
    if suffix != ".md":
        limit = RATTLE_LIMIT if suffix in RATTLE else LIMIT
        yield from (number for number, line in enumerate(text.splitlines(), 1)
                    if len(line) > limit and not (suffix == ".rt" and line.lstrip(" ").startswith(TACTIC)))
        return
    for block in blocks(text):
        for number, line in enumerate(block.lines, block.first):
            if block.is_text and len(line) > LIMIT and len(wrapped([line])) > 1:
                yield number


def faults(paths: list[Path]) -> Iterator[str]:
    """The lines of these files that are too long."""
    for path in paths:
        text = path.read_text(encoding="utf-8")
        for number in long_lines(text, path.suffix):
            yield "%s:%d: %d characters" % (path.relative_to(TOP), number, len(text.splitlines()[number - 1]))


def wrap(paths: list[Path]) -> list[Path]:
    """Wraps those of these files that are Markdown, and gives those that have changed."""
    changed = []
    for path in (path for path in paths if path.suffix == ".md"):
        text = path.read_text(encoding="utf-8")
        made = rewrapped(text)
        if made != text:
            path.write_text(made, encoding="utf-8")
            changed.append(path)
    return changed
