"""The lines of a text, taken into a builder."""

import re
from collections.abc import Iterable, Iterator

from evp.sheet.builder import GRID, LISTS, ROW_NAMES, SEASON_NAMES, SINGLE, Builder
from evp.sheet.words import TextError, whole_number
from evp.wording import quoted


def write(text: str) -> bytes:
    """The bytes of the sheet that a text describes; TextError with the line number where the text cannot be read."""
    return take_text(text).data()


def take_text(text: str, label: str = "") -> Builder:
    """What the lines of a text give; messages begin with the label."""
    builder = Builder()
    for number, line in enumerate(_lines(text), 1):
        with builder.at("%sline %d" % (label, number)):
            given, _, comment = line.partition("#")
            words = given.split()
            if words:
                _take_line(builder, comment, *words)
    return builder


def _lines(text: str) -> Iterator[str]:
    """The lines of a text one by one, as str.splitlines has them all at once."""
    place = 0
    for end in re.finditer("\r\n|[\n\v\f\r\x1c-\x1e\x85\u2028\u2029]", text):
        yield text[place:end.start()]
        place = end.end()
    if place < len(text):
        yield text[place:]


def _take_line(builder: Builder, comment: str, name: str, *words: str):
    """A line; the comment behind a season or a row is its name."""
    if name in LISTS:
        builder.add_counts(name, words)
    elif name == "grid":
        builder.add_counts(_end_hour(words), words[1:])
    elif name == "season":
        builder.add_season(_fields(words, SEASON_NAMES), comment)
    elif name == "row":
        builder.add_row(_fields(words, ROW_NAMES), comment)
    elif name in SINGLE:
        builder.add_single(name, words)
    else:
        raise TextError("%s: no such line (durations, hours, grid, season, row, version)" % quoted(name))


def _end_hour(words: tuple[str, ...]) -> str:
    if not words:
        raise TextError("grid: an end hour and its counts wanted")
    name = "grid %d" % whole_number(words[0], "grid", 1)
    if name not in GRID:
        raise TextError("grid: end hour %s is not 1 to 24" % words[0])
    return name


def _fields(words: Iterable[str], wanted: list[str]) -> dict[str, str]:
    """The name=value words of a line, each name known and given once."""
    found: dict[str, str] = {}
    for word in words:
        name, equals, value = word.partition("=")
        if not equals:
            raise TextError("%s: name=value wanted" % quoted(word))
        if name not in wanted:
            raise TextError("%s: no such field (%s)" % (quoted(name), ", ".join(wanted)))
        if name in found:
            raise TextError("%s is given twice" % name)
        found[name] = value
    return found
