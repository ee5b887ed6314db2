"""The text of a sheet's bytes."""

from collections.abc import Iterable, Iterator
from itertools import zip_longest

from evp.layout import (
    CANISTER_NAMES, GRID_END, LISTS_END, MILEAGE, MOST_ROWS, ROW_FIELDS, SEASON_FIELDS, Field, counts, has_grid,
    has_mileage, length_of, row_count, row_place, season_count, season_place, version_of,
)
from evp.sheet.builder import GRID, LISTS, version_for
from evp.sheet.names import NO_NAMES, Names
from evp.sheet.words import TextError

MOST_TAIL = GRID_END - LISTS_END  # bytes behind the records that a text tells: what a grid has more than two lists


def read(data: bytes, names: Names = NO_NAMES) -> str:
    """The text of a sheet's bytes, with the names of its records as comments; write() makes the same bytes of it."""
    if len(data) < 8:
        raise TextError("%d bytes, too few for a head" % len(data))
    end = length_of(data)
    if len(data) < end:
        raise TextError("%d bytes, too few for the records its head tells of" % len(data))
    if len(data) > end + MOST_TAIL:
        raise TextError("%d bytes follow the records its head tells of; evp explain says what is wrong" % (
            len(data) - end))
    lines = [*_head(data), *_parking(data), *_named_lines(_seasons(data), names.seasons),
             *_named_lines(_rows(data), names.rows)]
    if data[end:]:
        lines.append("tail %s" % data[end:].hex())
    return "\n".join(lines) + "\n"


def told_version(data: bytes) -> int | None:
    """The version, where the records make another one, or none."""
    version, rows = version_of(data), row_count(data)
    made = version_for(has_grid(data), has_mileage(data) and rows > 0, rows)
    return version if version != made or rows > MOST_ROWS and not has_grid(data) else None


def _head(data: bytes) -> Iterator[str]:
    """What of the head the rest of the text does not tell."""
    if data[0:3] != b"EVP":
        yield "letters %s" % data[0:3].hex()
    if told_version(data) is not None:
        yield "version %d" % told_version(data)
    if version_of(data) != 4 and data[7]:
        yield "zero %d" % data[7]


def _parking(data: bytes) -> Iterator[str]:
    for i, name in enumerate(GRID if has_grid(data) else LISTS):
        yield "%s %s" % (name, " ".join(map(str, counts(data, 8 + 48 * i))))


def _seasons(data: bytes) -> Iterator[str]:
    for i in range(season_count(data)):
        yield "season " + _named(record_words(data, season_place(data, i), SEASON_FIELDS))


def _rows(data: bytes) -> Iterator[str]:
    fields = (*ROW_FIELDS, MILEAGE) if has_mileage(data) else ROW_FIELDS
    for i in range(row_count(data)):
        place = row_place(data, i)
        spare = data[place + 20:place + 24]
        rest = " spare=%s" % spare.hex() if not has_mileage(data) and any(spare) else ""
        yield "row " + _named(record_words(data, place, fields)) + rest


def _named_lines(lines: Iterable[str], names: list[str]) -> Iterator[str]:
    """The lines of records, each with the name of its record behind it."""
    for line, name in zip_longest(lines, names, fillvalue=""):
        if line:
            yield "%s  # %s" % (line, name) if name else line


def _named(words: dict[str, str]) -> str:
    return " ".join("%s=%s" % word for word in words.items())


def record_words(data: bytes, at: int, fields: Iterable[Field]) -> dict[str, str]:
    """The fields of a record as words, by name."""
    found = {}
    for field in fields:
        value = int.from_bytes(data[at:at + field.size], "little", signed=field.signed)
        at += field.size
        found[field.name] = field.shown(value)
        if field.name == "canister":
            found[field.name] = CANISTER_NAMES.get(value, str(value))
        if field.name == "tank" and value == 0:
            found[field.name] = "class"
    return found
