"""The year and the region in the name of a file or in the cells of a table."""

import re
import unicodedata
from functools import lru_cache
from pathlib import PurePath
from typing import NamedTuple

from evp.sheet.words import TextError
from evp.wording import quoted

FIRST_YEAR, LAST_YEAR = 1900, 2100
NO_START, NO_END = 0, 9999  # of a range that is open on one side
DATE = re.compile(r"(?<!\d)\d{4}[-_.](?:0[1-9]|1[0-2])[-_.](?:0[1-9]|[12]\d|3[01])(?!\d)")
APART = re.compile(r"(?<![0-9A-Za-z])\d{4}(?![0-9A-Za-z])")  # a year with no letter beside it
JOINED = re.compile(r"(?<!\d)\d{4}(?!\d)")  # also north1990
SEPARATORS = " -_.,;()[]+#"
# Words of a file's name that are no region.
OTHER_WORDS = re.compile(
    r"(?<![^\W_])(?:evp|sheets?|inventor(?:y|ies)|emissions?|evaporati(?:on|ve)|nmvoc|submission|years?|y|"
    r"final|draft|copy|corrected|revised|(?:v|ver|version|rev)[ ._-]?\d+)(?![^\W_])|\(\d{1,2}\)", re.IGNORECASE)
EVERY = ("", "all", "*", "any")


class Span(NamedTuple):
    """Years from the first to the last, both included."""
    first: int
    last: int


ALL_YEARS = Span(NO_START, NO_END)


class Name(NamedTuple):
    """What a name says: the years in it, and the region."""
    years: list[int]
    region: str


@lru_cache(4096)
def region_key(region: str) -> str:
    """The same for every spelling of a region: capital letters, spaces and the form of an umlaut do not matter."""
    return " ".join(unicodedata.normalize("NFC", region).casefold().split())


def _years_in(text: str) -> list[int]:
    """The different years of a text; those with letters beside them only where there is no other."""
    for pattern in (APART, JOINED):
        found = dict.fromkeys(int(word) for word in pattern.findall(text))
        years = [year for year in found if FIRST_YEAR <= year <= LAST_YEAR]
        if years:
            return years
    return []


def _without(text: str, years: list[int]) -> str:
    """A text without its years and without words that name no region."""
    for year in years:
        text = re.sub(r"(?<!\d)%d(?!\d)" % year, "\0", text)
    parts = (OTHER_WORDS.sub("\0", part).split("\0") for part in text.split("\0"))
    words = (word.strip(SEPARATORS) for part in parts for word in part)
    return " ".join(word for word in words if word)


def name_of(path: PurePath) -> Name:
    """Year and region of a path: of the file's name, and where that has none, of its folders. `path` starts within the
    project and has no suffix."""
    stem = DATE.sub(" ", unicodedata.normalize("NFC", path.name))
    years = _years_in(stem)
    folders = [unicodedata.normalize("NFC", part) for part in path.parts[:-1]]
    if not years:
        for folder in reversed(folders):
            years = years or _years_in(folder)
    regions = [_without(part, _years_in(part)) for part in (*folders, stem)]
    return Name(years, "/".join(region for region in regions if region))


# ------------------------------------------------------------------ cells


def year_of(word: str) -> int:
    """A year of a table; 1990.0 is what a spreadsheet may write."""
    form = re.fullmatch(r"(\d{4})(?:[.,]0+)?", word.strip(), re.ASCII)
    if form is None or not FIRST_YEAR <= int(form[1]) <= LAST_YEAR:
        raise TextError("year: %s is no year from %d to %d; write 1990, 1990-1999, 2005- or leave it empty" % (
            quoted(word), FIRST_YEAR, LAST_YEAR))
    return int(form[1])


@lru_cache(4096)
def spans_of(word: str) -> tuple[Span, ...]:
    """The years of a cell: one, a range, one open on a side, or several of these; an empty cell holds for all."""
    word = word.strip().replace("\u00a0", " ")
    if word.casefold() in EVERY:
        return (ALL_YEARS,)
    return tuple(_span(part.strip()) for part in re.split(r"[,;/&+]| and ", word) if part.strip())


def _span(word: str) -> Span:
    form = re.fullmatch(r"(.*?)\s*(?:-|\u2013|\u2014|\u2212|\.\.+|\u2026|\bto\b|\buntil\b)\s*(.*)", word)
    if form is None:
        since = re.fullmatch(r"(?:from|since)\s+(.*)|(.*?)\s+(?:on|onwards?)", word, re.IGNORECASE)
        if since:
            return Span(year_of(since[1] or since[2]), NO_END)
        return Span(year_of(word), year_of(word))
    begin = re.sub(r"^from\s+|^up$", "", form[1].strip(), flags=re.IGNORECASE)
    first = year_of(begin) if begin else NO_START
    last = year_of(form[2]) if form[2] else NO_END
    if first > last:
        raise TextError("year: %s ends before it begins" % quoted(word))
    return Span(first, last)


def is_open(span: Span) -> bool:
    """Whether a range has no first or no last year."""
    return span.first == NO_START or span.last == NO_END
