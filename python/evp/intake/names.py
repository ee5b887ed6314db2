"""Rows, mechanisms and sheets by the names that people give them."""

import difflib
import re
import unicodedata
from collections.abc import Collection, Mapping
from functools import lru_cache
from pathlib import PurePosixPath
from typing import Any, NamedTuple, cast

from evp.figures import TOTAL, Figure
from evp.intake.numbers import TWO_THINGS, NotRead
from evp.library import GROUPS, MECHANISMS
from evp.wording import quoted

NEAR = 0.8  # how alike two names are at least, as difflib counts it
SUM = "sum"  # the name of all three mechanisms together
ROWS = {
    "cars": ("cars", "car", "passenger cars", "passenger car", "pc", "pcs", "all cars", "sum cars", "total cars",
             "cars total", "pkw", "gasoline cars", "petrol cars", "private cars"),
    "light": ("light", "light duty", "light duty vehicles", "light duty vehicle", "ldv", "ldvs", "ldt", "lcv", "lcvs",
              "light commercial vehicles", "light commercial vehicle", "light vehicles", "light duties", "vans", "van",
              "light duty trucks", "lightduty", "total light duty"),
    "two": ("two", "two wheelers", "two wheeler", "2 wheelers", "2 wheeler", "twowheelers", "twowheeler", "two wheels",
            "two wheeled vehicles", "motorcycles", "motorcycles and mopeds", "mopeds and motorcycles",
            "powered two wheelers", "ptw", "l category", "total two wheelers"),
    "all": ("all", "all rows", "all vehicles", "all categories", "all classes", "whole fleet", "fleet", "sum of rows",
            "sum of all rows", "all together", "subtotal", "sub total"),
    TOTAL: ("total", "totals", "grand total", "sum total", "overall", "overall total", "total mass", "sum", "gesamt",
            "summe", "total emissions", "total nmvoc", "total evaporation", "total sum"),
}
MECHANISM_WORDS = {
    "diurnal": ("diurnal", "diurnals", "diurnally", "diurnal breathing", "day", "daily", "parked", "parking"),
    "soak": ("soak", "soaks", "hot soak", "hotsoak", "hot soaks", "hot and warm soak", "warm and hot soak", "soaking",
             "hot warm soak"),
    "running": ("running", "run", "runnings", "running loss", "driving", "runing"),
    SUM: ("total", "totals", "all", "sum", "all mechanisms", "all three", "overall", "together", "grand total"),
}
_BEHIND = re.compile(r"\s+(?:loss(?:es)?|emissions?|evaporations?|evaporative|mass(?:es)?|vapou?rs?|evap|nmvoc|voc)$")
_ROW_NUMBER = re.compile(r"(?:row|rows|r|no|nr|number|line|zeile|#)?\s*0*([0-9]{1,18})(?:\s*[.,]0+|\.)?(?P<more>\D.*)?")


@lru_cache(maxsize=4096)
def plain(text: str) -> str:
    """A name in small letters, words apart by one space."""
    text = unicodedata.normalize("NFKC", text).casefold()
    return " ".join(re.sub(r"[\s_\-\u2010-\u2015:;|]+", " ", text).strip(" .,*'\"()[]").split())


_ROW_BY_NAME = {word: row for row, words in ROWS.items() for word in words}
_MECHANISM_BY_NAME = {word: mechanism for mechanism, words in MECHANISM_WORDS.items() for word in words}


class _Tries:
    """How many words may still be compared with all names. Each takes a part of a millisecond, and a table of bad lines
    may have any number of them."""
    MOST = 400
    left = MOST


def start() -> None:
    """Allows as many comparisons as a class may need, and forgets what was read of another class."""
    for cached in (mechanism_of, row_of, figure_of, figure, plain):
        cast(Any, cached).cache_clear()
    _Tries.left = _Tries.MOST


def near(word: str, known: Mapping[str, str]) -> str:
    """What the names that are near a word all stand for; empty where they stand for several things, or none is near."""
    if not 4 <= len(word) <= 30 or _Tries.left <= 0:
        return ""
    _Tries.left -= 1
    found = {known[name] for name in difflib.get_close_matches(word, known, 5, NEAR)}
    return found.pop() if len(found) == 1 else ""


@lru_cache(maxsize=4096)
def mechanism_of(text: str) -> str:
    """The mechanism that a name stands for, SUM for all of them; empty where it is none."""
    word = plain(text)
    bare = _BEHIND.sub("", _BEHIND.sub("", word))
    for form in (word, bare):
        if form in _MECHANISM_BY_NAME:
            return _MECHANISM_BY_NAME[form]
    return near(bare, _MECHANISM_BY_NAME)


@lru_cache(maxsize=4096)
def row_of(text: str) -> str:
    """The row or category that a name stands for: a number from 1, one of the subtotals, or total; else empty."""
    word = plain(text)
    if word in _ROW_BY_NAME:
        return _ROW_BY_NAME[word]
    number = _ROW_NUMBER.fullmatch(word)
    if number and not (number["more"] and (word[0].isdigit() or re.match(r"\s*[0-9.,]", number["more"]))):
        return str(int(number[1]))
    bare = _BEHIND.sub("", word)
    return _ROW_BY_NAME.get(bare, "") or near(bare, _ROW_BY_NAME)


@lru_cache(maxsize=4096)
def figure_of(text: str) -> Figure | None:
    """The figure that one name gives, such as `cars diurnal`, `hot soak (row 2)` or `total`; None where it is none."""
    word = plain(re.sub(r"[/,>()\[\]]", " ", text))
    parts = word.split()
    for size in range(min(5, len(parts)), 0, -1):
        for ends, rest in ((parts[-size:], parts[:-size]), (parts[:size], parts[size:])):
            mechanism = _exact_mechanism(" ".join(ends))
            row = row_of(" ".join(word for word in rest if word not in ("of", "for", "the", "from"))) if rest else ""
            if mechanism and mechanism != SUM and row and row != "0":
                return Figure("all" if row == TOTAL else row, mechanism)
    row = row_of(word)
    return Figure(TOTAL, "") if row == TOTAL else None


def _exact_mechanism(word: str) -> str:
    return _MECHANISM_BY_NAME.get(word, "") or _MECHANISM_BY_NAME.get(_BEHIND.sub("", word), "")


class Named(NamedTuple):
    """A figure by its row and mechanism, and whether both were written plainly."""
    figure: Figure
    plain: bool


@lru_cache(maxsize=16384)
def figure(row: str, mechanism: str) -> Named:
    """The figure of a line; NotRead where its row or its mechanism cannot be read."""
    numbered = row.isascii() and row.isdigit() and row[0] != "0" and len(row) < 19
    if (numbered or row in GROUPS) and mechanism in MECHANISMS:
        return Named(Figure(row, mechanism), True)
    if row == TOTAL and not mechanism:
        return Named(Figure(TOTAL, ""), True)
    both = figure_of(row) if not mechanism else None
    read_row = row_of(row) if row else ""
    if both is not None:
        return Named(both, False)
    return Named(_figure(row, mechanism, read_row), False)


def _figure(row: str, mechanism: str, read_row: str) -> Figure:
    read_mechanism = mechanism_of(mechanism) if mechanism else ""
    if not row and mechanism:
        found = figure_of(mechanism)
        if found is not None:
            return found
        read_row = TOTAL if read_mechanism == SUM else ""
    if not read_row:
        raise NotRead("the row is missing" if not row else "row: %s is no row; write a number from 1, %s or %s" % (
            quoted(row), ", ".join(GROUPS), TOTAL))
    if read_row == "0":
        raise NotRead("row: rows are counted from 1")
    if mechanism and not read_mechanism:
        raise NotRead("mechanism: %s is none of %s" % (quoted(mechanism), ", ".join(MECHANISMS)))
    if read_row in (TOTAL, "all") and read_mechanism in (SUM, ""):
        return Figure(TOTAL, "")
    if read_mechanism == SUM:
        raise NotRead("mechanism: a report has no sum of the three mechanisms but the total")
    if not read_mechanism:
        raise NotRead("the mechanism is missing: %s" % ", ".join(MECHANISMS))
    return Figure("all" if read_row == TOTAL else read_row, read_mechanism)


# ------------------------------------------------------------------ sheets


def stem_of(name: str) -> str:
    """The name of a sheet without folders and ending, in small letters and one form of Unicode."""
    last = PurePosixPath(name.replace("\\", "/")).name
    last = re.sub(r"\.(?:evp|csv|xlsx|xlsm|ods|txt|tsv|zip)$", "", last.strip().strip("'\""), flags=re.IGNORECASE)
    return re.sub(r"[\s_\-]+", " ", unicodedata.normalize("NFC", last).casefold()).strip()


class Sheets:
    """The sheets of a class, to be found by the names that people file under."""

    def __init__(self, names: Collection[str]):
        self.names = set(names)
        self.by_stem: dict[str, list[str]] = {}
        for name in names:
            self.by_stem.setdefault(stem_of(name), []).append(name)
        self._found: dict[tuple[str, str], str] = {}

    def find(self, name: str, folder: str = "") -> str:
        """The sheet of a name, of several with the same name the one in the folder of its table; else the name as it
        was written. NotRead where it can be several."""
        if name in self.names:
            return name
        key = name, folder
        if key not in self._found:
            if len(self._found) > 5_000:
                self._found.clear()
            self._found[key] = self._find(name, folder)
        return self._found[key]

    def _find(self, name: str, folder: str) -> str:
        same = self.by_stem.get(stem_of(name), [])
        if len(same) > 1:
            base = unicodedata.normalize("NFC", PurePosixPath(name.replace("\\", "/")).name)
            same = [found for found in same if PurePosixPath(found).name == base] or same
        if len(same) > 1 and folder:
            same = [found for found in same if str(PurePosixPath(found).parent) == folder] or same
        if len(same) > 1:
            raise NotRead("the name %s %s: %s" % (quoted(name), TWO_THINGS, " or ".join(sorted(same)[:3])))
        return same[0] if same else name

    def near(self, name: str, taken: Collection[str]) -> str:
        """The one sheet with nearly this name that nobody names exactly; else empty."""
        stems = difflib.get_close_matches(stem_of(name), self.by_stem, 3, NEAR)
        found = [sheet for stem in stems for sheet in self.by_stem[stem]]
        return found[0] if len(found) == 1 and found[0] not in taken else ""

    def of_file(self, *names: str) -> str:
        """The sheet that the name of a file, a tab or a folder tells, such as `North final.xlsx`; else empty."""
        for name in filter(None, names):
            same = self.by_stem.get(stem_of(name), [])
            if len(same) == 1:
                return same[0]
            words = re.split(r"[^\w]+|_", stem_of(name))
            joined = " %s " % " ".join(filter(None, words))
            found = {sheets[0] for stem, sheets in self.by_stem.items()
                     if len(sheets) == 1 and stem and " %s " % " ".join(re.split(r"[^\w]+|_", stem)) in joined}
            if len(found) == 1:
                return found.pop()
        return ""
