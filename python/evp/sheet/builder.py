"""A sheet built record by record, from the lines of a text or of csv files.

Each record comes with where it stands, such as `line 6`, which its messages name.
"""

from collections.abc import Iterator
from contextlib import contextmanager
from functools import lru_cache

from evp.layout import CANISTERS, MILEAGE, MOST_ROWS, ROW_FIELDS, SEASON_FIELDS, Field
from evp.sheet.names import Names, as_name
from evp.sheet.products import check_sum, products
from evp.sheet.words import TextError, encode, hexadecimal, whole_number
from evp.wording import Messages

LISTS = ("durations", "hours")
GRID = tuple("grid %d" % t for t in range(1, 25))  # a list for each end hour
ROW_NAMES = [field.name for field in ROW_FIELDS] + ["mileage", "spare"]
SEASON_NAMES = [field.name for field in SEASON_FIELDS]

# What is told of a head apart from its records, and its value.
SINGLE = {
    "letters": lambda word: hexadecimal(word, "letters", 3),
    "version": lambda word: whole_number(word, "version", 2),
    "seasons": lambda word: whole_number(word, "seasons", 1),
    "rows": lambda word: whole_number(word, "rows", 2),
    "zero": lambda word: whole_number(word, "zero", 1),
    "tail": lambda word: hexadecimal(word, "tail"),
    "cut": lambda word: whole_number(word, "cut", 4),
}


def version_for(has_grid: bool, has_mileage: bool, rows: int) -> int:
    """The version of a text with this parking and so many rows."""
    return 1 if not has_grid else 4 if rows > MOST_ROWS else 3 if has_mileage else 2


class Builder:
    """What has been given so far."""

    def __init__(self) -> None:
        self.parking: dict[str, list[bytes]] = {}
        self.ends: dict[str, str] = {}  # where each list ends
        self.seasons: list[bytes] = []
        self.season_places: list[str] = []
        self.season_words: list[dict[str, str]] = []
        self.rows: list[bytes] = []
        self.row_places: list[str] = []
        self.row_words: list[dict[str, str]] = []
        self.names = Names([], [])
        self.version: int | None = None  # that was asked for, whatever the records make
        self.least_version = 1  # a later one where the records need it
        self.single: dict[str, int | bytes] = {}
        self.single_places: dict[str, str] = {}
        self.messages = Messages()
        self.last = "line 0"  # the last line

    @contextmanager
    def at(self, where: str) -> Iterator[None]:
        """Gathers what is wrong here."""
        self.last = where
        try:
            yield
        except TextError as error:
            self.messages.add("%s: %s" % (where, error))

    # ------------------------------------------------------------------ records, each within at()

    def add_counts(self, name: str, words: tuple[str, ...]) -> None:
        """Counts of `durations`, of `hours`, or of an end hour of the grid, `grid 7`."""
        self.parking.setdefault(name, []).extend(encode(word, Field(name, 2)) for word in words)
        self.ends[name] = self.last
        if self.has_grid() and not self.parking.keys().isdisjoint(LISTS):
            raise TextError("a grid stands in place of durations and hours, and both are given")
        if len(self.parking[name]) > 24:
            raise self._miscounted(name)

    def add_season(self, given: dict[str, str], name: str = "") -> None:
        for wanted in SEASON_NAMES:
            if wanted not in given:
                raise TextError("season: %s is missing" % wanted)
        self.seasons.append(_season_record(tuple(given.items())))
        self.season_places.append(self.last)
        self.season_words.append(given)
        self.names.seasons.append(as_name(name))

    def add_row(self, given: dict[str, str], name: str = "") -> None:
        for wanted in ("class", "technology"):
            if wanted not in given:
                raise TextError("row: %s is missing" % wanted)
        if "mileage" in given and "spare" in given:
            raise TextError("row: mileage and spare are the same bytes, and both are given")
        self.rows.append(_row_record(tuple(given.items())))
        self.row_places.append(self.last)
        self.row_words.append(given)
        self.names.rows.append(as_name(name))

    def add_single(self, name: str, words: tuple[str, ...]) -> None:
        if name in self.single:
            raise TextError("%s is given twice" % name)
        if len(words) != 1:
            raise TextError("%s: one value wanted" % name)
        self.single[name], self.single_places[name] = SINGLE[name](words[0]), self.last

    # ------------------------------------------------------------------ the bytes

    def has_grid(self) -> bool:
        return not self.parking.keys().isdisjoint(GRID)

    def data(self) -> bytes:
        """The bytes of the sheet; TextError where anything given cannot be read."""
        if self.messages.many:
            raise TextError(str(self.messages), self.messages.more)
        counts = self._counts()
        data = self._head() + counts + b"".join(self.seasons + self.rows) + self.single.get("tail", b"")
        return data[:self.single["cut"]] if "cut" in self.single else data

    def _miscounted(self, name: str) -> TextError:
        return TextError("%s: 24 counts wanted, %d found" % (name, len(self.parking.get(name, []))))

    def is_multiplied(self) -> bool:
        """Whether two lists become the grid of their products: more rows or a mileage need it, or the version that was
        asked for."""
        if self.has_grid() or "version" in self.single:
            return False
        if self.version is not None:
            return self.version > 1
        return self.least_version > 1 or len(self.rows) > MOST_ROWS or bool(self._driven())

    def _counts(self) -> bytes:
        names = GRID if self.has_grid() else LISTS
        for name in names:
            if len(self.parking.get(name, [])) != 24:
                raise TextError("%s: %s" % (self.ends.get(name, self.last), self._miscounted(name)))
        if self.is_multiplied():
            return self._products()
        return b"".join(b"".join(self.parking[name]) for name in names)

    def _products(self) -> bytes:
        durations, hours = ([int.from_bytes(count, "little") for count in self.parking[name]] for name in LISTS)
        for name, counts, what in zip(LISTS, (durations, hours), ("durations", "end hours")):
            try:
                check_sum(counts, what)
            except TextError as error:
                raise TextError("%s: %s: %s" % (self.ends[name], name, error)) from None
        try:
            return products(durations, hours)
        except TextError as error:
            raise TextError("%s: %s; write a grid in place of the lists" % (self.ends[LISTS[1]], error)) from None

    def _driven(self) -> list[str]:
        """The places of rows with a mileage. Beside lists 0 is none; in a grid it tells the version."""
        rows = zip(self.row_places, self.rows, self.row_words)
        return [place for place, record, given in rows
                if "mileage" in given and (self.has_grid() or any(record[20:24]))]

    def _head(self) -> bytes:
        """The first 8 bytes."""
        version = self._version()
        head = self.single.get("letters", b"EVP") + version.to_bytes(2, "little")
        head += self._count("seasons", self.seasons, 1, version)
        if version == 4:
            return head + self._count("rows", self.rows, 2, version)
        return head + self._count("rows", self.rows, 1, version) + bytes([self.single.get("zero", 0)])

    def _version(self) -> int:
        driven, has_grid = self._driven(), self.has_grid() or self.is_multiplied()
        asked = self.single.get("version", self.version)
        if driven and not has_grid:
            raise TextError("%s: row: a mileage wants version 3 or 4, and version %d is asked for" % (
                driven[0], asked or 1))
        made = max(self.least_version, version_for(has_grid, bool(driven), len(self.rows)))
        version = asked if asked is not None else made
        if version == 4 and "zero" in self.single:
            raise TextError("%s: zero: byte 7 of version 4 is one of the count of rows" % self.single_places["zero"])
        return version

    def _count(self, name: str, records: list[bytes], size: int, version: int) -> bytes:
        """A count of the head: as it was given, or of the records."""
        value = self.single.get(name, len(records))
        if value >= 256 ** size:
            raise TextError("%s: %d %s do not fit the head of version %d" % (
                self.single_places.get(name, self.last), value, name, version))
        return value.to_bytes(size, "little")


@lru_cache(maxsize=256)
def _season_record(items: tuple[tuple[str, str], ...]) -> bytes:
    """The bytes of a season. A form that is checked again has most of its records as they were."""
    given = dict(items)
    return b"".join(encode(given[field.name], field) for field in SEASON_FIELDS)


@lru_cache(maxsize=4_096)
def _row_record(items: tuple[tuple[str, str], ...]) -> bytes:
    given = dict(items)
    record = b"".join(encode(_row_word(field.name, given), field) for field in ROW_FIELDS)
    if "mileage" in given:
        return record + encode(given["mileage"], MILEAGE)
    return record + hexadecimal(given.get("spare", "00000000"), "spare", 4)


def _row_word(name: str, given: dict[str, str]) -> str:
    """The value of a field of a row: its number where a word stands for it, and what it is where it is left out."""
    word = given.get(name, "class" if name == "canister" else "0")
    if name == "canister" and word in CANISTERS:
        return str(CANISTERS[word])
    if name == "tank" and word == "class":
        return "0"
    return word
