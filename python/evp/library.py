"""The calls of include/evaporation.h in Python, by ctypes.

A call whose answer has a number raises `Refusal` where the number is not 0, and gives the rest of the answer where it
is. Sheets are bytes; the masses of a report are bands in milligrams, with the exact mass between low and high.

    library = load()
    report = library.report(Path("north.evp").read_bytes())
    print(report.total.low, report.total.high)
"""

import copy
import ctypes
import ctypes.util
import os
import sys
from collections.abc import Iterator, Sequence
from ctypes import POINTER, c_char_p, c_double, c_size_t, c_uint8, c_uint64
from enum import IntEnum
from functools import cache
from itertools import islice
from pathlib import Path
from typing import NamedTuple

from evp.layout import row_count

SHEET_BYTES = 25_256  # of the longest sheet
REPORT_WORDS = 6_026  # of its report
TEXT_BYTES = 151_622
LAST_WORDS = 26  # of a report, behind its rows
FACTORS = 7  # of a season and row
SPECIES = (
    "ethane", "propane", "i-butane", "n-butane", "i-pentane", "n-pentane", "2-methylpentane", "3-methylpentane",
    "n-hexane", "n-heptane",
    "ethene", "propene", "1-butene", "trans-2-butene", "isobutene", "cis-2-butene", "1,3-butadiene",
    "trans-2-pentene", "cis-2-pentene", "isoprene",
    "propyne", "acetylene",
    "benzene", "toluene", "ethylbenzene", "m-xylene", "o-xylene", "1,2,4-trimethylbenzene", "1,3,5-trimethylbenzene",
)
GROUPS = ("cars", "light", "two", "all")  # the subtotals of a report, in its order
MECHANISMS = ("diurnal", "soak", "running")


class Number(IntEnum):
    """Why a call refuses, with the header's words for it; 0 where it does not."""
    text: str

    def __new__(cls, number: int, text: str):
        member = int.__new__(cls, number)
        member._value_, member.text = number, text
        return member

    ACCEPTED = 0, "accepted"
    HEAD_SHORT = 1, "there are fewer than the 8 bytes of a head"
    MARK = 2, "the first three bytes are not the letters EVP"
    VERSION = 3, "the version is not 1 to 4, or of two sheets to pool not 4"
    SEASONS = 4, "the number of seasons is not 1 to 12"
    ROWS = 5, "the number of rows is not 1 to 32, in version 4 not 1 to 1,000"
    HEAD_ZERO = 6, "byte 7 is not 0"
    LENGTH = 7, "the length does not fit the seasons and rows that the head tells of"
    DURATIONS = 8, "the 24 counts of durations do not sum to 1 to 1,000"
    HOURS = 9, "the 24 counts of end hours do not sum to 1 to 1,000"
    DAYS = 10, "the days, alone or with those of the seasons before, are not 1 to 366"
    TEMPERATURES = 11, "a temperature is not -30.0 to 50.0 degrees C, or the lowest is above the highest"
    VAPOUR_PRESSURE = 12, "the vapour pressure is not 30.0 to 110.0 kPa"
    CLASS = 13, "class and technology are not in the table"
    CANISTER = 14, "the canister is none of 0, 1, 2, 3 and 255"
    PERCENT = 15, "a share or the fill level is above 100 percent"
    VEHICLES = 16, "there are more than 10,000,000 vehicles"
    TANK = 17, "the tank is above 150.0 l"
    TRIPS = 18, "there are more than 12.00 trips a day, or more than 1,440 minutes a trip"
    LOAD = 19, "the load is above m_sat, or one of them is given without a canister"
    EXPONENT = 20, "m_sat is too large for the canister"
    ROW_ZEROS = 21, "the last four bytes of the row are not 0"
    ROOM = 22, "the output buffer is too small"
    ABSENT = 23, "there is no such season, row or factor"
    GRID = 24, "the 576 counts of the grid do not sum to 1 to 1,000,000"
    MILEAGE = 25, ("the mileage is above 1,000,000 km, or stands without a canister, beside a load or beside a "
                   "large m_sat")
    FLEET = 26, "with the rows before there are more than 100,000,000 vehicles"
    CELL = 27, "a low is above its high, a mass is above 2^53 mg, or a cell is none"
    TRAVEL = 28, "a mileage or a speed is not 1 to 1,000,000, or town is neither 0 nor 1"
    COUNT = 29, "there is no such row, it has fewer vehicles, or it would have too many"
    RIGHT = 30, "the one who calls has no right to this"
    SHARE = 31, "a row has no owner, or a participant would have more than 100 rows or 10,000,000 vehicles"
    DIFFER = 32, "the seasons or the parking of the two sheets differ"

    @classmethod
    def _missing_(cls, value: object) -> "Number":
        """A number of a later library, which has no name here."""
        member = int.__new__(cls, value)
        member._name_, member._value_, member.text = "NUMBER_%d" % value, value, "a number of a later library"
        return member


class Kind(IntEnum):
    """What a cell of the map has."""
    EMPTY = 0
    EXACT = 1
    BAND = 2
    NONE = 3


class Unit(IntEnum):
    """The unit of a filed mass."""
    MG = 0
    G = 1
    KG = 2
    T = 3


class Outcome(IntEnum):
    """What a band says of a filed mass."""
    AGREES = 0
    FITS = 1
    LOW = 2
    HIGH = 3
    UNREADABLE = 4


class Refusal(Exception):
    """A refused call. `sheet` is 1, 2 or 3 for the first, the second and the pooled sheet of a pool call, else 0."""

    def __init__(self, number: int, place: int, sheet: int = 0):
        super().__init__("refused %d at %d" % (number, place))
        self.number, self.place, self.sheet = Number(number), place, sheet

    @property
    def text(self) -> str:
        """What is wrong, in one sentence; `evp.explain` has more of a sheet."""
        return self.number.text


class MissingCall(Exception):
    """The library is of a time before this call."""


class Band(NamedTuple):
    """Whole milligrams (of a factor: micrograms) with the exact value between them."""
    low: int
    high: int


class Masses(NamedTuple):
    """The masses of a row, or of the rows of a subtotal, in a year."""
    diurnal: Band
    soak: Band
    running: Band


class Report(NamedTuple):
    """The report of an accepted sheet."""
    rows: list[Masses]
    cars: Masses
    light: Masses
    two: Masses
    all: Masses
    total: Band


class Travel(NamedTuple):
    """Whether the owners of a row live in town, and where its vehicles drive."""
    town: bool
    urban_mileage: int
    rural_mileage: int
    highway_mileage: int
    rural_speed: int
    highway_speed: int


class Cell(NamedTuple):
    """A cell of the map: milligrams as doubles that are whole numbers."""
    kind: Kind
    low: float
    high: float


class RowCells(NamedTuple):
    """The three cells of a row."""
    urban: Cell
    rural: Cell
    highway: Cell


class Filed(NamedTuple):
    """A mass as it was filed: 2.834 t has the digits 2834 and 3 places."""
    digits: int
    places: int
    unit: Unit


class Verdict(NamedTuple):
    """The verdict on a filed mass, and by how many milligrams it is off at least; 0 where it agrees or fits."""
    outcome: Outcome
    off: int


class Finding(NamedTuple):
    """What is wrong on a sheet; all zeros where it is accepted. `index` and `season` count from 0; `bytes` is 0 where
    the length of the sheet is meant; temperatures are tenths of a degree plus 32768."""
    number: int
    place: int
    reason: int
    index: int
    season: int
    at: int
    bytes: int
    value: int
    least: int
    most: int


class Composition(NamedTuple):
    """The masses of SPECIES of a sheet's high total, in milligrams."""
    total: int
    milligrams: list[int]


class RowRead(NamedTuple):
    """A row of a shared ledger."""
    count: int
    masses: Masses


# ------------------------------------------------------------------ the structs of the header


def _struct(name: str, *members: str | tuple) -> type[ctypes.Structure]:
    fields = [(member, c_uint64) if isinstance(member, str) else member for member in members]
    return type(name, (ctypes.Structure,), {"_fields_": fields})


_Check = _struct("evp_check", "number", "place")
_FactorBand = _struct("evp_factor_band", "number", "place", "low", "high")
_FactorBands = _struct("evp_factor_bands", "number", "place", ("bands", c_uint64 * (2 * FACTORS)))
_TextCheck = _struct("evp_text_check", "number", "place", "bytes")
_PoolCheck = _struct("evp_pool_check", "number", "place", "sheet", "bytes")
_Composition = _struct("evp_composition", "number", "place", "total", ("milligrams", c_uint64 * len(SPECIES)))
_RowWords = _struct("evp_row_words", *("%s_%s" % (name, end) for name in MECHANISMS for end in Band._fields))
_Travel = _struct("evp_travel", *Travel._fields)
_Cell = _struct("evp_cell", "kind", ("low", c_double), ("high", c_double))
_RowCells = _struct("evp_row_cells", "number", "place", ("urban", _Cell), ("rural", _Cell), ("highway", _Cell))
_CellSum = _struct("evp_cell_sum", "number", "place", ("cell", _Cell))
_Row = _struct("evp_row", "number", "place", "count", ("words", c_uint64 * 6))
_Totals = _struct("evp_totals", "number", "place", ("words", c_uint64 * LAST_WORDS))
_Filed = _struct("evp_filed", *Filed._fields)
_Verdict = _struct("evp_verdict", "verdict", "off")
_Finding = _struct("evp_finding", *Finding._fields)

_SHEET = (c_char_p, c_size_t)  # that is read alone
_CHANGED = (POINTER(c_uint8), c_size_t)
_WORDS = (POINTER(c_uint64), c_size_t)
_SHARED = (*_CHANGED, *_SHEET, *_WORDS)  # a sheet, its owners, its words

# Every call: what it answers and what it takes.
CALLS: dict[str, tuple] = {
    "evp_library_version": (c_uint64,),
    "evp_check_sheet": (_Check, *_SHEET),
    "evp_report_words": (c_size_t, *_SHEET),
    "evp_report": (_Check, *_SHEET, *_WORDS),
    "evp_text": (_TextCheck, *_SHEET, *_WORDS, *_CHANGED),
    "evp_factor": (_FactorBand, *_SHEET, c_uint64, c_uint64, c_uint64),
    "evp_row_factors": (_FactorBands, *_SHEET, c_uint64, c_uint64),
    "evp_factors": (_Check, *_SHEET, *_WORDS),
    "evp_report_seasons": (_Check, *_SHEET, *_WORDS),
    "evp_species": (_Check, c_uint64, *_WORDS),
    "evp_species_of": (_Composition, *_SHEET, *_WORDS),
    "evp_cells_of_row": (_RowCells, _RowWords, _Travel),
    "evp_add_cells": (_CellSum, _Cell, _Cell),
    "evp_arrive": (_Check, *_CHANGED, *_WORDS, c_uint64, c_uint64),
    "evp_depart": (_Check, *_CHANGED, *_WORDS, c_uint64, c_uint64),
    "evp_pool": (_PoolCheck, *_SHEET, *_SHEET, *_CHANGED),
    "evp_shared_open": (_Check, *_SHARED),
    "evp_shared_arrive": (_Check, *_SHARED, c_uint64, c_uint64, c_uint64),
    "evp_shared_depart": (_Check, *_SHARED, c_uint64, c_uint64, c_uint64),
    "evp_shared_row": (_Row, *_SHARED, c_uint64, c_uint64),
    "evp_shared_totals": (_Totals, *_SHARED, c_uint64),
    "evp_mark": (_Verdict, _Filed, c_uint64, c_uint64),
    "evp_explain": (_Finding, *_SHEET),
}


def _word(value: int) -> int:
    """A number for a call; ctypes would cut a larger one off without a word."""
    if not 0 <= value < 1 << 64:
        raise OverflowError("%d is no number of 64 bits" % value)
    return value


def _absent(name: str):
    """Stands for a call that a library does not have."""
    def call(*_):
        raise MissingCall("the library has no call %s; make it anew: bash c/shared" % name)
    return call


def _accepted(answer):
    """The answer of a call that is not refused."""
    if answer.number:
        raise Refusal(answer.number, answer.place, getattr(answer, "sheet", 0))
    return answer


def _bands(words: Sequence[int]) -> Iterator[Band]:
    return map(Band, words[0::2], words[1::2])


def _masses(words: Sequence[int]) -> Iterator[Masses]:
    """Six words each."""
    bands = _bands(words)
    return map(Masses, bands, bands, bands)


def report_of(words: Sequence[int]) -> Report:
    """A report by its words."""
    rows = list(_masses(words[:-LAST_WORDS]))
    return Report(rows, *_masses(words[-LAST_WORDS:-2]), Band(*words[-2:]))


def _cell(cell) -> Cell:
    return Cell(Kind(cell.kind), cell.low, cell.high)


class Library:
    """A shared library of the calls."""

    def __init__(self, path: str | os.PathLike):
        self.path = Path(path)
        loaded = ctypes.CDLL(os.path.abspath(path))
        self.calls = {name: self._bound(loaded, name, *types) for name, types in CALLS.items()}

    @staticmethod
    def _bound(loaded: ctypes.CDLL, name: str, answer, *taken):
        try:
            call = getattr(loaded, name)
        except AttributeError:
            return _absent(name)
        call.restype, call.argtypes = answer, taken
        return call

    def _call(self, name: str, *given):
        """The answer of a call; bytes and buffers are handed over with their lengths."""
        handed = []
        for value in given:
            if isinstance(value, (bytearray, memoryview)):
                value = bytes(value)
            handed.append(_word(value) if isinstance(value, int) else value)
            if isinstance(value, (bytes, ctypes.Array)):
                handed.append(len(value))
        return self.calls["evp_" + name](*handed)

    def version(self) -> tuple[int, int, int]:
        """Major, minor and patch."""
        number = self._call("library_version")
        return number // 10 ** 6, number // 1000 % 1000, number % 1000

    def check(self, sheet: bytes) -> Refusal | None:
        """Where a sheet stops, or None where it is accepted."""
        check = self._call("check_sheet", sheet)
        return Refusal(check.number, check.place) if check.number else None

    def _room(self, sheet: bytes) -> ctypes.Array:
        """As many words as the report of a sheet has; none where it is refused."""
        return (c_uint64 * self._call("report_words", sheet))()

    def words(self, sheet: bytes) -> list[int]:
        """The words of a sheet's report."""
        words = self._room(sheet)
        _accepted(self._call("report", sheet, words))
        return list(words)

    def report(self, sheet: bytes) -> Report:
        return report_of(self.words(sheet))

    def text(self, sheet: bytes) -> str:
        """The lines that the program `report` prints, a refusal's too."""
        text = (c_uint8 * TEXT_BYTES)()
        answer = self._call("text", sheet, self._room(sheet), text)
        return bytes(text[:answer.bytes]).decode("ascii")

    def factor(self, sheet: bytes, season: int, row: int, factor: int) -> Band:
        """A factor, 1 to 7, of a season and a row counted from 0, in micrograms."""
        answer = _accepted(self._call("factor", sheet, season, row, factor))
        return Band(answer.low, answer.high)

    def row_factors(self, sheet: bytes, season: int, row: int) -> list[Band]:
        """The seven factors of a season and a row counted from 0, in micrograms, as `factor` returns them."""
        return list(_bands(_accepted(self._call("row_factors", sheet, season, row)).bands))

    def _shape(self, sheet: bytes) -> tuple[int, int]:
        """The seasons and rows of a sheet; none where it is refused."""
        words = self._call("report_words", sheet)
        return (sheet[5], (words - LAST_WORDS) // 6) if words else (0, 0)

    def factors(self, sheet: bytes) -> list[list[list[Band]]]:
        """The factors of all seasons and rows: `factors(sheet)[season][row]` is `row_factors(sheet, season, row)`."""
        seasons, rows = self._shape(sheet)
        words = (c_uint64 * (2 * FACTORS * seasons * rows))()
        _accepted(self._call("factors", sheet, words))
        bands = _bands(words[:])
        return [[list(islice(bands, FACTORS)) for _ in range(rows)] for _ in range(seasons)]

    def report_seasons(self, sheet: bytes) -> list[Report]:
        """The report of each season alone. Each is rounded by itself: the lows add up to at most the year's low, the
        highs to at least its high."""
        seasons, rows = self._shape(sheet)
        size = 6 * rows + LAST_WORDS
        words = (c_uint64 * (seasons * size))()
        _accepted(self._call("report_seasons", sheet, words))
        return [report_of(words[size * season:size * (season + 1)]) for season in range(seasons)]

    def species(self, total: int) -> list[int]:
        """The masses of SPECIES of a mass, in milligrams."""
        milligrams = (c_uint64 * len(SPECIES))()
        _accepted(self._call("species", total, milligrams))
        return list(milligrams)

    def species_of(self, sheet: bytes) -> Composition:
        """Those of a sheet's high total."""
        answer = _accepted(self._call("species_of", sheet, self._room(sheet)))
        return Composition(answer.total, answer.milligrams[:])

    def cells_of_row(self, masses: Masses, travel: Travel) -> RowCells:
        words = _RowWords(*(_word(word) for band in masses for word in band))
        answer = _accepted(self._call("cells_of_row", words, _Travel(*map(_word, travel))))
        return RowCells(_cell(answer.urban), _cell(answer.rural), _cell(answer.highway))

    def add_cells(self, a: Cell, b: Cell) -> Cell:
        handed = (_Cell(_word(cell.kind), cell.low, cell.high) for cell in (a, b))
        return _cell(_accepted(self._call("add_cells", *handed)).cell)

    def pool(self, first: bytes, second: bytes) -> bytes:
        """The pooled sheet of two."""
        pooled = (c_uint8 * SHEET_BYTES)()
        answer = _accepted(self._call("pool", first, second, pooled))
        return bytes(pooled)[:answer.bytes]

    def mark(self, filed: Filed, band: Band) -> Verdict:
        digits, places, unit = filed
        low, high = band
        if (digits | places | unit | low | high) >> 64:  # all at once, since a class has some 30,000 figures
            for number in (*filed, *band):
                _word(number)
        answer = self.calls["evp_mark"](_Filed(digits, places, unit), low, high)
        return Verdict(Outcome(answer.verdict), answer.off)

    def explain(self, sheet: bytes) -> Finding:
        answer = self._call("explain", sheet)
        return Finding(*(getattr(answer, name) for name in Finding._fields))

    def ledger(self, sheet: bytes) -> "Ledger":
        return Ledger(self, sheet)

    def shared_ledger(self, sheet: bytes, owners: bytes) -> "SharedLedger":
        return SharedLedger(self, sheet, owners)


class _Buffers:
    """A sheet and the words of its report, which calls change."""

    def __init__(self, library: Library, sheet: bytes):
        self._library = library
        self._sheet = (c_uint8 * len(sheet)).from_buffer_copy(sheet)
        self._words = (c_uint64 * REPORT_WORDS)()

    @property
    def sheet(self) -> bytes:
        return bytes(self._sheet)

    @property
    def words(self) -> list[int]:
        return self._words[:6 * row_count(self.sheet) + LAST_WORDS]

    @property
    def report(self) -> Report:
        return report_of(self.words)

    def copy(self):
        """The same with buffers of its own: a call on it leaves this one as it is."""
        twin = copy.copy(self)
        twin._sheet, twin._words = (type(old).from_buffer_copy(old) for old in (self._sheet, self._words))
        return twin


class Ledger(_Buffers):
    """A sheet whose vehicles arrive and depart, its report kept in step; rows count from 0."""

    def __init__(self, library: Library, sheet: bytes):
        super().__init__(library, sheet)
        _accepted(library._call("report", sheet, self._words))

    def arrive(self, row: int, vehicles: int):
        _accepted(self._library._call("arrive", self._sheet, self._words, row, vehicles))

    def depart(self, row: int, vehicles: int):
        _accepted(self._library._call("depart", self._sheet, self._words, row, vehicles))


class SharedLedger(_Buffers):
    """A ledger of eight participants, 1 to 8, and a marker, 0; `owners` has a byte for each row."""

    def __init__(self, library: Library, sheet: bytes, owners: bytes):
        super().__init__(library, sheet)
        self.owners = bytes(owners)
        _accepted(self._call("open"))

    def _call(self, name: str, *given: int):
        return self._library._call("shared_" + name, self._sheet, self.owners, self._words, *given)

    def arrive(self, who: int, row: int, vehicles: int):
        _accepted(self._call("arrive", who, row, vehicles))

    def depart(self, who: int, row: int, vehicles: int):
        _accepted(self._call("depart", who, row, vehicles))

    def row(self, who: int, row: int) -> RowRead:
        answer = _accepted(self._call("row", who, row))
        return RowRead(answer.count, *_masses(answer.words[:]))

    def totals(self, who: int) -> Report:
        """The report without its rows."""
        return report_of(_accepted(self._call("totals", who)).words[:])


# ------------------------------------------------------------------ where the library is

HERE = Path(__file__).resolve().parent
TOP = HERE.parents[1]
WINDOWS = sys.platform == "win32"
NAME = "evaporation.dll" if WINDOWS else "libevaporation.so.1"
FOLDERS = (HERE, TOP / ("bin" if WINDOWS else "lib"), TOP / "target" / "lib")  # of a wheel, a release, the repository
_DI_LINKMAP = 2  # RTLD_DI_LINKMAP of <dlfcn.h>


class _LinkMap(ctypes.Structure):
    """The first members of struct link_map in <link.h>."""
    _fields_ = [("l_addr", c_uint64), ("l_name", c_char_p)]


def installed() -> Path | None:
    """The library that the system's loader finds, by LD_LIBRARY_PATH, ldconfig or in its own folders, on Windows by
    PATH; else None."""
    if WINDOWS:
        named = ctypes.util.find_library(NAME)
        return Path(named) if named else None
    try:
        handle = ctypes.CDLL(NAME)._handle
    except OSError:
        return None
    found = POINTER(_LinkMap)()
    if ctypes.CDLL(None).dlinfo(ctypes.c_void_p(handle), _DI_LINKMAP, ctypes.byref(found)):
        return None
    return Path(os.fsdecode(found.contents.l_name))


def find() -> Path | None:
    """The library that EVP_LIBRARY names, else that of a wheel, of a release, of the repository, or an installed one;
    None where there is none."""
    named = os.environ.get("EVP_LIBRARY")
    if named:
        return Path(named)
    return next((folder / NAME for folder in FOLDERS if (folder / NAME).exists()), None) or installed()


@cache
def load() -> Library:
    """The library, loaded once; FileNotFoundError where there is none."""
    path = find()
    if path is None:
        made = "" if WINDOWS else "bash c/shared makes it, or "
        raise FileNotFoundError("no %s in %s, and none is installed: %sEVP_LIBRARY names one"
                                % (NAME, " or ".join(map(str, FOLDERS)), made))
    return Library(path)
