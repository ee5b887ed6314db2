"""A sheet as values that can be replaced a group at a time, and written again."""

from collections.abc import Sequence
from dataclasses import dataclass
from typing import Protocol

from evp import layout
from evp.convert import converted
from evp.layout import CANISTER_NAMES, CLASSES, FIELDS, MILEAGE, ROW_FIELDS, SEASON_FIELDS, Field, technology_name
from evp.wording import apart

Record = dict[str, int]  # the values of a season or a row by the names of their fields, in the parts of the field

# What a person calls the fields, with the unit that follows the value.
FIELD_NAMES = {
    "days": ("days", ""),
    "lowest": ("lowest temperature", "°C"),
    "highest": ("highest temperature", "°C"),
    "vp": ("vapour pressure", "kPa"),
    "class": ("class", ""),
    "technology": ("technology", ""),
    "canister": ("canister", ""),
    "carburettor": ("share with carburettor or fuel return", "%"),
    "hot": ("share of trips that end hot", "%"),
    "fill": ("fill level", "%"),
    "tank": ("tank", "l"),
    "vehicles": ("vehicles", ""),
    "trips": ("trips", "a day"),
    "minutes": ("length of a trip", "min"),
    "load": ("canister load", "g"),
    "saturation": ("saturating load (m_sat)", "g"),
    "mileage": ("mileage", "km"),
}


class Names(Protocol):
    """The names of the rows and seasons of a sheet, which live beside it; empty where a record has none."""

    @property
    def seasons(self) -> Sequence[str]: ...

    @property
    def rows(self) -> Sequence[str]: ...


@dataclass(frozen=True)
class NoNames:
    """Of a sheet without names."""
    seasons: tuple[str, ...] = ()
    rows: tuple[str, ...] = ()


@dataclass(frozen=True)
class Values:
    """The values of a sheet. `parking` has the bytes of two lists or of a grid."""
    version: int
    parking: bytes
    seasons: tuple[Record, ...]
    rows: tuple[Record, ...]

    @property
    def has_grid(self) -> bool:
        return len(self.parking) == layout.GRID_END - layout.HEAD_BYTES


def values_of(data: bytes) -> Values:
    """The values of an accepted sheet."""
    return Values(
        layout.version_of(data), data[layout.HEAD_BYTES:layout.seasons_start(data)],
        tuple(layout.season(data, i) for i in range(layout.season_count(data))),
        tuple(layout.row(data, i) for i in range(layout.row_count(data))))


def grid_of(parking: bytes) -> bytes:
    """Two lists as the grid of their products, and a grid as it is; InputError where a product is too large."""
    if len(parking) == layout.GRID_END - layout.HEAD_BYTES:
        return parking
    return converted(b"EVP\1\0\0\0\0" + parking, 2)[layout.HEAD_BYTES:layout.GRID_END]


def _record_bytes(record: Record, fields: Sequence[Field]) -> bytes:
    return b"".join(record[field.name].to_bytes(field.size, "little", signed=field.signed) for field in fields)


def sheet_of(values: Values, version: int) -> bytes:
    """The sheet with these values in a version; InputError where its lists fit no grid."""
    parking = values.parking if version == 1 else grid_of(values.parking)
    many = len(values.rows).to_bytes(2, "little") if version == 4 else bytes([len(values.rows), 0])
    head = b"EVP" + version.to_bytes(2, "little") + bytes([len(values.seasons)]) + many
    seasons = b"".join(_record_bytes(season, SEASON_FIELDS) for season in values.seasons)
    rows = b"".join(_record_bytes(row, (*ROW_FIELDS, MILEAGE)) for row in values.rows)
    return head + parking + seasons + rows


# ------------------------------------------------------------------ in words


def number_words(name: str, value: int) -> str:
    """A value of a numeric field: 1,200 or 62.0."""
    whole, point, places = FIELDS[name].shown(value).partition(".")
    sign = "-" if whole.startswith("-") else ""
    return sign + apart(int(whole.lstrip("-"))) + point + places


def value_words(name: str, value: int) -> str:
    """A value of a field as a person would write it, without its unit."""
    if name == "class":
        return CLASSES[value][0]
    if name == "technology":
        return technology_name(value)
    if name == "canister":
        return CANISTER_NAMES[value].replace("class", "by class")
    if name == "tank" and value == 0:
        return "by class"
    return number_words(name, value)


def with_name(words: str, names: Sequence[str], i: int) -> str:
    """A record with its name behind it: row 3 (vans)."""
    return f"{words} ({names[i]})" if i < len(names) and names[i] else words


def row_words(row: Record) -> str:
    """The class and technology of a row."""
    return f"{CLASSES[row['class']][0]}, {technology_name(row['technology'])}"
