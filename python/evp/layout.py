"""Where things stand in the bytes of a sheet, and what they are called (docs/SHEET.md)."""

from typing import NamedTuple


class Field(NamedTuple):
    """A number of a record: its name in a text, its bytes, its unit, in how many parts that is counted, the least and
    the most that a sheet may have, in parts, and whether it has a sign; `most` is None where other fields say it."""
    name: str
    size: int
    unit: str = ""
    parts: int = 1
    least: int = 0
    most: int | None = None
    signed: bool = False

    @property
    def places(self) -> int:
        """The decimal places that a value can have."""
        return len(str(self.parts)) - 1

    @property
    def capacity(self) -> tuple[int, int]:
        """The smallest and the largest value that the bytes hold, in parts."""
        bits = 8 * self.size
        return (-(1 << bits - 1), (1 << bits - 1) - 1) if self.signed else (0, (1 << bits) - 1)

    def shown(self, value: int) -> str:
        """So many parts as a decimal word."""
        return decimal(value, self.places)


def decimal(value: int, places: int) -> str:
    """A number of parts as a decimal word with so many places."""
    sign, digits = "-" if value < 0 else "", str(abs(value))
    if not places:
        return sign + digits
    digits = digits.rjust(places + 1, "0")
    return "%s%s.%s" % (sign, digits[:-places], digits[-places:])


SEASON_FIELDS = (
    Field("days", 2, "days", least=1, most=366),
    Field("lowest", 2, "°C", 10, -300, 500, True),
    Field("highest", 2, "°C", 10, -300, 500, True),
    Field("vp", 2, "kPa", 10, 300, 1100),
)
ROW_FIELDS = (
    Field("class", 1, least=1, most=9),
    Field("technology", 1, most=5),
    Field("canister", 1, most=3),
    Field("carburettor", 1, "%", most=100),
    Field("hot", 1, "%", most=100),
    Field("fill", 1, "%", most=100),
    Field("tank", 2, "l", 10, most=1500),
    Field("vehicles", 4, "vehicles", most=10_000_000),
    Field("trips", 2, "a day", 100, most=1200),
    Field("minutes", 2, "minutes", most=1440),
    Field("load", 2, "g", 10),
    Field("saturation", 2, "g", 10),
)
MILEAGE = Field("mileage", 4, "km", most=1_000_000)  # behind them in versions 3 and 4
FIELDS = {field.name: field for field in (*SEASON_FIELDS, *ROW_FIELDS, MILEAGE)}

HEAD_BYTES, SEASON_BYTES, ROW_BYTES = 8, 8, 24
MOST_ROWS, MANY_ROWS = 32, 1000  # up to version 3, and in version 4
LISTS_END, GRID_END = 104, 1160
BY_CLASS = 255

CANISTERS = {"none": 0, "small": 1, "medium": 2, "large": 3, "class": BY_CLASS}
CANISTER_NAMES = {code: name for name, code in CANISTERS.items()}

# Table 3-11: the name of a class, its tank in litres and its canister at technology 0, 1, ..
_CAR, _LARGE_CAR = (0, 1, 1, 2, 2, 2), (0, 2, 2, 3, 3, 3)
CLASSES = {
    1: ("car below 1.4 l", 50, _CAR),
    2: ("car 1.4 to 2.0 l", 60, _CAR),
    3: ("car above 2.0 l", 75, _LARGE_CAR),
    4: ("light-duty", 60, _CAR),
    5: ("moped", 5, (0, 0, 0, 0)),
    6: ("two-stroke", 8, (0, 0, 0, 0)),
    7: ("four-stroke below 250 cm³", 10, (0, 0, 0, 0)),
    8: ("four-stroke up to 750 cm³", 18, (0, 0, 0, 0)),
    9: ("four-stroke above 750 cm³", 20, (1, 1, 1)),
}


def number_at(data: bytes, at: int, size: int, signed: bool = False) -> int:
    return int.from_bytes(data[at:at + size], "little", signed=signed)


def version_of(data: bytes) -> int:
    """The version that the head has, one that is read or not."""
    return number_at(data, 3, 2)


def has_grid(data: bytes) -> bool:
    return version_of(data) in (2, 3, 4)


def has_mileage(data: bytes) -> bool:
    return version_of(data) in (3, 4)


def season_count(data: bytes) -> int:
    return data[5]


def row_count(data: bytes) -> int:
    """The rows that the head tells of."""
    return number_at(data, 6, 2 if version_of(data) == 4 else 1)


def seasons_start(data: bytes) -> int:
    return GRID_END if has_grid(data) else LISTS_END


def season_place(data: bytes, i: int) -> int:
    """Where season i starts, counted from 0."""
    return seasons_start(data) + SEASON_BYTES * i


def row_place(data: bytes, i: int) -> int:
    """Where row i starts, counted from 0."""
    return season_place(data, season_count(data)) + ROW_BYTES * i


def length_of(data: bytes) -> int:
    """The bytes that the head asks for."""
    return row_place(data, row_count(data))


def counts(data: bytes, at: int) -> list[int]:
    """A list of 24 counts."""
    return [number_at(data, place, 2) for place in range(at, at + 48, 2)]


def record(data: bytes, at: int, fields: tuple[Field, ...]) -> dict[str, int]:
    """The numbers of a record by name, in parts."""
    found = {}
    for field in fields:
        found[field.name] = number_at(data, at, field.size, field.signed)
        at += field.size
    return found


def season(data: bytes, i: int) -> dict[str, int]:
    return record(data, season_place(data, i), SEASON_FIELDS)


def row(data: bytes, i: int) -> dict[str, int]:
    """A row, its mileage too; 0 before version 3."""
    return record(data, row_place(data, i), (*ROW_FIELDS, MILEAGE))


def technology_name(technology: int) -> str:
    return "conventional" if technology == 0 else "Euro %d" % technology


def canister_of(row: dict[str, int]) -> int:
    """The canister of a row of the table, looked up where it is by class."""
    if row["canister"] == BY_CLASS:
        return CLASSES[row["class"]][2][row["technology"]]
    return row["canister"]


def canister_name(row: dict[str, int]) -> str:
    return CANISTER_NAMES[canister_of(row)]
