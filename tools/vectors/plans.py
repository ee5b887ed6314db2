"""Plans of sheets: the values of a sheet's fields, from which its bytes are made.

The table of classes, the places of the records and the largest loads stand
here a second time and not as the reckoning has them, so that a slip of either
does not pass unseen.
"""

from collections.abc import Iterable
from dataclasses import dataclass, replace

from tools.sheet import layout

VERSIONS = (1, 2, 3, 4)
SEASON_FIELDS = layout.SEASON_FIELDS
ROW_FIELDS = layout.ROW_FIELDS + (layout.MILEAGE,)

Counts = tuple[int, ...]  # of parkings
Cells = dict[tuple[int, int], int]  # the count of each (half-hours, end hour)
Record = dict[str, int]  # the values of a season or a row, by the names of their fields

BY_CLASS = 255

# Table 3-11 as document 01 has it: tank in litres, and canister at each
# technology from 0 on.
CARS = (0, 1, 1, 2, 2, 2)
LARGE_CARS = (0, 2, 2, 3, 3, 3)
TWO_WHEELERS = (0, 0, 0, 0)

CLASSES = {
    1: (50, CARS), 2: (60, CARS), 3: (75, LARGE_CARS), 4: (60, CARS),
    5: (5, TWO_WHEELERS), 6: (8, TWO_WHEELERS), 7: (10, TWO_WHEELERS), 8: (18, TWO_WHEELERS),
    9: (20, (1, 1, 1)),
}

PAIRS = [(c, t) for c, (_, canisters) in CLASSES.items() for t in range(len(canisters))]

# What a record holds where nothing else is said. The canister is small, and
# its load passes check 20 in every season that is accepted.
SEASON = {"days": 30, "lowest": 50, "highest": 200, "vp": 600}

ROW = {
    "class": 1, "technology": 1, "canister": BY_CLASS, "carburettor": 40, "hot": 30, "fill": 35,
    "tank": 0, "vehicles": 1000, "trips": 250, "minutes": 20, "load": 300, "saturation": 450, "mileage": 0,
}

EMPTY = {"load": 0, "saturation": 0}  # all that a row without canister may have


def record(fields: Iterable[layout.Field], values: Record) -> bytes:
    return b"".join(values[f.name].to_bytes(f.size, "little", signed=f.signed) for f in fields)


def counted(counts: Iterable[int]) -> bytes:
    return b"".join(count.to_bytes(2, "little") for count in counts)


@dataclass(frozen=True)
class Plan:
    """The values of a sheet, in the units of its fields: version 1 with two
    lists, version 2 with a grid, of 576 counts in the order of the sheet,
    version 3 where `metered` says that its rows may have a mileage, and version
    4 where `many` says that it may have a thousand."""
    seasons: tuple[Record, ...]
    rows: tuple[Record, ...]
    durations: Counts = tuple(range(24, 0, -1))
    hours: Counts = tuple(range(1, 25))
    grid: Counts | None = None
    metered: bool = False
    many: bool = False

    def version(self) -> int:
        return 1 if self.grid is None else 4 if self.many else 3 if self.metered else 2

    def gridded(self) -> "Plan":
        """The same in version 2: the grid holds the products of the lists, end
        hour 1 first, its 24 durations in a row."""
        return replace(self, grid=tuple(j * q for q in self.hours for j in self.durations))

    def changed(self, kind: str, i: int, change: Record) -> "Plan":
        """The same with some values of one record changed, `kind` being
        "seasons" or "rows"."""
        records = list(getattr(self, kind))
        records[i] = {**records[i], **change}
        return replace(self, **{kind: tuple(records)})

    def place(self, kind: str, i: int) -> int:
        """Where a record starts."""
        start = 104 if self.grid is None else 1160
        return start + 8 * i if kind == "seasons" else start + 8 * len(self.seasons) + 24 * i

    def data(self) -> bytes:
        """The bytes of the sheet."""
        head = b"EVP" + bytes([self.version(), 0, len(self.seasons)]) + counted([len(self.rows)])
        parking = counted(self.durations + self.hours if self.grid is None else self.grid)
        seasons = [record(SEASON_FIELDS, season) for season in self.seasons]
        rows = [record(ROW_FIELDS, row) for row in self.rows]
        return head + parking + b"".join(seasons + rows)


def plain(seasons: int, rows: int) -> Plan:
    """A plan of so many records that differ only where their neighbours are
    to show: the first and the last row have a canister, one between has none."""
    middle = {**ROW, "class": 5, "technology": 2, **EMPTY}
    inner = [middle if i % 2 else {**ROW, "class": 3, "technology": 4} for i in range(rows - 2)]
    return Plan((SEASON,) * seasons, tuple([ROW, *inner, ROW][:rows]))


SMALLEST, BASE, LARGEST = plain(1, 1), plain(3, 4), plain(12, 32)

# Document 01's example.
EXAMPLE = Plan(
    ({"days": 1, "lowest": 100, "highest": 100, "vp": 600},),
    ({**dict.fromkeys(ROW, 0), "class": 1, "canister": BY_CLASS},),
    (1,) + (0,) * 23, (1,) + (0,) * 23,
)


def said(change: Record) -> str:
    return ", ".join("%s %d" % item for item in change.items())


def sized(plan: Plan) -> str:
    return said({"seasons": len(plan.seasons), "rows": len(plan.rows)})


def version_of(data: bytes) -> int:
    """The version in the head; one that is not read counts as 1."""
    version = int.from_bytes(data[3:5], "little")
    return version if version in VERSIONS else 1


def rows_of(data: bytes) -> int:
    """The rows that the head tells of: two bytes of version 4, or one."""
    return int.from_bytes(data[6:8], "little") if version_of(data) == 4 else data[6]


def records_start(data: bytes) -> int:
    return 104 if version_of(data) == 1 else 1160


def patched(data: bytes, at: int, values: bytes) -> bytes:
    return data[:at] + values + data[at + len(values):]


def report_words(data: bytes) -> int:
    """The words of a sheet's report."""
    return 6 * rows_of(data) + 26


def most(canister: int, season: Record, limit: int = 3) -> int:
    """The largest saturating load of a canister that check 20 lets pass in a
    season, or check 25 with limit 0. In whole numbers, times 4,000,000,
    a + b.s.m <= limit says
    (23000 - 3 vp + 2 T).2s.m <= 4000000 limit + 44000000 + 6000 vp - 26000 T."""
    T, vp = season["highest"], season["vp"]
    twice_s = {1: 4, 2: 2, 3: 1}[canister]
    return (4_000_000 * limit + 44_000_000 + 6_000 * vp - 26_000 * T) // ((23_000 - 3 * vp + 2 * T) * twice_s)


def fitted(row: Record) -> int:
    """The canister of a row, as written or by class."""
    return CLASSES[row["class"]][1][row["technology"]] if row["canister"] == BY_CLASS else row["canister"]


SMALL_GRID, BASE_GRID, LARGE_GRID = (plan.gridded() for plan in (SMALLEST, BASE, LARGEST))


def grid_of(counts: Iterable[int], start: int = 0) -> Counts:
    """Counts in a row from this cell on, and nothing in the others."""
    return (0,) * start + tuple(counts) + (0,) * (576 - start - len(counts))


MILLION = (65535,) * 15 + (16975,)


def cells_grid(cells: Cells) -> Counts:
    """The counts of a grid, of which these cells have some: {(half-hours, end
    hour): count}."""
    return tuple(cells.get((d, t), 0) for t in range(1, 25) for d in range(1, 25))


def one_cell(half_hours: int, hour: int) -> tuple[Counts, Counts]:
    """The two lists of counts of a single parking."""
    return (
        tuple(int(d == half_hours) for d in range(1, 25)),
        tuple(int(t == hour) for t in range(1, 25)),
    )


def few_cells(*cells: tuple[int, int]) -> tuple[Counts, Counts]:
    """Parkings of few lengths and end hours, weighed unlike."""
    durations, hours = [0] * 24, [0] * 24
    for i, (half_hours, hour) in enumerate(cells):
        durations[half_hours - 1] += 3 + i
        hours[hour - 1] += 7 - i
    return tuple(durations), tuple(hours)


FEW = few_cells((1, 3), (9, 8), (24, 14), (2, 19), (17, 24))

# Parkings that start and end in the cold and in the warmth of a day.
FIVE = cells_grid({(3, 9): 2, (9, 14): 5, (24, 3): 1, (6, 19): 4, (17, 24): 3})

# A row with the load of its odometer. In SEASON its a + b.s.m_sat is below 0.
DRIVEN = {**ROW, "load": 0, "mileage": 84_000}
WITHOUT = {**ROW, "class": 5, "technology": 2, **EMPTY}


def metered(seasons: Iterable[Record], rows: Iterable[Record]) -> Plan:
    """A plan of version 3."""
    return replace(Plan(tuple(seasons), tuple(rows)).gridded(), metered=True)


SMALL_METERED = metered((SEASON,), (DRIVEN,))
BASE_METERED = metered((SEASON,) * 2, (DRIVEN, ROW, WITHOUT, DRIVEN))
MOST_OF_ROW, MOST_OF_ALL = 10_000_000, 100_000_000


def in_turn(count: int, vehicles: int = 1) -> tuple[Record, ...]:
    """So many rows: with a mileage, with a load and without canister."""
    return tuple({**(DRIVEN, ROW, WITHOUT)[i % 3], "vehicles": vehicles} for i in range(count))


def many(seasons: Iterable[Record], rows: Iterable[Record]) -> Plan:
    """A plan of version 4."""
    return replace(metered(seasons, rows), many=True)


SMALL_MANY = many((SEASON,), (DRIVEN,))
BASE_MANY = replace(BASE_METERED, many=True)

# Ten rows with all the vehicles that there can be in one of them, which are all
# that there can be together; and two without.
FULL_MANY = many((SEASON,), in_turn(10, MOST_OF_ROW) + in_turn(2, 0))


def with_vehicles(plan: Plan, vehicles: dict[int, int]) -> Plan:
    """The same with the vehicles of some rows changed: {row: vehicles}."""
    for i, n in vehicles.items():
        plan = plan.changed("rows", i, {"vehicles": n})
    return plan
