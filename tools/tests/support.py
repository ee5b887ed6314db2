"""Sheets and texts that the tests share."""

import math
import random
from fractions import Fraction

from tools import reckoning, sheet
from tools.command import SAMPLES

NAMES = ("example", "table-3-5", "table-3-5-day", "region", "survey", "odometer", "districts")
MICROGRAM = Fraction(1, 10 ** 6)


def sample(name: str, ending: str) -> bytes:
    """A file of a sample, such as its sheet with .evp."""
    return (SAMPLES / (name + ending)).read_bytes()


def sheet_of(text: str) -> reckoning.Sheet:
    """The sheet that a text makes, read."""
    return reckoning.read(sheet.write(text))


def grid_text(cells: dict[tuple[int, int], int]) -> str:
    """The lines of a grid with these counts: {(half-hours, end hour): count}."""
    return "".join(
        "grid %d %s\n" % (t, " ".join(str(cells.get((d, t), 0)) for d in range(1, 25))) for t in range(1, 25))


FEW_CELLS = (
    "durations 1 0 0 0 0 2 0 0 0 0 0 0 0 0 0 0 0 0 0 0 0 0 0 1\n"
    "hours 3 0 0 0 0 0 0 0 0 0 0 0 0 2 0 0 0 0 0 0 0 0 0 1\n"
)

COLD = """
durations 0 0 0 0 0 0 0 1 0 0 0 0 0 0 0 0 0 0 0 0 0 0 0 0
hours 0 0 0 0 0 0 0 0 0 0 0 1 0 0 0 0 0 0 0 0 0 0 0 0
season days=1 lowest=%s highest=%s vp=%s
row class=%d technology=%d canister=%s fill=%d tank=%s load=%s saturation=%s minutes=60
"""

SMALL_CASES = (
    # no canister, a warm day
    "season days=3 lowest=20.0 highest=35.0 vp=60.0\n"
    "row class=1 technology=0 carburettor=40 hot=30 fill=35 vehicles=7 trips=2.50 minutes=20",
    # small canister, load below m_sat, frost
    "season days=2 lowest=-5.0 highest=10.0 vp=90.0\n"
    "row class=2 technology=1 carburettor=40 hot=30 fill=40 vehicles=7 trips=2.50 minutes=20 "
    "load=20.0 saturation=60.0",
    # vapour runs over m_sat
    "season days=2 lowest=20.0 highest=35.0 vp=60.0\n"
    "row class=3 technology=0 canister=small carburettor=40 hot=30 vehicles=7 trips=2.50 "
    "minutes=20 load=52.0 saturation=53.0",
    # saturated at the start
    "season days=2 lowest=10.0 highest=25.0 vp=70.0\n"
    "row class=4 technology=3 carburettor=40 hot=30 fill=10 vehicles=7 trips=2.50 minutes=20 "
    "load=100.0 saturation=100.0",
    # two-wheelers without and with canister, two seasons
    "season days=2 lowest=-10.0 highest=-2.0 vp=100.0\nseason days=1 lowest=12.3 highest=12.3 vp=45.6\n"
    "row class=7 technology=3 carburettor=40 hot=30 fill=50 vehicles=7 trips=2.50 minutes=20\n"
    "row class=9 technology=0 carburettor=40 hot=30 fill=50 vehicles=7 trips=2.50 minutes=20 "
    "load=30.0 saturation=61.0",
)


def patched(data: bytes, *changes: tuple[int, int, int]) -> bytes:
    """Bytes with numbers put in: (place, number, bytes of it)."""
    data = bytearray(data)
    for at, value, size in changes:
        data[at:at + size] = value.to_bytes(size, "little", signed=value < 0)
    return bytes(data)


def as_grid(data: bytes) -> bytes:
    """The bytes of version 2 for those of version 1: the products of the two
    lists as the grid, else the same."""
    counts = [int.from_bytes(data[at:at + 2], "little") for at in range(8, 104, 2)]
    durations, hours = counts[:24], counts[24:]
    counts = b"".join((j * q).to_bytes(2, "little") for q in hours for j in durations)
    return data[:3] + b"\2\0" + data[5:8] + counts + data[104:]


def turned(data: bytes) -> bytes:
    """A grid read the other way round: durations before end hours."""
    cells = [data[8 + 2 * i:10 + 2 * i] for i in range(576)]
    return data[:8] + b"".join(cells[24 * t + d] for d in range(24) for t in range(24)) + data[1160:]


def drawn_row(draw: random.Random, season: reckoning.Season) -> str:
    """A row that is accepted in this season, as a line of a text."""
    vehicle_class, _, _, canisters = draw.choice(reckoning.CLASS_TABLE)
    canister = draw.choice((0, 1, 2, 3, 255))
    technology = draw.randrange(len(canisters))
    code = canisters[technology] if canister == 255 else canister
    saturation = load = 0
    if code:
        a, b = reckoning.canister_a_b(season, Fraction(season.highest, 10))
        limit = math.floor(10 * (3 - a) / (b * reckoning.CANISTER_S[code]))
        saturation = draw.randint(limit // 2, limit)
        load = draw.choice((0, saturation, draw.randint(0, saturation)))
    return ("row class=%d technology=%d canister=%d carburettor=50 hot=50 fill=%d tank=%s "
            "vehicles=1 trips=1 minutes=%d load=%s saturation=%s\n" % (
                vehicle_class, technology, canister, draw.randint(0, 100),
                draw.choice(("class", draw.randint(1, 1500) / 10)),
                draw.randint(0, 1440), load / 10, saturation / 10))


def spread() -> list[reckoning.Sheet]:
    """Rows and seasons drawn over the whole width of an accepted sheet."""
    draw = random.Random(35)
    found = []
    for _ in range(24):
        low, high = sorted(draw.randint(-300, 500) for _ in range(2))
        season = reckoning.Season(1, low, high, draw.randint(300, 1100))
        row = drawn_row(draw, season)
        durations, hours = ([draw.choice((0, draw.randint(0, 40))) for _ in range(23)] + [1] for _ in range(2))
        found.append(sheet_of("durations %s\nhours %s\nseason days=1 lowest=%s highest=%s vp=%s\n%s" % (
            " ".join(map(str, durations)), " ".join(map(str, hours)), low / 10, high / 10, season.vp / 10, row)))
    return found


def lowest_exponent(read: reckoning.Sheet, season: int, row: int) -> Fraction | None:
    """The lowest exponent a canister of this row meets, or None."""
    record = read.rows[row]
    code = reckoning.canister_of(record)
    if code == reckoning.NONE:
        return None
    place = read.seasons[season]
    a, b = reckoning.canister_a_b(place, min(reckoning.temperature(place, i) for i in range(48)))
    return a + b * reckoning.CANISTER_S[code] * Fraction(record.load, 10)


class PlainRow:
    """A row in one season, in floating point, straight from the formulas;
    nothing of the reckoning but the sheet and the table is used."""

    def __init__(self, season, row):
        tank, canister = reckoning.table_entry(row.vehicle_class, row.technology)
        self.row = row
        self.tank = row.tank / 10 or tank
        self.s = {0: None, 1: 2.0, 2: 1.0, 3: 0.5}[canister if row.canister == 255 else row.canister]
        self.vp, self.low, self.high = season.vp / 10, season.lowest / 10, season.highest / 10
        self.m_sat = row.saturation / 10

    def temperature(self, hour):
        round_the_day = (hour - 14 + 12) % 24 - 12  # hours after 14:00, or before it
        return self.low + (self.high - self.low) * math.exp(-0.0247 * round_the_day ** 2)

    def vapour(self, T, U):
        return (1 - self.row.fill / 100) * self.tank * 0.025 * math.exp(0.0205 * self.vp) * (
            math.exp(0.0716 * U) - math.exp(0.0716 * T))

    def permeation(self, T):
        return math.exp(0.004 * self.vp) * (6.1656e-6 * max(T, 0) ** 2.5 + 0.0206)

    def load(self, a, b):
        """m1; of a mileage m1 - e^(a + b.s.m1) is to be (8.13 ln M - 22.92)/s."""
        if not self.row.mileage:
            return self.row.load / 10
        wanted = (8.13 * math.log(self.row.mileage) - 22.92) / self.s
        below, above = 0.0, self.m_sat
        for _ in range(60):
            middle = (below + above) / 2
            if middle - math.exp(a + b * self.s * middle) < wanted:
                below = middle
            else:
                above = middle
        return below

    def escape(self, v, T):
        if self.s is None:
            return v
        a = -11 - 0.015 * self.vp + 0.065 * T
        b = 0.115 - 0.00015 * self.vp + 0.0001 * T
        m1 = self.load(a, b)
        m2 = m1 + v
        over = max(0.0, m2 - self.m_sat)
        return math.exp(a + b * self.s * min(m2, self.m_sat)) + over - math.exp(a + b * self.s * m1)

    def risen(self, T, rise):
        return self.escape(self.vapour(T, T + rise), T)

    def cell(self, half_hours, end):
        """The seven values of one parking."""
        begin = end - half_hours / 2
        steps = [begin + x / 2 for x in range(half_hours)]
        at = self.temperature
        v = sum(self.vapour(at(x), at(x + 0.5)) for x in steps if at(x + 0.5) > at(x))
        T1, T2 = at(begin), at(end)
        diurnal = self.escape(v, T1) + sum(self.permeation(at(x)) for x in steps) / 2
        if self.row.vehicle_class > 4:
            return [diurnal, *(self.risen(T1, rise) for rise in (1.5, 3.5, 3.5)),
                    *(self.risen(T2, rise) for rise in (1, 2.5, 2.5))]
        soak = self.permeation(T1 + 11)
        running = self.row.minutes / 60 * self.permeation(T2 + 15)
        carburettor = [self.vapour(T2, T2 + rise) if self.s is None else 0 for rise in (1, 5)]
        return [diurnal, soak, *(soak + self.risen(T1, rise) for rise in (4.5, 6)), running,
                *(running + v for v in carburettor)]


def plain_factors(read: reckoning.Sheet, season: int, row: int) -> list[float]:
    """The seven factors in floating point, cell by cell."""
    plain = PlainRow(read.seasons[season], read.rows[row])
    sums = [0.0] * 7
    for end, counts in enumerate(read.grid, 1):
        for half_hours, count in enumerate(counts, 1):
            if count:
                sums = [total + count * value for total, value in zip(sums, plain.cell(half_hours, end))]
    return [total / sum(map(sum, read.grid)) for total in sums]
