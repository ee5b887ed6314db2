"""The seven factors of a season and row, and the three masses of a row."""

import functools
from collections.abc import Callable
from fractions import Fraction
from typing import NamedTuple

from tools.reckoning.format import Grid, Row, Season, Sheet, canister_of, is_two_wheeler, tank_of
from tools.reckoning.mileage import load_of
from tools.reckoning.numbers import Mode, Number, Numbers, numbers_of, power_2_5
from tools.reckoning.quantities import canister_a_b, start_mark, temperature
from tools.reckoning.tables import CANISTER_S, NONE


class Reading(NamedTuple):
    """How the guidebook is read: as document 01 settles it, or with one of the
    misreadings that it names, to see what a sheet would have by it."""
    cooling: bool = False  # eq. 8 on a parking's extremes
    divided: bool = False  # by s in eq. 9
    cut: bool = False  # vapour at m_sat


RIGHT = Reading()


class Day:
    """A season's day of 48 marks. What depends on the season alone is
    reckoned once and kept, as every row asks for it again."""

    def __init__(self, season: Season, n: int, mode: Mode, reading: Reading = RIGHT):
        self.season = season
        self.n = n
        self.mode = mode
        self.reading = reading
        self.numbers = numbers_of(mode, n)
        vp = Fraction(season.vp, 10)
        self.T = tuple(temperature(season, i) for i in range(48))
        self.rises = tuple(self.T[(i + 1) % 48] > self.T[i] for i in range(48))  # from mark i to the next
        self.vapour_vp = self._E(Fraction(205, 10000) * vp)
        self.permeation_vp = self._E(Fraction(4, 1000) * vp)
        self._heat: dict[tuple[int, Fraction | int], Number] = {}
        self._permeation: dict[tuple[int, int], Number] = {}
        self._canister: dict[int, tuple[Fraction, Fraction]] = {}

    def _E(self, y: Fraction) -> Number:
        return self.numbers.E(self.numbers.number(y))

    def heat(self, i: int, rise: Fraction | int = 0) -> Number:
        """E(0.0716.(T(i) + rise)), what eq. 8 takes the difference of."""
        key = i, rise
        if key not in self._heat:
            self._heat[key] = self._E(Fraction(716, 10000) * (self.T[i] + rise))
        return self._heat[key]

    def permeation(self, i: int, rise: int = 0) -> Number:
        """Permeation per hour at T(i) + rise (eq. 14)."""
        key = i, rise
        if key not in self._permeation:
            root = power_2_5(self.T[i] + rise, self.n)
            bracket = Fraction(61656, 10 ** 10) * root + Fraction(206, 10000)
            self._permeation[key] = self.numbers.times(
                self.permeation_vp, self.numbers.number(bracket))
        return self._permeation[key]

    def canister(self, i: int) -> tuple[Fraction, Fraction]:
        """a and b of a canister at T(i) (eqs. 10 and 11)."""
        if i not in self._canister:
            self._canister[i] = canister_a_b(self.season, self.T[i])
        return self._canister[i]

    def vapour(self, row: Row, heat: Number) -> Number:
        """Vapour in grams for a difference of heat (eq. 8)."""
        return self.numbers.scaled(self.numbers.times(self.vapour_vp, heat), _vapour_share(row))


@functools.lru_cache(maxsize=4096)
def _vapour_share(row: Row) -> Fraction:
    """What eq. 8 multiplies by for the fill level and the tank of a row."""
    return (1 - Fraction(row.fill, 100)) * tank_of(row) * Fraction(25, 1000)


@functools.lru_cache(maxsize=64)
def day_of(season: Season, n: int, mode: Mode, reading: Reading = RIGHT) -> Day:
    """The kept day of a season."""
    return Day(season, n, mode, reading)


class Escape:
    """What escapes of a row's vapour when the escape starts at mark i: all of
    it without a canister, the breakthrough with one."""

    def __init__(self, day: Day, row: Row, i: int):
        self.numbers = day.numbers
        self.cut = day.reading.cut
        self.fitted = canister_of(row) != NONE
        if self.fitted:
            a, b = day.canister(i)
            s = CANISTER_S[canister_of(row)]
            self.a = self.numbers.number(a)
            self.bs = b / s if day.reading.divided else b * s
            self.m1 = self.numbers.number(load_of(row, day.season, day.T[i], day.n, day.mode))
            self.m_sat = self.numbers.number(Fraction(row.saturation, 10))
            self.lost_before = self.lost(self.m1)

    def lost(self, m: Number) -> Number:
        """B(m): beyond m_sat the canister holds no more and all of it is lost."""
        if m > self.m_sat:
            return self.lost(self.m_sat) + (0 if self.cut else m - self.m_sat)
        return self.numbers.E(self.a + self.numbers.scaled(m, self.bs))

    def of(self, v: Number) -> Number:
        """What escapes of so much vapour."""
        if not self.fitted:
            return v
        return self.lost(self.m1 + v) - self.lost_before


def parkings(sheet: Sheet) -> list[tuple[int, int, int]]:
    """The cells of the parking grid that weigh something: (d, t, count) with
    d half-hours and end hour t."""
    return [
        (d, t, count)
        for t, counts in enumerate(sheet.grid, 1)
        for d, count in enumerate(counts, 1) if count
    ]


def _mean(sheet: Sheet, numbers: Numbers, total: Number) -> Number:
    return numbers.scaled(total, Fraction(1, sum(map(sum, sheet.grid))))


def _mean_at_start(sheet: Sheet, day: Day, value: Callable[[int], Number]) -> Number:
    """Mean over the cells of what depends on the start mark alone."""
    weights = [0] * 48
    for d, t, count in parkings(sheet):
        weights[start_mark(t, d)] += count
    return _mean(sheet, day.numbers, sum(w * value(i) for i, w in enumerate(weights) if w))


def _mean_at_end(sheet: Sheet, day: Day, value: Callable[[int], Number]) -> Number:
    """Mean over the cells of what depends on the end mark alone."""
    weights = [0] * 48
    for d, t, count in parkings(sheet):
        weights[2 * t % 48] += count
    return _mean(sheet, day.numbers, sum(w * value(i) for i, w in enumerate(weights) if w))


def _diurnal(sheet: Sheet, day: Day, row: Row) -> Number:
    by_start: dict[int, dict[int, int]] = {}
    for d, t, count in parkings(sheet):
        by_start.setdefault(start_mark(t, d), {})[d] = count
    total = 0
    for start, lengths in by_start.items():
        escape = Escape(day, row, start)
        heat = rates = 0
        least = most = day.heat(start)
        for d in range(1, max(lengths) + 1):
            here, there = (start + d - 1) % 48, (start + d) % 48
            least, most = min(least, day.heat(there)), max(most, day.heat(there))
            if day.reading.cooling:
                heat = most - least
            elif day.rises[here]:
                heat += day.heat(there) - day.heat(here)
            rates += day.permeation(here)
            if d in lengths:
                escaped = escape.of(day.vapour(row, heat))
                total += lengths[d] * (escaped + day.numbers.scaled(rates, HALF))
    return _mean(sheet, day.numbers, total)


def _raised(day: Day, row: Row, rise: Fraction) -> Callable[[int], Number]:
    """Escape of the vapour from T(i) to T(i) + rise, as a function of i."""
    def value(i: int) -> Number:
        v = day.vapour(row, day.heat(i, rise) - day.heat(i))
        return Escape(day, row, i).of(v)
    return value


HALF = Fraction(1, 2)  # an hour
SOAK_RISE_CAR = {3: Fraction(9, 2), 4: Fraction(6)}
RUNNING_RISE_CAR = {6: Fraction(1), 7: Fraction(5)}
SOAK_RISE_TWO = {2: Fraction(3, 2), 3: Fraction(7, 2), 4: Fraction(7, 2)}
RUNNING_RISE_TWO = {5: Fraction(1), 6: Fraction(5, 2), 7: Fraction(5, 2)}


def _factor(sheet: Sheet, day: Day, row: Row, k: int) -> Number:
    if k == 1:
        return _diurnal(sheet, day, row)
    if is_two_wheeler(row):
        if k in SOAK_RISE_TWO:
            return _mean_at_start(sheet, day, _raised(day, row, SOAK_RISE_TWO[k]))
        return _mean_at_end(sheet, day, _raised(day, row, RUNNING_RISE_TWO[k]))
    if k <= 4:
        result = _mean_at_start(sheet, day, lambda i: day.permeation(i, 11))
        if k in SOAK_RISE_CAR:
            result += _mean_at_start(sheet, day, _raised(day, row, SOAK_RISE_CAR[k]))
        return result
    hours = Fraction(row.minutes, 60)
    result = day.numbers.scaled(
        _mean_at_end(sheet, day, lambda i: day.permeation(i, 15)), hours)
    if k in RUNNING_RISE_CAR and canister_of(row) == NONE:
        result += _mean_at_end(sheet, day, _raised(day, row, RUNNING_RISE_CAR[k]))
    return result


def factor(sheet: Sheet, season: int, row: int, k: int, n: int = 40, mode: Mode = "decimal",
           reading: Reading = RIGHT) -> Fraction:
    """Factor k (1 to 7) in grams of a season and row counted from 0, as a
    Fraction: the exact value in mode exact, within 10^-80 of it in mode
    decimal."""
    if not 1 <= k <= 7:
        raise ValueError("factor %r is absent" % (k,))
    day = day_of(sheet.seasons[season], n, mode, reading)
    return day.numbers.fraction(_factor(sheet, day, sheet.rows[row], k))


def seven_factors(sheet: Sheet, season: int, row: int, n: int = 40, mode: Mode = "decimal",
                  reading: Reading = RIGHT) -> tuple[Fraction, ...]:
    """All seven factors of a season and row, as a tuple."""
    return tuple(factor(sheet, season, row, k, n, mode, reading) for k in range(1, 8))


@functools.lru_cache(maxsize=4096)
def shared_factors(grid: Grid, season: Season, row: Row, n: int, mode: Mode,
                   reading: Reading = RIGHT) -> tuple[Fraction, ...]:
    """The seven factors of all rows that differ from this one in vehicles,
    trips, c and p alone, which no factor depends on."""
    return seven_factors(Sheet(grid, (season,), (row,)), 0, 0, n, mode, reading)


def masses(sheet: Sheet, row: int, n: int = 40, mode: Mode = "decimal",
           reading: Reading = RIGHT) -> tuple[Fraction, Fraction, Fraction]:
    """(diurnal, soak, running) of a row in grams, summed over the seasons."""
    record = sheet.rows[row]
    c = Fraction(record.carburettor, 100)
    p = Fraction(record.hot, 100)
    trips = Fraction(record.trips, 100)
    diurnal = soak = running = Fraction(0)
    if record.vehicles == 0:
        return diurnal, soak, running
    alike = record._replace(carburettor=0, hot=0, vehicles=0, trips=0)
    for season in sheet.seasons:
        f1, f2, f3, f4, f5, f6, f7 = shared_factors(sheet.grid, season, alike, n, mode, reading)
        many = season.days * record.vehicles
        diurnal += many * f1
        soak += many * trips * (c * (p * f4 + (1 - p) * f3) + (1 - c) * f2)
        running += many * trips * (c * (p * f7 + (1 - p) * f6) + (1 - c) * f5)
    return diurnal, soak, running
