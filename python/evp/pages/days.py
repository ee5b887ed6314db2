"""The page of a day: the 48 temperatures of each season, and a parking on them."""

from typing import NamedTuple

from evp import layout
from evp.layout import canister_of
from evp.library import Band, Library
from evp.pages.parts import DAY, temperatures, with_cell
from evp.pages.render import render
from evp.pages.words import canister_short, canister_words, grams, named_row, season_words, tenths
from evp.sheet.names import NO_NAMES, Names, with_name
from evp.wording import name_shown

DIURNAL = 1  # the factor of a parking
AT_FIRST = 17, 17  # a parking of 8.5 h that ends at 17:00


class Chart(NamedTuple):
    """Where things stand in a picture."""
    name: str
    width: int
    height: int
    left: int
    right: int
    every: int  # hours between two labels
    lowest: int
    highest: int

    @property
    def edge(self) -> int:
        return self.width - self.right

    @property
    def base(self) -> int:
        return self.height - 60

    def x(self, mark: int) -> float:
        return round(self.left + (self.edge - self.left) * mark / DAY, 2)

    def y(self, temperature: float) -> float:
        return round(28 + (self.base - 28) * (self.highest - temperature) / (self.highest - self.lowest), 1)

    def ticks(self) -> list[tuple[float, str]]:
        step = 5 if self.highest - self.lowest <= 50 else 10
        return [(self.y(value), ("%d" % value).replace("-", "\u2212"))
                for value in range(self.lowest, self.highest + 1, step)]

    def curve(self, day: list[float]) -> str:
        points = ("%s %s" % (self.x(i), self.y(day[i % DAY])) for i in range(DAY + 1))
        return "M" + "L".join(points)

    def labels(self, days: list[list[float]]) -> list[float]:
        """The heights of the seasons' names at the right end, at least 14 apart."""
        order = sorted(range(len(days)), key=lambda i: self.y(days[i][0]))
        found, last = [0.0] * len(days), 0.0
        for i in order:
            last = max(self.y(days[i][0]) + 4, last + 14)
            found[i] = last
        over = max(0.0, max(found) - self.base)
        return [round(height - over, 1) for height in found]


def _charts(days: list[list[float]]) -> list[Chart]:
    lowest = int(min(map(min, days)) // 5 * 5)
    highest = int(-(-max(map(max, days)) // 5) * 5)
    if highest - lowest < 10:
        lowest, highest = lowest - 5, lowest + 10
    return [Chart("wide", 960, 400, 38, 80, 2, lowest, highest), Chart("narrow", 360, 340, 34, 76, 6, lowest, highest)]


class Step(NamedTuple):
    """A parking on a day: which half-hours rise, from which to which, and by how much in all."""
    start: int
    end: int
    rising: list[int]
    parked: list[int]
    rise: float


def parking_on(day: list[float], end_hour: int, duration: int) -> Step:
    start = (2 * end_hour - duration) % DAY
    parked = [(start + k) % DAY for k in range(duration)]
    rising = [i for i in parked if day[(i + 1) % DAY] > day[i]]
    return Step(start, 2 * end_hour % DAY, rising, parked, sum(day[(i + 1) % DAY] - day[i] for i in rising))


def _chosen(data: bytes, rows: list[int] | None) -> list[int]:
    """The rows that are shown: those asked for, else the first without and the first with a canister."""
    if rows:
        return rows
    found: dict[bool, int] = {}
    for i in range(layout.row_count(data)):
        found.setdefault(canister_of(layout.row(data, i)) != 0, i)
    return sorted(found.values())


def _factors(library: Library, data: bytes, rows: list[int]) -> list[list[list[list[Band]]]]:
    """The factor of one parking by row, season, end hour and duration."""
    seasons = layout.season_count(data)
    found = [[[[Band(0, 0)] * 24 for _ in range(24)] for _ in range(seasons)] for _ in rows]
    for t in range(24):
        for d in range(24):
            sheet = with_cell(data, t + 1, d + 1)
            for r, row in enumerate(rows):
                for season in range(seasons):
                    found[r][season][t][d] = library.factor(sheet, season, row, DIURNAL)
    return found


def page_day(library: Library, name: str, data: bytes, rows: list[int] | None = None, served: bool = False,
             packed: dict | None = None, names: Names = NO_NAMES) -> str:
    """An accepted sheet's day; `rows` are counted from 0."""
    rows = _chosen(data, rows)[:2]
    seasons = [layout.season(data, i) for i in range(layout.season_count(data))]
    days, factors = [temperatures(season) for season in seasons], _factors(library, data, rows)
    charts = _charts(days)
    season = max(range(len(seasons)), key=lambda i: seasons[i]["highest"])
    end_hour, duration = AT_FIRST
    records = [layout.row(data, i) for i in rows]
    told_rows = ["row %d (%s)" % (i + 1, names.row(i) or canister_short(row)) for i, row in zip(rows, records)]
    drawn = [{"x": [chart.x(i) for i in range(DAY + 1)], "y": [[chart.y(t) for t in day] for day in days],
              "base": chart.base} for chart in charts]
    return render(
        "day.html", served, name=name_shown(name), charts=charts, days=days, season=season, end_hour=end_hour,
        duration=duration, on=parking_on(days[season], end_hour, duration), packed=packed, factors=factors,
        seasons=[{"name": with_name("season %d" % (i + 1), names.season(i)), "words": season_words(s),
                  "lowest": tenths(s["lowest"]), "highest": tenths(s["highest"]), "vp": tenths(s["vp"]),
                  "days": s["days"]}
                 for i, s in enumerate(seasons)],
        rows=[{"number": i + 1, "who": named_row(row, names.row(i)), "canister": canister_words(row), "short": short}
              for i, row, short in zip(rows, records, told_rows)],
        told={"rows": told_rows, "days": [[round(t, 3) for t in day] for day in days], "charts": drawn,
              "grams": [[[[grams(band) for band in hour] for hour in season] for season in row] for row in factors]})
