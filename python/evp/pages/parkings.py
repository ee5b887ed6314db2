"""The page of the parkings: 24 end hours by 24 durations, filled end hour by end hour, and the factor of each cell."""

from typing import NamedTuple

from evp import layout
from evp.library import Band, Library
from evp.pages.days import DIURNAL
from evp.pages.parts import counts_of, with_cell, with_end_hours
from evp.pages.render import render
from evp.pages.words import canister_words, grams, hours, named_row, season_words
from evp.sheet.names import NO_NAMES, Names, with_name
from evp.wording import apart, counted, name_shown

LEVELS = 6  # of a colour, above none
DRAWN = {"left": 50, "wide": 23, "high": 15, "top": 62, "bars": 36}  # where the maps stand, for page and script
STEPS = (1, 1.5, 2, 2.5, 3, 4, 5, 8, 10)


def edges_for(most: float) -> list[float]:
    """Where the levels begin: next to nothing, then evenly at round numbers."""
    power = 1.0
    while power > most / LEVELS > 0:
        power /= 10
    while power * 10 <= most / LEVELS:
        power *= 10
    step = power * min(STEPS, key=lambda factor: abs(factor * power - most / LEVELS))
    least = round(step / (20 if step >= 0.1 else 10), 9)  # in few digits: a telephone has little room for them
    return [least, *(round(step * i, 9) for i in range(1, LEVELS))]


def count_edges(most: int) -> list[int]:
    """Where the levels of counts begin: counts grow by factors."""
    edges, at = [1], 1.0
    ratio = max(most, 64) ** (1 / LEVELS)
    while len(edges) < LEVELS:
        at *= ratio
        edges.append(max(edges[-1] + 1, _round(at)))
    return edges


def _round(value: float) -> int:
    """A round number nearby."""
    power = 10 ** (len(str(int(value))) - 1)
    return min((1, 2, 3, 5, 6, 8, 10), key=lambda digit: abs(digit * power - value)) * power


def _level(value: float, edges: list) -> int:
    return sum(value >= edge for edge in edges)


class Filled(NamedTuple):
    """The parkings up to an end hour: how many, and the library's mean factor over them; None where there are none."""
    parkings: int
    mean: Band | None


def _means(library: Library, data: bytes, season: int, row: int, first) -> list[Band | None]:
    """The factor of the sheet with the end hours from first(t) to t, for each t."""
    found = []
    for t in range(1, 25):
        sheet = with_end_hours(data, first(t), t)
        found.append(None if sheet is None else library.factor(sheet, season, row, DIURNAL))
    return found


def page_parking(library: Library, name: str, data: bytes, season: int | None = None, row: int = 0,
                 served: bool = False, packed: dict | None = None, names: Names = NO_NAMES) -> str:
    """An accepted sheet's parkings, with the factors of a season and a row, counted from 0; the warmest where none is
    given."""
    seasons = [layout.season(data, i) for i in range(layout.season_count(data))]
    if season is None:
        season = max(range(len(seasons)), key=lambda i: seasons[i]["highest"])
    counts = counts_of(data)
    factors = [[library.factor(with_cell(data, t, d), season, row, DIURNAL) for d in range(1, 25)]
               for t in range(1, 25)]
    so_far, alone = (_means(library, data, season, row, first) for first in (lambda t: 1, lambda t: t))
    by_hour, most = [sum(line) for line in counts], max(band.high for line in factors for band in line)
    filled = [Filled(sum(by_hour[:t]), so_far[t - 1]) for t in range(1, 25)]
    parkings = filled[-1].parkings
    edges, steps = edges_for(most / 1e6), count_edges(max(map(max, counts)))
    record = layout.row(data, row)
    top = max(((t, d) for t in range(24) for d in range(24)), key=lambda cell: factors[cell[0]][cell[1]].high)
    return render(
        "parking.html", served, name=name_shown(name), parkings=parkings, counts=counts, factors=factors,
        by_hour=by_hour, filled=filled, alone=[band.high / 1e6 if band else 0 for band in alone],
        whole=library.factor(data, season, row, DIURNAL), edges=edges, steps=steps,
        count_levels=[[_level(count, steps) for count in line] for line in counts],
        factor_levels=[[_level(band.high / 1e6, edges) for band in line] for line in factors],
        season=with_name("season %d" % (season + 1), names.season(season)),
        season_words=season_words(seasons[season]), row=row + 1,
        who=named_row(record, names.row(row)),
        canister=canister_words(record), busiest=by_hour.index(max(by_hour)) + 1, end_hour=24, duration=17,
        top={"grams": grams(factors[top[0]][top[1]], 2), "end": top[0] + 1, "hours": hours(top[1] + 1)}, packed=packed,
        lists=not layout.has_grid(data), choices=_choices(data, seasons, names), season_index=season,
        drawn=DRAWN,
        told={"drawn": DRAWN, "counts": counts, "grams": [[grams(band) for band in line] for line in factors],
              "filled": [[apart(f.parkings), grams(f.mean, 4) if f.mean else ""] for f in filled],
              "alone": [grams(band, 3) if band else "" for band in alone], "parkings": counted(parkings, "parking")})


def _choices(data: bytes, seasons: list[dict[str, int]], names: Names) -> dict[str, list[str]]:
    """What a served page can be asked for."""
    rows = [layout.row(data, i) for i in range(layout.row_count(data))]
    return {"season": ["%s: %s" % (with_name(str(i), names.season(i - 1)), season_words(season))
                       for i, season in enumerate(seasons, 1)],
            "row": ["%d: %s" % (i, named_row(row, names.row(i - 1))) for i, row in enumerate(rows, 1)]}
