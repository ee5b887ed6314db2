"""Plans with values all over their ranges, the same in every run and on every machine."""

import hashlib
from collections.abc import Sequence
from dataclasses import replace
from typing import TypeVar

from tools.vectors.plans import (
    BY_CLASS, MOST_OF_ALL, MOST_OF_ROW, PAIRS, Plan, Record, fitted, most, with_vehicles,
)

Thing = TypeVar("Thing")


class Chance:
    """Numbers with no order in them, the same in every run and on every
    machine."""

    def __init__(self, name: str):
        self.name = name
        self.drawn = 0

    def below(self, n: int) -> int:
        self.drawn += 1
        digest = hashlib.sha256(("%s %d" % (self.name, self.drawn)).encode()).digest()
        return int.from_bytes(digest, "little") % n

    def between(self, first: int, last: int) -> int:
        return first + self.below(last - first + 1)

    def one_of(self, things: Sequence[Thing]) -> Thing:
        return things[self.below(len(things))]


def chance_season(chance: Chance, seasons: int) -> Record:
    lowest, highest = sorted(chance.between(-300, 500) for _ in range(2))
    days = chance.between(1, 366 // seasons)
    return {"days": days, "lowest": lowest, "highest": highest, "vp": chance.between(300, 1100)}


def chance_row(chance: Chance, seasons: Sequence[Record]) -> Record:
    vehicle_class, technology = chance.one_of(PAIRS)
    code = chance.one_of((0, 1, 2, 3, BY_CLASS, BY_CLASS, BY_CLASS, BY_CLASS))
    canister = fitted({"class": vehicle_class, "technology": technology, "canister": code})
    saturation = chance.between(0, min(most(canister, season) for season in seasons)) if canister else 0
    return {
        "class": vehicle_class, "technology": technology, "canister": code,
        "carburettor": chance.between(0, 100), "hot": chance.between(0, 100), "fill": chance.between(0, 100),
        "tank": chance.one_of((0, chance.between(1, 1500))), "vehicles": chance.between(0, 10_000_000),
        "trips": chance.between(0, 1200), "minutes": chance.between(0, 1440),
        "load": chance.one_of((saturation, chance.between(0, saturation))), "saturation": saturation, "mileage": 0,
    }


def chance_counts(chance: Chance) -> tuple[int, ...]:
    return tuple(chance.between(0, 40) for _ in range(23)) + (1,)


def chance_plan(seasons: int, rows: int) -> Plan:
    """An accepted sheet of this size with values all over their ranges."""
    chance = Chance("sheet of %d seasons and %d rows" % (seasons, rows))
    all_seasons = tuple(chance_season(chance, seasons) for _ in range(seasons))
    all_rows = tuple(chance_row(chance, all_seasons) for _ in range(rows))
    return Plan(all_seasons, all_rows, chance_counts(chance), chance_counts(chance))


def chance_grid(chance: Chance, total: int) -> tuple[int, ...]:
    """Counts by chance that sum to this: three cells in four have some, and
    what division leaves over stands in one of them."""
    parts = [chance.one_of((0, 1, 1, 1)) * chance.between(1, 1000) for _ in range(576)]
    counts = [part * total // sum(parts) for part in parts]
    counts[chance.below(576)] += total - sum(counts)
    return tuple(counts)


def chance_grid_plan(seasons: int, rows: int, total: int) -> Plan:
    chance = Chance("grid of %d for %d seasons and %d rows" % (total, seasons, rows))
    return replace(chance_plan(seasons, rows), grid=chance_grid(chance, total))


def chance_metered_plan(seasons: int, rows: int) -> Plan:
    """A plan by chance, whose rows with a canister have a mileage in place of
    their load; every fourth keeps it."""
    plan = chance_grid_plan(seasons, rows, 1_000)
    chance = Chance("mileages of %d seasons and %d rows" % (seasons, rows))
    for j, row in enumerate(plan.rows):
        canister = fitted(row)
        if canister and chance.below(4):
            top = min(most(canister, season, 0) for season in plan.seasons)
            saturation = chance.one_of((top, chance.between(0, top)))
            km = chance.between(1, 10 ** chance.between(1, 6))
            plan = plan.changed("rows", j, {"load": 0, "saturation": saturation, "mileage": km})
    return replace(plan, metered=True)


def chance_many_plan(seasons: int, rows: int) -> Plan:
    """A plan by chance with mileages, whose vehicles together are at most what
    they can be."""
    plan = chance_metered_plan(seasons, rows)
    chance = Chance("vehicles of %d seasons and %d rows" % (seasons, rows))
    vehicles = {i: chance.between(0, min(MOST_OF_ROW, MOST_OF_ALL // rows)) for i in range(rows)}
    return replace(with_vehicles(plan, vehicles), many=True)
