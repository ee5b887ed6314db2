"""The plain machine of a ledger (document 02, request Seven): the counts of the rows, and calls that change them."""

from collections.abc import Iterable
from typing import NamedTuple

NUMBER = 29  # of a call that is refused
MOST_OF_ROW, MOST_OF_ALL = 10_000_000, 100_000_000
ARRIVAL, DEPARTURE = 0, 1


class Call(NamedTuple):
    """Vehicles that arrive at a row or depart from it."""
    kind: int
    row: int
    vehicles: int


def arrival(row: int, vehicles: int) -> Call:
    return Call(ARRIVAL, row, vehicles)


def departure(row: int, vehicles: int) -> Call:
    return Call(DEPARTURE, row, vehicles)


def fault(limited: bool, counts: list[int], call: Call) -> str | None:
    """Which condition of number 29 applies first: "row", "departure", "16" or
    "26", or None. Where the counts are `limited` together 26 is one of them."""
    if call.row >= len(counts):
        return "row"
    if call.kind == DEPARTURE:
        return "departure" if call.vehicles > counts[call.row] else None
    if counts[call.row] + call.vehicles > MOST_OF_ROW:
        return "16"
    if limited and sum(counts) + call.vehicles > MOST_OF_ALL:
        return "26"
    return None


def step(limited: bool, counts: list[int], call: Call) -> list[int]:
    """The counts after a call: an arrival adds to the named entry, a departure
    subtracts, a refused call does nothing."""
    if fault(limited, counts, call) is not None:
        return counts
    change = call.vehicles if call.kind == ARRIVAL else -call.vehicles
    return [n + change if i == call.row else n for i, n in enumerate(counts)]


def machine(limited: bool, counts: list[int], calls: Iterable[Call]) -> list[int]:
    """The counts after a list of calls, the first one first."""
    for call in calls:
        counts = step(limited, counts, call)
    return counts
