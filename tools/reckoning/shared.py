"""The rules of a shared ledger (document 02, request Eight): who may do what, and what a call is answered."""

from collections import Counter
from typing import NamedTuple

from tools.reckoning.checks import check
from tools.reckoning.format import counts_of, row_place
from tools.reckoning.ledger import MOST_OF_ALL, MOST_OF_ROW

PARTICIPANTS, ROWS_EACH, VEHICLES_EACH = range(1, 9), 100, 10_000_000
MARKER = 0
ARRIVAL, DEPARTURE, READ_ROW, READ_TOTALS = range(4)
KINDS = ("an arrival", "a departure", "a row", "the totals")


class Ask(NamedTuple):
    """A call, and who makes it."""
    kind: int
    who: int
    row: int
    vehicles: int


def opening(data: bytes, owners: bytes, words: int) -> tuple[int, int]:
    """What opening is answered with so many words lent: every check of the report, then the owners."""
    refused = check(data, words=words)
    if refused is not None:
        return refused
    rows, vehicles = Counter(), Counter()
    for i, count in enumerate(counts_of(data)):
        owner = owners[i] if i < len(owners) else 0
        rows[owner] += 1
        vehicles[owner] += count
        if owner not in PARTICIPANTS or rows[owner] > ROWS_EACH or vehicles[owner] > VEHICLES_EACH:
            return 31, row_place(data, i)
    return 0, 0


def row_kind(owners: bytes, rows: int, ask: Ask) -> str:
    """Whose the named row is to the one who asks."""
    if ask.row >= rows:
        return "absent"
    return "own" if owners[ask.row] == ask.who else "another's"


def answered(version: int, owners: bytes, counts: list[int], ask: Ask) -> int:
    """The number of the answer, 0 where the call passes."""
    kind = row_kind(owners, len(counts), ask)
    if ask.kind == READ_TOTALS:
        return 0 if ask.who == MARKER else 30
    if ask.kind == READ_ROW:
        if ask.who == MARKER:
            return 29 if kind == "absent" else 0
        return 0 if kind == "own" else 30
    if ask.who == MARKER or kind != "own":
        return 30
    if ask.kind == DEPARTURE:
        return 29 if ask.vehicles > counts[ask.row] else 0
    if counts[ask.row] + ask.vehicles > MOST_OF_ROW:
        return 29
    if version == 4 and sum(counts) + ask.vehicles > MOST_OF_ALL:
        raise AssertionError("the common limit refuses someone")
    held = sum(count for owner, count in zip(owners, counts) if owner == ask.who)
    return 31 if held + ask.vehicles > VEHICLES_EACH else 0


def caller(who: int) -> str:
    return "marker" if who == MARKER else "participant" if who in PARTICIPANTS else "stranger"
