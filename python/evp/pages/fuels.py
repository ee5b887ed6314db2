"""The page of two fuels, or two years: two sheets side by side, and what differs for certain."""

from collections import Counter
from typing import NamedTuple

from evp import layout
from evp.analysis.pages import changes_table
from evp.figures import GROUP_NAMES
from evp.layout import canister_of
from evp.library import GROUPS, MECHANISMS, Library
from evp.pages.render import render
from evp.pages.words import NARROW, canister_words, listed, minus, row_name, tenths
from evp.sheet.names import NO_NAMES, Names, with_name
from evp.show import Difference, differences
from evp.wording import apart, name_shown

MOST_ROWS = 200
WORDS = {"higher": "higher", "lower": "lower", "alike": "the same band", "open": "open"}


class Fuel(NamedTuple):
    """How two sheets differ where only vapour pressures do: the seasons with a higher and with a lower one in B."""
    raised: list[int]
    lowered: list[int]

    @property
    def one_way(self) -> str:
        """Which sheet has the more volatile fuel in every season that differs; empty where there is none."""
        return "" if bool(self.raised) == bool(self.lowered) else "B" if self.raised else "A"


def fuel_change(a: bytes, b: bytes) -> Fuel | None:
    """None where the sheets differ in more than vapour pressures."""
    if len(a) != len(b):
        return None
    places = [layout.season_place(a, i) + 6 for i in range(layout.season_count(a))]
    masked = [bytearray(data) for data in (a, b)]
    for data in masked:
        for place in places:
            data[place:place + 2] = b"\0\0"
    if masked[0] != masked[1]:
        return None
    pairs = [(layout.season(a, i)["vp"], layout.season(b, i)["vp"]) for i in range(layout.season_count(a))]
    return Fuel([i + 1 for i, (x, y) in enumerate(pairs) if y > x], [i + 1 for i, (x, y) in enumerate(pairs) if y < x])


class Compared(NamedTuple):
    """A mass of the two, for a cell of a table."""
    difference: Difference
    law: bool  # that the exact mass does not fall is proved of any such two sheets

    @property
    def change(self) -> str:
        a, b = sum(self.difference.a), sum(self.difference.b)
        if not a:
            return ""
        return minus("%+.1f %%" % (100 * (b - a) / a)) if b < 10 * a else "×%s%s" % (NARROW, apart(round(b / a)))

    @property
    def verdict(self) -> str:
        return self.difference.verdict


class Line(NamedTuple):
    name: str
    about: str
    canister: bool
    masses: list[Compared]


def _lines(found: list[Difference], data: bytes, fuel: Fuel | None, beside: Names) -> list[Line]:
    """The rows, mechanism by mechanism."""
    by_row: dict[str, list[Difference]] = {}
    for difference in found:
        by_row.setdefault(difference.figure.row, []).append(difference)
    lines = []
    for name, masses in list(by_row.items()):
        if not name.isdigit() or len(lines) == MOST_ROWS:
            continue
        row = layout.row(data, int(name) - 1)
        law = bool(fuel and fuel.one_way) and canister_of(row) == 0
        about = "%s, %s" % (row_name(row), canister_words(row))
        lines.append(Line(with_name("row " + name, beside.row(int(name) - 1)), about, canister_of(row) != 0,
                          [Compared(mass, law) for mass in masses]))
    return lines


def _groups(found: list[Difference]) -> list[Line]:
    return [Line(GROUP_NAMES[group], "", True, [Compared(d, False) for d in found if d.figure.row == group])
            for group in GROUPS]


def _counted(counts: Counter) -> str:
    """How many masses there are of each verdict."""
    words = {"higher": "higher in B for certain", "lower": "lower in B for certain"}
    told = ["%s %s %s" % (apart(counts[verdict]), "is" if counts[verdict] == 1 else "are", words[verdict])
            for verdict in words if counts[verdict]]
    if counts["alike"]:
        told.append("%s %s the same band" % (apart(counts["alike"]), "has" if counts["alike"] == 1 else "have"))
    if counts["open"]:
        told.append("%s %s open" % (apart(counts["open"]), "is" if counts["open"] == 1 else "are"))
    return listed(told)


def _seasons(a: bytes, b: bytes, beside: Names) -> list[dict]:
    """The seasons of both where both have as many: what stands in A and in B, and whether it differs."""
    if layout.season_count(a) != layout.season_count(b):
        return []
    found = []
    for i in range(layout.season_count(a)):
        pair = layout.season(a, i), layout.season(b, i)
        found.append({"name": with_name("season %d" % (i + 1), beside.season(i)), "cells": [
            {"a": _shown(name, pair[0]), "b": _shown(name, pair[1]), "differs": pair[0][name] != pair[1][name]}
            for name in ("days", "lowest", "highest", "vp")]})
    return found


def _shown(name: str, season: dict[str, int]) -> str:
    return str(season[name]) if name == "days" else tenths(season[name])


def page_fuels(library: Library, names: tuple[str, str], sheets: tuple[bytes, bytes], served: bool = False,
               beside: Names = NO_NAMES) -> str:
    """Two accepted sheets side by side; `beside` are the names of their rows and seasons."""
    a, b = (library.report(data) for data in sheets)
    found, fuel = differences(a, b), fuel_change(*sheets)
    rows = _lines(found, sheets[0], fuel, beside) if len(a.rows) == len(b.rows) else []
    total = Compared(found[-1], False)
    return render(
        "fuels.html", served, names=[name_shown(name) for name in names], fuel=fuel, rows=rows, groups=_groups(found),
        total=total, seasons=_seasons(*sheets, beside), counts=_counted(Counter(d.verdict for d in found)),
        many=len(found), words=WORDS, same=sheets[0] == sheets[1],
        changes=changes_table(*sheets, library=library, records=(beside, beside)),
        left_out=len(a.rows) - len(rows) if rows else 0, row_counts=(len(a.rows), len(b.rows)),
        most=max(1, *(band.high for report in (a, b) for group in GROUPS for band in getattr(report, group))),
        mechanisms=MECHANISMS)
