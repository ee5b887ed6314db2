"""The pages of species, of the map's cells and of a pool."""

from evp import layout
from evp.cells import RowOfCells, cells_of
from evp.figures import GROUP_NAMES, groups
from evp.library import SPECIES, Band, Kind, Library, Report, Travel
from evp.masses import shown
from evp.pages.render import render
from evp.pages.words import canister_words, named_row
from evp.sheet.names import NO_NAMES, Names
from evp.wording import apart, name_shown

FAMILIES = (("alkanes", 10), ("alkenes", 10), ("alkynes", 2), ("aromatics", 7))  # of Table 3-14, in its order
MOST_ROWS = 200


def page_species(library: Library, name: str, data: bytes, served: bool = False, packed: dict | None = None) -> str:
    """The species of the high total of an accepted sheet."""
    total = library.report(data).total
    masses = library.species(total.high)
    families, at = [], 0
    for family, many in FAMILIES:
        families.append((family, list(zip(SPECIES[at:at + many], masses[at:at + many]))))
        at += many
    most = max(range(len(masses)), key=masses.__getitem__)
    return render("species.html", served, name=name_shown(name), total=total, families=families, most=masses[most],
                  first=SPECIES[most], packed=packed, mass=lambda mg: shown(Band(mg, mg)))


def page_cells(library: Library, name: str, data: bytes, travels: list[Travel], served: bool = False,
               packed: dict | None = None, names: Names = NO_NAMES) -> str:
    """The urban, rural and highway cells of an accepted sheet's rows, and their sums."""
    report = library.report(data)
    *rows, sums = cells_of(library, report, travels)
    alike = len(set(travels)) == 1  # told once
    told = [_cells_line(data, row, "" if alike else travel_words(travel), names)
            for row, travel in zip(rows[:MOST_ROWS], travels)]
    most = max((cell.high for row in rows for cell in row.cells), default=1) or 1
    return render("cells.html", served, name=name_shown(name), rows=told, left_out=len(rows) - len(told), most=most,
                  sums=sums.cells, total=report.total, packed=packed, mass=_cell_mass, band=_cell_band,
                  where=travel_words(travels[0]) if alike else "")


def travel_words(travel: Travel) -> str:
    """Where the vehicles of a row are at home and drive. Mileages and speeds are in any unit."""
    return "owners %s; mileages %s urban, %s rural and %s highway; speeds %s rural and %s highway" % (
        "in town" if travel.town else "out of town", *map(apart, travel[1:]))


def _cells_line(data: bytes, row: RowOfCells, where: str, names: Names) -> dict:
    record = layout.row(data, int(row.row) - 1)
    return {"number": row.row, "who": named_row(record, names.row(int(row.row) - 1)), "vehicles": record["vehicles"],
            "cells": row.cells,
            "where": where}


def _cell_band(cell) -> Band:
    return Band(int(cell.low), int(cell.high))


def _cell_mass(cell) -> str:
    return "empty" if cell.kind == Kind.EMPTY else shown(_cell_band(cell))


def page_pool(library: Library, names: tuple[str, str], sheets: tuple[bytes, bytes], pooled: bytes,
              served: bool = False, packed: dict | None = None, beside: Names = NO_NAMES) -> str:
    """Two sheets and the pooled one; `beside` are the names of its rows."""
    reports = [library.report(data) for data in (*sheets, pooled)]
    rows = [layout.row_count(data) for data in (*sheets, pooled)]
    lines = [(GROUP_NAMES[group], mechanism, [_mass_of(report, group, m) for report in reports])
             for group, masses in groups(reports[2]) for m, mechanism in enumerate(masses._fields)]
    records = [layout.row(pooled, i) for i in range(rows[2])]
    if names[0] == names[1]:
        names = names[0] + " (first)", names[1] + " (second)"
    names = tuple(map(name_shown, names))
    fleet = [{"number": i + 1, "from": names[i >= rows[0]], "who": named_row(row, beside.row(i)),
              "canister": canister_words(row),
              "vehicles": row["vehicles"]} for i, row in enumerate(records)]
    return render("pool.html", served, names=names, rows=rows, lines=lines,
                  totals=[report.total for report in reports], most=max(1, *(r.total.high for r in reports)),
                  fleet=fleet[:MOST_ROWS], left_out=max(0, len(fleet) - MOST_ROWS), packed=packed, size=len(pooled))


def _mass_of(report: Report, group: str, mechanism: int) -> Band:
    return getattr(report, group)[mechanism]
