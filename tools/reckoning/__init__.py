"""A second reckoning of the evaporation workbook, apart from the proved program.

The method is Tier 3 of the guidebook (source document 001) as document 01
settles it, with the change requests that have landed. It was written from
these alone and never from the proved code, so that the program's lows and
highs can be held against it.

Sheets of four versions are read. Version 1 has two lists of counts, durations
and end hours; version 2 has a grid of 576 counts, end hour 1 first, its 24
durations in a row. Both are read as a grid, that of two lists being their
products, and a cell weighs its count over the sum of all. Version 3 is version
2 with a mileage in every row, 0 where the written load counts; before version 3
it is 0. Version 4 is version 3 with up to 1,000 rows and a limit of their
vehicles together. Whatever follows the reading knows a grid and mileages, and
no version.
"""

from tools.reckoning.checks import check, read
from tools.reckoning.factors import RIGHT, Reading, factor, masses, seven_factors
from tools.reckoning.format import (
    Row, Season, Sheet, canister_of, counts_of, is_two_wheeler, row_at, row_count, row_place, seasons_start, tank_of,
    version_of, with_counts,
)
from tools.reckoning.mileage import driven, load_of, starting_load
from tools.reckoning.numbers import E, power_2_5, series
from tools.reckoning.quantities import canister_a_b, start_mark, temperature
from tools.reckoning.tables import CANISTER_S, CLASS_TABLE, NONE, WEIGHTS, table_entry, weight_exponent
from tools.reckoning.text import answer_text, cut, shown

__all__ = [
    "CANISTER_S", "CLASS_TABLE", "E", "NONE", "RIGHT", "Reading", "Row", "Season", "Sheet", "WEIGHTS", "answer_text",
    "canister_a_b", "canister_of", "check", "counts_of", "cut", "driven", "factor", "is_two_wheeler", "load_of",
    "masses", "power_2_5", "read", "row_at", "row_count", "row_place", "seasons_start", "series", "seven_factors",
    "shown", "start_mark", "starting_load", "table_entry", "tank_of", "temperature", "version_of", "weight_exponent",
    "with_counts",
]
