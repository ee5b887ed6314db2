"""Where a sheet stops."""

import unittest

from tools import reckoning, sheet
from tools.tests.support import as_grid, grid_text, patched

# A case is the bytes and what is expected; then the words of the report call, or None, and the factor call.
BASE = """
durations 1 0 0 0 0 0 0 0 0 0 0 0 0 0 0 0 0 0 0 0 0 0 0 2
hours     1 0 0 0 0 0 0 0 0 0 0 0 0 0 0 0 0 0 0 0 0 0 0 2
season days=200 lowest=-30.0 highest=50.0 vp=30.0
season days=166 lowest=10.0 highest=10.0 vp=110.0
row class=1 technology=0 vehicles=10000000 tank=150.0 trips=12.00 minutes=1440 fill=100 hot=100 carburettor=100
row class=1 technology=1 load=40.0 saturation=40.0
"""


SEASON_0, SEASON_1, ROW_0, ROW_1 = 104, 112, 120, 144


def grid_refusals(lists):
    """Cases of version 2, made of a sheet of version 1."""
    base = as_grid(lists)
    season_0, season_1, row_0, row_1 = 1160, 1168, 1176, 1200

    def p(*changes):
        return patched(base, *changes)

    # fifteen full cells, of end hours 5 and 6; with the four of the base and
    # this in the next they sum to a million
    full = [(8 + 2 * i, 65535, 2) for i in range(96, 111)]
    rest = 1_000_000 - 15 * 65535 - 9
    at = 8 + 2 * 111
    empty = [(8 + 2 * i, 0, 2) for i in range(576)]
    return [
        (base, None), (p((3, 1, 2)), (7, 0)), (p((3, 0, 2)), (3, 3)), (p((3, 5, 2)), (3, 3)), (p((3, 3, 2)), None),
        (p((3, 258, 2)), (3, 3)), (p((3, 513, 2)), (3, 3)),
        (base[:7], (1, 0)), (base[:8], (7, 0)), (base[:-1], (7, 0)), (base + b"\0", (7, 0)),
        (base[:len(lists)], (7, 0)), (base[:1160], (7, 0)), (p((5, 1, 1)), (7, 0)), (p((6, 1, 1)), (7, 0)),
        (p((5, 13, 1)), (4, 5)), (p((6, 0, 1)), (5, 6)), (p((7, 2, 1)), (6, 7)), (p((1, 0, 1)), (2, 0)),
        (p(*empty), (24, 8)), (p(*empty, (8, 1, 2)), None), (p(*empty, (1158, 1, 2)), None),
        (p(*empty, (104, 1, 2)), None), (p(*empty, (1158, 65535, 2)), None),
        (p(*full, (at, rest, 2)), None), (p(*full, (at, rest + 1, 2)), (24, 8)), (p(*full, (at, rest - 1, 2)), None),
        (p(*full, (at, rest, 2), (1156, 1, 2)), (24, 8)),
        (p(*((place, 65535, 2) for place, _, _ in empty)), (24, 8)),
        # 8 and 9 are of version 1 alone
        (p((8, 1001, 2)), None), (p((56, 1001, 2)), None), (p((8, 0, 2), (54, 0, 2)), None),
        # 24 stands behind 7 and before 10
        (p(*empty) + b"\0", (7, 0)), (p(*empty, (7, 1, 1)), (6, 7)), (p(*empty, (season_0, 0, 2)), (24, 8)),
        (p(*empty, (row_1, 0, 1)), (24, 8)), (p(*empty), (24, 8), 0), (p(*empty), (24, 8), None, (9, 9, 9)),
        (p((season_0, 0, 2)), (10, season_0)), (p((season_1, 167, 2)), (10, season_1)),
        (p((season_0 + 2, -301, 2)), (11, season_0)), (p((season_1 + 6, 1101, 2)), (12, season_1)),
        (p((row_0, 10, 1)), (13, row_0)), (p((row_1 + 2, 254, 1)), (14, row_1)), (p((row_0 + 5, 101, 1)), (15, row_0)),
        (p((row_1 + 8, 10_000_001, 4)), (16, row_1)), (p((row_0 + 6, 1501, 2)), (17, row_0)),
        (p((row_1 + 14, 1441, 2)), (18, row_1)), (p((row_0 + 18, 1, 2)), (19, row_0)),
        (p((row_1 + 18, 600, 2)), (20, row_1)), (p((row_1 + 23, 128, 1)), (21, row_1)),
        (base, (22, 0), 37), (base, None, 38), (base, (23, 0), None, (2, 0, 1)), (base, None, None, (1, 1, 7)),
    ]


def mileage_refusals(lists):
    """Cases of version 3, made of a sheet of version 1. Row 1 has a small
    canister; in the first season, at 50.0 C and 30.0 kPa, a = -8.2 and
    b = 0.1155, so a + b.s.m_sat turns from 0 on above 35.49 g. The second, at
    10.0 C and 110.0 kPa, has a = -12 and b = 0.0995, and 60.30 g."""
    grid = as_grid(lists)
    row_0, row_1 = 1176, 1200
    base = patched(grid, (3, 3, 2), (row_1 + 16, 0, 2), (row_1 + 18, 354, 2), (row_1 + 20, 84_000, 4))

    def p(*changes):
        return patched(base, *changes)

    cold = ((1160 + 4, 100, 2), (1160 + 6, 1100, 2))  # the first season as the second
    return [
        (base, None), (p((3, 2, 2)), (21, row_1)), (p((3, 1, 2)), (7, 0)), (p((3, 5, 2)), (3, 3)),
        (p((3, 259, 2)), (3, 3)),
        (base[:-1], (7, 0)), (base + b"\0", (7, 0)), (base[:7], (1, 0)), (base[:len(lists)], (7, 0)),
        (p(*((8 + 2 * i, 0, 2) for i in range(576))), (24, 8)),
        # the mileage itself
        (p((row_1 + 20, 1_000_000, 4)), None), (p((row_1 + 20, 1_000_001, 4)), (25, row_1)),
        (p((row_1 + 20, 1, 4)), None),
        (p((row_1 + 23, 1, 1)), (25, row_1)), (p((row_1 + 20, 2 ** 32 - 1, 4)), (25, row_1)),
        (p((row_1 + 20, 0, 4)), None),
        # without canister, by class and written
        (p((row_0 + 20, 1, 4)), (25, row_0)), (p((row_0 + 20, 1, 4), (row_0 + 2, 2, 1)), None),
        (p((row_1 + 2, 0, 1), (row_1 + 18, 0, 2)), (25, row_1)),
        (p((row_1 + 2, 0, 1), (row_1 + 18, 0, 2), (row_1 + 20, 0, 4)), None),
        # beside a load
        (p((row_1 + 16, 1, 2)), (25, row_1)), (p((row_1 + 16, 354, 2)), (25, row_1)),
        (p((row_1 + 16, 354, 2), (row_1 + 20, 0, 4)), None),
        # a + b.s.m_sat above 0, in the first season and in the second alone
        (p((row_1 + 18, 355, 2)), (25, row_1)), (p((row_1 + 18, 355, 2), (row_1 + 20, 0, 4)), None),
        (p((row_1 + 18, 0, 2)), None), (p((row_1 + 18, 603, 2), *cold), None),
        (p((row_1 + 18, 604, 2), *cold), (25, row_1)),
        (p((row_1 + 18, 355, 2), *cold, (1168 + 4, 500, 2), (1168 + 6, 300, 2)), (25, row_1)),
        (p((row_1 + 18, 709, 2), (row_1 + 2, 2, 1)), None), (p((row_1 + 18, 710, 2), (row_1 + 2, 2, 1)), (25, row_1)),
        (p((row_1 + 18, 1419, 2), (row_1 + 2, 3, 1)), None), (p((row_1 + 18, 1420, 2), (row_1 + 2, 3, 1)), (25, row_1)),
    ]


def mileage_order_refusals(lists):
    """25 stands behind 20 in its row and before 13 in the next."""
    grid = as_grid(lists)
    row_0, row_1 = 1176, 1200
    base = patched(grid, (3, 3, 2), (row_1 + 16, 0, 2), (row_1 + 18, 354, 2), (row_1 + 20, 84_000, 4))

    def p(*changes):
        return patched(base, *changes)

    return [
        (p((row_1 + 18, 600, 2)), (20, row_1)), (p((row_1 + 16, 355, 2)), (19, row_1)),
        (p((row_1 + 2, 0, 1)), (19, row_1)),
        (p((row_0 + 20, 1_000_001, 4), (row_1, 0, 1)), (25, row_0)),
        (p((row_0 + 20, 1, 4), (row_0 + 5, 101, 1)), (15, row_0)),
        (p((row_0 + 20, 1, 4), (1168 + 6, 299, 2)), (12, 1168)), (p((row_1 + 20, 1_000_001, 4)), (25, row_1), 0),
        (p((row_1 + 20, 1_000_001, 4)), (25, row_1), None, (9, 9, 9)), (base, (22, 0), 37),
        (base, (23, 0), None, (2, 0, 1)),
    ]


class ManyRows:
    """Sheets of version 4, made of one of version 1: 11 rows, of which the last has a canister; and rows of one
    vehicle each."""

    def __init__(self, lists):
        self.grid = patched(as_grid(lists), (3, 4, 2), (6, 11, 2), (1184, 0, 4))
        self.row = self.grid[1176:1200]  # without canister
        self.base = self.grid[:1176] + self.row * 10 + self.grid[1200:]

    def rows(self, count, *changes):
        return patched(self.grid[:1176] + patched(self.row, (8, 1, 4)) * count, (6, count, 2), *changes)

    def patched(self, *changes):
        return patched(self.base, *changes)

    @staticmethod
    def at(i, field=0):
        return 1176 + 24 * i + field


def full_rows_refusals(lists):
    """Ten rows with as many vehicles as there can be and one with none; and 1,000 rows."""
    sheets = ManyRows(lists)
    at = sheets.at
    full = sheets.patched(*((at(i, 8), 10_000_000, 4) for i in range(10)))
    most = sheets.rows(1000, *((at(i, 8), 10_000_000, 4) for i in range(990, 999)), (at(999, 8), 9_999_010, 4))
    return [
        (full, None), (patched(full, (at(10, 8), 1, 4)), (26, at(10))),
        (patched(full, (at(10, 8), 10_000_000, 4)), (26, at(10))), (patched(full, (at(9, 8), 9_999_999, 4)), None),
        (patched(full, (at(9, 8), 9_999_999, 4), (at(10, 8), 1, 4)), None),
        (patched(full, (at(9, 8), 9_999_999, 4), (at(10, 8), 2, 4)), (26, at(10))),
        # 26 stands behind 16 and before 17 in its row, and before 13 in the next
        (patched(full, (at(9, 8), 10_000_001, 4)), (16, at(9))),
        (patched(full, (at(10, 8), 10_000_001, 4)), (16, at(10))),
        (patched(full, (at(10, 8), 1, 4), (at(10, 6), 1501, 2)), (26, at(10))),
        (patched(full, (at(10, 8), 1, 4), (at(10, 5), 101, 1)), (15, at(10))),
        (patched(full, (at(10, 8), 1, 4), (at(9, 6), 1501, 2)), (17, at(9))),
        (patched(full, (at(10, 8), 1, 4)), (26, at(10)), 0),
        (patched(full, (at(10, 8), 1, 4)), (26, at(10)), None, (9, 9, 9)),
        (most, None), (patched(most, (at(999, 8), 9_999_011, 4)), (26, at(999))),
        (patched(most, (at(0, 8), 2, 4)), (26, at(999))),
        (patched(most, (at(0, 8), 2, 4), (at(999), 0, 1)), (13, at(999))),
        (patched(most, (at(0, 8), 2, 4), (at(999, 8), 0, 4)), None),
        # no other version has the limit
        (patched(full, (3, 3, 2), (at(10, 8), 10_000_000, 4)), None),
    ]


def many_rows_refusals(lists):
    """The count of rows, and what version 3 has too."""
    sheets = ManyRows(lists)
    base, rows, p, at = sheets.base, sheets.rows, sheets.patched, sheets.at
    return [
        (base, None),
        # the count of rows, and what its bytes are in the other versions
        (rows(1), None), (rows(32), None), (rows(33), None), (rows(255), None), (rows(256), None), (rows(1000), None),
        (rows(1001), (5, 6)), (p((6, 0, 2)), (5, 6)), (p((6, 65535, 2)), (5, 6)), (p((6, 1001, 2)), (5, 6)),
        (p((6, 267, 2)), (7, 0)), (p((6, 256, 2)), (7, 0)), (p((6, 10, 2)), (7, 0)), (base[:8], (7, 0)),
        (base[:7], (1, 0)),
        (rows(256, (3, 3, 2)), (5, 6)), (rows(257, (3, 3, 2)), (6, 7)), (rows(257, (3, 2, 2)), (6, 7)),
        (rows(257, (3, 1, 2)), (6, 7)), (rows(33, (3, 3, 2)), (5, 6)), (rows(32, (3, 3, 2)), None),
        (rows(32, (3, 2, 2)), None),
        (p((3, 3, 2)), None),
        (p((5, 0, 1), (6, 0, 2)), (4, 5)), (p((3, 5, 2), (6, 0, 2)), (3, 3)), (base[:-1], (7, 0)),
        (base + b"\0", (7, 0)),
        # what version 3 has: a mileage, and no 21
        (p((at(10, 16), 0, 2), (at(10, 18), 354, 2), (at(10, 20), 84_000, 4)), None),
        (p((at(10, 20), 1, 4)), (25, at(10))), (p((at(3, 20), 1_000_001, 4)), (25, at(3))),
        (rows(1000), (22, 0), 6025), (rows(1000), None, 6026), (rows(1000), (23, 0), None, (0, 1000, 1)),
        (rows(1000), None, None, (1, 999, 7)), (rows(256), (22, 0), 26), (rows(256), (22, 0), 1561),
        (rows(256), None, 1562),
    ]


def head_refusals(base):
    """Cases of version 1: head, parking and seasons."""
    def p(*changes):
        return patched(base, *changes)

    return [
        (b"", (1, 0)), (base[:7], (1, 0)), (b"XXX", (1, 0)),
        (p((0, 0x65, 1)), (2, 0)), (p((2, 0, 1)), (2, 0)),
        (p((3, 5, 2)), (3, 3)), (p((3, 257, 2)), (3, 3)), (p((3, 0, 2)), (3, 3)), (p((3, 2, 2)), (7, 0)),
        (p((3, 3, 2)), (7, 0)), (p((3, 4, 2)), (7, 0)),
        (p((5, 0, 1)), (4, 5)), (p((5, 13, 1)), (4, 5)),
        (p((6, 0, 1)), (5, 6)), (p((6, 33, 1)), (5, 6)),
        (p((7, 1, 1)), (6, 7)),
        (base + b"\0", (7, 0)), (base[:-1], (7, 0)), (base[:8], (7, 0)), (p((5, 3, 1)), (7, 0)),
        (p((8, 0, 2), (54, 0, 2)), (8, 8)), (p((8, 999, 2)), (8, 8)), (p((8, 998, 2)), None),
        (p((56, 0, 2), (102, 0, 2)), (9, 56)), (p((56, 999, 2)), (9, 56)), (p((102, 65535, 2)), (9, 56)),
        (p((SEASON_0, 0, 2)), (10, SEASON_0)), (p((SEASON_0, 367, 2)), (10, SEASON_0)),
        (p((SEASON_1, 0, 2)), (10, SEASON_1)), (p((SEASON_1, 167, 2)), (10, SEASON_1)),
        (p((SEASON_0, 366, 2)), (10, SEASON_1)),
        (p((SEASON_0 + 2, -301, 2)), (11, SEASON_0)), (p((SEASON_0 + 4, 501, 2)), (11, SEASON_0)),
        (p((SEASON_1 + 2, 101, 2)), (11, SEASON_1)), (p((SEASON_1 + 4, 99, 2)), (11, SEASON_1)),
        (p((SEASON_0 + 6, 299, 2)), (12, SEASON_0)), (p((SEASON_1 + 6, 1101, 2)), (12, SEASON_1)),
    ]


def row_refusals(base):
    """Cases of version 1: rows, and the calls."""
    def p(*changes):
        return patched(base, *changes)

    return [
        (p((ROW_0, 0, 1)), (13, ROW_0)), (p((ROW_0, 10, 1)), (13, ROW_0)),
        (p((ROW_1 + 1, 6, 1)), (13, ROW_1)), (p((ROW_1, 5, 1), (ROW_1 + 1, 4, 1)), (13, ROW_1)),
        (p((ROW_1, 9, 1), (ROW_1 + 1, 3, 1), (ROW_1 + 2, 1, 1)), (13, ROW_1)),
        (p((ROW_0 + 2, 4, 1)), (14, ROW_0)), (p((ROW_1 + 2, 254, 1)), (14, ROW_1)),
        (p((ROW_0 + 3, 101, 1)), (15, ROW_0)), (p((ROW_0 + 4, 101, 1)), (15, ROW_0)),
        (p((ROW_1 + 5, 255, 1)), (15, ROW_1)),
        (p((ROW_0 + 8, 10_000_001, 4)), (16, ROW_0)),
        (p((ROW_0 + 6, 1501, 2)), (17, ROW_0)),
        (p((ROW_0 + 12, 1201, 2)), (18, ROW_0)), (p((ROW_0 + 14, 1441, 2)), (18, ROW_0)),
        (p((ROW_1 + 16, 401, 2)), (19, ROW_1)),  # load above m_sat
        (p((ROW_0 + 18, 1, 2)), (19, ROW_0)),  # m_sat, no canister by class
        (p((ROW_0 + 16, 1, 2), (ROW_0 + 18, 1, 2)), (19, ROW_0)),
        (p((ROW_1 + 2, 0, 1)), (19, ROW_1)),  # canister of the class taken out
        (p((ROW_0 + 2, 3, 1), (ROW_0 + 18, 1, 2)), None),  # canister written in
        (p((ROW_1 + 18, 600, 2)), (20, ROW_1)),
        (p((ROW_0 + 20, 1, 1)), (21, ROW_0)), (p((ROW_1 + 23, 128, 1)), (21, ROW_1)),
        (base, (22, 0), 37), (base, (22, 0), 0), (base, None, 38), (base, None, 1000),
        (base, (23, 0), None, (2, 0, 1)), (base, (23, 0), None, (0, 2, 1)),
        (base, (23, 0), None, (0, 0, 0)), (base, (23, 0), None, (0, 0, 8)),
        (base, None, None, (1, 1, 7)),
    ]


def order_refusals(base):
    """The first in table and file order stops the sheet."""
    def p(*changes):
        return patched(base, *changes)

    return [
        (p((0, 0, 1), (3, 9, 2), (7, 9, 1)), (2, 0)),
        (p((5, 0, 1), (6, 0, 1)), (4, 5)), (p((7, 1, 1)) + b"\0", (6, 7)),
        (p((8, 999, 2), (56, 999, 2)), (8, 8)),
        (p((SEASON_0 + 6, 0, 2), (SEASON_1, 0, 2)), (12, SEASON_0)),
        (p((SEASON_0, 0, 2), (SEASON_0 + 2, 600, 2)), (10, SEASON_0)),
        (p((SEASON_1 + 6, 0, 2), (ROW_0, 0, 1)), (12, SEASON_1)),
        (p((ROW_0 + 20, 1, 4), (ROW_1, 0, 1)), (21, ROW_0)),
        (p((ROW_0 + 2, 9, 1), (ROW_0 + 3, 200, 1)), (14, ROW_0)),
        (p((ROW_0 + 6, 9999, 2), (ROW_0 + 8, 99999999, 4)), (16, ROW_0)),
        (p((ROW_1 + 16, 900, 2), (ROW_1 + 18, 800, 2), (ROW_1 + 20, 1, 1)), (19, ROW_1)),
        (p((ROW_1 + 18, 800, 2), (ROW_1 + 20, 1, 1)), (20, ROW_1)),
        (p((ROW_1 + 20, 1, 1)), (21, ROW_1), 0), (p((ROW_1 + 20, 1, 1)), (21, ROW_1), None, (9, 9, 9)),
    ]


def exponent_refusals(_):
    """Rule 20 at the tenth of a gram where it turns, and at a season's highest
    temperature alone; and the same of a mileage."""
    # At 30.0 C and 100.0 kPa, a = -10.55 and b = 0.103, so
    # 3 is passed between 131.5 and 131.6 g of a medium canister.
    rule = ("durations 1" + " 0" * 23 + "\nhours 1" + " 0" * 23 + "\n"
            "season days=1 lowest=-30.0 highest=0.0 vp=100.0\n"
            "season days=1 lowest=0.0 highest=30.0 vp=100.0\n"
            "row class=1 technology=3 saturation=%s")
    cases = [(sheet.write(rule % "131.5"), None), (sheet.write(rule % "131.6"), (20, 120))]
    # Equal to 3 passes: at 0.0 C and 100.0 kPa, a = -12.5 and b = 0.1, so a
    # medium canister of 155.0 g stands at 3 exactly.
    equal = rule.replace("highest=30.0", "highest=0.0")
    cases += [(sheet.write(equal % "155.0"), None), (sheet.write(equal % "155.1"), (20, 120))]
    # Likewise equal to 0 with a mileage, at 125.0 g.
    driven = grid_text({(1, 1): 1}) + equal.split("\n", 2)[2] + " mileage=1000"
    cases += [(sheet.write(driven % "125.0"), None), (sheet.write(driven % "125.1"), (25, 1176))]
    return cases


class ChecksTest(unittest.TestCase):
    """Each number with its place, in its order and at its edges."""

    BASE = sheet.write(BASE)

    def test_refusals(self):
        seen = set()
        for group in (
            head_refusals, row_refusals, order_refusals, exponent_refusals, grid_refusals, mileage_refusals,
            mileage_order_refusals, full_rows_refusals, many_rows_refusals,
        ):
            for index, (data, expected, *rest) in enumerate(group(self.BASE)):
                with self.subTest(group=group.__name__, case=index):
                    self.assertEqual(reckoning.check(data, *rest), expected)
                seen.add(expected[0] if expected else None)
        self.assertEqual(seen, {None, *range(1, 27)}, "the numbers that were met")

    def test_base(self):
        self.assertIsNone(reckoning.check(self.BASE))
