"""Two sheets pooled."""

import unittest

from tools import reckoning
from tools.reckoning import pool
from tools.tests.support import patched, sample

WHOLE = sample("districts", ".evp")
ROWS_START = 1160 + 8 * WHOLE[5]


def regions(whole: bytes, rows: int) -> tuple[bytes, bytes]:
    """A sheet of version 4 cut into two: the first so many rows, and the rest."""
    cut = ROWS_START + 24 * rows
    left = int.from_bytes(whole[6:8], "little") - rows
    return patched(whole[:cut], (6, rows, 2)), patched(whole[:ROWS_START] + whole[cut:], (6, left, 2))


class PoolTest(unittest.TestCase):
    """Pools of a sheet that was cut in two."""

    def test_a_sheet_cut_in_two(self):
        for rows in (1, 25, 299):
            first, second = regions(WHOLE, rows)
            self.assertEqual(pool.pooled(first, second), WHOLE, "cut after row %d" % rows)
            self.assertIsNone(pool.check(first, second, len(WHOLE)), "cut after row %d" % rows)

    def test_in_the_other_order(self):
        """Rows keep their exact masses."""
        first, second = regions(WHOLE, 298)
        other = pool.pooled(second, first)
        self.assertEqual(len(other), len(WHOLE))
        self.assertEqual(other[:ROWS_START], WHOLE[:ROWS_START])
        sheets = [reckoning.read(data) for data in (WHOLE, other, second)]
        for i in (0, 1):
            found = {reckoning.masses(sheet, row) for sheet, row in zip(sheets, (298 + i, i, i))}
            self.assertEqual(len(found), 1, "masses of row %d of the second" % (i + 1))

    def test_refusals(self):
        """Each with its sheet, where the next ones would apply too."""
        first, second = regions(WHOLE, 298)
        vehicles = {i: 10_000_000 for i in range(10)} | {20: 1}
        full = regions(patched(WHOLE, *((ROWS_START + 24 * i + 8, vehicles.get(i, 0), 4) for i in range(300))), 10)
        room = len(WHOLE)
        season = 1160 + 2
        for a, b, space, answer in (
            (first[:7], second[:7], room, (1, 1, 0)), (first, second[:7], room, (2, 1, 0)),
            (patched(first, (0, 0, 1), (3, 3, 2)), second, room, (1, 2, 0)),
            (patched(first, (3, 3, 2), (5, 0, 1)), second[:7], room, (1, 3, 3)),
            (first, patched(second, (3, 1, 2)), room, (2, 3, 3)), (first, patched(second, (5, 13, 1)), room, (2, 4, 5)),
            (first, patched(second[:-1], (season, 0, 2)), room, (2, 7, 0)),
            (first, patched(second, (season, 0, 2)), 0, (3, 32, 0)),
            (first, patched(second, (8, 1, 1)), room, (3, 32, 0)),
            (first, second, room - 1, (3, 22, 0)), (*full, room, (3, 26, ROWS_START + 24 * 20)),
            (*full, 0, (3, 26, ROWS_START + 24 * 20)), (*full[::-1], room, (3, 26, ROWS_START + 24 * 299)),
        ):
            with self.subTest(answer=answer, space=space):
                self.assertEqual(pool.check(a, b, space), answer)
