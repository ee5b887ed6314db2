"""The plain machine of a ledger, and the rules of a shared one."""

import unittest

from tools import reckoning
from tools.reckoning import ledger, shared
from tools.reckoning.ledger import arrival, departure
from tools.vectors import ledgers
from tools.vectors import shared as shared_vectors

FULL = 10_000_000


def row_left(data: bytes, row: int, change: int) -> bytes | None:
    """The sheet with so many vehicles more in a row; None where there is no such row, or four bytes do not hold
    them."""
    counts = reckoning.counts_of(data)
    if row >= len(counts) or not 0 <= counts[row] + change < 2 ** 32:
        return None
    counts[row] += change
    return reckoning.with_counts(data, counts)


class LedgerTest(unittest.TestCase):
    """The plain machine."""

    def test_calls(self):
        for limited, counts, call, fault, after in (
            (False, [5, 7], arrival(1, 3), None, [5, 10]), (False, [5, 7], departure(0, 5), None, [0, 7]),
            (False, [5, 7], departure(0, 6), "departure", [5, 7]), (False, [5, 7], arrival(2, 0), "row", [5, 7]),
            (False, [5, 7], departure(2, 9), "row", [5, 7]), (False, [5, 7], arrival(0, FULL - 5), None, [FULL, 7]),
            (False, [5, 7], arrival(0, FULL - 4), "16", [5, 7]),
            (False, [FULL] * 11, departure(3, 1), None, [FULL] * 3 + [FULL - 1] + [FULL] * 7),
            (True, [FULL] * 9 + [FULL - 1, 1], arrival(10, 1), "26", [FULL] * 9 + [FULL - 1, 1]),
            (False, [FULL] * 9 + [FULL - 1, 1], arrival(10, 1), None, [FULL] * 9 + [FULL - 1, 2]),
            (True, [FULL] * 10 + [0], arrival(0, 1), "16", [FULL] * 10 + [0]),
        ):
            with self.subTest(call=call, counts=counts):
                self.assertEqual(ledger.fault(limited, counts, call), fault)
                self.assertEqual(ledger.step(limited, counts, call), after)

    def test_list_of_calls(self):
        calls = [arrival(0, 4), departure(1, 9), departure(1, 7), arrival(1, 1), departure(0, 9)]
        self.assertEqual(ledger.machine(False, [5, 7], calls), [0, 1])

    def test_sheets_that_are_left(self):
        """Each call of the vectors against the checks of the sheet that it would
        leave, which know nothing of the machine."""
        held = 0
        for vector in ledgers.all_vectors():
            if vector.opening != (0, 0):
                continue
            data = vector.case.data
            for told in vector.told:
                left = row_left(data, told.call.row,
                                told.call.vehicles if told.call.kind == ledger.ARRIVAL else -told.call.vehicles)
                passes = left is not None and reckoning.check(left) is None
                self.assertEqual(told.fault is None, passes, "%s: %s" % (vector.case.words, told.call))
                if passes:
                    data = left
                    place = reckoning.row_place(data, told.call.row) + 8
                    self.assertEqual((told.place, told.count), (place, int.from_bytes(data[place:place + 4], "little")))
                held += 1
        self.assertGreater(held, 2_000)


class SharedTest(unittest.TestCase):
    """The rules of a shared ledger."""

    def test_sheets_that_are_left(self):
        """Each change of the vectors that a participant has the right to against
        the opening of the sheet that it would leave."""
        numbers = {0: 0, 29: 16, 31: 31}  # what opening it answers
        seen = dict.fromkeys(numbers, 0)
        for vector in shared_vectors.all_vectors():
            if vector.opening != (0, 0):
                continue
            data, owners = vector.case.data, vector.case.owners
            for told in vector.told:
                ask, number = told.ask, told.answer[0]
                if ask.kind >= shared.READ_ROW or number == 30:
                    continue
                self.assertTrue(owners[ask.row] == ask.who != shared.MARKER, "%s: %s" % (vector.case.words, ask))
                left = row_left(data, ask.row, ask.vehicles if ask.kind == shared.ARRIVAL else -ask.vehicles)
                if left is None:
                    self.assertEqual(number, 29, "%s: %s" % (vector.case.words, ask))
                    continue
                opening = shared.opening(left, owners, shared_vectors.WORDS)
                self.assertEqual(opening[0], numbers[number], "%s: %s" % (vector.case.words, ask))
                seen[number] += 1
                data = left if number == 0 else data
        self.assertGreater(min(seen.values()), 20, seen)
