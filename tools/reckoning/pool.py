"""Two sheets of version 4 with the same seasons and parking, pooled: the first's rows, then the second's.

The pooled sheet is made first and then checked whole, so that nothing here
relies on which checks can still refuse it.
"""

from tools.reckoning.checks import check as check_sheet
from tools.reckoning.format import row_count, row_place, version_of

VERSION = 4
FIRST, SECOND, POOLED = 1, 2, 3  # which sheet a refusal is of, as evp_pool says it
NAMES = {FIRST: "first", SECOND: "second", POOLED: "pooled"}


def pooled(first: bytes, second: bytes) -> bytes:
    """The first sheet with the rows of both counted, and the second's rows."""
    rows = row_count(first) + row_count(second)
    return first[:6] + rows.to_bytes(2, "little") + first[8:] + second[row_place(second, 0):]


def check_region(data: bytes) -> tuple[int, int] | None:
    """Where one of the two sheets stops: another version than 4 is refused where
    the version is checked, whatever else is wrong behind it."""
    refusal = check_sheet(data)
    if refusal is not None and refusal[0] < 3:
        return refusal
    if version_of(data) != VERSION:
        return 3, 3
    return refusal


def check(first: bytes, second: bytes, room: int) -> tuple[int, int, int] | None:
    """Which sheet is refused, with number and place, or None: the buffer has
    room for so many bytes."""
    for sheet, data in ((FIRST, first), (SECOND, second)):
        refusal = check_region(data)
        if refusal is not None:
            return (sheet, *refusal)
    if first[5] != second[5] or first[8:row_place(first, 0)] != second[8:row_place(second, 0)]:
        return POOLED, 32, 0
    data = pooled(first, second)
    refusal = check_sheet(data)
    if refusal is not None:
        return (POOLED, *refusal)
    if room < len(data):
        return POOLED, 22, 0
    return None
