"""Sheets of version 4: up to 1,000 rows, and a limit of their vehicles together."""

from collections.abc import Iterator
from dataclasses import replace
from itertools import chain, product

from tools.vectors.chance import Chance, chance_many_plan
from tools.vectors.plans import (
    BASE_MANY, DRIVEN, FULL_MANY, MOST_OF_ALL, MOST_OF_ROW, ROW_FIELDS, SEASON, SEASON_FIELDS, SMALL_MANY, SMALLEST,
    VERSIONS, Plan, counted, in_turn, many, patched, plain, record, sized, with_vehicles,
)
from tools.vectors.sheets.case import ACCEPTED, Case, of_record
from tools.vectors.sheets.damage import DAMAGE
from tools.vectors.sheets.limits import (
    GRID_PARTS, GRIDS, HEAD_FAULTS, MANY_LIMITS, MILEAGE_FAULTS, MILEAGE_LIMITS, ROW_FAULTS, SEASON_FAULTS,
)

# The count of rows: bytes 6 and 7 one by one, and the limit.
COUNTS_OF_ROWS = (1, 2, 31, 32, 33, 255, 256, 257, 512, 999, 1000)
COUNTS_BEYOND = (0, 1001, 1023, 1024, 1256, 1280, 2048, 8192, 32_768, 65_280, 65_535)


def many_head_cases() -> Iterator[Case]:
    """Heads that nothing follows; the count of rows is looked at before the
    length. In the other versions byte 7 is no part of it."""
    head = SMALL_MANY.data()[:8]
    for number, place, at, all_b in HEAD_FAULTS:
        if number < 5:
            yield from (Case("version 4, head: %s at byte %d" % (b.hex(), at), patched(head, at, b), (number, place))
                        for b in all_b)
    for rows in COUNTS_BEYOND + COUNTS_OF_ROWS:
        answer = (5, 6) if rows in COUNTS_BEYOND else (7, 0)
        yield Case("version 4, head: %d rows" % rows, patched(head, 6, counted([rows])), answer)
        for version in VERSIONS[:3]:
            data = patched(patched(head, 3, bytes([version])), 6, counted([rows]))
            answer = (5, 6) if not 1 <= rows % 256 <= 32 else (6, 7) if rows > 255 else (7, 0)
            yield Case("version %d, head: %d rows in two bytes" % (version, rows), data, answer)
    yield Case("version 4, head: 13 seasons and no row", patched(head, 5, b"\x0d\0\0"), (4, 5))
    yield Case("version 5, head: no season and no row", patched(head, 3, b"\5\0\0\0\0"), (3, 3))
    yield Case("version 4, head: 7 bytes", head[:7], (1, 0))


def many_form_cases() -> Iterator[Case]:
    """Length and grid of version 4, and the same bytes as another version."""
    data = SMALL_MANY.data()
    for length in (9, 104, 136, 1160, 1168, len(data) - 24, len(data) - 1):
        yield Case("version 4 cut to %d of %d bytes" % (length, len(data)), data[:length], (7, 0))
    for tail in (b"\0", record(SEASON_FIELDS, SEASON), record(ROW_FIELDS, DRIVEN)):
        yield Case("version 4 of %d bytes and %d more" % (len(data), len(tail)), data + tail, (7, 0))
    for seasons, rows in ((2, 1), (1, 2), (1, 256), (1, 257), (1, 513), (4, 1)):
        words = "version 4, %s: the head says %d and %d" % (sized(SMALL_MANY), seasons, rows)
        yield Case(words, patched(data, 5, bytes([seasons]) + counted([rows])), (7, 0))
    yield Case("version 4 of version 1's length", patched(SMALLEST.data(), 3, b"\4"), (7, 0))
    yield Case("version 1 of version 4's length", patched(data, 3, b"\1"), (7, 0))
    yield Case("version 2 of version 4's bytes", patched(data, 3, b"\2"), (21, SMALL_MANY.place("rows", 0)))
    yield Case("version 3 of version 4's bytes", patched(data, 3, b"\3"), ACCEPTED)
    for version in (b"\5\0", b"\6\0", b"\4\1", b"\0\4", b"\4\4", b"\4\x80"):
        yield Case("version %s of version 4's length" % version.hex(), patched(data, 3, version), (3, 3))
    for words, counts, passes in GRIDS:
        if words in ("sum 0", "sum 1 in the last", "sum 1000000 in the last", "sum 1000001 in the last"):
            plan = replace(SMALL_MANY, grid=counts)
            yield Case("version 4, grid: %s" % words, plan.data(), ACCEPTED if passes else (24, 8))
    for seasons in (0, 1, 12, 13):
        plan = many((SEASON,) * seasons, in_turn(1))
        yield Case("version 4, %s" % sized(plan), plan.data(), ACCEPTED if 1 <= seasons <= 12 else (4, 5))


def many_count_cases() -> Iterator[Case]:
    """All the rows that the head tells of, more than that, a byte less and a
    byte more; and the same as version 3."""
    before = 31
    for rows in (32, 33, 255, 256, 257, 1000, 1001):
        plan = many((SEASON,), in_turn(rows))
        data, words = plan.data(), "version 4, %s, " % sized(plan)
        off = (7, 0) if rows <= 1000 else (5, 6)
        yield Case(words + "the head says %d" % before, patched(data, 6, counted([before])), (7, 0))
        answer = (5, 6) if not 1 <= rows % 256 <= 32 else (6, 7) if rows > 255 else ACCEPTED
        yield Case("version 3, %s in two bytes" % sized(plan), patched(data, 3, b"\3"), answer)
        yield Case(words + "all there", data, ACCEPTED if rows <= 1000 else off)
        yield Case(words + "less a byte", data[:-1], off)
        yield Case(words + "less a row", data[:-24], off)
        yield Case(words + "and a byte", data + b"\0", off)
        before = rows


def many_record_cases() -> Iterator[Case]:
    """Each limit of a record outside in the first and in the last one, and 25
    for all its reasons; what passes there."""
    number, inside, outside = MILEAGE_LIMITS
    yield from (of_record(BASE_MANY, "rows", 3, change, 0) for change in inside[:8])
    yield from (of_record(BASE_MANY, "rows", 3, change, number) for change in outside)
    for kind, number, inside, outside in MANY_LIMITS:
        last = len(getattr(BASE_MANY, kind)) - 1
        yield of_record(BASE_MANY, kind, 0, outside[0], number)
        yield of_record(BASE_MANY, kind, last, outside[-1], number)
        # record 1 is the last season, and a row with a load
        yield from (of_record(BASE_MANY, kind, 1, change, 0) for change in inside[:1] if number != 25)


def of_vehicles(plan: Plan, vehicles: dict[int, int], stop: int | None = None, number: int = 26) -> Case:
    """The sheet with these vehicles; `stop` is the row where it stops."""
    plan = with_vehicles(plan, vehicles)
    words = ", ".join("%d in row %d" % (n, i + 1) for i, n in vehicles.items())
    answer = ACCEPTED if stop is None else (number, plan.place("rows", stop))
    return Case("version %d, %s, vehicles: %s" % (plan.version(), sized(plan), words), plan.data(), answer)


def many_vehicles_cases() -> Iterator[Case]:
    """The sum of vehicles on both sides of its limit, at the first row that can
    pass it and at the next; no other version has the limit."""
    yield of_vehicles(FULL_MANY, {10: 1}, 10)
    yield of_vehicles(FULL_MANY, {10: 0})
    yield of_vehicles(FULL_MANY, {11: 1}, 11)
    yield of_vehicles(FULL_MANY, {10: 1, 11: 1}, 10)
    yield of_vehicles(FULL_MANY, {10: MOST_OF_ROW}, 10)
    yield of_vehicles(FULL_MANY, {10: MOST_OF_ROW + 1}, 10, 16)
    # sums that 32 bits do not hold
    yield of_vehicles(FULL_MANY, {10: 2 ** 32 - MOST_OF_ALL}, 10, 16)
    yield of_vehicles(FULL_MANY, {10: 2 ** 32 - 1}, 10, 16)
    for i in (0, 4, 9):
        yield of_vehicles(FULL_MANY, {i: MOST_OF_ROW + 1}, i, 16)
        yield of_vehicles(FULL_MANY, {i: MOST_OF_ROW - 1})
        yield of_vehicles(FULL_MANY, {i: MOST_OF_ROW - 1, 10: 1})
        yield of_vehicles(FULL_MANY, {i: MOST_OF_ROW - 1, 10: 2}, 10)
        yield of_vehicles(FULL_MANY, {i: MOST_OF_ROW - 1, 10: 1, 11: 1}, 11)
        yield of_vehicles(FULL_MANY, {i: 0, 10: MOST_OF_ROW})
        yield of_vehicles(FULL_MANY, {i: 0, 10: MOST_OF_ROW, 11: 1}, 11)
    for version in (1, 2, 3):
        plan = plain(1, 32) if version == 1 else replace(plain(1, 32).gridded(), metered=version == 3)
        yield of_vehicles(plan, dict.fromkeys(range(12), MOST_OF_ROW))
        yield of_vehicles(plan, dict.fromkeys(range(32), MOST_OF_ROW))
        yield of_vehicles(plan, {**dict.fromkeys(range(31), MOST_OF_ROW), 31: MOST_OF_ROW + 1}, 31, 16)
    yield Case("version 3 of a full version 4", patched(with_vehicles(FULL_MANY, {10: 1}).data(), 3, b"\3"), ACCEPTED)
    plan = replace(plain(1, 32).gridded(), metered=True, many=True)
    yield of_vehicles(plan, dict.fromkeys(range(32), MOST_OF_ROW), 10)


# Row 10 with one vehicle too many; FULL_MANY has a canister there.
PAST = {"vehicles": 1}


def many_order_cases() -> Iterator[Case]:
    """26 with each other number of a row: behind 13 to 16 and before the later
    ones in one row; before all of them where they are in the next row, and
    behind them where they are in one before. And behind what stands before the
    rows."""
    faults = {**{n: change for n, change in ROW_FAULTS.items() if n != 21}, 25: MILEAGE_FAULTS[0]}
    for number, change in faults.items():
        case = of_record(FULL_MANY, "rows", 10, {**PAST, **change}, number if number <= 16 else 26)
        yield case._replace(words="26 and %d in row 11" % number)
    for number, change in faults.items():
        past = FULL_MANY.changed("rows", 10, PAST)
        case = of_record(past.changed("rows", 11, change), "rows", 10, PAST, 26)
        yield case._replace(words="26 in row 11 and %d in row 12" % number)
        for i in (0, 9):
            case = of_record(past, "rows", i, change, number)
            yield case._replace(words="26 in row 11 and %d in row %d" % (number, i + 1))


def vehicles_before_cases() -> Iterator[Case]:
    """26 behind what stands before the rows."""
    past = FULL_MANY.changed("rows", 10, PAST)
    for number, change in SEASON_FAULTS.items():
        case = of_record(past, "seasons", 0, change, number)
        yield case._replace(words="%s, and 26 in row 11" % case.words)
    data = past.data()
    for number, place, edit in GRID_PARTS[:7]:
        if number not in (5, 6):
            yield Case("version 4: %d and 26" % number, edit(data), (number, place))
    yield Case("version 4: 5 and 26", patched(data, 6, counted([1001])), (5, 6))


def row_faults(plan: Plan, i: int) -> Iterator[Case]:
    """Each number of a row in this one."""
    return (of_record(plan, kind, i, outside[0], number) for kind, number, _, outside in MANY_LIMITS if kind == "rows")


def many_far_cases() -> Iterator[Case]:
    """Where a count of rows in one byte, or one up to 32, would not reach."""
    plan = many((SEASON,) * 2, in_turn(300))
    return chain.from_iterable(row_faults(plan, i) for i in (32, 255, 256, 299))


def many_far_vehicles_cases() -> Iterator[Case]:
    """Ten full rows, and the vehicle that is too many in one far behind; then
    as many in each row as a thousand rows can have on average."""
    plan = with_vehicles(many((SEASON,), in_turn(300, 0)), dict.fromkeys(range(10), MOST_OF_ROW))
    yield from (of_vehicles(plan, {i: 1}, i) for i in (10, 31, 32, 33, 254, 255, 256, 257, 299))
    plan = many((SEASON,), in_turn(1000, MOST_OF_ALL // 1000))
    average = plan.rows[0]["vehicles"]
    yield of_vehicles(plan, {})
    yield of_vehicles(plan, {999: average + 1}, 999)
    yield of_vehicles(plan, {999: average - 1})
    yield of_vehicles(plan, {0: average + 1, 999: average - 1})
    yield of_vehicles(plan, {0: average + 1, 999: average}, 999)
    yield of_vehicles(plan, {0: average + 1, 999: 0})
    yield of_vehicles(plan, {0: average + 1, 998: 2 * average, 999: 0}, 998)
    yield of_vehicles(plan, {0: average + 1, 998: 2 * average - 1, 999: 0})
    yield of_vehicles(plan, {0: average + 1, 998: 2 * average - 1, 999: 1}, 999)
    yield of_vehicles(plan, {0: average + 1, 998: 2 * average - 1, 999: MOST_OF_ROW + 1}, 999, 16)


def many_largest_cases() -> Iterator[Case]:
    """The longest sheet that there is, and each number of a row in the last of
    its rows."""
    plan = many((SEASON,) * 12, in_turn(1000, MOST_OF_ALL // 1000))
    data = plan.data()
    yield Case("version 4, the largest as version 3", patched(data, 3, b"\3"), (5, 6))
    yield Case("version 4, the largest with byte 7 alone", patched(data, 6, b"\0\3"), (7, 0))
    yield Case("version 4, the largest", data, ACCEPTED)
    yield Case("version 4, the largest less a byte", data[:-1], (7, 0))
    yield Case("version 4, the largest and a byte", data + b"\0", (7, 0))
    yield from row_faults(plan, 999)
    yield of_vehicles(plan, {999: MOST_OF_ALL // 1000 + 1}, 999)


def many_accepted_cases() -> Iterator[Case]:
    for size in ((1, 1), (2, 3), (12, 33), (3, 100), (1, 260)):
        plan = chance_many_plan(*size)
        yield Case("version 4, %s: values by chance" % sized(plan), plan.data(), ACCEPTED)


def many_damaged_cases() -> Iterator[Case]:
    chance = Chance("damage of many rows")
    data = chance_many_plan(2, 40).data()
    for damage, _ in product(DAMAGE[:-1], range(3)):
        words, damaged = damage(chance, data)
        yield Case("version 4, seasons 2, rows 40: %s" % words, damaged, None)


GROUPS = (
    many_head_cases, many_form_cases, many_count_cases, many_record_cases, many_vehicles_cases, many_order_cases,
    vehicles_before_cases, many_far_cases, many_far_vehicles_cases, many_largest_cases, many_accepted_cases,
    many_damaged_cases,
)
