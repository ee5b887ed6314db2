"""Sheets of version 1: two lists, up to 32 rows."""

from collections.abc import Callable, Iterator
from dataclasses import replace
from itertools import chain, combinations, product

from tools.vectors.chance import Chance, chance_plan
from tools.vectors.plans import (
    BASE, BY_CLASS, CLASSES, EMPTY, EXAMPLE, LARGEST, PAIRS, ROW, ROW_FIELDS, SEASON, SEASON_FIELDS, SMALLEST, Plan,
    most, patched, record, said, sized,
)
from tools.vectors.sheets.case import ACCEPTED, Answer, Case, of_record
from tools.vectors.sheets.damage import DAMAGE
from tools.vectors.sheets.limits import COUNTS, LIMITS, PARTS, ROW_FAULTS, SEASON_FAULTS, head_faults


def head_cases() -> Iterator[Case]:
    """In a whole sheet, and in a head that nothing follows."""
    return head_faults(BASE.data(), BASE.data()[:8])


def count_cases() -> Iterator[Case]:
    """No records, as many as there can be, and one more; all of them there."""
    for seasons, rows, answer in (
        (0, 1, (4, 5)), (12, 1, ACCEPTED), (13, 1, (4, 5)),
        (1, 0, (5, 6)), (1, 32, ACCEPTED), (1, 33, (5, 6)),
    ):
        plan = Plan((SEASON,) * seasons, (ROW,) * rows)
        yield Case("%s, all there" % sized(plan), plan.data(), answer)


def starts(plan: Plan) -> list[int]:
    """The offsets at which a part or a record starts, and the end."""
    seasons = [plan.place("seasons", i) for i in range(len(plan.seasons))]
    rows = [plan.place("rows", i) for i in range(len(plan.rows) + 1)]
    return [8, 56, *seasons, *rows]


def cut_cases() -> Iterator[Case]:
    """Cut at every length of a head, and before, at and after each start."""
    data = BASE.data()
    lengths = {*range(10), *(start + more for start in starts(BASE) for more in (-1, 0, 1))}
    for length in sorted(length for length in lengths if length < len(data)):
        yield Case("cut to %d of %d bytes" % (length, len(data)), data[:length], (1, 0) if length < 8 else (7, 0))


def shortened_cases() -> Iterator[Case]:
    """The smallest and the largest without a byte, a season or a row."""
    for plan, less in product((SMALLEST, LARGEST), (1, 8, 24)):
        data = plan.data()
        yield Case("cut by %d of %d bytes" % (less, len(data)), data[:-less], (7, 0))


def lengthened_cases() -> Iterator[Case]:
    tails = (b"\0", b"\xff", b"\n", record(SEASON_FIELDS, SEASON), record(ROW_FIELDS, ROW), BASE.data())
    for plan, tail in (*product((SMALLEST, BASE), tails), (LARGEST, tails[0])):
        yield Case("%d bytes and %d more" % (len(plan.data()), len(tail)), plan.data() + tail, (7, 0))


def miscounted_cases() -> Iterator[Case]:
    """Counts in the head that are not those of the records. Three seasons have
    the length of a row, and then the length is right all the same."""
    seasons, rows = len(BASE.seasons), len(BASE.rows)
    for more_seasons, more_rows in ((1, 0), (-1, 0), (0, 1), (0, -1), (1, -1), (-1, 1), (3, -1), (6, -2), (9, -3)):
        counts = bytes([seasons + more_seasons, rows + more_rows])
        fits = 8 * more_seasons + 24 * more_rows == 0
        words = "%s: the head says %d and %d" % (sized(BASE), *counts)
        yield Case(words, patched(BASE.data(), 5, counts), None if fits else (7, 0))


def parking_cases() -> Iterator[Case]:
    for (number, place, name), (words, counts, passes) in product(((8, 8, "durations"), (9, 56, "hours")), COUNTS):
        answer = ACCEPTED if passes else (number, place)
        yield Case("%s: %s" % (name, words), replace(BASE, **{name: counts}).data(), answer)


def limit_cases() -> Iterator[Case]:
    """Each limit on both sides, in the first and in the last record."""
    for kind, number, inside, outside in LIMITS:
        changes = [(change, 0) for change in inside] + [(change, number) for change in outside]
        ends = (0, len(getattr(BASE, kind)) - 1)
        yield from (of_record(BASE, kind, i, change, n) for (change, n), i in product(changes, ends))


def days_cases() -> Iterator[Case]:
    """The running sum, which stops at the season that takes it past 366."""
    sums = (
        # days of the seasons, and the season that stops, counted from 0
        ((366,), None), ((367,), 0), ((365, 1), None), ((366, 1), 1), ((1, 366), 1),
        ((100, 100, 166), None), ((100, 100, 167), 2), ((200, 167, 1), 1), ((200, 167, 0), 1), ((200, 0, 167), 1),
        ((1, 65535, 1), 1), ((366, 65535, 1), 1), ((1, 1, 366), 2),
        ((30,) * 11 + (36,), None), ((30,) * 11 + (37,), 11), ((33,) * 12, 11), ((36,) * 12, 10), ((1,) * 12, None),
    )
    for days, stop in sums:
        plan = Plan(tuple({**SEASON, "days": n} for n in days), (ROW,))
        answer = ACCEPTED if stop is None else (10, plan.place("seasons", stop))
        yield Case("days %s" % " ".join(map(str, days)), plan.data(), answer)


def far_cases() -> Iterator[Case]:
    """Each condition of a record in the last record of the largest sheet and
    in the only one of the smallest."""
    for kind, number, _, outside in LIMITS:
        last = len(getattr(LARGEST, kind)) - 1
        yield of_record(LARGEST, kind, last, outside[0], number)
        yield of_record(SMALLEST, kind, 0, outside[0], number)


def class_pair(vehicle_class: int, technology: int) -> Iterator[Case]:
    """A pair of the table with canister and tank by class, and the same with
    both written: alike in what passes and what is refused."""
    litres, canisters = CLASSES[vehicle_class]
    canister = canisters[technology]
    top, number = (most(canister, SEASON), 20) if canister else (0, 19)
    by_class, written = {"canister": BY_CLASS, "tank": 0}, {"canister": canister, "tank": 10 * litres}
    for fitted, (saturation, n) in product((by_class, written), ((top, 0), (top + 1, number))):
        change = {"class": vehicle_class, "technology": technology, **fitted, "load": 0, "saturation": saturation}
        yield of_record(SMALLEST, "rows", 0, change, n)


def class_cases() -> Iterator[Case]:
    return chain.from_iterable(class_pair(*pair) for pair in PAIRS)


def table_cases() -> Iterator[Case]:
    """All pairs, as many to a sheet as there can be rows."""
    for pairs in (PAIRS[:32], PAIRS[32:]):
        rows = tuple({**ROW, "class": c, "technology": t, **EMPTY} for c, t in pairs)
        yield Case("%d pairs of the table" % len(pairs), Plan((SEASON,), rows).data(), ACCEPTED)


def absent_cases() -> Iterator[Case]:
    """The last technology of each class passes, the next does not."""
    for vehicle_class, (_, canisters) in CLASSES.items():
        last = {"class": vehicle_class, "technology": len(canisters) - 1, **EMPTY}
        yield of_record(BASE, "rows", 0, last, 0)
        yield of_record(BASE, "rows", 3, {**last, "technology": len(canisters)}, 13)


def saturation_cases() -> Iterator[Case]:
    """Check 20 on both sides, for each size in cold and heat. At 0.0 C and
    100.0 kPa a medium canister of 155.0 g stands at 3 exactly, and passes."""
    weather = ((-300, 1100), (-300, 300), (-1, 600), (0, 1000), (200, 600), (300, 1000), (500, 300), (500, 1100))
    for (highest, vp), canister, more in product(weather, (1, 2, 3), (0, 1)):
        season = {"days": 366, "lowest": -300, "highest": highest, "vp": vp}
        plan = SMALLEST.changed("seasons", 0, season)
        row = {"canister": canister, "load": 0, "saturation": most(canister, season) + more}
        case = of_record(plan, "rows", 0, row, 20 * more)
        yield case._replace(words="%s, at %s" % (case.words, said({"highest": highest, "vp": vp})))


def season_cases() -> Iterator[Case]:
    """Check 20 where one season alone decides, in the first and last row."""
    hot = {"highest": 500, "vp": 300}
    ends = [(BASE, 0), (BASE, len(BASE.rows) - 1), (LARGEST, len(LARGEST.rows) - 1)]
    for (plan, j), part, more in product(ends, (0, 1, 2), (0, 1)):
        i = part * (len(plan.seasons) - 1) // 2
        row = {"canister": 2, "load": 0, "saturation": most(2, hot) + more}
        case = of_record(plan.changed("seasons", i, hot), "rows", j, row, 20 * more)
        yield case._replace(words="%s, hot in season %d" % (case.words, i + 1))


# The pairs of numbers of a season and of a row, the lower first.
RECORD_PAIRS = [
    (kind, *pair)
    for kind, faults in (("seasons", SEASON_FAULTS), ("rows", ROW_FAULTS))
    for pair in combinations(faults, 2)
]


def fault(kind: str, i: int, number: int) -> Callable[[Plan], Plan]:
    """What brings a number about in a record, as an edit of a plan."""
    change = {**SEASON_FAULTS, **ROW_FAULTS}[number]
    return lambda plan: plan.changed(kind, i, change)


def two_faults(words: str, first: Callable[[Plan], Plan], later: Callable[[Plan], Plan], answer: Answer) -> Case:
    return Case(words, later(first(BASE)).data(), answer)


def same_record_cases() -> Iterator[Case]:
    """Two conditions in the last record: the lower number is returned."""
    for kind, a, b in RECORD_PAIRS:
        last = len(getattr(BASE, kind)) - 1
        words = "%d and %d in the last %s" % (a, b, kind[:-1])
        yield two_faults(words, fault(kind, last, a), fault(kind, last, b), (a, BASE.place(kind, last)))


def two_record_cases() -> Iterator[Case]:
    """The higher number in the first record, the lower in the last: the first
    record's is returned."""
    for kind, a, b in RECORD_PAIRS:
        last = len(getattr(BASE, kind)) - 1
        words = "%d in the first %s and %d in the last" % (b, kind[:-1], a)
        yield two_faults(words, fault(kind, 0, b), fault(kind, last, a), (b, BASE.place(kind, 0)))


def season_and_row_cases() -> Iterator[Case]:
    """The last season comes before the first row."""
    for a, b in product(SEASON_FAULTS, ROW_FAULTS):
        words = "%d in the last season and %d in the first row" % (a, b)
        yield two_faults(words, fault("rows", 0, b), fault("seasons", 2, a), (a, BASE.place("seasons", 2)))


def part_cases() -> Iterator[Case]:
    """Any two parts at fault: the earlier in the table is returned."""
    data = BASE.data()
    for (a, place, first), (b, _, later) in combinations(PARTS, 2):
        yield Case("%d and %d" % (a, b), later(first(data)), (a, place))


def short_cases() -> Iterator[Case]:
    """Under 8 bytes nothing of the head is looked at."""
    for number, _, edit in PARTS[:5]:
        yield Case("1 and %d" % number, edit(BASE.data())[:7], (1, 0))


SIZES = (
    (1, 1), (1, 2), (2, 1), (2, 3), (3, 2), (4, 4), (5, 9), (1, 32), (12, 1), (7, 5), (8, 16), (4, 22), (10, 27),
    (12, 32),
)


def accepted_cases() -> Iterator[Case]:
    plans = [("values by chance", chance_plan(*size)) for size in SIZES]
    plans += [("plain values", plan) for plan in (SMALLEST, BASE, LARGEST)]
    for words, plan in [("document 01's example", EXAMPLE), *plans]:
        yield Case("%s: %s" % (sized(plan), words), plan.data(), ACCEPTED)


def damaged_cases() -> Iterator[Case]:
    """Sheets of the smaller sizes, each damaged many times over."""
    chance = Chance("damage")
    for size, _, damage in product(SIZES[1:7], range(4), DAMAGE):
        plan = chance_plan(*size)
        words, data = damage(chance, plan.data())
        yield Case("%s: %s" % (sized(plan), words), data, None)


GROUPS = (
    accepted_cases, head_cases, count_cases, cut_cases, shortened_cases, lengthened_cases, miscounted_cases,
    parking_cases, limit_cases, days_cases, far_cases, class_cases, table_cases, absent_cases, saturation_cases,
    season_cases, same_record_cases, two_record_cases, season_and_row_cases, part_cases, short_cases, damaged_cases,
)
