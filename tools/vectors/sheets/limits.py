"""The limits of a sheet's fields, as changes of a record that pass and that do not, and faults of its other parts."""

from collections.abc import Iterator
from itertools import product

from tools.vectors.plans import EMPTY, MILLION, SEASON, grid_of, most, patched
from tools.vectors.sheets.case import Case

# Number, place, offset, bytes that do not pass there.
HEAD_FAULTS = (
    (2, 0, 0, (b"\0", b"e", b"EPV", b"PVE", b"VEP")), (2, 0, 1, (b"v", b"W")), (2, 0, 2, (b"p", b"\0", b"Q")),
    (3, 3, 3, (b"\0\0", b"\5\0", b"\0\1", b"\1\1", b"\0\2", b"\2\2", b"\3\3", b"\xff\xff")),
    (4, 5, 5, (b"\0", b"\x0d", b"\xff")),
    (5, 6, 6, (b"\0", b"\x21", b"\xff")),
    (6, 7, 7, (b"\1", b"\x80", b"\xff")),
)


def head_faults(*sheets: bytes) -> Iterator[Case]:
    """Each fault in each of these sheets."""
    faults = [(number, place, at, b) for number, place, at, all_b in HEAD_FAULTS for b in all_b]
    for (number, place, at, b), data in product(faults, sheets):
        words = "head: %s at byte %d, %d bytes" % (b.hex(), at, len(data))
        yield Case(words, patched(data, at, b), (number, place))


NOTHING = (0,) * 23

COUNTS = (
    # words, counts, whether their sum passes
    ("sum 0", (0, *NOTHING), False),
    ("sum 1 in the first", (1, *NOTHING), True),
    ("sum 1 in the last", (*NOTHING, 1), True),
    ("sum 1000 in the first", (1000, *NOTHING), True),
    ("sum 1000 in the last", (*NOTHING, 1000), True),
    ("sum 1000 over all", (41,) * 23 + (57,), True),
    ("sum 1001 in the first", (1001, *NOTHING), False),
    ("sum 1001 in the last", (*NOTHING, 1001), False),
    ("sum 1001 over all", (41,) * 23 + (58,), False),
    ("sum 65535", (*NOTHING, 65535), False),
    ("sum 65536, which 16 bits do not hold", (32768, 32768) + (0,) * 22, False),
    ("sum 65537, which 16 bits do not hold", (32768, 1, 32768) + (0,) * 21, False),
    ("sum 24 times 65535", (65535,) * 24, False),
)

GRIDS = (
    # words, counts, whether their sum passes
    ("sum 0", grid_of(()), False),
    ("sum 1 in the first", grid_of((1,)), True),
    ("sum 1 in the last", grid_of((1,), 575), True),
    ("sum 1 at the second end hour", grid_of((1,), 24), True),
    ("sum 1 behind where version 1 has its lists", grid_of((1,), 48), True),
    ("sum 1001, all in the first 24", grid_of((1001,)), True),
    ("sum 1001, all in the second 24", grid_of((1001,), 24), True),
    ("sum 65535", grid_of((65535,), 300), True),
    ("sum 65536, which 16 bits do not hold", grid_of((32768, 32768), 23), True),
    ("sum 131072, which 16 bits do not hold", grid_of((65535, 65535, 2), 46), True),
    ("sum 999999 in the last", grid_of((*MILLION[:-1], 16974), 560), True),
    ("sum 1000000 in the first", grid_of(MILLION), True),
    ("sum 1000000 in the last", grid_of(MILLION, 560), True),
    ("sum 1000000 over all", (1736,) * 575 + (1800,), True),
    ("sum 1000000, one in the last", grid_of((*MILLION[:-1], 16974))[:-1] + (1,), True),
    ("sum 1000001 in the first", grid_of((*MILLION[:-1], 16976)), False),
    ("sum 1000001 in the last", grid_of((*MILLION[:-1], 16976), 560), False),
    ("sum 1000001 over all", (1736,) * 575 + (1801,), False),
    ("sum 1000001, one in the last", grid_of(MILLION)[:-1] + (1,), False),
    ("sum 1000001, one in the first", (1,) + grid_of(MILLION, 560)[1:], False),
    ("sum 1048576, which 20 bits do not hold", grid_of((65535,) * 16 + (16,)), False),
    ("sum 1048577, which 20 bits do not hold", grid_of((65535,) * 16 + (17,), 48), False),
    ("sum 576 times 1737", (1737,) * 576, False),
    ("sum 576 times 65535", (65535,) * 576, False),
)

# Number, changes that pass, changes that do not; the nearest to the limit
# on both sides are among them.
SEASON_LIMITS = (
    (10, ({"days": 1},), ({"days": 0}, {"days": 367}, {"days": 65535})),
    (
        11,
        (
            {"lowest": -300}, {"highest": 500}, {"lowest": 200}, {"highest": 50},
            {"lowest": -300, "highest": -300}, {"lowest": 500, "highest": 500}, {"lowest": -1, "highest": 0},
        ),
        (
            {"lowest": -301}, {"highest": 501}, {"lowest": 201}, {"highest": 49},
            {"lowest": -301, "highest": -301}, {"lowest": 501, "highest": 501}, {"lowest": 0, "highest": -1},
            {"lowest": -32768}, {"highest": 32767}, {"highest": -32768},
        ),
    ),
    (12, ({"vp": 300}, {"vp": 1100}), ({"vp": 299}, {"vp": 1101}, {"vp": 0}, {"vp": 65535})),
)

ROW_LIMITS = (
    (13, (), ({"class": 0}, {"class": 10}, {"class": 255}, {"technology": 255})),
    (
        14,
        ({"canister": 0, **EMPTY}, {"canister": 1}, {"canister": 2}, {"canister": 3}),
        ({"canister": 4}, {"canister": 128}, {"canister": 254}),
    ),
    (
        15,
        ({"carburettor": 100}, {"hot": 100}, {"fill": 100}, {"carburettor": 0, "hot": 0, "fill": 0}),
        ({"carburettor": 101}, {"hot": 101}, {"fill": 101}, {"carburettor": 255}, {"hot": 255}, {"fill": 255}),
    ),
    (
        16,
        ({"vehicles": 10_000_000}, {"vehicles": 0}),
        ({"vehicles": 10_000_001}, {"vehicles": 2 ** 24}, {"vehicles": 2 ** 32 - 1}),
    ),
    (17, ({"tank": 1500}, {"tank": 1}), ({"tank": 1501}, {"tank": 65535})),
    (
        18,
        ({"trips": 1200}, {"minutes": 1440}, {"trips": 0, "minutes": 0}),
        ({"trips": 1201}, {"trips": 2000}, {"minutes": 1441}, {"trips": 65535}, {"minutes": 65535}),
    ),
    (
        19,
        (
            {"load": 450}, {"canister": 2, "load": 450}, {"canister": 3, "load": 450},
            {"load": 0}, EMPTY, {"technology": 0, **EMPTY},
        ),
        (
            {"load": 451}, {"canister": 2, "load": 451}, {"canister": 3, "load": 451},
            {"load": 1, "saturation": 0}, {"load": 65535},
            {"canister": 0}, {"canister": 0, "load": 0}, {"canister": 0, "load": 0, "saturation": 1},
            {"technology": 0}, {"technology": 0, "load": 0, "saturation": 1},
        ),
    ),
    (
        21, (),
        ({"mileage": 1}, {"mileage": 2 ** 8}, {"mileage": 2 ** 16}, {"mileage": 2 ** 31}, {"mileage": 2 ** 32 - 1}),
    ),
)

LIMITS = [("seasons", *limit) for limit in SEASON_LIMITS] + [("rows", *limit) for limit in ROW_LIMITS]

MILEAGE_LIMITS = (
    25,
    (
        {"mileage": 1}, {"mileage": 1_000_000}, {"saturation": 0}, {"canister": 2}, {"canister": 3},
        {"technology": 0, "canister": 1}, {"saturation": most(1, SEASON, 0)},
        # 0 keeps the written load, and what goes with it
        {"mileage": 0}, {"mileage": 0, "load": 1}, {"mileage": 0, "load": 450}, {"mileage": 0, "saturation": 0},
        {"mileage": 0, "canister": 0, **EMPTY}, {"mileage": 0, "technology": 0, **EMPTY},
        {"mileage": 0, "saturation": most(1, SEASON, 0) + 1}, {"mileage": 0, "saturation": most(1, SEASON)},
    ),
    (
        {"mileage": 1_000_001}, {"mileage": 2 ** 32 - 1}, {"mileage": 1_000_001, "technology": 0, **EMPTY},
        {"mileage": 1, "canister": 0, **EMPTY}, {"mileage": 1, "technology": 0, **EMPTY},
        {"mileage": 1, "load": 1}, {"mileage": 1_000_000, "load": 1}, {"load": 450},
        {"mileage": 1, "saturation": most(1, SEASON, 0) + 1}, {"saturation": most(1, SEASON)},
    ),
)

METERED_LIMITS = [limit for limit in LIMITS if limit[1] != 21] + [("rows", *MILEAGE_LIMITS)]

# With check 20 beside the others. The canister is written, as not every row has
# one by its class.
MANY_LIMITS = [*METERED_LIMITS, (
    "rows", 20, ({"canister": 1, "saturation": most(1, SEASON)},),
    ({"canister": 1, "saturation": most(1, SEASON) + 1},),
)]

# A change for each number of a record; any two of them apply together.
SEASON_FAULTS = {10: {"days": 0}, 11: {"highest": 501}, 12: {"vp": 299}}

ROW_FAULTS = {
    13: {"class": 0}, 14: {"canister": 4}, 15: {"fill": 101}, 16: {"vehicles": 10_000_001}, 17: {"tank": 1501},
    18: {"minutes": 1441}, 19: {"load": 65535}, 20: {"saturation": 60000}, 21: {"mileage": 1},
}

MILEAGE_FAULTS = (
    {"mileage": 1_000_001}, {"mileage": 1, "load": 1}, {"mileage": 1, "saturation": most(1, SEASON, 0) + 1},
    {"mileage": 1, "canister": 0, **EMPTY},
)

# Faults of the parts that stand once, each as an edit of a sheet's bytes.
PARTS = (
    (2, 0, lambda data: patched(data, 2, b"Q")), (3, 3, lambda data: patched(data, 3, b"\5")),
    (4, 5, lambda data: patched(data, 5, b"\0")), (5, 6, lambda data: patched(data, 6, b"\x21")),
    (6, 7, lambda data: patched(data, 7, b"\1")), (7, 0, lambda data: data + b"\0"),
    (8, 8, lambda data: patched(data, 8, b"\xff\xff")), (9, 56, lambda data: patched(data, 56, b"\xff\xff")),
    (12, 104, lambda data: patched(data, 110, b"\0\0")), (21, 128, lambda data: patched(data, 148, b"\1")),
)

GRID_PARTS = (
    *PARTS[:6], (24, 8, lambda data: patched(data, 8, bytes(1152))),
    (12, 1160, lambda data: patched(data, 1166, b"\0\0")), (21, 1184, lambda data: patched(data, 1204, b"\1")),
)
