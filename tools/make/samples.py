"""The sheets of the samples, each made from its text; and the text samples/districts.txt.

This is a made-up region of twelve districts, each with its fleet in 25 rows, 300 rows in all, for a sheet of version 4.
All figures are invented; the shares of carburettors and the trips are of the size that the guidebook has (section
3.3.3, Table 3-7).
"""

from collections.abc import Iterator
from itertools import product

from tools import sheet
from tools.command import SAMPLES, MadeFile
from tools.make.error import MakeError

# A canister: none, ("load", grams, m_sat) or ("years", age, m_sat).
Fitted = tuple[str, str | int, str] | None

HEAD = """\
# A made-up region split by district: twelve districts of 25 rows each. More than
# 32 rows and a grid make a sheet of version 4. tools/make/samples.py wrote this.
#
# Parkings counted by end hour and duration together: nights at home, days at
# work, and errands.
"""

SEASONS = """\
# winter, spring, summer, autumn
season days=90 lowest=-2.0 highest=5.5 vp=90.0
season days=92 lowest=5.5 highest=16.5 vp=75.0
season days=92 lowest=15.0 highest=27.5 vp=60.0
season days=91 lowest=6.0 highest=14.0 vp=80.0
"""

# Parkings: the end hour and the half-hours at the middle, how far they reach to
# both sides, and the count at the middle, which falls evenly to the sides.
PARKINGS = ((7, 21, 2, 3, 60), (17, 17, 2, 3, 45), (12, 2, 3, 1, 70), (18, 3, 3, 2, 55), (21, 6, 2, 2, 20))

# A town has more and shorter trips, and its cars fewer kilometres: minutes of a
# trip, kilometres a year, and the column of shares in FLEET.
TOWN, COUNTRY = (12, 9_000, 0), (21, 14_500, 1)

# name, kind, vehicles, trips a day in tenths, hot-trip share in percent
DISTRICTS = (
    ("Alderford", TOWN, 412_300, 48, 32), ("Brackwater", TOWN, 268_900, 46, 34), ("Cresthaven", TOWN, 197_450, 47, 30),
    ("Dunmere", TOWN, 121_800, 45, 36), ("Elmstead", TOWN, 88_640, 44, 37), ("Farrowdale", COUNTRY, 146_200, 39, 55),
    ("Greyhaven", COUNTRY, 93_750, 41, 52), ("Hollowbrook", COUNTRY, 71_380, 38, 58),
    ("Juniper Hill", COUNTRY, 54_900, 37, 60),
    ("Kettlewick", COUNTRY, 48_260, 36, 61), ("Longmarsh", COUNTRY, 33_570, 35, 63),
    ("Mossgate", COUNTRY, 19_840, 34, 66),
)

# A row of each district: class, technology, shares of its vehicles in ten
# thousandths in a town and in the country, carburettor share, and the canister:
# none, its load and m_sat in grams, or its age in years and m_sat.
FLEET = (
    ("cars below 1.4 l", (
        (1, 0, 180, 260, 99, None), (1, 1, 210, 240, 15, ("load", "28.5", "46.0")),
        (1, 2, 520, 540, 5, ("load", "26.0", "46.0")),
        (1, 3, 1010, 870, 0, ("years", 10, "92.0")), (1, 4, 1380, 990, 0, ("years", 6, "92.0")),
        (1, 5, 690, 410, 0, ("years", 2, "92.0")),
    )),
    ("cars 1.4 to 2.0 l", (
        (2, 0, 110, 190, 99, None), (2, 1, 240, 280, 10, ("years", 19, "46.0")),
        (2, 2, 480, 560, 0, ("years", 15, "46.0")),
        (2, 3, 890, 930, 0, ("years", 10, "92.0")), (2, 4, 1190, 1150, 0, ("load", "31.5", "92.0")),
        (2, 5, 640, 520, 0, ("years", 2, "92.0")),
    )),
    ("cars above 2.0 l", (
        (3, 0, 15, 25, 95, None), (3, 2, 130, 180, 0, ("load", "58.0", "92.0")),
        (3, 4, 270, 330, 0, ("years", 6, "185.0")),
        (3, 5, 160, 140, 0, ("years", 2, "185.0")),
    )),
    ("light-duty", (
        (4, 0, 40, 90, 99, None), (4, 2, 95, 170, 5, ("load", "33.0", "46.0")),
        (4, 4, 240, 310, 0, ("years", 6, "92.0")),
    )),
    ("two-wheelers", (
        (5, 1, 540, 610, 100, None), (6, 1, 190, 210, 90, None), (7, 3, 310, 330, 10, None), (8, 2, 260, 370, 60, None),
        (9, 1, 70, 110, 70, ("load", "24.0", "46.0")), (9, 2, 140, 185, 20, ("years", 7, "46.0")),
    )),
)


def grid() -> Iterator[str]:
    counts = dict.fromkeys(product(range(1, 25), range(1, 25)), 0)
    for hour, half_hours, hours_off, halves_off, middle in PARKINGS:
        for t, d in product(range(-hours_off, hours_off + 1), range(-halves_off, halves_off + 1)):
            fall = (1 + hours_off - abs(t)) * (1 + halves_off - abs(d))
            counts[hour + t, half_hours + d] += middle * fall // ((1 + hours_off) * (1 + halves_off))
    for t in range(1, 25):
        yield "grid %d %s\n" % (t, " ".join(str(counts[t, d]) for d in range(1, 25)))


def canister(fitted: Fitted, km_a_year: int) -> str:
    if fitted is None:
        return ""
    what, value, saturation = fitted
    load = "load=%s" % value if what == "load" else "mileage=%d" % (value * km_a_year)
    return " %s saturation=%s" % (load, saturation)


def fleet(kind: tuple[int, int, int], vehicles: int, trips: int, hot: int) -> Iterator[str]:
    minutes, km_a_year, column = kind
    for words, kinds in FLEET:
        yield "# %s\n" % words
        for vehicle_class, technology, *shares, carburettor, fitted in kinds:
            hundredths = trips * (10 if vehicle_class < 5 else 5)  # two-wheelers have half as many
            yield ("row class=%d technology=%d carburettor=%d hot=%d fill=40 vehicles=%d trips=%d.%02d "
                   "minutes=%d%s\n") % (
                vehicle_class, technology, carburettor, hot, vehicles * shares[column] // 10_000,
                *divmod(hundredths, 100), minutes, canister(fitted, km_a_year))


def text() -> str:
    parts = [HEAD, *grid(), SEASONS]
    for name, *values in DISTRICTS:
        parts += ["#\n# %s\n" % name, *fleet(*values)]
    return "".join(parts)


def check_shares():
    """The shares of a column sum to all vehicles of a district."""
    for column in (0, 1):
        if sum(row[2 + column] for _, kinds in FLEET for row in kinds) != 10_000:
            raise MakeError("the shares of column %d do not sum to 10,000" % column)


def files() -> Iterator[MadeFile]:
    """The text of the districts; and of every sample the sheet that its text makes."""
    check_shares()
    texts = {path.stem: path.read_text(encoding="utf-8") for path in sorted(SAMPLES.glob("*.txt"))}
    texts["districts"] = text()
    yield MadeFile("samples/districts.txt", texts["districts"].encode())
    for name, described in texts.items():
        yield MadeFile("samples/%s.evp" % name, sheet.write(described))
