"""Factors and masses."""

import unittest
from fractions import Fraction

from tools import reckoning, sheet
from tools.make import samples
from tools.reckoning.factors import shared_factors
from tools.tests.support import (
    COLD, FEW_CELLS, MICROGRAM, NAMES, SMALL_CASES, as_grid, grid_text, lowest_exponent, patched, plain_factors, sample,
    sheet_of, spread, turned,
)

# Small cases with a mileage: found within the canister by cars and two-wheelers of
# each size, reached empty, and never reached.
DRIVEN_CASES = (
    "season days=2 lowest=5.0 highest=20.0 vp=60.0\n"
    "row class=1 technology=1 carburettor=40 hot=30 fill=40 vehicles=7 trips=2.50 minutes=20 saturation=12.0 "
    "mileage=20",
    "season days=2 lowest=-10.0 highest=25.0 vp=70.0\nseason days=1 lowest=35.0 highest=48.0 vp=45.6\n"
    "row class=9 technology=0 carburettor=40 hot=30 vehicles=7 trips=2.50 minutes=20 saturation=31.0 mileage=28\n"
    "row class=6 technology=0 canister=large tank=150.0 vehicles=7 trips=2.50 minutes=20 saturation=41.0 mileage=14\n"
    "row class=3 technology=1 carburettor=90 hot=10 vehicles=7 trips=2.50 minutes=20 saturation=21.3 mileage=1000000\n"
    "row class=2 technology=3 carburettor=90 hot=10 vehicles=7 trips=2.50 minutes=20 saturation=21.3 mileage=1",
)

# Table 3-5, 50 l without canister: the seven factors in its four columns.
TABLE_3_5 = (
    (3.90, 2.35, 1.74, 1.24), (0.10, 0.07, 0.04, 0.04), (8.48, 5.09, 3.75, 2.63), (11.93, 7.16, 5.27, 3.69),
    (0.13, 0.08, 0.06, 0.04), (1.84, 1.11, 0.81, 0.53), (10.05, 6.03, 4.44, 3.11),
)


def all_values(read: reckoning.Sheet, n: int, mode: str) -> list[Fraction]:
    """All factors and masses of a sheet."""
    rows = range(len(read.rows))
    found = [value for season in range(len(read.seasons)) for row in rows
             for value in reckoning.seven_factors(read, season, row, n, mode)]
    return found + [mass for row in rows for mass in reckoning.masses(read, row, n, mode)]


def one_cell(half_hours: int, hour: int) -> str:
    """The two lists of a single parking."""
    return "durations%s\nhours%s\n" % tuple("".join(" %d" % (i == at) for i in range(1, 25))
                                            for at in (half_hours, hour))


class GuidebookTest(unittest.TestCase):
    """Table 3-5 of the guidebook."""

    def test_table_3_5(self):
        """28 values; docs/SHEET.md says how far off the farthest two are."""
        read = reckoning.read(sample("table-3-5", ".evp"))
        off = sorted(
            abs(float(value) - TABLE_3_5[k][season])
            for season in range(4) for k, value in enumerate(reckoning.seven_factors(read, season, 0)))
        self.assertEqual(len(off), 28)
        self.assertEqual(["%.3f" % distance for distance in off[-2:]], ["0.025", "0.044"])

    def test_one_day(self):
        """Each mass in milligrams is a factor in micrograms."""
        day = reckoning.read(sample("table-3-5-day", ".evp"))
        factors = reckoning.seven_factors(reckoning.read(sample("table-3-5", ".evp")), 0, 0)
        for row, ks in enumerate(((1, 2, 5), (1, 3, 6), (1, 4, 7))):
            self.assertEqual([1000 * mass for mass in reckoning.masses(day, row)],
                             [factors[k - 1] / MICROGRAM for k in ks])


class ModesTest(unittest.TestCase):
    """Decimals against fractions, and n = 40 against n = 60."""

    def assert_near(self, read, n):
        for x, y in zip(all_values(read, n, "decimal"), all_values(read, n, "exact"), strict=True):
            self.assertLess(abs(x - y), Fraction(1, 10 ** 80), "n = %d" % n)

    def test_small_n(self):
        cases = [FEW_CELLS + case for case in SMALL_CASES]
        cases += [grid_text({(1, 14): 3, (6, 1): 2, (24, 24): 1}) + case for case in DRIVEN_CASES]
        for case in cases:
            with self.subTest(case=case):
                for n in (2, 3, 4, 5):
                    self.assert_near(sheet_of(case), n)

    def test_one_cell(self):
        """At n = 40 one cell is small enough for fractions, canister and all."""
        for case in SMALL_CASES[:3]:
            with self.subTest(case=case):
                self.assert_near(sheet_of(one_cell(1, 8) + case), 40)

    def test_n(self):
        """A mileage brings exponents of up to 13.8, where E itself differs more: the load by up to 4.10^-8 g."""
        for read in [reckoning.read(sample(name, ".evp")) for name in NAMES] + spread():
            # All rows of the samples would only repeat themselves.
            step = 37 if len(read.rows) > 32 else 3 if len(read.rows) > 3 else 1
            for season in range(len(read.seasons)):
                for row in range(0, len(read.rows), step):
                    limit = MICROGRAM / (20 if read.rows[row].mileage else 10 ** 6)
                    both = zip(*(reckoning.seven_factors(read, season, row, n) for n in (40, 60)))
                    self.assertLessEqual(max(abs(x - y) for x, y in both), limit)

    def test_cold(self):
        """Where the exponents are lowest the tail of the series is largest."""
        for row in (
            ("-30.0", "-30.0", "110.0", 1, 1, "small", 0, "150.0", "0.0", "60.0"),
            ("-30.0", "-20.0", "110.0", 1, 1, "small", 0, "150.0", "0.0", "60.0"),
            ("-30.0", "-10.0", "110.0", 3, 4, "large", 0, "150.0", "1.0", "250.0"),
            ("-25.0", "-15.0", "100.0", 9, 1, "small", 35, "20.0", "0.5", "50.0"),
            ("-20.0", "0.0", "90.0", 1, 3, "medium", 35, "50.0", "0.0", "120.0"),
        ):
            read = sheet_of(COLD % row)
            self.assertLess(lowest_exponent(read, 0, 0), -13)
            both = zip(*(reckoning.seven_factors(read, 0, 0, n) for n in (40, 60)))
            self.assertLess(max(abs(x - y) for x, y in both), MICROGRAM / 10 ** 6)
        y = Fraction(-146, 10)
        self.assertTrue(0 < reckoning.E(y, 40) - reckoning.E(y, 60) < MICROGRAM)


class GridTest(unittest.TestCase):
    """Grids against lists and against their cells."""

    def test_grid_of_products(self):
        """The same fractions as the lists. With the grid turned they are others,
        so that this can be seen to fail."""
        for case in SMALL_CASES:
            lists = sheet.write(FEW_CELLS + case)
            grid = as_grid(lists)
            self.assertIsNone(reckoning.check(grid))
            for n in (2, 3):
                values, of_grid, of_turned = (all_values(reckoning.read(data), n, "exact")
                                              for data in (lists, grid, turned(grid)))
                self.assertTrue(of_grid == values, "n = %d" % n)
                self.assertTrue(of_turned != values, "n = %d, turned" % n)

    def test_all_cells(self):
        """All 576 cells, at n = 40; the tables' products sum to 980,036."""
        for name, rows in (("table-3-5", (0, 1, 2)), ("region", (0, 5, 20))):
            data = sample(name, ".evp")
            lists, grid = reckoning.read(data), reckoning.read(as_grid(data))
            for row in rows:
                self.assertEqual(reckoning.masses(grid, row), reckoning.masses(lists, row),
                                 "row %d of %s" % (row, name))

    def test_mean_of_cells(self):
        """A grid's factor is the mean of its cells' factors, weighed by count over
        sum. Each cell's is taken from a sheet of version 1 with that cell alone."""
        cells = {(1, 13): 5, (6, 24): 1, (18, 7): 3, (24, 16): 2}
        for row in (
            "row class=1 technology=0 fill=35 minutes=20",
            "row class=2 technology=1 fill=20 minutes=20 load=20.0 saturation=22.0",
            "row class=9 technology=0 fill=20 load=30.0 saturation=61.0",
        ):
            def factors(parking, row=row):
                text = parking + "season days=1 lowest=3.0 highest=21.0 vp=70.0\n" + row
                return reckoning.seven_factors(sheet_of(text), 0, 0, 3, "exact")
            with self.subTest(row=row):
                of_cells = {cell: factors(one_cell(*cell)) for cell in cells}
                found = factors(grid_text(cells))
                for k in range(7):
                    self.assertEqual(found[k],
                                     sum(count * of_cells[cell][k] for cell, count in cells.items()) / Fraction(11))
                self.assertNotEqual(factors(grid_text({**cells, (18, 7): 4}))[0], found[0], "a count more")
                self.assertEqual(factors(grid_text({cell: 2 * count for cell, count in cells.items()})), found,
                                 "twice the counts")

    def test_survey(self):
        """No two lists hold the survey: it has cells a, b of one end hour and c, d
        of another with a.d other than b.c. Its margins give other masses."""
        read = reckoning.read(sample("survey", ".evp"))
        grid = read.grid
        self.assertEqual((sum(map(sum, grid)), grid[11][17], grid[16][17], grid[12][0]), (21108, 0, 420, 763))
        self.assertNotEqual(grid[11][17] * grid[16][0], grid[11][0] * grid[16][17])
        lengths = [sum(hour[d] for hour in grid) for d in range(24)]
        self.assertEqual((lengths[17], sum(grid[11])), (1432, 1727))
        margins = read._replace(grid=tuple(tuple(j * sum(hour) for j in lengths) for hour in grid))
        diurnal, _, running = (float(y / x) - 1
                               for x, y in zip(reckoning.masses(read, 0), reckoning.masses(margins, 0)))
        self.assertGreater(abs(diurnal), 0.01)
        self.assertLess(abs(running), 1e-12, "what depends on the end hour alone is in the margins")


class PlainTest(unittest.TestCase):
    """Against plain floating point, cell by cell."""

    def assert_plain(self, read, season, row):
        # Weights rounded to billionths move a temperature by up to 4.10^-8 degrees, hence not nearer.
        pairs = zip(reckoning.seven_factors(read, season, row), plain_factors(read, season, row))
        for k, (value, plain) in enumerate(pairs, 1):
            self.assertAlmostEqual(float(value), plain, delta=1e-6 * max(1.0, plain),
                                   msg="row %d, factor %d" % (row, k))

    def test_factors(self):
        names = ("table-3-5-day", "region", "survey", "odometer")
        for read in [reckoning.read(sample(name, ".evp")) for name in names] + spread():
            step = 1 if any(row.mileage for row in read.rows) else 2
            for row in range(0, len(read.rows), step):
                self.assert_plain(read, len(read.seasons) // 2, row)

    def test_masses(self):
        """Masses of the region from plain factors, seasons, shares and trips."""
        read = reckoning.read(sample("region", ".evp"))
        for row in (0, 2, 5, 12, 17, 20):
            record = read.rows[row]
            c, p, trips = record.carburettor / 100, record.hot / 100, record.trips / 100
            plain = [0.0, 0.0, 0.0]
            for season, place in enumerate(read.seasons):
                f = plain_factors(read, season, row)
                many = place.days * record.vehicles
                plain[0] += many * f[0]
                plain[1] += many * trips * (c * p * f[3] + c * (1 - p) * f[2] + (1 - c) * f[1])
                plain[2] += many * trips * (c * p * f[6] + c * (1 - p) * f[5] + (1 - c) * f[4])
            for found, expected in zip(reckoning.masses(read, row), plain):
                self.assertAlmostEqual(float(found), expected, delta=1e-7 * expected, msg="row %d" % row)

    def test_districts(self):
        """Rows of each kind far behind the first 32."""
        read = reckoning.read(sample("districts", ".evp"))
        kinds = {(reckoning.canister_of(row), row.mileage > 0): i for i, row in enumerate(read.rows)}
        self.assertTrue(len(kinds) >= 6 and min(kinds.values()) > 255, kinds)
        for row in kinds.values():
            self.assert_plain(read, 2, row)


class RowsTest(unittest.TestCase):
    """Rows that share their factors, rows without vehicles, and many rows."""

    FIELDS = {
        "class": 2, "technology": 3, "canister": "class", "carburettor": 40, "hot": 30, "fill": 35, "tank": "55.0",
        "vehicles": 1000, "trips": "2.50", "minutes": 20, "load": "85.0", "saturation": "90.0", "mileage": 0,
    }
    # the first five share their factors
    CHANGES = (
        {}, {"vehicles": 7}, {"trips": "2.51"}, {"carburettor": 41}, {"hot": 31},
        {"class": 9, "technology": 0, "load": "20.0", "saturation": "45.0"}, {"canister": "large"}, {"fill": 36},
        {"tank": "55.1"},
        {"minutes": 21}, {"load": "84.9"}, {"saturation": "86.0"}, {"load": 0, "mileage": 90000},
        {"load": 0, "mileage": 200000},
    )

    def test_shared_factors(self):
        """They have the masses of rows that stand alone, and any field but
        vehicles, trips, c and p makes them rows of their own."""
        start = grid_text({(1, 13): 5, (18, 7): 3, (24, 16): 2}) + "season days=9 lowest=5.0 highest=25.0 vp=70.0\n"
        rows = ["row " + " ".join("%s=%s" % field for field in {**self.FIELDS, **change}.items()) + "\n"
                for change in self.CHANGES]
        shared_factors.cache_clear()
        together = sheet_of(start + "".join(rows) + "version 4")
        found = [reckoning.masses(together, i) for i in range(len(rows))]
        self.assertEqual(shared_factors.cache_info().misses, len(rows) - 4, "rows of unlike factors")
        self.assertEqual(len(set(found)), len(rows), "rows of unlike masses")
        for i, row in enumerate(rows):
            alone = sheet_of(start + row)
            shared_factors.cache_clear()
            self.assertEqual(reckoning.masses(alone, 0), found[i], row)
            self.assertEqual(found[i][0], 9 * alone.rows[0].vehicles * reckoning.seven_factors(alone, 0, 0)[0], row)

    def test_without_vehicles(self):
        read = reckoning.read(sample("region", ".evp"))
        self.assertEqual(reckoning.masses(read, len(read.rows) - 1), (0, 0, 0))

    def test_districts(self):
        """The head and the vehicles of 300 rows; a byte more or less in the count of rows is another sheet."""
        data = sample("districts", ".evp")
        self.assertEqual((data[3:8].hex(), len(data)), ("0400042c01", 1160 + 32 + 24 * 300))
        read = reckoning.read(data)
        self.assertEqual(len(read.rows), 300)
        vehicles = sum(row.vehicles for row in read.rows)
        self.assertTrue(1_500_000 < vehicles <= sum(district[2] for district in samples.DISTRICTS), vehicles)
        for at, value in ((6, 43), (6, 45), (7, 0), (7, 2)):
            self.assertEqual(reckoning.check(patched(data, (at, value, 1))), (7, 0), "%d in byte %d" % (value, at))
        self.assertEqual(reckoning.check(patched(data, (3, 3, 1))), (5, 6), "as version 3")
