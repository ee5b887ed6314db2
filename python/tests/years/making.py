"""Projects for the tests."""

import csv
import unittest
from pathlib import Path
from unittest import mock

from support import LISTS, SEASONS, Run, grid, run

from evp import sheet
from evp.layout import row_place
from evp.years import work

YEARS = range(1990, 2002)
PARKING = "duration,lasting,end_hour,ending\n" + "".join(
    "%g,%d,%d,10\n" % (i / 2, {1: 420, 2: 140, 24: 130}.get(i, 0), i) for i in range(1, 25))
TABLE_SEASONS = ("year,region,name,days,lowest,highest,vp\n,,winter,182,-2.0,9.5,90.0\n"
                 ",north,summer,183,14.5,29.0,60.0\n,south,summer,183,16.5,31.0,60.0\n")
FLEET = "year,region,note,class,technology,carburettor,hot,fill,vehicles,trips,minutes,load,saturation\n"


def text_of(vehicles: int = 18400, trips: float = 4.8, seasons: str = SEASONS) -> str:
    """A sheet with a row of old cars, one of new cars, and mopeds."""
    return LISTS + seasons + (
        "row class=1 technology=0 carburettor=99 hot=45 fill=40 vehicles=%d trips=%.2f minutes=12\n"
        "row class=2 technology=3 hot=50 fill=45 vehicles=500 trips=%.2f minutes=13 load=32.0 saturation=60.0\n"
        "row class=5 technology=1 carburettor=90 hot=30 fill=50 vehicles=900 trips=3.00 minutes=9\n" % (
            vehicles, trips, trips))


def sheet_of(vehicles: int = 18400, trips: float = 4.8) -> bytes:
    return sheet.write(text_of(vehicles, trips))


def many_sheets(folder: Path, many: int, rows: int = 3) -> None:
    """Different sheets of so many years and regions, 40 years of each region; version 4 where there are many rows."""
    folder.mkdir(parents=True, exist_ok=True)
    line = "row class=%d technology=0 carburettor=9 hot=45 fill=40 vehicles=%d trips=3.10 minutes=12\n"
    data = sheet.write(grid() + SEASONS + "".join(line % (1 + k % 3, 1000 + k) for k in range(rows)))
    place = row_place(data, 0) + 8  # of the vehicles of the first row
    for i in range(many):
        vehicles = (1000 + 10 * (i % 40) + i // 40).to_bytes(4, "little")
        (folder / ("r%d-%d.evp" % (i // 40, 1980 + i % 40))).write_bytes(data[:place] + vehicles + data[place + 4:])


def fleet(wrong: int | None = None) -> str:
    """The rows of two regions; in one year of the north trips are doubled."""
    lines = [FLEET]
    for year in YEARS:
        trips = 9.6 if year == wrong else 4.8
        lines += ["%d,north,old cars,1,0,99,45,40,%d,%.2f,12,,\n" % (year, 18400 - 300 * (year - 1990), trips),
                  "%d,south,old cars,1,0,99,45,40,9100,4.80,12,,\n" % year]
    lines.append(",,mopeds,5,1,90,30,50,900,3.00,9,,\n")
    return "".join(lines)


def read(path: Path, separator: str = ",") -> list[dict[str, str]]:
    with path.open(encoding="utf-8", newline="") as file:
        return list(csv.DictReader(file, delimiter=separator))


def years(*words: object) -> Run:
    return run("years", *words)


def without_workbook(test: unittest.TestCase) -> None:
    """Leaves out results.xlsx, which takes longest."""
    left_out = mock.patch.object(work.Series, "_workbook", return_value=[])
    left_out.start()
    test.addCleanup(left_out.stop)
