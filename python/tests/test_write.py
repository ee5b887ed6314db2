"""Texts and csv files: what they make, what is said of mistakes and doubts, and back again."""

import unittest
from unittest import mock

from support import CAR, FITTED, GRID_TEXT, LISTS, SAMPLES, SEASONS, TEXT, DeskTestCase, grid, run, sample, samples

from evp import sheet
from evp.files import InputError

SEASONS_CSV = "days,lowest,highest,vp\n182,-2.0,9.5,90.0\n183,14.5,29.0,60.0\n"
PARKING_HEADER = "duration,lasting,end_hour,ending\n"
FLEET_CSV = (
    "class,technology,canister,carburettor,hot,fill,tank,vehicles,trips,minutes,load,saturation\n"
    "1,0,,99,45,40,,18400,4.80,12,0,0\n2,3,,0,50,45,,500,5.10,13,32.0,60.0\n")

# A text and what is said of it, behind its name. Those of the fields are held by tools/tests/test_sheet.py too.
MISTAKES = (
    (LISTS + SEASONS + CAR.replace("4.80", "4,80"),
     "line 5: trips: '4,80' is no number; the decimal sign is a point: 4.80"),
    (LISTS + SEASONS + CAR.replace("18400", "18,400"),
     "line 5: vehicles: '18,400' is no number; write the digits alone: 18400"),
    (LISTS + SEASONS + CAR.replace("18400", "18'400"),
     "line 5: vehicles: \"18'400\" is no number; write the digits alone: 18400"),
    (LISTS + SEASONS + CAR.replace("18400", "18.400"),
     "line 5: vehicles: 18.400 has a point, and the field is a whole number"),
    (LISTS + SEASONS + CAR.replace("4.80", "4.805"),
     "line 5: trips: 4.805 has 3 decimal places, and the field holds 2"),
    (LISTS + SEASONS + CAR.replace("fill=40", "fill=-4"), "line 5: fill: -4 has a sign, and the field has none"),
    (LISTS + SEASONS + CAR.replace("fill=40", "fill=256"), "line 5: fill: 256 does not fit the field (0 to 255)"),
    (LISTS + SEASONS + CAR.replace("fill=40", "fill=4 fill=5"), "line 5: fill is given twice"),
    (LISTS + SEASONS + CAR.replace("fill=40", "full=40"),
     "line 5: 'full': no such field (class, technology, canister, carburettor, hot, fill, tank, vehicles, trips, "
     "minutes, load, saturation, mileage, spare)"),
    (LISTS + SEASONS + CAR.replace("fill=40", "fill 40"), "line 5: 'fill': name=value wanted"),
    (LISTS + SEASONS + CAR.replace("class=1 ", ""), "line 5: row: class is missing"),
    (LISTS + SEASONS.replace("vp=90.0", "") + CAR, "line 3: season: vp is missing"),
    (LISTS + "saison days=1\n" + SEASONS + CAR,
     "line 3: 'saison': no such line (durations, hours, grid, season, row, version)"),
    (LISTS.replace(" 130", "") + SEASONS + CAR, "line 1: durations: 24 counts wanted, 23 found"),
    (LISTS.replace(" 130", " 130 1") + SEASONS + CAR, "line 1: durations: 24 counts wanted, 25 found"),
    (TEXT + grid(), "line 7: a grid stands in place of durations and hours, and both are given"),
    (LISTS + SEASONS + CAR.replace("\n", " mileage=5\n") + "version 1",
     "line 5: row: a mileage wants version 3 or 4, and version 1 is asked for"),
    ("", "the file is empty"),
    ("# nothing yet\n", "line 1: durations: 24 counts wanted, 0 found"),
    (LISTS + SEASONS + CAR.replace("18400", "\x1b[2J" + "9" * 9999),
     "line 5: vehicles: '\\x1b[2J" + "9" * 36 + "…' is no number"),
)

# A table that is changed and what is said of it, behind the name of the folder.
TABLE_MISTAKES = (
    ({"seasons": SEASONS_CSV.replace("14.5", '"14,5"')},
     "seasons.csv: line 3: lowest: '14,5' is no number; the decimal sign is a point: 14.5"),
    ({"seasons": SEASONS_CSV.replace("14.5", "14,5")},
     "seasons.csv: line 3: 5 cells, and the header has 4 columns; the decimal sign is a point here"),
    ({"seasons": SEASONS_CSV.replace("183,14.5,29.0,60.0", "183;14,5;29,0;60,0")},
     "seasons.csv: line 3: its cells are parted by ;, and the columns of the header by ,"),
    ({"seasons": SEASONS_CSV.replace("days,lowest,highest,vp", "days;lowest;highest;vp")},
     "seasons.csv: line 2: its cells are parted by ,, and the columns of the header by ;"),
    ({"seasons": SEASONS_CSV.replace("182,", '"182,')},
     "seasons.csv: line 2: a quotation mark opens a cell, and none closes it"),
    ({"seasons": SEASONS_CSV.replace("182,", '"18"2,')},
     "seasons.csv: line 2: something stands behind the quotation mark that closes a cell; within a cell write "
     "it twice"),
    ({"seasons": SEASONS_CSV.replace("182", "\u0661\u0668\u0662")},
     "seasons.csv: line 2: days: '\u0661\u0668\u0662' is no number"),
    ({"fleet": FLEET_CSV.replace("500", "\uff15\uff10\uff10")},
     "fleet.csv: line 3: vehicles: '\uff15\uff10\uff10' is no number"),
    ({"parking": PARKING_HEADER + "\u0661,1,1,1\n"},
     "parking.csv: line 2: duration: '\u0661' is not 0.5 to 12"),
    ({"seasons": SEASONS_CSV.replace("days", "tage")},
     "seasons.csv: line 1: 'tage' is no column of this table (days, lowest, highest, vp)"),
    ({"seasons": "days,lowest,highest\n1,2,3\n"}, "seasons.csv: line 1: the column vp is missing"),
    ({"seasons": "days,days,lowest,highest,vp\n"}, "seasons.csv: line 1: the column days is there twice"),
    ({"seasons": ""}, "seasons.csv: the file is empty"),
    ({"seasons": "# nothing\n"},
     "seasons.csv: the table is empty; its first line names the columns: days, lowest, highest, vp"),
    ({"seasons": SEASONS_CSV.replace("183", "")}, "seasons.csv: line 3: season: days is missing"),
    ({"seasons": SEASONS_CSV.replace(",", ";").replace("14.5", "1.234,5")},
     "seasons.csv: line 3: lowest: '1.234,5' is no number"),
    ({"fleet": FLEET_CSV.replace("500", "5.000")},
     "fleet.csv: line 3: vehicles: 5.000 has a point, and the field is a whole number"),
    ({"fleet": FLEET_CSV.replace("2,3,", "2,,")}, "fleet.csv: line 3: row: technology is missing"),
    ({"parking": PARKING_HEADER + "0.5,1,1,1\n0.5,1,2,1\n"},
     "parking.csv: line 3: duration 0.5 is given twice"),
    ({"parking": PARKING_HEADER + "0.7,1,1,1\n"}, "parking.csv: line 2: duration: '0.7' is not 0.5 to 12"),
    ({"parking": PARKING_HEADER + "".join("%g,1,%d,1\n" % (d / 2, d) for d in range(1, 24))},
     "parking.csv: duration: all of 0.5 to 12 are wanted; 12 is missing"),
    ({"parking": PARKING_HEADER + "0.5,1,1,1\n"},
     "parking.csv: duration: all of 0.5 to 12 are wanted; 1, 1.5, 2 and 20 more are missing"),
)


class TextTest(DeskTestCase):
    """Texts."""

    def test_mistakes(self):
        for text, said in MISTAKES:
            with self.subTest(said):
                path = self.put("a.txt", text)
                found = run("write", path)
                self.assert_plain(found, 2)
                self.assertEqual(found.err.splitlines()[0], "evp: %s: %s" % (path, said))
                self.assertFalse((self.folder / "a.evp").exists())

    def test_every_line_with_a_mistake(self):
        found = run("write", self.put("a.txt", LISTS + SEASONS + "row class=x technology=0\n" * 300))
        self.assert_plain(found, 2)
        self.assertEqual(len(found.err.splitlines()), 20)
        self.assertEqual(found.err.splitlines()[-1], "evp: 281 more such messages")

    def test_bytes_that_are_no_text(self):
        for content, said in (
            (b"\xef\xbb\xbf" + TEXT.encode(), ""), (TEXT.replace("\n", "\r\n").encode(), ""),
            (b"# caf\xe9\n" + TEXT.encode(),
             "line 1: byte 5 (e9 hexadecimal) is no UTF-8; save it as UTF-8, in Excel as \"CSV UTF-8\""),
            (TEXT.encode("utf-16"), "this is UTF-16; save it as UTF-8, in Excel as \"CSV UTF-8\""),
            (b"PK\3\4abc", "this is a workbook or an archive; save its tables as csv, in Excel as \"CSV UTF-8\""),
            (sample("example"), "this is a sheet, and a text or a table is wanted; evp read makes a text of it"),
            (b"ab\0c", "this is no text: byte 2 is 0"),
        ):
            path = self.put("a.txt", content)
            found = run("write", path, "--force")
            self.assert_plain(found, 2 if said else 0)
            self.assertEqual(found.err, "evp: %s: %s\n" % (path, said) if said else "")

    def test_write(self):
        path, target = self.put("a.txt", TEXT), self.folder / "a.evp"
        self.assertEqual(run("write", path),
                         (0, "%s: 168 bytes, accepted: version 1, 2 seasons, 2 rows\n" % target, ""))
        self.assertEqual(target.read_bytes(), sheet.write(TEXT))
        self.assertEqual(run("write", path),
                         (2, "", "evp: %s: there is such a file already; --force writes over it\n" % target))
        self.assertEqual(run("write", path, "--force").status, 0)
        found = run("write", "-", "-o", "-", given=TEXT.encode())
        self.assertEqual((found.status, found.err),
                         (0, "standard output: 168 bytes, accepted: version 1, 2 seasons, 2 rows\n"))
        self.assertEqual(run("write", "-", given=TEXT.encode()).err,
                         "evp: standard input has no name: -o SHEET names the sheet\n")
        grid_text = self.put("b.txt", GRID_TEXT)
        self.assertEqual(run("write", grid_text, "--version", 4, "-o", self.folder / "c.evp").status, 0)
        self.assertEqual((self.folder / "c.evp").read_bytes()[3], 4)

    def test_refused(self):
        """A sheet that is refused is written all the same, and the line of the text is told."""
        path = self.put("a.txt", TEXT.replace("load=32.0", "load=70.0"))
        found = run("write", path)
        self.assertEqual((found.status, found.out), (
            1, "%s: 168 bytes, refused 19 at 144\n"
            "%s: line 6: row 2: load 70.0 g is above m_sat 60.0 g; write at most 60.0\n" % (self.folder / "a.evp",
                path)))
        found = run("write", self.put("b.txt", TEXT + "zero 1"))
        self.assertEqual(found.out, "%s: 168 bytes, refused 6 at 7: byte 7 is 1, and it must be 0 up to version 3; "
                         "write 0; more than 255 rows need version 4\n" % (self.folder / "b.evp"))

    def test_library_is_asked_first(self):
        """Where the library gives no answer, no file is left behind that nobody has checked."""
        path = self.put("a.txt", TEXT)
        with mock.patch("evp.commands.explain", side_effect=InputError("no answer")):
            self.assertEqual(run("write", path), (2, "", "evp: no answer\n"))
        self.assertFalse((self.folder / "a.evp").exists())

    def test_text_is_never_overwritten(self):
        path = self.put("a.evp", TEXT)
        found = run("write", path, "--force")
        self.assertEqual((found.status, path.read_text()), (2, TEXT))
        self.assertEqual(found.err,
                         "evp: %s: this would overwrite what it is made from; name another file\n" % path)
        linked = self.folder / "linked.evp"
        linked.symlink_to(path)
        self.assertIn("this would overwrite what it is made from", run("write", path, "-o", linked, "--force").err)
        self.assertEqual(path.read_text(), TEXT)

    def test_doubts(self):
        for text, said in (
            (LISTS + SEASONS + CAR.replace(" vehicles=18400", ""), "line 5: vehicles left out, so 0"),
            (LISTS + SEASONS + CAR.replace(" hot=45 fill=40", ""), "line 5: hot, fill left out, so 0"),
            (LISTS + SEASONS + FITTED.replace(" load=32.0", ""), "line 5: load left out, so 0"),
            (LISTS + SEASONS + CAR.replace("vehicles=18400", "vehicles=0"), "line 5: no vehicles, so no mass"),
            (TEXT + CAR, "lines 5, 7: these rows are alike in all but vehicles; was one entered twice?"),
            (TEXT + CAR.replace("18400", "7"),
             "lines 5, 7: these rows are alike in all but vehicles; was one entered twice?"),
            (TEXT.replace("lowest=14.5 highest=29.0", "lowest=41 highest=49.5"),
             "line 4: lowest 41, highest 49.5: is this °F? In °C it would be 5.0 and 9.7"),
            (TEXT.replace("lowest=-2.0 highest=9.5", "lowest=28.4 highest=49"),  # the winter alone
             "line 3: lowest 28.4, highest 49: is this °F? In °C it would be -2.0 and 9.4"),
            (TEXT.replace("vp=60.0", "vp=9.0"), "line 4: vp 9.0: is this psi? In kPa it would be 62.1"),
            (TEXT.replace("vp=60.0", "vp=600"), "line 4: vp 600: is this hPa? In kPa it would be 60.0"),
        ):
            with self.subTest(said):
                path = self.put("a.txt", text)
                found = run("write", path, "--force")
                self.assertEqual(found.err, "evp: note: %s: %s\n" % (path, said))
        self.assertEqual(run("write", self.put("a.txt", TEXT), "--force").err, "")

    def test_many_doubts(self):
        rows = "".join(CAR.replace("hot=45", "hot=%d" % (i // 2)) for i in range(80))
        self.assert_plain(run("write", self.put("a.txt", grid() + SEASONS + rows)), 0)
        seasons = "season days=1 lowest=50 highest=80 vp=9\n" * 40
        found = run("write", self.put("a.txt", LISTS + seasons + CAR), "--force")
        self.assert_plain(found, 1)
        self.assertEqual(found.err.splitlines()[-1], "evp: note: 61 more things to look at")

    def test_read(self):
        for path in samples():
            found = run("read", path)
            self.assertEqual((found.status, sheet.write(found.out)), (0, path.read_bytes()))
        found = run("read", self.put("a", b"EVP\1\0\1\1" + bytes(2_000_000)))
        self.assertEqual((found.status, found.err), (
            2, "evp: %s: this is no sheet; it has more than 25,256 bytes\n" % (self.folder / "a")))
        found = run("read", self.put("a", b"EVP\1\0\1\1"))
        self.assertEqual((found.status, found.err), (2, "evp: %s: 7 bytes, too few for a head\n" % (self.folder / "a")))


class FolderTest(DeskTestCase):
    """Folders of csv files."""

    def put_folder(self, **changed: str):
        run("read", self.put_sheet("a.evp", TEXT), "--csv", self.folder / "f", "--force")
        for name, text in {"seasons": SEASONS_CSV, "fleet": FLEET_CSV, **changed}.items():
            self.put("f/%s.csv" % name, text)
        return self.folder / "f"

    def test_there_and_back(self):
        """Every sample, parted by , and by ; with and without a byte order mark, lines ended as Windows does. Of the
        course's sheets one is cut off, and no table holds it."""
        course = [path for path in sorted(SAMPLES.glob("course/*.evp")) if path.stem != "cape"]
        self.assertEqual(len(course), 29)
        for path in samples() + course:
            for options in ((), ("--semicolon",)):
                folder = self.folder / path.stem
                self.assertEqual(run("read", path, "--csv", folder, "--force", *options).status, 0)
                if options:  # a spreadsheet that has a decimal comma would take 14.5 for a day in May
                    self.assertNotIn(b".", b"".join(table.read_bytes() for table in folder.iterdir()))
                for plain in (False, True):
                    for table in folder.iterdir() if plain else ():
                        table.write_bytes(table.read_bytes().removeprefix(b"\xef\xbb\xbf").replace(b"\n", b"\r\n"))
                    target = self.folder / "back.evp"
                    refused = path.stem == "heath"  # it has 31 trips a day, which a table holds
                    self.assertEqual(run("write", folder, "-o", target, "--force").status, 1 if refused else 0)
                    self.assertEqual(target.read_bytes(), path.read_bytes(), path)

    def test_version_is_told(self):
        path = self.put_sheet("a.evp", GRID_TEXT + "version 4")
        found = run("read", path, "--csv", self.folder / "f")
        self.assertIn("evp write --version 4 gives this one back", found.err)
        run("write", self.folder / "f", "--version", 4, "-o", self.folder / "b.evp")
        self.assertEqual((self.folder / "b.evp").read_bytes(), path.read_bytes())

    def test_tables(self):
        run("write", self.put_folder(), "-o", self.folder / "b.evp")
        self.assertEqual((self.folder / "b.evp").read_bytes(), sheet.write(TEXT))

    def test_other_forms(self):
        """A note, comments, empty lines and columns, another order, Excel's first line, a point with ;."""
        for seasons in (
            "note,days,lowest,highest,vp\n# unit,,°C\nwinter,182,-2.0,9.5,90.0\n,,,,\nsummer,183,14.5,29.0,60.0\n\n",
            "vp,days,lowest,highest,,\n90.0,182,-2.0,9.5,,\n60.0,183,14.5,29.0,,\n",
            "sep=;\ndays;lowest;highest;vp\n182;-2,0;9,5;90,0\n183;14.5;29;60.0\n",
            "days;lowest;highest;vp\r\n182;-2;9,5;90\r\n183;14,5;29,0;60,0\r\n",
            "vp;days;lowest;highest\n90,0;182;-2,0;9,5\n60,0;183;14,5;29,0\n",
            "days,lowest,highest,vp,note\n182,-2.0,9.5,90.0,cold; dark; wet; long; grey\n183,14.5,29.0,60.0,\n",
        ):
            found = run("write", self.put_folder(seasons=seasons), "-o", self.folder / "b.evp", "--force")
            self.assertEqual(found.status, 0, found)
            self.assertEqual((self.folder / "b.evp").read_bytes(), sheet.write(TEXT))

    def test_mistakes(self):
        for changed, said in TABLE_MISTAKES:
            with self.subTest(said):
                folder = self.put_folder(**changed)
                found = run("write", folder, "-o", self.folder / "b.evp")
                self.assert_plain(found, 2)
                self.assertEqual(found.err.splitlines()[0], "evp: %s/%s" % (folder, said))

    def test_grid_headers(self):
        """Durations as spreadsheets write them: 1, 1.0 or 1,0."""
        run("read", self.put_sheet("a.evp", GRID_TEXT), "--csv", self.folder / "g")
        path = self.folder / "g" / "grid.csv"
        text = path.read_text(encoding="utf-8-sig")
        header = text.splitlines()[0]
        one_place = ",".join(word if "." in word or word == "end_hour" else word + ".0" for word in header.split(","))
        for changed in (text, text.replace(header, one_place),
                        text.replace(",", ";").replace(header.replace(",", ";"),
                            one_place.replace(",", ";").replace(".", ","))):
            path.write_text(changed, encoding="utf-8")
            found = run("write", self.folder / "g", "-o", self.folder / "b.evp", "--force")
            self.assertEqual((found.status, (self.folder / "b.evp").read_bytes()), (0, sheet.write(GRID_TEXT)), found)
        path.write_text(text.replace(",12\n", ",13\n"), encoding="utf-8")
        self.assertIn("grid.csv: line 1: '13' is no column of this table", run("write", self.folder / "g").err)

    def test_both_parkings_and_none(self):
        folder = self.put_folder(grid="end_hour\n")
        self.assertIn("a grid stands in place of two lists", run("write", folder).err)
        (folder / "grid.csv").unlink()
        (folder / "fleet.csv").unlink()
        self.assertEqual(run("write", folder).err,
                         "evp: %s: there is no fleet.csv; a folder has seasons.csv, fleet.csv, and parking.csv or "
                         "grid.csv\n" % folder)

    def test_doubts_name_the_table(self):
        folder = self.put_folder(fleet=FLEET_CSV.replace("18400", ""))
        self.assertEqual(run("write", folder).err,
                         "evp: note: %s/fleet.csv: line 2: vehicles left out, so 0\n" % folder)

    def test_templates(self):
        """They are read as empty tables, and are whole once they are filled in."""
        for options, more in (((), "parking.csv"), (("--grid",), "grid.csv"), (("--grid", "--semicolon"), "grid.csv")):
            folder = self.folder / "t"
            found = run("template", folder, "--force", *options)
            self.assertEqual(found, (
                0, "".join("%s/%s\n" % (folder, name) for name in ("seasons.csv", "fleet.csv", more))
                + "Fill them in, then evp write %s makes the sheet.\n" % folder, ""))
            sign, point = (";", ",") if "--semicolon" in options else (",", ".")
            self.assertIn("1 car below 1.4 l; 2 car 1.4 to 2.0 l; ", (folder / "fleet.csv").read_text(encoding="utf-8"))
            limits = "# least,1,-30.0,-30.0,30.0\n# most,366,50.0,50.0,110.0\n"
            self.assertIn(limits.replace(",", sign).replace(".", point), (folder / "seasons.csv").read_text())
            with open(folder / "seasons.csv", "a", encoding="utf-8") as file:
                file.write("summer,183,14.5,29,60\n".replace(",", sign).replace(".", point))
            with open(folder / "fleet.csv", "a", encoding="utf-8") as file:
                file.write("old cars,1,0,,99,45,40,,18400,4.80,12,0,0\n".replace(",", sign).replace(".", point))
            parking = (folder / more).read_text(encoding="utf-8-sig").splitlines()
            parking[2] += sign + "7"
            parking[2] = parking[2].replace(sign * 2, sign + "7" + sign)
            (folder / more).write_text("\n".join(parking), encoding="utf-8")
            found = run("write", folder, "-o", self.folder / "t.evp", "--force")
            self.assertEqual(found.status, 0, found)
            for table in folder.iterdir():
                table.unlink()

    def test_nothing_is_overwritten(self):
        folder = self.put_folder()
        for words in (("template", folder), ("read", self.folder / "a.evp", "--csv", folder)):
            found = run(*words)
            self.assertEqual((found.status, found.out), (2, ""))
            self.assertIn("--force writes over it", found.err)
        self.assertEqual((folder / "fleet.csv").read_text(), FLEET_CSV)
        found = run("write", folder, "-o", folder / "fleet.csv", "--force")
        self.assertIn("this would overwrite what it is made from", found.err)
        self.assertEqual((folder / "fleet.csv").read_text(), FLEET_CSV)
        (folder / "seasons.csv").unlink()
        self.assertEqual(run("template", folder).status, 2)
        self.assertFalse((folder / "seasons.csv").exists())  # none where not all can be

    def test_bytes_without_a_place(self):
        for text, said in ((TEXT + "zero 1", "byte 7 is not 0"), (TEXT + "tail 00", "tables hold whole sheets"),
                           (TEXT.replace("saturation=60.0", "saturation=60.0 spare=00000001"),
                            "row 2: bytes 20 to 23 are not 0")):
            found = run("read", self.put_sheet("a.evp", text), "--csv", self.folder / "g")
            self.assertEqual(found.status, 2)
            self.assertIn(said, found.err)


if __name__ == "__main__":
    unittest.main()
