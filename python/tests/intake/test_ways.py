"""Every way of filing beside plain figures: these are marked, whatever the one cell has."""

import csv
import unittest

from intake.ways import WAYS
from support import SAMPLES, DeskTestCase, run

from evp.figures import Figure

COURSE = SAMPLES / "course"
SOAK, OTHERS = Figure("cars", "soak"), (Figure("cars", "running"), Figure("1", "diurnal"), Figure("total", ""))


class MarkedTest(DeskTestCase):
    """The verdicts of each."""

    def test_ways(self):
        folder = self.put("sheets/north.evp", (COURSE / "north.evp").read_bytes()).parent
        for name in ("south.evp", "west.evp"):
            self.put("sheets/" + name, (COURSE / name).read_bytes())
        for way in WAYS:
            with self.subTest(way.name):
                filed, target = self.put("tables/" + way.file, way.data), self.folder / "marks.csv"
                found = run("mark", folder, "--filed", filed, "-o", target, "--force")
                self.assert_plain(found, (0, 1))
                self.assertNotIn("\x1b", found.out)
                with open(target, encoding="utf-8", newline="") as file:
                    text = file.read()
                marks = list(csv.DictReader(text.splitlines(), delimiter=";" if text.startswith("sheet;") else ","))
                verdicts = {Figure(mark["row"], mark["mechanism"]): mark for mark in marks
                            if mark["sheet"] == "north.evp"}
                for figure in OTHERS:
                    self.assertEqual(verdicts[figure]["verdict"], "agrees", marks)
                if way.reason:
                    notes = [mark["note"] for mark in marks if mark["verdict"] == "unreadable"]
                    self.assertTrue(any(way.reason in note for note in notes), notes)
                else:
                    self.assertIn(verdicts[SOAK]["verdict"], ("agrees", "high"), marks)  # 13303.0 kg is 63 g too high
                    self.assertEqual(verdicts[SOAK]["low_mg"], "13302827532")


if __name__ == "__main__":
    unittest.main()
