"""The pages of an analysis in a real browser: every size, light, dark and on paper."""

import tempfile
from pathlib import Path

from driving import SAMPLES, BrowserTestCase

from evp import layout, library
from evp.analysis.pages import page_recalculation, page_sensitivity
from evp.analysis.recalculation import recalculation
from evp.analysis.sensitivity import one_at_a_time, run_draws
from evp.analysis.series import Key, Result
from evp.analysis.targets import plan_of
from evp.analysis.uncertainty import uncertainties_of
from evp.library import Band
from evp.pages.fuels import page_fuels

INPUTS = """input,where,unit,uncertainty,low,high,distribution
vehicles,all,%,5,,,normal
vp,all,kPa,3,,,normal
fill,all,points,10,,,uniform
carburettor,all,%,30,,,normal
saturation,all,%,15,,,normal
"""


def series(region: str, factor: int, left_out: int) -> dict[Key, Result]:
    lows = {year: factor * (year - 1900) * 10 ** 9 for year in range(1990, 2026) if year != left_out}
    return {Key(region, year, "total", ""): Result(Band(low, low + 900)) for year, low in lows.items()}


def pages() -> dict[str, str]:
    lib, region = library.load(), (SAMPLES / "region.evp").read_bytes()
    lines = uncertainties_of(INPUTS, "inputs.csv")
    plan = plan_of("region.evp", region, lines)
    draws = run_draws(lib, [plan], lines, 30, 1)
    old = {**series("north", 20, 1991), **series("south", 3, 2000), Key("north", 1991, "total", ""): Result(
        None, "refused 15 at 120: row 1: fill 200 % is above 100 %; write at most 100")}
    found = recalculation(old, {**series("north", 21, 2007), **series("south", 3, 1999)})
    other = bytearray(region)
    other[layout.season_place(region, 2) + 6] ^= 20
    other[layout.row_place(region, 3) + 8] ^= 255
    return {
        "recalculation": page_recalculation(found, ("submission-2025/results.csv", "submission-2026/results.csv")),
        "sensitivity": page_sensitivity([one_at_a_time(lib, plan, lines)], lines, draws, "region.evp", 1),
        "changes": page_fuels(lib, ("2006.evp", "2007.evp"), (region, bytes(other))),
    }


class TestAnalysis(BrowserTestCase):
    def test_pages(self):
        with tempfile.TemporaryDirectory() as folder:
            for name, html in pages().items():
                path = Path(folder) / (name + ".html")
                path.write_text(html, encoding="utf-8")
                self.open(path.as_uri())
                self.assertGreater(self.check_looks(name), 100)
                self.check_paper(name)
