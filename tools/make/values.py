"""crates/exact/proofs/Values.antt: exact factors and masses of small sheets and starting loads for small n.

They are calculated by the reckoning, and antt computes them anew from the
definitions in specs/.

The starting loads are chosen so that each of MISREADINGS changes one of them,
and the rows with a mileage so that T1 for T2 in running changes a factor; the
run ends where that is not so.
"""

from collections.abc import Iterable, Iterator
from fractions import Fraction
from typing import NamedTuple

from tools import reckoning, sheet
from tools.command import MadeFile
from tools.make.error import MakeError

PATH = "crates/exact/proofs/Values.antt"
CANISTERS = ("None", "Some Small", "Some Medium", "Some Large")


class Scene(NamedTuple):
    """A small sheet of one row: its parkings are (half-hours, end hour, count),
    and its text has the seasons and the row."""
    name: str
    n: int
    about: str
    cells: tuple[tuple[int, int, int], ...]
    text: str


class Load(NamedTuple):
    """A canister at a mark: vapour pressure in kPa, s, T, the mileage M and m_sat."""
    name: str
    n: int
    about: str
    vp: int
    s: int | Fraction
    T: int
    M: int
    m_sat: int | Fraction


SCENES = (
    Scene("no-canister", 3, "no canister, half an hour up to the warmest mark", ((1, 14, 1),), """
season days=1 lowest=20.0 highest=35.0 vp=60.0
row class=1 technology=0 fill=35 minutes=60
"""),
    Scene("breakthrough-below", 3, "a small canister that breaks through below its saturation", ((4, 12, 1),), """
season days=1 lowest=10.0 highest=30.0 vp=60.0
row class=1 technology=2 fill=35 minutes=60 load=30.0 saturation=55.0
"""),
    Scene("overflow", 2, "a large canister that breaks through and overflows m_sat", ((6, 14, 1),), """
season days=1 lowest=20.0 highest=35.0 vp=90.0
row class=3 technology=3 minutes=30 load=60.0 saturation=60.5
"""),
    Scene("saturated", 2, "m1 = m_sat: what comes goes", ((2, 10, 1),), """
season days=1 lowest=5.0 highest=25.0 vp=70.0
row class=2 technology=4 fill=40 minutes=15 load=50.0 saturation=50.0
"""),
    Scene("frost", 3, "below 0 °C all day, and at T1 + 11 and T2 + 15 too", ((3, 10, 1),), """
season days=1 lowest=-30.0 highest=-12.0 vp=45.0
row class=2 technology=0 minutes=30
"""),
    Scene("thaw", 3, "a day that crosses 0 °C within the parking", ((6, 9, 1),), """
season days=1 lowest=-5.0 highest=6.0 vp=45.0
row class=4 technology=0 fill=20 tank=45.5 minutes=30
"""),
    Scene("round-midnight", 2, "12 hours that end at hour 1, from mark 26 round midnight, rising and falling",
          ((24, 1, 1),), """
season days=1 lowest=5.0 highest=25.0 vp=70.0
row class=4 technology=5 fill=50 minutes=45 load=10.0 saturation=50.0
"""),
    Scene("end-at-24", 4, "half an hour that ends at hour 24, mark 0 of the next day", ((1, 24, 1),), """
season days=1 lowest=5.0 highest=25.0 vp=70.0
row class=2 technology=0 fill=50 minutes=45
"""),
    Scene(
        "over-noon", 3, "over the warmest mark, rising and then falling; a written 'none' beside a class with canister",
        ((6, 16, 1),), """
season days=1 lowest=5.0 highest=25.0 vp=70.0
row class=2 technology=1 canister=none fill=50 minutes=45
"""),
    Scene("motorcycle", 2, "a two-wheeler with canister", ((4, 12, 1),), """
season days=1 lowest=5.0 highest=25.0 vp=70.0
row class=9 technology=1 fill=50 minutes=45 load=30.0 saturation=56.0
"""),
    Scene("moped", 4, "a two-wheeler without", ((4, 12, 1),), """
season days=1 lowest=5.0 highest=25.0 vp=70.0
row class=5 technology=3 fill=50 minutes=45
"""),
    Scene("three-cells", 2, "unequal cells, of two end hours", ((1, 9, 3), (4, 9, 2), (1, 13, 1)), """
season days=1 lowest=-4.0 highest=18.5 vp=80.0
row class=1 technology=0 fill=25 minutes=10
"""),
)

# the same with a mileage; these have a grid, and so make sheets of version 3
DRIVEN_SCENES = (
    Scene("odometer-car", 3, "a small canister after 14 km", ((2, 12, 1),), """
season days=1 lowest=10.0 highest=30.0 vp=60.0
row class=1 technology=2 fill=35 minutes=60 saturation=5.3 mileage=14
"""),
    Scene("odometer-motorcycle", 3, "a two-wheeler after 30 km: its load at T2 is above that at T1", ((4, 12, 1),), """
season days=1 lowest=10.0 highest=30.0 vp=70.0
row class=9 technology=1 fill=50 minutes=45 saturation=7.0 mileage=30
"""),
    Scene("odometer-never", 2, "a mileage that is never reached; m_sat is no multiple", ((2, 10, 1),), """
season days=1 lowest=5.0 highest=25.0 vp=70.0
row class=2 technology=4 fill=40 minutes=15 saturation=3.3 mileage=1000000
"""),
)

# the same for masses: two seasons, c and p inside 0 to 100
YEARS = (
    Scene("year", 2, "two seasons, c and p inside 0 to 100, a canister", ((1, 13, 3), (4, 13, 2)), """
season days=200 lowest=10.0 highest=30.0 vp=60.0
season days=165 lowest=-5.0 highest=8.0 vp=90.0
row class=1 technology=2 carburettor=40 hot=30 fill=35 vehicles=1000 trips=2.50 minutes=20 load=30.0 saturation=55.0
"""),
    Scene("two-wheelers", 2, "two seasons of two-wheelers", ((4, 9, 2),), """
season days=200 lowest=10.0 highest=30.0 vp=60.0
season days=165 lowest=-5.0 highest=8.0 vp=90.0
row class=7 technology=0 carburettor=40 hot=30 fill=35 vehicles=1000 trips=2.50 minutes=20
"""),
)

DRIVEN_YEARS = (
    Scene("odometer-year", 2, "two seasons of two-wheelers after 22 km", ((3, 13, 2),), """
season days=200 lowest=10.0 highest=30.0 vp=60.0
season days=165 lowest=-5.0 highest=8.0 vp=90.0
row class=9 technology=2 carburettor=40 hot=30 fill=35 vehicles=1000 trips=2.50 minutes=20 saturation=15.0 mileage=22
"""),
)

LOADS = (
    Load("load-medium", 3, "a medium canister", 60, 1, 20, 16, 12),
    Load("load-small", 4, "a small canister", 60, 2, 20, 39, 10),
    Load("load-large", 2, "a large canister below 0 °C", 60, Fraction(1, 2), -5, 13, 35),
    Load("load-hot", 2, "a small canister at 50 °C, where E(a + b·s·m) weighs more", 60, 2, 50, 62, 38),
    Load("load-slight", 3, "one kilometre more than an empty canister has", 60, 1, 20, 12, 12),
    Load("load-empty", 3, "an empty canister reaches it", 60, 1, 20, 11, 12),
    Load("load-full", 3, "none reaches it, and m_sat is no multiple", 60, 1, 20, 1000000, Fraction(121, 10)),
    Load("load-none", 4, "a canister that holds nothing", 60, 1, 20, 100, 0),
)

# ways to misread the starting load, as the arguments of read_as
MISREADINGS = {
    "22.93 for 22.92": {"shift": Fraction(2293, 100)},
    "8.14 for 8.13": {"divisor": Fraction(814, 100)},
    "m + E for m - E": {"sign": 1},
    "g = m": {"sign": 0},
    "s left out of s.g": {"outer": 1},
    "s left out of b.s.m": {"inner": 1},
    "a and b at 0 C": {"T": 0},
    "the search from 1": {"first": 1},
    "the last multiple where none reaches": {"full": False},
    "the largest that reaches": {"which": -1},
}

HEAD = """\
-- Exact factors and masses of small sheets and starting loads for small n, in grams, calculated apart from these
-- definitions: tools/make/values.py wrote this file from tools/reckoning. antt computes each value anew.
-- Assumes nothing.
use Rattle.std.proofs.Common.{Some, None}
use mathlib.Core.Bool.{Bool, true, false, ◌&&◌}
use mathlib.Core.List.{List, [], ◌∷◌, map}
use Prim.Native.Nat.{ℕ, ◌+◌, ◌*◌}
use lib.Dec.{T, eqb}
use Rattle.numbers.specs.Fraction.{Fraction, whole, negᶠ, ◌over◌}
use Rattle.exact.specs.declared.Canister.TheVariants.{Small, Medium, Large}
use Rattle.exact.specs.declared.Season.{Season}
use Rattle.exact.specs.declared.Row.{Row}
use Rattle.exact.specs.Mileage.{starting_load}
use Rattle.exact.specs.Factors.{F1, F2, F3, F4, F5, F6, F7, factor, products}
use Rattle.exact.specs.Masses.{diurnal, soak, running, mass}
use Rattle.exact.proofs.Open.{definitions}

-- the same values one by one, compared crosswise
same : List Fraction → List Fraction → Bool
same [] [] = true
same [] (y ∷ ys) = false
same (x ∷ xs) [] = false
same (x ∷ xs) (y ∷ ys) =
    eqb (x.up * y.den + y.down * x.den) (y.up * x.den + x.down * y.den) && same xs ys

-- the seven factors of a season and row
factors : ℕ → List ℕ → Season → Row → List Fraction
factors n counts season row = map (factor n counts season row) (F1 ∷ F2 ∷ F3 ∷ F4 ∷ F5 ∷ F6 ∷ F7 ∷ [])

-- the three masses of a row
masses : ℕ → List ℕ → List Season → Row → List Fraction
masses n counts seasons row = map (mass n counts seasons row) (diurnal ∷ soak ∷ running ∷ [])
"""


class Parking(NamedTuple):
    """Two lists of counts, whose products are the counts of a scene's cells."""
    durations: list[int]
    hours: list[int]

    def text(self, as_grid: bool) -> str:
        """The lines of a sheet's text: the lists, or the grid of their products."""
        if as_grid:
            return "".join(
                "grid %d %s\n" % (t, " ".join(str(j * q) for j in self.durations)) for t, q in enumerate(self.hours, 1))
        return "durations %s\nhours %s\n" % (" ".join(map(str, self.durations)), " ".join(map(str, self.hours)))


def parking_of(scene: Scene) -> Parking:
    parking = Parking([0] * 24, [0] * 24)
    first_half_hours, first_hour, _ = scene.cells[0]
    for half_hours, hour, count in scene.cells:
        if hour == first_hour:
            parking.durations[half_hours - 1] = count
        if half_hours == first_half_hours:
            parking.hours[hour - 1] = count
    return parking


def sheet_of(scene: Scene) -> reckoning.Sheet:
    """The sheet of a scene. It has the two lists, or with a mileage the grid."""
    data = sheet.write(parking_of(scene).text("mileage=" in scene.text) + scene.text)
    refusal = reckoning.check(data)
    if refusal is not None:
        raise MakeError("the scene %s is refused: %s" % (scene.name, reckoning.answer_text(*refusal)))
    return reckoning.read(data)


def listed(values: Iterable) -> str:
    return " ∷ ".join(map(str, values)) + " ∷ []"


def season_text(season: reckoning.Season) -> str:
    return "record { days = %d; lowest = %d; highest = %d; vp = %d }" % (
        season.days, season.lowest % 65536, season.highest % 65536, season.vp)


def row_text(row: reckoning.Row) -> str:
    canister = CANISTERS[reckoning.canister_of(row)]
    tank = reckoning.tank_of(row) * 10
    return ("record { class = %d; canister = %s; carburettor = %d; hot = %d; fill = %d; tank = %d; vehicles = %d; "
            "trips = %d; minutes = %d; load = %d; saturation = %d; mileage = %d }") % (
        row.vehicle_class, canister, row.carburettor, row.hot, row.fill, tank, row.vehicles,
        row.trips, row.minutes, row.load, row.saturation, row.mileage)


def fraction_text(value: Fraction) -> str:
    return "whole %d over %d" % (value.numerator, value.denominator)


def short_text(value: int | Fraction) -> str:
    """The same in brackets, whole numbers as such and with their sign."""
    value = Fraction(value)
    size = "whole %d" % abs(value) if value.denominator == 1 else fraction_text(abs(value))
    return "(negᶠ (%s))" % size if value < 0 else "(%s)" % size


def a_b(vp: int, T: int) -> tuple[Fraction, Fraction]:
    """a and b of a canister at this vapour pressure and temperature."""
    return reckoning.canister_a_b(reckoning.Season(0, 0, 0, 10 * vp), Fraction(T))


def read_as(
        load: Load, shift=Fraction(2292, 100), divisor=Fraction(813, 100), sign=-1, outer=None, inner=None, T=None,
        first=0, full=True, which=0) -> Fraction:
    """The starting load by a search of its own; the later arguments misread it."""
    a, b = a_b(load.vp, load.T if T is None else T)
    outer, inner = (load.s if size is None else size for size in (outer, inner))
    multiples = [Fraction(k, 2 ** load.n) for k in range(first, int(2 ** load.n * load.m_sat) + 1)]

    def reaches(m):
        g = m + sign * reckoning.E(a + b * inner * m, load.n)
        return reckoning.E((outer * g + shift) / divisor, load.n) >= load.M
    found = [m for m in multiples if reaches(m)]
    return found[which] if found else Fraction(load.m_sat) if full or not multiples else multiples[-1]


def unseen() -> Iterator[str]:
    """The misreadings that change none of the starting loads."""
    for words, slip in MISREADINGS.items():
        if all(read_as(load, **slip) == read_as(load) for load in LOADS):
            yield words


def load_claim(load: Load) -> str:
    value = reckoning.starting_load(*a_b(load.vp, load.T), Fraction(load.s), load.M, Fraction(load.m_sat), load.n,
                                    "exact")
    if value != read_as(load):
        raise MakeError("%s: two searches find two loads" % load.name)
    call = "starting_load %d %s %s %s %d %s" % (
        load.n, *map(short_text, (load.vp, load.s, load.T)), load.M, short_text(load.m_sat))
    return "\n".join((
        "", "-- %s; n = %d" % (load.about, load.n),
        "%s : T (same (%s ∷ []) (%s ∷ []))" % (load.name, call, short_text(value)),
        "unfolding definitions same", "%s = tt" % load.name))


def shows_both_ends(scene: Scene, read: reckoning.Sheet) -> bool:
    """Whether a two-wheeler has another load at T2 than at T1 in some parking."""
    season, row = read.seasons[0], read.rows[0]

    def load_at(mark):
        return reckoning.load_of(row, season, reckoning.temperature(season, mark), scene.n, "exact")
    return reckoning.is_two_wheeler(row) and any(
        load_at(reckoning.start_mark(hour, half_hours)) != load_at(2 * hour) for half_hours, hour, _ in scene.cells)


def claim(scene: Scene, read: reckoning.Sheet, call: str, values: Iterable[Fraction]) -> str:
    """That a call, "factors" of the one season or "masses" of all, has these values."""
    name, parking = scene.name, parking_of(scene)
    one = call == "factors"
    seasons = season_text(read.seasons[0]) if one else listed("(%s)" % season_text(season) for season in read.seasons)
    return "\n".join((
        "", "-- %s; n = %d" % (scene.about, scene.n), "abbrev %s-cells : List ℕ" % name, "%s-cells =" % name,
        "    products (%s)" % listed(parking.durations), "    (%s)" % listed(parking.hours), "",
        "abbrev %s-season : %s" % (name, "Season" if one else "List Season"), "%s-season = %s" % (name, seasons), "",
        "abbrev %s-row : Row" % name, "%s-row = %s" % (name, row_text(read.rows[0])), "",
        "%s : T (same (%s %d %s-cells %s-season %s-row) (" % (name, call, scene.n, name, name, name),
        *("    (%s) ∷" % fraction_text(value) for value in values),
        "    []))", "unfolding definitions same factors masses", "%s = tt" % name))


def text() -> str:
    for words in unseen():
        raise MakeError("no starting load would show: %s" % words)
    scenes = [(scene, sheet_of(scene)) for scene in SCENES + DRIVEN_SCENES]
    if not any(shows_both_ends(*scene) for scene in scenes):
        raise MakeError("no two-wheeler has another load at T2 than at T1")
    years = [(scene, sheet_of(scene)) for scene in YEARS + DRIVEN_YEARS]
    return "\n".join((
        HEAD.rstrip("\n"),
        *(claim(scene, read, "factors", reckoning.seven_factors(read, 0, 0, scene.n, "exact"))
          for scene, read in scenes),
        *(claim(scene, read, "masses", reckoning.masses(read, 0, scene.n, "exact")) for scene, read in years),
        *map(load_claim, LOADS))) + "\n"


def files() -> list[MadeFile]:
    return [MadeFile(PATH, text().encode())]
