"""Numbers and records in the words of a page."""

from fractions import Fraction

from markupsafe import Markup

from evp import layout
from evp.layout import CLASSES, FIELDS, canister_name, technology_name
from evp.library import Band
from evp.masses import POWERS, best_unit, rounded, shown
from evp.wording import apart, counted, listed

NARROW = "\u202f"
CLASS_NAMES = {  # of many vehicles
    1: "cars below 1.4 l", 2: "cars 1.4 to 2.0 l", 3: "cars above 2.0 l", 4: "light-duty vehicles", 5: "mopeds",
    6: "two-stroke motorcycles", 7: "four-strokes below 250 cm³", 8: "four-strokes up to 750 cm³",
    9: "four-strokes above 750 cm³",
}


def minus(text: str) -> str:
    """A number with a real minus sign."""
    return text.replace("-", "\u2212")


def tenths(value: int) -> str:
    return minus(layout.decimal(value, 1))


def percent(part: float | Fraction) -> str:
    """A part of 1 in percent, with two digits or so."""
    value = 100 * float(part)
    return "%s %%" % ("%.0f" % value if value >= 9.95 else "%.1f" % value if value >= 0.095 else "%.2f" % value)


def about(milligrams: int) -> str:
    """A distance in the unit that reads best, three digits of it."""
    unit = best_unit(milligrams)
    whole = len(str(milligrams // 10 ** POWERS[unit]))
    return "%s %s" % (rounded(milligrams, unit, min(POWERS[unit], max(0, 3 - whole))), unit)


def in_unit(band: Band, unit: str) -> str:
    """The certain digits of a band in a unit, at most two places."""
    number = shown(band, unit).rpartition(" ")[0]
    whole, point, places = number.partition(".")
    if len(places) <= 2:
        return number
    low, high = (rounded(end, unit, 2) for end in band)
    return low if low == high else number


def band_mg(band: Band) -> Markup:
    """Both ends in milligrams; what they have in common is quiet, where they part is not."""
    low, high = map(apart, band)
    if low == high:
        return Markup.escape(low)
    same = 0
    while len(low) == len(high) and low[same] == high[same]:
        same += 1
    ends = (Markup('<span class="same">{}</span>{}').format(word[:same], word[same:]) for word in (low, high))
    return Markup(" to ").join(ends)


def grams(band: Band, places: int = 3) -> str:
    """A factor, in micrograms, as grams: the places to which both ends round, at most so many."""
    for digits in range(places, -1, -1):
        low, high = (rounded(end, "kg", digits) for end in band)  # micrograms to grams are as milligrams to kilograms
        if low == high:
            return low
    return "%s to %s" % (low, high)


def clock(mark: int) -> str:
    """The time of a mark of the day."""
    return "%d:%02d" % (mark % 48 // 2, 30 * (mark % 2))


def hours(halves: int) -> str:
    return "%g h" % (halves / 2)


def season_words(season: dict[str, int]) -> str:
    return "%s, %s to %s °C, %s kPa" % (
        counted(season["days"], "day"), tenths(season["lowest"]), tenths(season["highest"]), tenths(season["vp"]))


def parking_words(data: bytes) -> str:
    """How the parkings of a sheet are counted."""
    if not layout.has_grid(data):
        durations, ends = sum(layout.counts(data, 8)), sum(layout.counts(data, 56))
        return "parking in two lists, %s and %s" % (counted(durations, "duration"), counted(ends, "end hour"))
    by_hour = [sum(layout.counts(data, 8 + 48 * t)) for t in range(24)]
    return "a grid of %s, of which most end at hour %d" % (
        counted(sum(by_hour), "parking"), by_hour.index(max(by_hour)) + 1)


def canister_words(row: dict[str, int]) -> str:
    """The canister of a row, and what it holds when a parking starts."""
    name = canister_name(row)
    if name == "none":
        return "no canister"
    if row["mileage"]:
        return "%s canister, m_sat %s g, load after %s km" % (name, tenths(row["saturation"]), apart(row["mileage"]))
    return "%s canister with %s of %s g" % (name, tenths(row["load"]), tenths(row["saturation"]))


def canister_short(row: dict[str, int]) -> str:
    """A row's canister in two words."""
    name = canister_name(row)
    return "%s canister" % ("no" if name == "none" else name)


def row_name(row: dict[str, int]) -> str:
    return "%s, %s" % (CLASS_NAMES[row["class"]], technology_name(row["technology"]))


def named_row(row: dict[str, int], name: str) -> str:
    """A row by the name that it was given, and what it is."""
    return "%s: %s" % (name, row_name(row)) if name else row_name(row)


def row_more(row: dict[str, int]) -> str:
    """What else a row says."""
    tank = "%s l" % tenths(row["tank"]) if row["tank"] else "%d l, by class" % CLASSES[row["class"]][1]
    return "%d %% with carburettor or return; %d %% of trips end hot; tank %s, %d %% full; %s trips a day of %d min" % (
        row["carburettor"], row["hot"], tank, row["fill"], FIELDS["trips"].shown(row["trips"]), row["minutes"])
