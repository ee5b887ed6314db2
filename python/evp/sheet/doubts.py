"""What a sheet may not mean although it can be written: told in one line each."""

from collections.abc import Iterator, Sequence
from decimal import Decimal, InvalidOperation

from evp.layout import BY_CLASS, CLASSES
from evp.sheet.builder import Builder

# Fields that are 0 where they are left out; the load where the row has a canister.
COUNTED = ("carburettor", "hot", "fill", "vehicles", "trips", "minutes")
PSI = Decimal("6.89476")  # kPa
HOT_NIGHT, HOT_DAY = 30, 45  # °C; few places have a lowest or a highest temperature above these


def doubts(builder: Builder) -> Iterator[str]:
    """Of a builder whose bytes could be made."""
    yield from _left_out(builder)
    yield from _seasons(builder)
    yield from _alike(builder)
    rows = zip(builder.row_places, builder.rows, builder.row_words)
    empty = [place for place, record, given in rows if not any(record[8:12]) and "vehicles" in given]
    if empty:
        yield "%s: no vehicles, so no mass" % _places(empty)


def _places(places: Sequence[str]) -> str:
    """Where something stands, the first three by name: fleet.csv: lines 2, 3, 7 and 4 more."""
    label = places[0].rpartition("line ")[0]
    words = ", ".join(place.rpartition(" ")[2] for place in places[:3])
    more = " and %d more" % (len(places) - 3) if len(places) > 3 else ""
    return "%sline%s %s%s" % (label, "" if len(places) == 1 else "s", words, more)


def _left_out(builder: Builder) -> Iterator[str]:
    """Fields that are left out of the same rows share a line."""
    names: dict[tuple[str, ...], list[str]] = {}
    for name in (*COUNTED, "load"):  # evp.doubting has m_sat
        rows = zip(builder.row_places, builder.rows, builder.row_words)
        places = tuple(place for place, record, given in rows
                       if name not in given and (name in COUNTED or _wants_load(record)))
        names.setdefault(places, []).append(name)
    for places, left_out in names.items():
        if places:
            yield "%s: %s left out, so 0" % (_places(places), ", ".join(left_out))


def _wants_load(record: bytes) -> bool:
    """Whether a row should have a load: with a canister that can hold one, and without a mileage."""
    canister = record[2]
    if canister == BY_CLASS:
        canisters = CLASSES.get(record[0], ("", 0, ()))[2]
        canister = canisters[record[1]] if record[1] < len(canisters) else 0
    return canister != 0 and any(record[18:20]) and not any(record[20:24])


def _seasons(builder: Builder) -> Iterator[str]:
    for place, given in zip(builder.season_places, builder.season_words):
        lowest, highest, vp = (_number(given[name]) for name in ("lowest", "highest", "vp"))
        if lowest >= HOT_NIGHT or highest >= HOT_DAY:
            celsius = [round((word - 32) * 5 / 9, 1) for word in (lowest, highest)]
            yield "%s: lowest %s, highest %s: is this °F? In °C it would be %s and %s" % (
                place, given["lowest"], given["highest"], *celsius)
        if 3 <= vp < 20:
            yield "%s: vp %s: is this psi? In kPa it would be %s" % (place, given["vp"], round(vp * PSI, 1))
        if vp >= 300:
            yield "%s: vp %s: is this hPa? In kPa it would be %s" % (place, given["vp"], round(vp / 10, 1))


def _number(word: str) -> Decimal:
    try:
        return Decimal(word)
    except InvalidOperation:  # no word of a season that was taken
        return Decimal(0)


def _alike(builder: Builder) -> Iterator[str]:
    places: dict[bytes, list[str]] = {}
    for place, record in zip(builder.row_places, builder.rows):
        places.setdefault(record[:8] + record[12:], []).append(place)
    twice = [found for found in places.values() if len(found) > 1]
    for found in twice[:3]:
        yield "%s: these rows are alike in all but vehicles; was one entered twice?" % _places(found)
    if len(twice) > 3:
        yield "%s: and %d more such pairs" % (_places(twice[3]), len(twice) - 3)
