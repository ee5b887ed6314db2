"""Words and numbers as spreadsheets write them and as `evp show` prints them, put as a sheet's own words: `Medium`,
`Euro 3`, `car < 1.4 l`, `14.50`, `15200.0`, `18 400`, a typographic minus. A word that can mean two things, or nothing,
is left as it is, and what reads it then says so."""

import re
from collections.abc import Iterator
from decimal import Decimal, InvalidOperation
from functools import lru_cache

from evp.layout import CLASSES, FIELDS, Field, technology_name

MINUS = str.maketrans("\u2212\u2012\u2013\u2014\ufe63\uff0d", "------")
SPACES = re.compile(r"[\s\u00a0\u202f\u2009]+")
MOST_WORD = 40  # signs; no word of a field is longer
COUNT = Field("count", 2, most=65_535)  # of parkings
GROUPS = re.compile(r"([0-9]{1,3})(?:(['\u2019 ,.])[0-9]{3})(?:\2[0-9]{3})*")
SHORT_CLASSES = {
    1: ("car < 1.4 l", "cars < 1.4 l"), 2: ("car 1.4-2.0 l", "cars 1.4-2.0 l"), 3: ("car > 2.0 l", "cars > 2.0 l"),
    4: ("light-duty vehicle", "light-duty vehicles", "light duty"), 5: ("mopeds",),
    6: ("two-strokes", "two-stroke motorcycles", "2-stroke"),
    7: ("4-stroke <250", "4-stroke < 250", "four-strokes below 250 cm³"),
    8: ("4-stroke -750", "4-stroke ≤ 750", "four-strokes up to 750 cm³"),
    9: ("4-stroke >750", "4-stroke > 750", "four-strokes above 750 cm³"),
}


def _plain(word: str) -> str:
    """A name as it is compared: small letters, one kind of dash and of space, no space about signs."""
    found = SPACES.sub(" ", word.translate(MINUS).strip().lower()).replace("cm3", "cm³").replace("petrol", "gasoline")
    return re.sub(r" ?([-<>≤]) ?", r"\1", found)


CLASS_WORDS = {_plain(word): str(number) for number, words in CLASSES.items()
               for word in (words[0], *SHORT_CLASSES.get(number, ()))}
CLASS_WORDS |= {"%s %s" % (number, word): number for word, number in CLASS_WORDS.items()}  # as the form lists them
TECHNOLOGY_WORDS = {_plain(technology_name(i)): str(i) for i in range(6)} | {"conv.": "0", "conv": "0"}
TECHNOLOGY_WORDS |= {"euro%d" % i: str(i) for i in range(1, 6)}
CANISTER_WORDS = {name: name for name in ("none", "small", "medium", "large", "class")} | {
    "by class": "class", "no": "none", "no canister": "none", "small canister": "small",
    "medium canister": "medium", "large canister": "large"}
WORDS = {"class": CLASS_WORDS, "technology": TECHNOLOGY_WORDS, "canister": CANISTER_WORDS,
         "tank": {"class": "class", "by class": "class"}}


def respelt(word: str, field: Field, comma: bool = False) -> str:
    """A word of a field as the sheet has it. With `comma` the decimal character may be a comma besides a point. The
    word itself where it has no such spelling or can mean two things."""
    return _respelt(word, field, comma) if len(word) <= MOST_WORD else word


def respelt_record(given: dict[str, str], comma: bool = False) -> dict[str, str]:
    """The fields of a record likewise, by name; what is no field is left as it is."""
    return {name: respelt(word, FIELDS[name], comma) if name in FIELDS else word for name, word in given.items()}


@lru_cache(maxsize=65_536)
def _respelt(word: str, field: Field, comma: bool) -> str:
    known = WORDS.get(field.name, {}).get(_plain(word))
    if known is not None:
        return known
    found = set(_readings(_without_unit(word, field), field, comma))
    return found.pop() if len(found) == 1 else word


def _without_unit(word: str, field: Field) -> str:
    """A number without its sign of minus as printers have it and without the unit of its field behind it."""
    text = word.translate(MINUS).strip()
    unit = field.unit
    return text.removesuffix(unit).strip() if unit and not unit[0].isdigit() else text


def _readings(text: str, field: Field, comma: bool) -> Iterator[str]:
    """What a number can mean, as words of the field; one that no sheet may have, or with too many places, is given as
    it is, so that it still counts as a meaning."""
    text = SPACES.sub(" ", text)
    for point in (".", ",") if comma else (".",):
        yield from _as_word(text, point, field)
    if not comma and "," not in text:  # a point may also be one between thousands
        yield from _as_word(text, ",", field)


def _as_word(text: str, point: str, field: Field) -> Iterator[str]:
    sign, rest = (text[0], text[1:].lstrip()) if text[:1] in ("+", "-") else ("", text)
    whole, has_point, fraction = rest.rpartition(point) if point in rest else (rest, "", "")
    if has_point and not re.fullmatch("[0-9]+", fraction, re.ASCII):
        return
    grouped = GROUPS.fullmatch(whole)
    if grouped and grouped[2] == point or not grouped and not re.fullmatch("[0-9]+", whole, re.ASCII):
        return
    digits = re.sub("[^0-9]", "", whole)
    value = _value(sign, digits, fraction)
    if value is None or not field.places and value != int(value):
        return
    if (grouped or len(fraction) > field.places) and not _is_within(value, field):
        return
    yield _shown(sign, digits, fraction, field)


def _value(sign: str, digits: str, fraction: str) -> Decimal | None:
    try:
        return Decimal("%s%s.%s" % (sign, digits[:20], fraction[:20] or "0"))
    except InvalidOperation:
        return None


def _is_within(value: Decimal, field: Field) -> bool:
    """Whether a sheet may have the value; where other fields say the most, what the bytes hold."""
    most = field.most if field.most is not None else field.capacity[1]
    return Decimal(min(field.least, 0)) <= value * field.parts <= most


def _shown(sign: str, digits: str, fraction: str, field: Field) -> str:
    """With the zeros behind the last place of the field left out."""
    kept = fraction[:field.places] + fraction[field.places:].rstrip("0")
    return "%s%s%s" % (sign, digits, "." + kept if kept else "")
