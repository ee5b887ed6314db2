"""Units of mass as people write them, by their power of ten in milligrams."""

import re
from functools import lru_cache
from typing import NamedTuple

from evp.intake.numbers import TWO_THINGS, NotRead

PLAIN = {"mg": 0, "g": 3, "kg": 6, "t": 9}
EXACT = {**PLAIN, "Mg": 9, "kt": 12, "Gg": 12, "Mt": 15, "Tg": 15, "µg": -3, "μg": -3, "ug": -3, "mcg": -3}
ANY_CASE = {"kg": 6, "g": 3, "t": 9, "kt": 12, "gg": 12, "tg": 15, "kgs": 6, "gr": 3, "gm": 3, "gms": 3, "to": 9,
            "tn": 9, "kton": 12, "ktons": 12}
WORDS = {
    "milligram": 0, "milligramme": 0, "gram": 3, "gramme": 3, "gramm": 3, "gramo": 3, "grammo": 3,
    "kilo": 6, "kilogram": 6, "kilogramme": 6, "kilogramm": 6, "kilogramo": 6, "megagram": 9, "megagramme": 9,
    "megagramm": 9, "tonne": 9, "tonnen": 9, "metric ton": 9, "metric tonne": 9, "tonelada": 9, "tonnellata": 9,
    "tonnellate": 9, "kilotonne": 12, "kilotonnen": 12, "kilotonn": 12, "gigagram": 12, "gigagramme": 12,
    "gigagramm": 12, "megatonne": 15, "megatonnen": 15, "teragram": 15, "teragramme": 15, "microgram": -3,
}
DOUBTS = {
    "MG": ("mg (milligram)", "Mg (megagram, 1,000 kg)"), "mG": ("mg (milligram)", "Mg (megagram, 1,000 kg)"),
    "MT": ("metric tonnes", "megatonnes"), "mt": ("metric tonnes", "megatonnes"), "mT": ("tonnes", "megatonnes"),
}
TONS = ("ton", "tons")
THOUSANDS = {"1000": 3, "1,000": 3, "10^3": 3, "10**3": 3, "10³": 3, "1e3": 3, "1e+3": 3, "'000": 3, "000": 3,
             "thousand": 3, "10^6": 6, "10⁶": 6, "1e6": 6, "million": 6}
_MULTIPLE = re.compile(r"(%s)\s*(?:[x×*·]\s*)?(?=[A-Za-zµμ])" % "|".join(map(re.escape, sorted(
    THOUSANDS, key=len, reverse=True))), re.IGNORECASE)
_YEAR = re.compile(r"\s*(?:(?:/|\bper\b|\bp\.?)\s*(?:a|y|yr|year|annum|jahr|an|año)\.?|\b(?:a|yr|y|year)(?:\^?-1|⁻¹)"
                   r"|\bp\.\s*a\.|\bannually)\s*$", re.IGNORECASE)
_OF = re.compile(r"\s*(?:\bof\b\s*)?\b(?:nmvocs?|vocs?|hc|gasoline|petrol|fuel|vapou?r)\b\s*$", re.IGNORECASE)


class Unit(NamedTuple):
    """A unit: the power of ten of its milligrams, and whether it was written plainly."""
    power: int
    plain: bool


@lru_cache(maxsize=512)
def read(text: str) -> Unit:
    """The unit of a cell; NotRead where it is none of mass, or can mean two things."""
    if text in PLAIN:
        return Unit(PLAIN[text], True)
    word = text.replace("(s)", "s").strip().strip("[](){}.:;,\"' ").strip()
    if not word:
        raise NotRead("no unit is given")
    if len(word) > 40:
        raise NotRead("the unit %.20s… is none of mass" % word)
    word = _OF.sub("", _YEAR.sub("", _OF.sub("", word)))
    many = _MULTIPLE.match(word)
    power = THOUSANDS[many[1].lower()] if many else 0
    return Unit(power + _single(word[many.end():] if many else word), False)


def _single(word: str) -> int:
    word = word.strip().rstrip(".")
    if word in EXACT:
        return EXACT[word]
    if word in DOUBTS:
        raise NotRead("the unit %s %s: %s or %s" % (word, TWO_THINGS, *DOUBTS[word]))
    low = " ".join(word.casefold().replace("-", " ").replace("_", " ").split())
    if low in ANY_CASE:
        return ANY_CASE[low]
    if low in TONS:
        raise NotRead("the unit %s %s: tonnes of 1,000 kg or short tons of 907 kg; write t" % (word, TWO_THINGS))
    for form in (low, low.removesuffix("s"), low.removesuffix("es")):
        form = form.replace("metric tons", "metric ton")
        if form in WORDS:
            return WORDS[form]
    if "/" in word or " per " in low:
        raise NotRead("the unit %s is a rate, and the mass of a year is marked" % word)
    raise NotRead("the unit %s is none of mass: mg, g, kg, t, Mg, kt, Gg" % word)


def is_unit(text: str) -> bool:
    """Whether a text is a unit, one that can mean two things too."""
    try:
        read(text)
    except NotRead as error:
        return TWO_THINGS in str(error)
    return True


_BRACKETS = re.compile(r"^(?P<name>.*?)\s*[\[({]\s*(?:in\s+)?(?P<unit>[^\])}]{1,40}?)\s*[\])}]\s*$")
_BEHIND = re.compile(r"^(?P<name>.*?[^\s_,/:;-])(?:\s*[,/:;_]\s*|\s+in\s+|\s+)(?P<unit>[^\s_,/:;]{1,12})$")


def of_header(text: str) -> tuple[str, str]:
    """The name and the unit of a header such as `diurnal [t]`, `soak_kg` or `mass in t`; the unit is empty where there
    is none."""
    for form in (_BRACKETS, _BEHIND):
        found = form.match(text.strip())
        if found and is_unit(found["unit"]) and found["unit"].casefold() not in ("to", "a"):
            return found["name"].strip(" ,:;/-"), found["unit"]
    return text.strip(), ""


_TITLE = re.compile(r"(?:\bin|\bunits?\s*[:=]?|\[|\()\s*(?P<unit>[A-Za-zµμ]+(?:\s*/\s*(?:a|yr|year))?)\b",
                    re.IGNORECASE)


def of_title(text: str) -> str:
    """The unit that a line above a table gives for all of it, as in `all masses in t`; empty where there is none."""
    for found in _TITLE.finditer(text[:400]):
        if found["unit"].casefold() not in ("to", "a", "g") and is_unit(found["unit"]):
            return found["unit"]
    return ""
