"""Numbers as people write them, read by their digits and never through a float.

`read` gives the digits and the power of ten of the last one. A number that can mean two things, such as 1,234 in a
table whose other cells do not settle what the comma is, is not read: `NotRead` has the reason.
"""

import re
import unicodedata
from functools import lru_cache
from typing import NamedTuple

from evp.wording import printable

TWO_THINGS = "can mean two things"
GROUPS = " \u00a0\u202f\u2009\u2007\u2008'\u2019\u02bc_"  # between thousands; never a decimal character
MINUS = "-\u2212\u2013\u2010\u2011\ufe63\uff0d"
MOST_EXPONENT = 30
LONG = 60  # characters of a number that any mass has; a longer one is read by its digits alone

_PLAIN = re.compile(r"[0-9]+(?:[.,][0-9]+)?")
_NUMBER = re.compile(
    r"(?P<sign>[+-]?) *(?P<body>(?:[0-9]|[.,](?=[0-9]))[0-9.,%s]*)"
    r"(?: *(?:[eE]|[x×·⋅*] *10 *\^? *) *\(?(?P<power>[+-]?[0-9]{1,4})\)?)?"
    r"(?P<rest>(?:[^0-9.,].*)?)" % GROUPS, re.DOTALL)
_SUPERSCRIPTS = str.maketrans("⁰¹²³⁴⁵⁶⁷⁸⁹⁺⁻", "0123456789+-")
_POWER = re.compile("(?<=10)[⁻⁺]?[⁰¹²³⁴⁵⁶⁷⁸⁹]+")
_SIGNS = str.maketrans({**{sign: "-" for sign in MINUS}, "．": ".", "，": ",", "٫": ".", "٬": "'"})
_ABOUT = re.compile(r"(?:~|≈|about |approx\.? |ca\.? |circa )\s*", re.IGNORECASE)
_FOOTNOTE = re.compile(r"\s*(?:[*†‡§#]+|[¹²³⁴⁵⁶⁷⁸⁹]+|\(?[a-z0-9]\)|\[[a-z0-9]\])\s*", re.IGNORECASE)

KEYS = {  # the notation keys of emission inventories
    "NE": "not estimated", "NA": "not applicable", "NO": "not occurring", "IE": "included elsewhere",
    "C": "confidential",
}
NOTHING = ("", "-", "--", "---", ".", "..", "...", "…", "/", "none", "null", "nil", "nothing", "empty", "blank")
MONTHS = r"(?:jan|feb|mar|m[aä]r|mrz|apr|may|mai|jun|jul|aug|sep|oct|okt|nov|dec|dez)[a-zä.]*"
_DATE = re.compile(
    r"[0-9]{1,2}[ ./-]*%s(?:[ ./-]*[0-9]{2,4})?|%s[ ./-]*[0-9]{1,4}|[0-9]{4}-[0-9]{1,2}-[0-9]{1,2}(?:[T ][0-9:.]+)?"
    r"|[0-9]{1,2}/[0-9]{1,2}(?:/[0-9]{2,4})?|[0-9]{1,2}\.[0-9]{1,2}\.(?:[0-9]{2,4})?" % (MONTHS, MONTHS), re.IGNORECASE)


class NotRead(Exception):
    """A cell that is not read, and why, in words that no terminal obeys."""
    def __init__(self, words: str):
        super().__init__(printable(words))


class Number(NamedTuple):
    """The digits of a number without leading zeros, the power of ten of the last of them, what is behind the number in
    its cell, such as a unit, and whether it was written plainly."""
    digits: str
    last: int
    rest: str = ""
    plain: bool = True


@lru_cache(maxsize=4096)
def _normal(text: str) -> str:
    """A text with the digits and signs of ASCII; 10⁴ becomes 10^4."""
    text = _POWER.sub(lambda found: "^" + found[0].translate(_SUPERSCRIPTS), text.strip().strip("\ufeff"))
    if text.isascii():
        return text
    text = text.translate(_SIGNS)
    return "".join(str(unicodedata.decimal(sign)) if unicodedata.category(sign) == "Nd" else sign for sign in text)


def _without_groups(body: str) -> tuple[str, bool]:
    """A number without what is between its thousands, and whether there was any."""
    signs = {sign for sign in body if sign in GROUPS}
    if not signs:
        return body, False
    sign = next(iter(signs))
    form = r"[0-9]{1,3}(?:%s[0-9]{3})+(?:[.,][0-9]*)?" % re.escape(sign)
    if len(signs) > 1 or not re.fullmatch(form, body):
        raise NotRead("is no number")
    return body.replace(sign, ""), True


def _split(body: str, grouped: bool, one_digit: bool) -> tuple[str, str, str]:
    """A number as the whole digits, its decimal character where its form proves one, and the decimal places. Where the
    form does not prove it the character is `?` and the one that was written."""
    points, commas = body.count("."), body.count(",")
    if not points and not commas:
        return body, "", ""
    if points and commas:
        decimal = "." if body.rfind(".") > body.rfind(",") else ","
        other = "," if decimal == "." else "."
        whole, _, places = body.rpartition(decimal)
        if decimal in whole or grouped or not re.fullmatch(r"[0-9]{1,3}(?:%s[0-9]{3})+" % re.escape(other), whole):
            raise NotRead("is no number")
        return whole.replace(other, ""), decimal, places
    sign = "." if points else ","
    if points + commas > 1:
        if grouped or not re.fullmatch(r"[1-9][0-9]{0,2}(?:%s[0-9]{3})+" % re.escape(sign), body):
            raise NotRead("is no number")
        return body.replace(sign, ""), "," if sign == "." else ".", ""
    whole, _, places = body.partition(sign)
    proved = grouped or one_digit or len(places) != 3 or not 1 <= len(whole) <= 3 or whole.startswith("0")
    return whole, sign if proved else "?" + sign, places


@lru_cache(maxsize=4096)
def evidence(text: str) -> str:
    """The decimal character that the form of a cell proves, `.` or `,`; empty where it proves none."""
    found = _NUMBER.fullmatch(_normal(text)) if len(text) <= LONG else None
    if found is None or not {".", ","} & set(found["body"]):
        return ""
    try:
        body, grouped = _without_groups(found["body"].strip(GROUPS))
        _, sign, _ = _split(body, grouped, found["power"] is not None and body[1:2] in (".", ","))
    except NotRead:
        return ""
    return sign if len(sign) == 1 else ""


def _body(body: str, decimal: str, scientific: bool) -> tuple[str, int, bool]:
    """The digits of a number, how many of them are decimal places, and whether it was plain."""
    ungrouped, grouped = _without_groups(body)
    whole, sign, places = _split(ungrouped, grouped, scientific and ungrouped[1:2] in (".", ","))
    if sign.startswith("?"):
        if not decimal:
            raise NotRead("%s: %s%s%s or %s%s" % (TWO_THINGS, whole, ".", places, whole, places))
        if decimal != sign[1]:
            return whole + places, 0, False
    written = len(ungrouped) == len(whole) + len(places) + len(sign.strip("?"))  # nothing between thousands
    return whole + places, len(places), not grouped and written and bool(whole) and (bool(places) or not sign) and (
        sign in ("", decimal, "?" + decimal))


def _long(text: str) -> Number | None:
    """A number of very many digits: no mass, which the library says."""
    found = re.fullmatch(r"([0-9]+)(?:[.,]([0-9]+))?", text)
    return None if found is None else Number((found[1] + (found[2] or "")).lstrip("0") or "0", -len(found[2] or ""))


def read(text: str, decimal: str) -> Number:
    """The number of a cell; `decimal` is the decimal character of its table, empty where nothing settles it."""
    if len(text) > LONG and (long := _long(text)) is not None:
        return long
    if len(text) > 4 * LONG:
        raise NotRead("is no mass")
    word, plain = _normal(text), True
    without = _ABOUT.sub("", word, count=1) if _ABOUT.match(word) else word
    found = _NUMBER.fullmatch(without)
    if found is None:
        raise NotRead(_no_number(word))
    if _DATE.fullmatch(without) and not _PLAIN.fullmatch(without):
        raise NotRead("is a date, which a spreadsheet may have made of a number; format the cells as text")
    rest = found["rest"].strip()
    _check_rest(rest, found["sign"], word)
    scientific = found["power"] is not None
    digits, places, plain = _body(found["body"].strip(GROUPS), decimal, scientific)
    power = int(found["power"] or 0)
    if abs(power) > MOST_EXPONENT:
        raise NotRead("has an exponent that no mass has")
    if _FOOTNOTE.fullmatch(rest):
        rest, plain = "", False
    plain = plain and without == text and not rest and not found["sign"] and not scientific
    return Number(digits.lstrip("0") or "0", power - places, rest, plain)


def _check_rest(rest: str, sign: str, word: str) -> None:
    """Refuses what is behind a number and says that it is none, or not one mass."""
    if rest.startswith("%"):
        raise NotRead("is a percentage, not a mass")
    if rest[:1] in ("±", "-", "/") and re.search("[0-9]", rest) or re.match(r"(?:to|bis|and|or|\+/-)\b.*[0-9]", rest):
        raise NotRead("is a range, not one mass")
    if sign == "-":
        raise NotRead("is below 0, and no mass is")


@lru_cache(maxsize=1024)
def not_a_mass(text: str) -> str:
    """What a cell is that is no mass on purpose: nothing, a notation key, or an error of a spreadsheet. Empty where it
    may be a mass."""
    word = _normal(text[:LONG])
    if word.casefold() in NOTHING:
        return "nothing filed"
    bare = re.sub(r"[\s.*()\"']", "", word).upper()
    if bare in ("N/A", "#N/A", "#NV"):
        bare = "NA"
    keys = re.split("[,;/+]", bare)
    if all(key in KEYS for key in keys):
        return "not a mass: %s" % ", ".join("%s, %s" % (key, KEYS[key]) for key in keys)
    if bare in ("NAN", "INF", "TBD", "TBC", "ND", "NR", "?", "??", "X"):
        return "not a mass: no number was filed"
    if word.startswith("#") and (re.fullmatch("#+", word) or re.fullmatch(r"#[A-ZÄÖÜ0-9/]{2,12}[!?]?", word)):
        return "not a mass: an error of the spreadsheet" if word.strip("#") else (
            "not a mass: a column that was too narrow when the table was saved")
    return ""


def _no_number(word: str) -> str:
    if _DATE.fullmatch(word):
        return "is a date, which a spreadsheet may have made of a number; format the cells as text"
    if word[:1] in ("<", ">", "≤", "≥"):
        return "is a limit, not a mass"
    if word.startswith("="):
        return "is a formula without its value; save the table with values"
    if word.upper() in ("TRUE", "FALSE", "WAHR", "FALSCH"):
        return "is true or false, not a mass"
    return "is no mass"
