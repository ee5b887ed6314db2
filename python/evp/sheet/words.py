"""The decimal words of a text or a table, as the bytes of their fields."""

import re

from evp.layout import Field
from evp.wording import quoted, shortened

MOST_DIGITS = 12  # no field holds a number of more


class TextError(Exception):
    """A text or table that cannot be read: a message for each fault, which names the line; `more` are those that were
    counted alone."""

    def __init__(self, message: str, more: int = 0):
        super().__init__(message)
        self.more = more

    @property
    def messages(self) -> list[str]:
        return str(self).split("\n")


def _no_number(word: str) -> str:
    """What to write in place of a word that is no number, where that is plain."""
    two = re.fullmatch(r"[+-]?([0-9]{1,3}),([0-9]{3})", word)
    if two and two[2] == "000":
        return "; it can mean %s%s or %s.%s: write the digits alone" % (*two.groups(), *two.groups())
    if re.fullmatch(r"[+-]?[0-9]+,[0-9]{1,2}", word):
        return "; the decimal sign is a point: %s" % word.replace(",", ".")
    if re.fullmatch(r"[0-9]{1,3}([ ,_'\u00a0\u202f][0-9]{3})+", word):
        return "; write the digits alone: %s" % re.sub("[^0-9]", "", word)
    return ""


def encode(word: str, field: Field) -> bytes:
    """A decimal word as the bytes of its field."""
    form = re.fullmatch(r"([+-]?)0*([0-9]+)(?:\.([0-9]+))?", word, re.ASCII)
    if form is None:
        raise TextError("%s: %s is no number%s" % (field.name, quoted(word), _no_number(word)))
    short = shortened(word)
    sign, whole, fraction = form[1], form[2], form[3] or ""
    if sign and not field.signed:
        raise TextError("%s: %s has a sign, and the field has none" % (field.name, short))
    if form[3] is not None and not field.places:
        raise TextError("%s: %s has a point, and the field is a whole number" % (field.name, short))
    if len(fraction) > field.places:
        raise TextError("%s: %s has %d decimal places, and the field holds %d" % (
            field.name, short, len(fraction), field.places))
    low, high = field.capacity
    if len(whole) <= MOST_DIGITS:
        value = int(sign + whole + fraction.ljust(field.places, "0"))
        if low <= value <= high:
            return value.to_bytes(field.size, "little", signed=field.signed)
    raise TextError("%s: %s does not fit the field (%s to %s)" % (
        field.name, short, field.shown(low), field.shown(high)))


def whole_number(word: str, name: str, size: int) -> int:
    """A word as a number of so many bytes."""
    return int.from_bytes(encode(word, Field(name, size)), "little")


def hexadecimal(word: str, name: str, size: int | None = None) -> bytes:
    """A word as bytes, so many where a size is given."""
    try:
        found = bytes.fromhex(word)
    except ValueError:
        raise TextError("%s: %s is not hexadecimal" % (name, quoted(word))) from None
    if size is not None and len(found) != size:
        raise TextError("%s: %d bytes wanted, %d found" % (name, size, len(found)))
    return found
