"""The page of a refused sheet: the explanation, the field in its record, and all bytes."""

from typing import NamedTuple

from evp import layout
from evp.explain import BYTES, Explanation, amount, byte_range, explain
from evp.layout import MILEAGE, ROW_FIELDS, SEASON_FIELDS, CLASSES, Field, technology_name
from evp.library import Library
from evp.pages.render import render
from evp.pages.words import minus
from evp.sheet import TextError, read
from evp.wording import apart, name_shown

MOST_DUMPED = 3_000  # bytes that are shown; of more, those around the fault
HEAD_FIELDS = (Field("letters", 3), Field("version", 2), Field("seasons", 1), Field("rows", 1), Field("zero", 1))
HEAD_4 = (*HEAD_FIELDS[:3], Field("rows", 2))
LABELS = {"saturation": "m_sat", "hot": "ends hot", "fill": "fill level", "vp": "vapour pressure", "spare": "zeros"}
LIMITS = {
    "class": "1 to 9", "technology": "0 to 5, as the class has", "canister": "0, 1, 2, 3 or 255",
    "load": "at most m_sat; 0 without canister", "saturation": "by canister and seasons; 0 without canister",
    "letters": "EVP", "version": "1 to 4", "seasons": "1 to 12", "rows": "1 to 32; in version 4 to 1,000", "zero": "0",
    "spare": "0", "tank": "0 to 150.0 l; 0 is by class", "highest": "−30.0 to 50.0 °C, not below lowest",
}


class Shown(NamedTuple):
    """A field of the record at fault."""
    name: str
    at: int
    size: int
    bytes: list[str]
    value: str
    says: str
    limits: str
    fault: bool
    limiting: bool
    looked_at: bool

    @property
    def where(self) -> str:
        return "%d" % self.at if self.size == 1 else "%d to %d" % (self.at, self.at + self.size - 1)


def _fields(data: bytes, record: str) -> tuple[Field, ...]:
    if record == "row":
        return (*ROW_FIELDS, MILEAGE if layout.has_mileage(data) else Field("spare", 4))
    if record == "season":
        return SEASON_FIELDS
    return HEAD_4 if layout.version_of(data) == 4 else HEAD_FIELDS


def _says(field: Field, value: int, row: dict[str, int]) -> str:
    """What a number stands for."""
    if field.name == "class" and value in CLASSES:
        return CLASSES[value][0]
    if field.name == "technology":
        return technology_name(value)
    if field.name == "canister":
        return layout.CANISTER_NAMES.get(value, "no code").replace("class", "by class")
    if field.name == "tank" and not value and row.get("class") in CLASSES:
        return "by class: %d l" % CLASSES[row["class"]][1]
    return ""


def limits_of(field: Field) -> str:
    """What a field may be, in words."""
    if field.name in LIMITS:
        return LIMITS[field.name]
    return minus("%s to %s" % (field.shown(field.least), amount(field, field.most)))


LIMITING = {("load", 19): "saturation", ("lowest", 11): "highest", ("technology", 13): "class", ("load", 25): "mileage"}


def _record(data: bytes, found: Explanation) -> list[Shown]:
    """The fields of the record at fault, in the order of their bytes."""
    place = 0 if found.record == "head" else found.place
    fields, shown, passed = _fields(data, found.record), [], True
    row = layout.record(data, place, fields) if found.record == "row" else {}
    for field in fields:
        value = layout.number_at(data, place, field.size, field.signed)
        fault = found.at is not None and found.at == place
        limiting = LIMITING.get((found.field, found.number)) == field.name
        text = data[place:place + 3].decode("ascii", "replace") if field.name == "letters" else amount(field, value)
        shown.append(Shown(
            LABELS.get(field.name, field.name), place, field.size,
            ["%02x" % byte for byte in data[place:place + field.size]], minus(text), _says(field, value, row),
            limits_of(field), fault, limiting, passed))
        passed = passed and not fault
        place += field.size
    return shown


class Tried(NamedTuple):
    """The sheet with a value that would pass, as the library finds it."""
    value: str
    after: str
    accepted: bool


def mended(library: Library, data: bytes, found: Explanation) -> Tried | None:
    """The sheet with the limit that is nearest in place of the value at fault; None where there is no one field."""
    if not found.bytes or found.bytes > 4 or found.record not in ("row", "season"):
        return None
    field = layout.FIELDS.get(found.field)
    if field is None or found.least > found.most or field.name in ("class", "canister"):
        return None
    own = layout.number_at(data, found.at, found.bytes, field.signed)
    value = found.most if found.value > found.most else found.least
    value = own + value - found.value  # of a sum, what its last part may be
    if not field.capacity[0] <= value <= field.capacity[1]:
        return None
    word = value.to_bytes(found.bytes, "little", signed=field.signed)
    after = explain(library, data[:found.at] + word + data[found.at + found.bytes:])
    return Tried(minus(amount(field, value)), after.text, not after.number)


class Piece(NamedTuple):
    """A piece of the file in proportion."""
    name: str
    size: int
    here: bool


def _pieces(data: bytes, found: Explanation) -> list[Piece]:
    """Head, parking, seasons and rows of a sheet that has them all; rows beside the fault are put together."""
    if len(data) < 8 or len(data) != layout.length_of(data) or found.number <= 7:
        return []
    start, seasons, rows = layout.seasons_start(data), layout.season_count(data), layout.row_count(data)
    pieces = [Piece("head", 8, found.record == "head"), Piece("parking", start - 8, found.record == "parking")]
    pieces += [Piece("season %d" % i, 8, (found.record, found.index) == ("season", i)) for i in range(1, seasons + 1)]
    if rows <= 12:
        return pieces + [Piece("row %d" % i, 24, (found.record, found.index) == ("row", i)) for i in range(1, rows + 1)]
    if found.record != "row":
        return pieces + [Piece("%d rows" % rows, 24 * rows, False)]
    before, behind = found.index - 1, rows - found.index
    pieces += [Piece("rows 1 to %d" % before, 24 * before, False)] if before else []
    pieces.append(Piece("row %d" % found.index, 24, True))
    return pieces + ([Piece("rows %d to %d" % (found.index + 1, rows), 24 * behind, False)] if behind else [])


class Line(NamedTuple):
    """Sixteen bytes, each with what it is: at fault, of its record, or another."""
    at: int
    bytes: list[tuple[str, str]]


def _dump(data: bytes, found: Explanation) -> list[Line]:
    fault = range(found.at, found.at + found.bytes) if found.bytes else range(0)
    size = {"row": layout.ROW_BYTES, "season": layout.SEASON_BYTES}.get(found.record, 0)
    record = range(found.place, found.place + size)
    first = 0 if len(data) <= MOST_DUMPED else max(0, found.place // 16 * 16 - 64)
    last = min(len(data), first + MOST_DUMPED) if first == 0 else min(len(data), first + 256)
    return [Line(at, [("%02x" % data[i], "fault" if i in fault else "rec1" if i in record else "")
                      for i in range(at, min(at + 16, len(data)))]) for at in range(first, last, 16)]


def _text_line(data: bytes, found: Explanation) -> list[tuple[str, bool]]:
    """The line of the text that makes the record at fault, in words, each with whether it is the one."""
    if found.record not in ("row", "season"):
        return []
    try:
        lines = [line for line in read(data).splitlines() if line.startswith(found.record + " ")]
    except TextError:
        return []
    if found.index > len(lines):
        return []
    return [(word, word.startswith("%s=" % found.field)) for word in lines[found.index - 1].split()]


def page_refused(library: Library, name: str, data: bytes, found: Explanation, served: bool = False,
                 packed: dict | None = None) -> str:
    words = found.words
    about = "%s bytes" % apart(len(data)) if len(data) <= 25_256 else "more than 25,256 bytes"
    if len(data) >= 8 and data[:3] == b"EVP":
        about = "Version %d, %s, by its head %d seasons and %s rows" % (
            layout.version_of(data), about, layout.season_count(data), apart(layout.row_count(data)))
    has_record = found.record in ("row", "season", "head") and len(data) >= 8 and data[:3] == b"EVP"
    record = _record(data, found) if has_record else []
    return render(
        "refused.html", served, name=name_shown(name), found=found, about=about,
        sentence=minus_in(BYTES.sub("", words.sentence)), advice=minus_in(words.advice),
        context=[minus_in(BYTES.sub("", line)) for line in words.context], record=record,
        where=byte_range(found.at, found.bytes) if found.bytes else "", tried=mended(library, data, found),
        pieces=_pieces(data, found), dump=_dump(data, found), dumped=len(data), line=_text_line(data, found),
        packed=packed if _is_whole(data) else None)


def _is_whole(data: bytes) -> bool:
    """Whether the form can hold it."""
    return len(data) >= 8 and data[:3] == b"EVP" and layout.version_of(data) in (1, 2, 3, 4) and (
        len(data) == layout.length_of(data))


def minus_in(text: str) -> str:
    """A sentence whose negative numbers have a real minus sign; a hyphen within a word stays."""
    return "".join("\u2212" if sign == "-" and text[i + 1:i + 2].isdigit() and not text[i - 1:i].isalnum() else sign
                   for i, sign in enumerate(text))
