"""A refusal in words: which record, which field, what stands there and what would pass.

Number, place, reason, field, value and limits are those of the library's `explain`; here they get names and units.
"""

import codecs
import re
from collections.abc import Callable
from typing import NamedTuple

from evp import layout
from evp.layout import FIELDS, Field, canister_name, decimal
from evp.library import SHEET_BYTES, Finding, Library, MissingCall, Refusal
from evp.sheet.names import NO_NAMES, Names, with_name
from evp.wording import apart, counted

SHIFT = 32768  # what a finding adds to temperatures
BYTES = re.compile(r" \(bytes? [0-9]+(?: to [0-9]+)?\)")  # as byte_range has them, in brackets

# What a call refuses besides a sheet; 5 and 26 of the pool call, where each sheet by itself is fine.
CALLS = {
    5: "the two sheets together have more than 1,000 rows",
    26: "the two sheets together have more than 100,000,000 vehicles",
    22: "the output buffer is too small",
    23: "there is no such season, row or factor",
    27: "a low is above its high, a mass is above 2^53 mg, or a cell is none",
    28: "a mileage or a speed is not 1 to 1,000,000, or town is neither 0 nor 1",
    29: "there is no such row, it has fewer vehicles, or it would have too many",
    30: "the one who calls has no right to this",
    31: "a row has no owner, or a participant would have more than 100 rows or 10,000,000 vehicles",
    32: "the seasons or the parking of the two sheets differ",
}


class Words(NamedTuple):
    """What is wrong, what to look at besides, and what would pass."""
    sentence: str
    advice: str
    context: tuple[str, ...] = ()


class Site(NamedTuple):
    """What a finding is about: the sheet, the finding, its field, and value and limits with their sign."""
    data: bytes
    finding: Finding
    field: Field
    value: int
    least: int
    most: int

    @property
    def where(self) -> str:
        return byte_range(self.finding.at, self.finding.bytes)

    @property
    def row(self) -> dict[str, int]:
        return layout.row(self.data, self.finding.index)

    @property
    def number(self) -> int:
        """The season or row, counted from 1."""
        return self.finding.index + 1

    def amount(self, value: int, name: str | None = None) -> str:
        """A value of this field, or of one of the same record, with its unit."""
        return amount(FIELDS[name] if name else self.field, value)


class Explanation(NamedTuple):
    """A refusal, explained. `index` counts from 1; what a refusal does not have is None."""
    number: int
    place: int
    reason: int | None = None
    record: str | None = None
    index: int | None = None
    field: str | None = None
    at: int | None = None
    bytes: int | None = None
    value: int | None = None
    least: int | None = None
    most: int | None = None
    unit: str | None = None
    record_bytes: str = ""
    words: Words = Words("accepted", "")
    name: str = ""  # of the record, where names are beside the sheet

    @property
    def refusal(self) -> str:
        return "refused %d at %d" % (self.number, self.place)

    @property
    def record_name(self) -> str:
        return with_name("%s %d" % (self.record, self.index), self.name) if self.index else self.record or ""

    @property
    def text(self) -> str:
        """One line without number, place and bytes."""
        if not self.number:
            return self.words.sentence
        start = "%s: " % self.record_name if self.index else ""
        return start + "; ".join(BYTES.sub("", word) for word in (self.words.sentence, self.words.advice) if word)

    @property
    def line(self) -> str:
        """One line."""
        return "%s: %s" % (self.refusal, self.text) if self.number else self.text

    @property
    def lines(self) -> list[str]:
        """The record, then what is wrong, what to look at and what would pass."""
        if not self.number:
            return [self.words.sentence]
        where = " (%s)" % self.record_bytes if self.record_bytes else ""
        head = "%s: %s%s" % (self.refusal, self.record_name, where) if self.record else self.refusal
        rest = (self.words.sentence, *self.words.context, self.words.advice)
        return [head, *("  " + word for word in rest if word)]

    def json(self, file: str) -> dict:
        keys = self._fields[:self._fields.index("unit") + 1]
        return {"file": file, **{key: getattr(self, key) for key in keys}, "text": self.text}


def explain(library: Library, data: bytes, names: Names = NO_NAMES) -> Explanation:
    """The explanation of a sheet; of one that is accepted, what it has. With names, the record is called by its own."""
    found = _explain(library, data)
    return found._replace(name=names.of(found.record, found.index))


def _explain(library: Library, data: bytes) -> Explanation:
    refusal = library.check(data)
    if refusal is None:
        return Explanation(0, 0, words=Words("accepted: " + contents(data), ""))
    try:
        return explanation(data, library.explain(data))
    except MissingCall:
        words = Words("this library cannot say why; docs/SHEET.md has the numbers", "")
        return Explanation(refusal.number, refusal.place, words=words)


def contents(data: bytes) -> str:
    """What the head of an accepted sheet tells."""
    return "version %d, %s, %s" % (
        layout.version_of(data), counted(layout.season_count(data), "season"), counted(layout.row_count(data), "row"))


def call_text(refusal: Refusal) -> str:
    """What a call refuses apart from a sheet, in one line."""
    return "refused %d: %s" % (refusal.number, CALLS.get(refusal.number, "see docs/SHEET.md"))


# ------------------------------------------------------------------ words


def byte_range(at: int, size: int) -> str:
    return "byte %d" % at if size == 1 else "bytes %d to %d" % (at, at + size - 1)


def amount(field: Field, value: int) -> str:
    """A value with its unit; thousands apart where it is whole."""
    number = apart(value) if not field.places else field.shown(value)
    return "%s %s" % (number, field.unit) if field.unit and field.unit != field.name else number


SATURATION = "m_sat"  # as the guidebook calls the field saturation


def _label(field: Field) -> str:
    return SATURATION if field.name == "saturation" else field.name


def _outside(site: Site) -> Words:
    """The plain case: a value beside fixed limits."""
    above = site.value > site.most
    sentence = "%s %s (%s) is %s %s" % (
        _label(site.field), site.amount(site.value), site.where, "above" if above else "below",
        site.amount(site.most if above else site.least))
    return Words(sentence, _range(site))


def _range(site: Site) -> str:
    least, most = site.field.shown(site.least), site.field.shown(site.most)
    if site.field.parts == 1:
        least, most = apart(site.least), apart(site.most)
    return "write at most %s" % most if site.least == 0 else "write %s to %s" % (least, most)


RIGHT_FILE = "is this the right file?"


def looks_like(data: bytes) -> str:
    """What a file that is no sheet seems to be, and what to do; empty where it seems to be nothing else."""
    if data.startswith(b"EVP"):
        return ""
    if not data.strip(b"\0"):
        all_bytes = "all its bytes" if len(data) <= SHEET_BYTES else "its first %s bytes" % apart(len(data))
        return "%s are 0: take the sheet again" % all_bytes
    if data.startswith(b"PK\3\4"):
        return "this looks like a workbook: save its tables as csv, then evp write makes a sheet of them"
    try:
        text = codecs.getincrementaldecoder("utf-8-sig")().decode(data[:200], final=len(data) <= 200)
    except UnicodeDecodeError:
        return ""
    if all(sign.isprintable() or sign.isspace() for sign in text):
        return "this looks like a text: evp write makes a sheet of it"
    return ""


def _short(site: Site) -> Words:
    if not site.data:
        return Words("the file is empty", "take the sheet again")
    return Words("%s, and a sheet has at least 8 for its head" % counted(len(site.data), "byte"),
                 looks_like(site.data) or RIGHT_FILE)


def _letters(site: Site) -> Words:
    found = " ".join("%02x" % byte for byte in site.data[:3])
    return Words("a sheet starts with EVP (45 56 50 hexadecimal), this one with %s" % found,
                 looks_like(site.data) or RIGHT_FILE)


def _version(site: Site) -> Words:
    swapped = site.value in (256, 512, 768, 1024)
    hint = "; the lowest byte comes first, so %d is %02d 00" % (site.value // 256, site.value // 256) if swapped else ""
    return Words("version %d (%s) is none that is read" % (site.value, site.where), "write 1, 2, 3 or 4" + hint)


def _count(name: str) -> Callable[[Site], Words]:
    def words(site: Site) -> Words:
        version = " in version %d" % layout.version_of(site.data) if name == "rows" else ""
        sentence = "%s (%s); a sheet has %d to %s%s" % (
            counted(site.value, name[:-1]), site.where, site.least, apart(site.most), version)
        if site.value < site.least:
            return Words(sentence, "write at least one " + name[:-1])
        more = "; more need version 4, which has a grid" if name == "rows" and layout.version_of(site.data) < 4 else ""
        return Words(sentence, "write at most %s %s%s" % (apart(site.most), name, more))
    return words


def _zero_byte(site: Site) -> Words:
    return Words("byte 7 is %d, and it must be 0 up to version 3" % site.value,
                 "write 0; more than 255 rows need version 4")


def _length(site: Site) -> Words:
    data, asked = site.data, site.least
    size = "more than %s bytes" % apart(SHEET_BYTES) if len(data) > SHEET_BYTES else counted(len(data), "byte")
    off = asked - len(data)
    beyond = "" if len(data) > SHEET_BYTES else ": %s %s" % (
        apart(abs(off)), ("is missing" if off == 1 else "are missing") if off > 0 else "too many")
    return Words("%s, and the head asks for %s%s" % (size, apart(asked), beyond), _length_advice(data),
                 ("head: " + contents(data),))


def _length_advice(data: bytes) -> str:
    records = len(data) - layout.length_of(data) + layout.seasons_start(data)
    if records in (layout.LISTS_END, layout.GRID_END):
        other = "version 1" if records == layout.LISTS_END else "versions 2 to 4"
        return "it is as long as a sheet of %s: look at bytes 3 and 4" % other
    rows, rest = divmod(len(data) - layout.row_place(data, 0), layout.ROW_BYTES)
    has_many = layout.version_of(data) == 4
    if not rest and 0 < rows <= (layout.MANY_ROWS if has_many else layout.MOST_ROWS):
        return "it is as long as a sheet with %s: look at %s, or take the whole file again" % (
            counted(rows, "row"), "bytes 6 and 7" if has_many else "byte 6")
    return "take the whole file again"


def _sum_of_counts(what: str) -> Callable[[Site], Words]:
    def words(site: Site) -> Words:
        said = "all are 0" if site.value == 0 else "they sum to %s" % apart(site.value)
        return Words("%s (%s): %s" % (what, site.where, said), "write counts that sum to 1 to %s" % apart(site.most))
    return words


def _days_so_far(site: Site) -> Words:
    own = layout.season(site.data, site.finding.index)["days"]
    before = site.value - own
    left = site.most - before
    advice = "write at most %d here" % left if left > 0 else (
        "the seasons before have all days of a year: leave this one out")
    return Words("its %s (%s) and the %d of the seasons before are %s, and a year has at most %d" % (
        counted(own, "day"), site.where, before, counted(site.value, "day"), site.most), advice)


def _in_other_unit(site: Site, *units: tuple[str, int]) -> Words:
    """The plain case; where the value would pass if it were in another unit, that too."""
    words = _outside(site)
    for unit, value in units:
        if site.least <= value <= site.most:
            return words._replace(advice="%s; if %s is in %s, it is %s" % (
                words.advice, site.field.shown(site.value), unit, site.amount(value)))
    return words


def _temperature(site: Site) -> Words:
    return _in_other_unit(site, ("°F", round((site.value - 320) * 5 / 9)))


def _lowest_above_highest(site: Site) -> Words:
    return Words("lowest %s (%s) is above highest %s (%s)" % (
        site.amount(site.value), site.where, site.amount(site.most), byte_range(site.finding.at + 2, 2)),
        "write at most %s, or a highest of %s to %s" % tuple(
            map(site.field.shown, (site.most, site.value, FIELDS["highest"].most))))


def _pressure(site: Site) -> Words:
    return _in_other_unit(site, ("psi", round(site.value * 6.89476)), ("hPa", round(site.value / 10)))


def _class(site: Site) -> Words:
    return Words("class %d (%s) is none of the table" % (site.value, site.where),
                 "write 1 to 3 for cars, 4 for light-duty vehicles, 5 to 9 for two-wheelers")


def _technology(site: Site) -> Words:
    number = site.row["class"]
    return Words("technology %d (%s) is not in the table for class %d, %s" % (
        site.value, site.where, number, layout.CLASSES[number][0]),
        "write 0 to %d, conventional to Euro %d" % (site.most, site.most))


def _canister_code(site: Site) -> Words:
    return Words("canister %d (%s) is no code" % (site.value, site.where),
                 "write 0 none, 1 small, 2 medium, 3 large, or 255 by class")


def _fleet(site: Site) -> Words:
    own = site.row["vehicles"]
    left = site.most - (site.value - own)
    return Words("with its %s (%s) the rows so far have %s, and a sheet has at most %s" % (
        counted(own, "vehicle"), site.where, apart(site.value), apart(site.most)),
        "write at most %s here, or fewer in the rows before" % apart(left))


def _tank(site: Site) -> Words:
    words = _outside(site)
    return words._replace(advice=words.advice + ", or 0 for the tank of the class")


def _canister_context(site: Site) -> tuple[str, ...]:
    """Which canister the row has, and why."""
    row = site.row
    why = "by class %d technology %d" % (row["class"], row["technology"]) if row["canister"] == layout.BY_CLASS else (
        "as written (byte %d)" % (site.finding.place + 2))
    return ("canister: %s, %s" % (canister_name(row), why),)


def _load(site: Site) -> Words:
    left_out = "" if site.most else ", or an m_sat of at least %s" % site.field.shown(site.value)
    return Words("load %s (%s) is above m_sat %s (%s)" % (
        site.amount(site.value), site.where, site.amount(site.most), byte_range(site.finding.at + 2, 2)),
        "write at most %s%s" % (site.field.shown(site.most), left_out), _canister_context(site))


def _without_canister(site: Site) -> Words:
    return Words("%s %s (%s) is given, and the row has no canister" % (
        _label(site.field), site.amount(site.value), site.where),
        "write 0, or give the row a canister", _canister_context(site))


def _saturation(limit: int, advice: str = "") -> Callable[[Site], Words]:
    def words(site: Site) -> Words:
        season = layout.season(site.data, site.finding.season)
        beside = "" if limit else " beside a mileage"
        too = ", and no more for the load" if site.row["load"] > site.most else ""
        return Words(
            "m_sat %s (%s) is too large for a %s canister%s in season %d" % (
                site.amount(site.value), site.where, canister_name(site.row), beside, site.finding.season + 1),
            "write at most %s%s" % (site.field.shown(site.most), too or advice),
            (*_canister_context(site), "season %d: highest %s, vp %s; a + b·s·m_sat is above %d" % (
                site.finding.season + 1, site.amount(season["highest"], "highest"), site.amount(season["vp"], "vp"),
                limit)))
    return words


def _spare(site: Site) -> Words:
    return Words("bytes 20 to 23 of the row (%s) are %s, and version %d has zeros there" % (
        site.where, site.data[site.finding.at:site.finding.at + 4].hex(" "), layout.version_of(site.data)),
        "write zeros; a mileage stands there from version 3 on")


def _load_beside_mileage(site: Site) -> Words:
    return Words("load %s (%s) stands beside a mileage of %s (%s)" % (
        site.amount(site.value), site.where, site.amount(site.row["mileage"], "mileage"),
        byte_range(site.finding.place + 20, 4)),
        "write 0 for one of the two", _canister_context(site))


class Reason(NamedTuple):
    """What a reason of a number is about, and its words."""
    record: str
    field: Field
    words: Callable[[Site], Words] = _outside


def _of(record: str, name: str, words: Callable[[Site], Words] = _outside) -> Reason:
    return Reason(record, FIELDS[name], words)


# By number and reason, as the library counts them.
REASONS = {
    (1, 1): Reason("sheet", Field("length", 0, "bytes"), _short),
    (2, 1): Reason("head", Field("letters", 1), _letters),
    (2, 2): Reason("head", Field("letters", 1), _letters),
    (2, 3): Reason("head", Field("letters", 1), _letters),
    (3, 1): Reason("head", Field("version", 2), _version),
    (4, 1): Reason("head", Field("seasons", 1), _count("seasons")),
    (5, 1): Reason("head", Field("rows", 2), _count("rows")),
    (6, 1): Reason("head", Field("zero", 1), _zero_byte),
    (7, 1): Reason("sheet", Field("length", 0, "bytes"), _length),
    (8, 1): Reason("parking", Field("durations", 48), _sum_of_counts("the counts of the 24 durations")),
    (9, 1): Reason("parking", Field("hours", 48), _sum_of_counts("the counts of the 24 end hours")),
    (24, 1): Reason("parking", Field("grid", 1152), _sum_of_counts("the 576 counts of the grid")),
    (10, 1): _of("season", "days"),
    (10, 2): _of("season", "days", _days_so_far),
    (11, 1): _of("season", "lowest", _temperature),
    (11, 2): _of("season", "highest", _temperature),
    (11, 3): _of("season", "lowest", _lowest_above_highest),
    (12, 1): _of("season", "vp", _pressure),
    (13, 1): _of("row", "class", _class),
    (13, 2): _of("row", "technology", _technology),
    (14, 1): _of("row", "canister", _canister_code),
    (15, 1): _of("row", "carburettor"),
    (15, 2): _of("row", "hot"),
    (15, 3): _of("row", "fill"),
    (16, 1): _of("row", "vehicles"),
    (26, 1): _of("row", "vehicles", _fleet),
    (17, 1): _of("row", "tank", _tank),
    (18, 1): _of("row", "trips"),
    (18, 2): _of("row", "minutes"),
    (19, 1): _of("row", "load", _load),
    (19, 2): _of("row", "load", _without_canister),
    (19, 3): _of("row", "saturation", _without_canister),
    (20, 1): _of("row", "saturation", _saturation(3)),
    (21, 1): Reason("row", Field("spare", 4), _spare),
    (25, 1): _of("row", "mileage"),
    (25, 2): _of("row", "mileage", _without_canister),
    (25, 3): _of("row", "load", _load_beside_mileage),
    (25, 4): _of("row", "saturation", _saturation(0, ", or a load in place of the mileage")),
}


def _unit(field: Field) -> str | None:
    """The unit of one part: 0.1 g."""
    if not field.unit:
        return None
    return field.unit if field.parts == 1 else "%s %s" % (decimal(1, field.places), field.unit)


def _record_bytes(data: bytes, finding: Finding, record: str) -> str:
    sizes = {"season": layout.SEASON_BYTES, "row": layout.ROW_BYTES}
    if record in sizes:
        return byte_range(finding.place, sizes[record])
    return {"head": "bytes 0 to 7", "parking": byte_range(8, layout.seasons_start(data) - 8)}.get(record, "")


def explanation(data: bytes, finding: Finding) -> Explanation:
    """The words of a finding on these bytes."""
    record, field, words = REASONS[finding.number, finding.reason]
    shift = SHIFT if field.signed else 0
    value, least, most = finding.value - shift, finding.least - shift, finding.most - shift
    index = finding.index + 1 if record in ("season", "row") else None
    at, size = (finding.at, finding.bytes) if finding.bytes else (None, None)
    return Explanation(
        finding.number, finding.place, finding.reason, record, index, field.name, at, size, value, least, most,
        _unit(field), _record_bytes(data, finding, record), words(Site(data, finding, field, value, least, most)))
