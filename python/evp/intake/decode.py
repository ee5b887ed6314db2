"""The text of a file in whatever encoding it was saved, or what it is where it is no text."""

import codecs
import re
from typing import NamedTuple

from evp.intake.numbers import NotRead

MOST_TEXT = 16_000_000  # bytes of a table; a class of thousands has no more
KINDS = (
    (b"\xd0\xcf\x11\xe0\xa1\xb1\x1a\xe1", "an old Excel workbook (.xls), or one with a password; save it as .xlsx "
     "without a password"),
    (b"%PDF", "a PDF; save the table itself as csv or xlsx"), (b"\x89PNG", "a picture; save the table itself"),
    (b"\xff\xd8\xff", "a picture; save the table itself"), (b"GIF8", "a picture; save the table itself"),
    (b"{\\rtf", "a text document (RTF); save its table as csv"),
    (b"\x1f\x8b", "a gzip archive; unpack it, or make a zip"),
    (b"7z\xbc\xaf\x27\x1c", "a 7z archive; make a zip of it"), (b"Rar!", "a RAR archive; make a zip of it"),
    (b"EVP", "a sheet, and a table of filed masses is wanted"), (b"SQLite format 3", "a database"),
    (b"\x7fELF", "a program"), (b"MZ", "a program"),
)
MARKS = ((codecs.BOM_UTF32_LE, "utf-32"), (codecs.BOM_UTF32_BE, "utf-32"), (codecs.BOM_UTF16_LE, "utf-16"),
         (codecs.BOM_UTF16_BE, "utf-16"), (codecs.BOM_UTF8, "utf-8-sig"))


class Text(NamedTuple):
    """A text, and its encoding where that is not UTF-8."""
    text: str
    encoding: str = ""


def decode(data: bytes) -> Text:
    """The text of the bytes of a file; NotRead where they are none."""
    if not data.strip(b"\0 \r\n\t"):
        raise NotRead("the file is empty")
    for start, kind in KINDS:
        if data.startswith(start):
            raise NotRead("this is %s" % kind)
    if len(data) > MOST_TEXT:
        raise NotRead("more than %d MB; no table of filed masses is so long" % (MOST_TEXT // 1_000_000))
    found = _decoded(data)
    text = found.text.lstrip("\ufeff")
    if re.match(r"\s*(?:<!doctype|<html|<\?xml|<table)", text[:200], re.IGNORECASE):
        raise NotRead("this is a web page or XML, maybe under the name of a workbook; save it as xlsx or csv")
    if "\0" in text:
        raise NotRead("this is no text: it has zero bytes")
    return found._replace(text=text)


def _decoded(data: bytes) -> Text:
    for mark, encoding in MARKS:
        if data.startswith(mark):
            return Text(data.decode(encoding, "replace"), "" if encoding == "utf-8-sig" else encoding.upper())
    half = _utf16(data[:200])
    if half:
        return Text(data.decode(half, "replace"), half.upper())
    try:
        return Text(data.decode("utf-8"))
    except UnicodeDecodeError:
        pass
    if b"\r" in data and b"\n" not in data:
        return Text(data.decode("mac_roman"), "Macintosh (Mac OS Roman)")
    try:
        return Text(data.decode("cp1252"), "Windows-1252")
    except UnicodeDecodeError:
        return Text(data.decode("cp850"), "MS-DOS (code page 850)")


def _utf16(data: bytes) -> str:
    """UTF-16 without a mark, told by its zero bytes: every second one of plain letters."""
    even, odd = data[0::2], data[1::2]
    if len(data) < 4 or b"\0" not in data:
        return ""
    zeros = even.count(0) / len(even), odd.count(0) / max(len(odd), 1)
    if zeros[1] > 0.7 and zeros[0] < 0.1:
        return "utf-16-le"
    return "utf-16-be" if zeros[0] > 0.7 and zeros[1] < 0.1 else ""
