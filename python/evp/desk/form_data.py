"""The form of a request: read in one pass, with a limit on its parts, and never with a codec that it names itself.

Werkzeug 2.2 decodes a part with the charset of its Content-Type, and a name with that of `filename*=`: some of Python's
codecs take minutes for a megabyte, and a name that is none ends as a fault of the server. Here either is rejected
before anything is decoded.
"""

import contextlib
import io
import re
from typing import IO
from urllib.parse import parse_qsl

from flask import Request
from werkzeug.datastructures import FileStorage, Headers, MultiDict
from werkzeug.exceptions import BadRequest, HTTPException, RequestEntityTooLarge
from werkzeug.http import parse_options_header
from werkzeug.sansio.multipart import Data, Epilogue, Field, File, MultipartDecoder, NeedData

from evp.pages.turns import READING

CHARSETS = ("utf-8", "utf8", "us-ascii", "ascii")
MOST_PARTS = 1_000  # fields and files of a form
MOST_FIELD = 1_000_000  # bytes of a field that is no file
MOST_PART_HEAD = 4_096  # bytes of the headers of a part
MOST_TYPE = 256  # characters of a Content-Type
MOST_BOUNDARY = 70  # characters, as RFC 2046 has it
SHORT = 8_192  # bytes, which are read without waiting for a turn
QUOTED = re.compile(r'"(?:\\.|[^"\\])*"')
# What a part is: words, quoted or not, and names in UTF-8 or ASCII. It is read in one pass, and so is what matches by
# Werkzeug; for a quotation mark that is never closed that takes a tenth of a second, and a form has a thousand parts.
DISPOSITION = re.compile(
    r'form-data(?:;[ \t]*(?:[A-Za-z]+=(?:"(?:\\.|[^"\\])*"|[^\s"*;]*)|'
    r"[A-Za-z]+\*=(?:utf-8|us-ascii)'[^\s\"*;]*))*;?[ \t]*", re.I)
Parsed = tuple[IO[bytes], MultiDict, MultiDict]


def check_type(value: str) -> None:
    """BadRequest where a Content-Type names another charset than UTF-8 or ASCII, or is too long."""
    if len(value) > MOST_TYPE or "*" in QUOTED.sub("", value):
        raise BadRequest()
    charset = parse_options_header(value)[1].get("charset")
    if charset is not None and charset.lower() not in CHARSETS:
        raise BadRequest()


class Decoder(MultipartDecoder):
    """Werkzeug's decoder of parts, which looks at the headers of a part before it uses them."""

    def _parse_headers(self, data: bytes) -> Headers:
        if len(data) > MOST_PART_HEAD:
            raise BadRequest()
        headers = super()._parse_headers(data)
        check_type(headers.get("content-type", ""))
        if DISPOSITION.fullmatch(headers.get("content-disposition", "")) is None:
            raise BadRequest()
        return headers


class FormParser:
    """Reads the body of a request; HTTPException, most often BadRequest, where it is no form."""

    def parse(self, stream: IO[bytes], mimetype: str, content_length: int | None,
              options: dict[str, str] | None = None) -> Parsed:
        if mimetype not in ("multipart/form-data", "application/x-www-form-urlencoded"):
            return stream, MultiDict(), MultiDict()
        data = stream.read()  # waitress has measured it
        with READING if len(data) > SHORT else contextlib.nullcontext():
            try:
                if mimetype == "multipart/form-data":
                    return io.BytesIO(), *_parts((options or {}).get("boundary") or "", data)
                return io.BytesIO(), _fields(data), MultiDict()
            except HTTPException:
                raise
            except (ValueError, LookupError, AttributeError, TypeError):  # whatever Werkzeug finds it not to be
                raise BadRequest() from None


def _fields(data: bytes) -> MultiDict:
    """The fields of a form in one line, a=1&b=2."""
    if data.count(b"&") >= MOST_PARTS or len(data) > MOST_FIELD:
        raise RequestEntityTooLarge()
    return MultiDict(parse_qsl(data.decode("utf-8", "replace"), keep_blank_values=True, errors="replace"))


def _parts(boundary: str, data: bytes) -> tuple[MultiDict, MultiDict]:
    """The fields and the files of a form in parts."""
    if not 0 < len(boundary) <= MOST_BOUNDARY:
        raise BadRequest()
    decoder = Decoder(boundary.encode("ascii"), max_parts=MOST_PARTS)
    decoder.receive_data(data)
    decoder.receive_data(None)
    fields, files = [], []
    part, content = None, io.BytesIO()
    event = decoder.next_event()
    while not isinstance(event, (Epilogue, NeedData)):
        if isinstance(event, (Field, File)):
            part, content = event, io.BytesIO()
        elif isinstance(event, Data):
            content.write(event.data)
            if not event.more_data and isinstance(part, File):
                content.seek(0)
                files.append((part.name, FileStorage(content, part.filename, part.name, headers=part.headers)))
            elif not event.more_data:
                fields.append((part.name, _text(content.getvalue())))
        event = decoder.next_event()
    return MultiDict(fields), MultiDict(files)


def _text(value: bytes) -> str:
    if len(value) > MOST_FIELD:
        raise RequestEntityTooLarge()
    return value.decode("utf-8", "replace")


class FormRequest(Request):
    """A request whose form is read by FormParser."""

    def make_form_data_parser(self) -> FormParser:
        try:
            check_type(self.headers.get("Content-Type", ""))
        except LookupError:
            raise BadRequest() from None
        return FormParser()
