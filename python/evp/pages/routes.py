"""The pages as a server gives them: a page asks for files, makes what they show, and leads to its address, where it is
kept for a time (kept.py): so Back and reloading work. A page that leads to another page of the same sheet sends the
sheet with it."""

import base64
import binascii
import json
import re
from collections.abc import Callable
from functools import cache, wraps
from pathlib import PurePosixPath

from flask import Blueprint, Response, abort, jsonify, redirect, request

from evp import marking
from evp.cells import travel_of
from evp.commands import get_library, marked_class, pool_refusal
from evp.files import InputError, text_of
from evp.intake import ClassFiles, Taken, filed_of, read_class_of
from evp.layout import row_count, season_count
from evp.library import SHEET_BYTES, Refusal
from evp.pages import forms
from evp.pages.asks import ASKS, examples, page_ask, page_home
from evp.pages.classes import page_class
from evp.pages.days import page_day
from evp.pages.fuels import page_fuels
from evp.pages.kept import GONE, RESULTS
from evp.pages.parkings import page_parking
from evp.pages.render import policy
from evp.pages.sheets import page_sheet
from evp.pages.splits import page_cells, page_pool, page_species
from evp.pages.turns import CLASSES, FORMS, PAGES, Turns
from evp.sheet import TextError
from evp.sheet.books import book_bytes, is_book
from evp.sheet.names import END as names_end
from evp.sheet.names import NO_NAMES, Names, names_of, names_text, pooled_names, shared_names
from evp.tables import table_text
from evp.wording import counted, name_shown

blueprint = Blueprint("pages", __name__)

MOST_BODY = 1_000_000  # of a request with a sheet or two and a table, or with a form of 1,000 rows
MOST_CLASS = 4_000_000  # of one with the sheets of a class
MOST_SHEETS = 200
MOST_FILED = 50_000  # lines of filed masses: what is made of each takes some hundred times its bytes
NAMES = re.compile(r"[^A-Za-z0-9._-]+")
KEY = "kept"  # of an address: which result


# ------------------------------------------------------------------ what comes and goes


@blueprint.before_request
def _limit():
    """Turns a long request away before it is read."""
    if request.method == "POST":
        most = MOST_CLASS if request.path in ("/class", "/open") else MOST_BODY
        if request.content_length is None and "Transfer-Encoding" in request.headers:
            abort(411)
        if (request.content_length or 0) > most:
            abort(413)


@blueprint.after_request
def _headers(answer: Response) -> Response:
    answer.headers["Content-Security-Policy"] = policy() + "; frame-ancestors 'none'"
    answer.headers["Cache-Control"] = "no-store"
    answer.headers["X-Content-Type-Options"] = "nosniff"
    answer.headers["Referrer-Policy"] = "no-referrer"
    return answer


class Given(dict):
    """The files of a request by the names of their fields, each a list of (name, bytes); and the tables of names that
    came with them, by the names of their sheets without .evp."""

    def __init__(self):
        super().__init__()
        self.names: dict[str, str] = {}

    def one(self, field: str) -> tuple[str, bytes]:
        if not self.get(field):
            raise InputError("choose a file first")
        return self[field][0]


def _name(word: str) -> str:
    """The last part of a file's name, for a page alone: no path is made of it."""
    return name_shown(PurePosixPath(word.replace("\\", "/")).name or "sheet.evp")


def _given() -> Given:
    """What was uploaded, sent along by a page, or asked for as an example."""
    found = Given()
    for field, file in request.files.items(multi=True):
        if not file.filename:
            continue
        name, data = _name(file.filename), file.read(MOST_CLASS)
        if name.lower().endswith(names_end):
            found.names[name[:-len(names_end)]] = text_of(data, name)
        else:
            found.setdefault(field, []).append((name, data))
    if "sheet64" in request.form:
        try:
            data = base64.b64decode(request.form["sheet64"], validate=True)
        except (binascii.Error, ValueError):
            raise InputError("the sheet did not come whole") from None
        name = _name(request.form.get("name", ""))
        found["files"] = [(name, data[:SHEET_BYTES + 1])]
        if request.form.get("names"):
            found.names[_stem(name)] = request.form["names"]
    example = request.form.get("example")
    if example:
        found.update(examples().get(example, dict)())
    return found


def _stem(name: str) -> str:
    return name[:-4] if name.lower().endswith(".evp") else name


def _pack(name: str, data: bytes, filed: str = "", names: Names = NO_NAMES) -> dict[str, str]:
    """What a page sends along to another page of the same sheet."""
    packed = {"name": name, "sheet64": base64.b64encode(data).decode()}
    packed |= {"names": names_text(names)} if names.any() else {}
    return {**packed, "filed": filed} if filed else packed


def _sheet(given: dict, field: str = "files") -> tuple[str, bytes]:
    """The first sheet among the files, of a long one no more than tells that it is too long."""
    return _named_sheet(given, field)[:2]


def _named_sheet(given: dict, field: str = "files") -> tuple[str, bytes, Names]:
    """The same with the names of its rows and seasons; of a workbook the sheet that it makes."""
    sheets = [file for file in given.get(field, ()) if not file[0].lower().endswith(".csv")]
    if not sheets:
        raise InputError("choose a sheet first, a file whose name ends with .evp, or a workbook")
    name, data = sheets[0]
    if is_book(name):
        made, names = forms.sheet_of(data, name)
        return str(PurePosixPath(name).with_suffix(".evp")), made, names
    data = data[:SHEET_BYTES + 1] if data[:3] == b"EVP" else data
    table = getattr(given, "names", {}).get(_stem(name), "")
    names = names_of(table, _stem(name) + names_end, data) if table else NO_NAMES
    return name, data, names


def _number(name: str, many: int) -> int | None:
    """A season or row that was asked for, counted from 0."""
    word = request.form.get(name, "")
    return int(word) - 1 if re.fullmatch("[1-9][0-9]{0,3}", word) and int(word) <= many else None


def page(what: str, turns: Turns = PAGES) -> Callable:
    """A page that asks for files where it is fetched and shows them where they are sent."""
    def route(show: Callable[[Given], str]) -> Callable[[Given], str]:
        @wraps(show)
        def answer():
            if request.method == "GET":
                return kept(what) if KEY in request.args else _empty(what)
            try:
                given = _given()
                with turns:
                    return lead_to(what, show(given))
            except InputError as error:
                return page_ask(what, str(error), error.more), 400
        blueprint.add_url_rule("/" + what, view_func=answer, methods=["GET", "POST"])
        return show
    return route


def lead_to(what: str, html: str) -> Response:
    """Keeps a page and leads to its address."""
    return redirect("/%s?%s=%s" % (what, KEY, RESULTS.put(what, html)), 303)


def kept(what: str):
    """A page at its address, or that it is gone."""
    found = RESULTS.get(what, request.args.get(KEY, ""))
    if found is not None:
        return found
    return (forms.page_form(message=GONE) if what == "form" else page_ask(what, GONE)), 410


def accepted(show: Callable[[str, bytes, Names], str]) -> Callable[[Given], str]:
    """Of a refused sheet the page that says why."""
    @wraps(show)
    def answer(given: Given) -> str:
        name, data, names = _named_sheet(given)
        if get_library().check(data):
            return _page_refused(name, data, names)
        return show(name, data, names)
    return answer


def _page_refused(name: str, data: bytes, names: Names) -> str:
    return page_sheet(get_library(), name, data, served=True, packed=_pack(name, data, names=names), names=names)


# ------------------------------------------------------------------ the pages


@cache
def _empty(what: str) -> str:
    """A page that asks for files, or an empty form. It is always the same, and the form takes 24 ms to make."""
    return {"home": page_home, "form": forms.page_form}.get(what, lambda: page_ask(what))()


def prepare():
    """Makes the pages that are always the same, so that no crowd of first requests makes each of them at once."""
    for what in ("home", "form", *ASKS):
        _empty(what)


@blueprint.get("/")
def home():
    return _empty("home")


@blueprint.post("/open")
def open_files():
    """What was dropped on the first page: a class where there are several sheets, an archive or a workbook, else a
    sheet."""
    try:
        given = _given()
        files = [file for found in given.values() for file in found]
        sheets = [name for name, _ in files if not name.lower().endswith(".csv")]
        many = len(sheets) > 1 or any(name.lower().endswith(".zip") for name in sheets)
        what, show, turns = ("class", show_class, CLASSES) if many else ("sheet", show_sheet, PAGES)
        with turns:
            return lead_to(what, show(given))
    except InputError as error:
        return page_home(str(error), error.more), 400


@page("class", CLASSES)
def show_class(given: Given) -> str:
    files = [file for found in given.values() for file in found]
    library, found = get_library(), _class_of(files)
    hints = "hints" in request.form
    result = marked_class(library, found, hints, lambda what: lambda done, many: None)
    marks = result.marks
    filed_for = _filed_for(found.taken)
    packed = {name: _pack(name, sheet.data, filed_for.get(name, "")) for name, sheet in found.sheets.items()}
    return page_class(found.sheets, found.taken.filings, marks, True, packed=packed, hints=hints,
                      marks_csv=marking.marks_csv(marks, found.taken.semicolon), taken=found.taken,
                      remarks=result.remarks)


def _class_of(files: list[tuple[str, bytes]]) -> ClassFiles:
    """The class that was sent; InputError where it has no sheet, no table, or more than fits a page."""
    names = [name for name, _ in files]
    twice = [name for name in names if names.count(name) > 1]
    if twice:
        raise InputError("%s is there twice" % twice[0])
    found = read_class_of(get_library(), files, MOST_FILED)
    if not found.sheets or not found.taken.filings:
        raise InputError("choose the sheets and the tables of filed masses together: files whose names end with .evp, "
                         "and csv, xlsx or ods files, or a zip of them")
    if len(found.sheets) > MOST_SHEETS:
        raise InputError("%s at once; %d is the most here, and evp mark takes any number" % (
            counted(len(found.sheets), "sheet"), MOST_SHEETS))
    if len(found.taken.filings) > MOST_FILED:
        raise InputError("%s at once; evp mark takes any number" % counted(len(found.taken.filings), "figure"))
    return found


def _filed_for(taken: Taken) -> dict[str, str]:
    """The figures of each sheet, as a table of their own."""
    lines: dict[str, list] = {}
    for filing in taken.filings:
        if filing.figure.row:
            lines.setdefault(filing.sheet, []).append((filing.sheet, *filing.figure, filing.mass, filing.unit))
    return {name: table_text(marking.COLUMNS, found, taken.semicolon) for name, found in lines.items()}


@page("sheet")
def show_sheet(given: Given) -> str:
    sheets = [name for name, _ in given.get("files", ()) if not name.lower().endswith(".csv")]
    if len(sheets) > 1:
        raise InputError("%s, and one is shown here; Class takes several together with filed.csv" % (
            counted(len(sheets), "sheet")))
    name, data, names = _named_sheet(given)
    tables = [file for file in given.get("files", ()) if file[0].lower().endswith(".csv")]
    text: str | bytes = tables[0][1] if tables else request.form.get("filed", "")
    if not text:
        return page_sheet(get_library(), name, data, None, True, _pack(name, data, names=names), names)
    taken = filed_of(text, tables[0][0] if tables else "the filed masses", MOST_FILED, [name])
    filings = [filing for filing in taken.filings if filing.sheet == name]
    packed = _pack(name, data, _filed_for(taken).get(name, ""), names)
    return page_sheet(get_library(), name, data, filings, True, packed, names)


@blueprint.post("/sheet/save")
def save_sheet():
    try:
        with FORMS:
            name, data = _sheet(_given())
    except InputError as error:
        return page_ask("sheet", str(error)), 400
    return _file(name, "evp", data)


@page("day")
@accepted
def show_day(name: str, data: bytes, names: Names) -> str:
    return page_day(get_library(), name, data, served=True, packed=_pack(name, data, names=names), names=names)


@page("parking")
@accepted
def show_parking(name: str, data: bytes, names: Names) -> str:
    season, row = _number("season", season_count(data)), _number("row", row_count(data))
    return page_parking(get_library(), name, data, season, row or 0, True, _pack(name, data, names=names), names)


@page("species")
@accepted
def show_species(name: str, data: bytes, names: Names) -> str:
    return page_species(get_library(), name, data, True, _pack(name, data, names=names))


def _two(given: Given) -> tuple[tuple[str, str], tuple[bytes, bytes], tuple[Names, Names]]:
    (name_a, a, names_a), (name_b, b, names_b) = (_named_sheet(given, field) for field in ("a", "b"))
    return (name_a, name_b), (a, b), (names_a, names_b)


@page("fuels")
def show_fuels(given: Given) -> str:
    names, sheets, beside = _two(given)
    for name, data, its_names in zip(names, sheets, beside):
        if get_library().check(data):
            return _page_refused(name, data, its_names)
    return page_fuels(get_library(), names, sheets, True, shared_names(*beside))


@page("cells")
def show_cells(given: Given) -> str:
    library, (name, data, names), (table, travel) = get_library(), _named_sheet(given), given.one("travel")
    if library.check(data):
        return _page_refused(name, data, names)
    return page_cells(library, name, data, travel_of(text_of(travel, table), table, row_count(data)), True,
                      _pack(name, data, names=names), names)


@page("pool")
def show_pool(given: Given) -> str:
    library, (names, sheets, beside) = get_library(), _two(given)
    try:
        pooled = library.pool(*sheets)
    except Refusal as refusal:
        raise InputError(pool_refusal(library, refusal, names, sheets)) from None
    named = pooled_names(*beside, row_count(sheets[0]))
    return page_pool(library, names, sheets, pooled, True, _pack("pooled.evp", pooled, names=named), named)


# ------------------------------------------------------------------ the form


@blueprint.route("/form", methods=["GET", "POST"])
def show_form():
    if request.method == "GET":
        return kept("form") if KEY in request.args else _empty("form")
    with FORMS:
        try:
            name, data, names = _named_sheet(_given())
            return lead_to("form", forms.page_form(forms.form_from(data, name, names), _stem(name)))
        except InputError as error:
            return forms.page_form(message=str(error)), 400


def _form(word: str | None) -> forms.Form:
    try:
        return forms.form_of(json.loads(word or ""))
    except (ValueError, RecursionError):
        raise InputError("this is no form") from None


@blueprint.post("/form/check")
def check_form():
    """The explanation of a form, with the number that was sent along, so that a page knows the latest."""
    try:
        with FORMS:
            found = forms.check_form(get_library(), _form(request.get_data(as_text=True)))
    except InputError as error:
        return jsonify({"state": "unread", "line": str(error), "faults": [], "doubts": []}), 400
    serial = request.args.get("serial", "0")
    return jsonify({**found, "serial": int(serial) if re.fullmatch("[0-9]{1,9}", serial) else 0})


@blueprint.post("/form/doubts")
def doubt_form():
    """What else may not be meant, and what it does to the mass. This takes some reports, so that it is asked for apart,
    where nothing else is."""
    try:
        with FORMS:
            return jsonify({"doubts": forms.effects_of(get_library(), _form(request.get_data(as_text=True)))})
    except InputError:
        return jsonify({"doubts": []}), 400


@blueprint.post("/form/open")
def open_form():
    """The page of the sheet that a form makes."""
    try:
        with PAGES:
            made, name = _made(), _plain(request.form.get("name", ""), "evp") + ".evp"
            return lead_to("sheet", page_sheet(get_library(), name, made.data, None, True,
                                               _pack(name, made.data, names=made.names), made.names))
    except InputError as error:
        return forms.page_form(message=str(error)), 400


@blueprint.post("/form/read")
def read_form():
    """The form of a sheet that was dropped, or what its tables give of one."""
    try:
        with FORMS:
            return _read_form(_given())
    except InputError as error:
        return jsonify({"message": str(error)}), 400


def _read_form(given: Given) -> Response:
    tables = {name: data for name, data in given.get("files", []) if name.lower().endswith(".csv")}
    if tables:
        return jsonify({"form": forms.form_from_tables(tables)})
    name, data, names = _named_sheet(given)
    return jsonify({"form": forms.form_from(data, name, names), "name": _stem(name)})


@blueprint.post("/form/save")
def save_form():
    """The sheet, its tables or its workbook as a file."""
    name, what = request.form.get("name", ""), request.form.get("what")
    with FORMS:
        try:
            made = _made()
            if what == "xlsx":
                return _file(name, "xlsx", book_bytes(made.data, made.names))
            if what == "csv":
                return _file(name + "-csv", "zip", forms.tables_of(made.data, made.names))
        except (InputError, TextError) as error:
            return forms.page_form(message=str(error)), 400
    return _file(name, "evp", made.data)


def _made() -> forms.Made:
    """What the form that was sent makes; InputError where it makes no sheet."""
    made = forms.made_of(_form(request.form.get("form")))
    if made.data is None:
        raise InputError("nothing saved: %s cannot be read" % counted(len(made.faults), "field"))
    return made


def _plain(name: str, suffix: str) -> str:
    return NAMES.sub("-", name.removesuffix("." + suffix)).strip("-.")[:60] or "sheet"


def _file(name: str, suffix: str, data: bytes) -> Response:
    """A file to save, under a plain name."""
    answer = Response(data, mimetype="application/octet-stream")
    answer.headers["Content-Disposition"] = 'attachment; filename="%s.%s"' % (_plain(name, suffix), suffix)
    return answer
