"""The ledger's pages. The last part of a link is a secret, and the secret alone says who calls."""

from collections.abc import Callable
from functools import wraps

from flask import Blueprint, Response, abort, redirect, request

from evp.desk.ledger import (
    KINDS, MARKER, MOST_DIGITS, PARTICIPANTS, CourseLedger, NoRoom, NotTaken, OutOfDate, Reading, TooMany, Wanted)
from evp.desk.render import message, render
from evp.explain import CALLS
from evp.figures import GROUP_NAMES, groups
from evp.library import MECHANISMS, Band, Refusal
from evp.show import report_csv
from evp.tables import table_text
from evp.wording import quoted

MOST_FORM = 4_096  # bytes of a call
STATUS = {NoRoom: 507, OutOfDate: 409, TooMany: 429}
EVERY = 10  # seconds, after which the marker's page loads anew where that is asked for
View = Callable[[CourseLedger, int, str], Response]


def blueprint(ledger: CourseLedger) -> Blueprint:
    """The pages of a ledger."""
    pages = Blueprint("ledger", __name__, url_prefix="/ledger")
    for rule, method, view in (
            ("", "GET", show_ledger), ("", "POST", make_call), ("/rows.csv", "GET", save_rows),
            ("/sheet.evp", "GET", save_sheet), ("/report.csv", "GET", save_report), ("/calls.csv", "GET", save_calls)):
        pages.add_url_rule("/<secret>" + rule, view.__name__, for_holders(ledger, view), methods=[method])
    return pages


def for_holders(ledger: CourseLedger, view: View) -> Callable[[str], Response]:
    """A page for whoever has a secret; what is no secret is turned away here, and what the library refuses."""
    @wraps(view)
    def answered(secret: str) -> Response:
        who = ledger.who(secret)
        if who is None:
            abort(404)
        try:
            return view(ledger, who, "/ledger/" + secret)
        except Refusal as refusal:
            return message(403, "Not yours to read", "Refused %d: %s." % (refusal.number, CALLS[refusal.number]))
    return answered


# ------------------------------------------------------------------ the two pages


def show_ledger(ledger: CourseLedger, who: int, link: str, problem: str = "", status: int = 200) -> Response:
    made = _marker if who == MARKER else _participant
    answer = Response(made(ledger, who, link, problem), status)
    if _reloads(who):
        answer.headers["Refresh"] = str(EVERY)
    return answer


def _reloads(who: int) -> bool:
    return who == MARKER and request.args.get("every") == str(EVERY)


def _participant(ledger: CourseLedger, who: int, link: str, problem: str) -> str:
    reading = ledger.read(who)
    return render(
        "participant.html", me=ledger.name(who), link=link, problem=problem, calls=ledger.last_calls(who),
        so_far=ledger.made(who), rows=[_row(ledger, reading, row) for row in ledger.rows_of(who)])


def _row(ledger: CourseLedger, reading: Reading, row: int) -> dict:
    """A row as both pages show it."""
    found, opened = reading.row(row), ledger.opened(row)
    return {"number": row, "opened": opened, "count": found.count, "masses": found.masses,
            "change": found.count - opened["vehicles"]}


def _marker(ledger: CourseLedger, who: int, link: str, problem: str) -> str:
    reading = ledger.read(who)
    totals = reading.totals()
    rows = {row: _row(ledger, reading, row) for row in ledger.rows_of(who)}
    owners = [(ledger.name(owner), [rows[row] for row in ledger.rows_of(owner)]) for owner in PARTICIPANTS]
    return render(
        "marker.html", link=link, problem=problem, every=EVERY if _reloads(who) else 0, EVERY=EVERY, query=_query,
        bands=request.args.get("bands") == "mg", total=totals.total,
        groups=[(GROUP_NAMES[name], masses) for name, masses in groups(totals)],
        so_far=sum(map(ledger.made, PARTICIPANTS)), owners=[(name, theirs) for name, theirs in owners if theirs],
        vehicles=sum(row["count"] for row in rows.values()),
        opened=sum(row["opened"]["vehicles"] for row in rows.values()),
        most=max(1, *(abs(row["change"]) for row in rows.values())))


def _query(every: int, bands: bool) -> str:
    """How the marker's page is asked for: loaded anew every so many seconds, with the bands of rows."""
    words = (["every=%d" % every] if every else []) + (["bands=mg"] if bands else [])
    return "?" + "&".join(words) if words else ""


# ------------------------------------------------------------------ a call


def make_call(ledger: CourseLedger, who: int, link: str) -> Response:
    """A call, and back to the page, which has its answer: to load that page again makes no call."""
    if (request.content_length or 0) > MOST_FORM:
        abort(413)
    try:
        wanted, own = _wanted()
        ledger.call(who, wanted, own)
    except NotTaken as error:
        return show_ledger(ledger, who, link, str(error), STATUS.get(type(error), 400))
    return redirect(link, 303)


def _wanted() -> tuple[Wanted, int | None]:
    kind = request.form.get("call", "")
    if kind not in KINDS:
        raise NotTaken("a call is arrive or depart, not %s" % quoted(kind))
    row, vehicles = _whole("row", "the number of a row"), _whole("vehicles", "how many vehicles")
    if not row:
        raise NotTaken("rows count from 1")
    return Wanted(kind, row, vehicles), _whole("own", "the number of a call") if "own" in request.form else None


def _whole(field: str, what: str) -> int:
    """A field of digits."""
    word = request.form.get(field, "").strip()
    if not (word.isascii() and word.isdigit() and len(word) <= MOST_DIGITS):
        raise NotTaken("%s is wanted as a whole number, as 250, not %s" % (what, quoted(word)))
    return int(word)


# ------------------------------------------------------------------ files


def _file(content: bytes | str, name: str, kind: str) -> Response:
    answer = Response(content, mimetype=kind)
    answer.headers["Content-Disposition"] = "attachment; filename=%s" % name
    return answer


def save_sheet(ledger: CourseLedger, who: int, link: str) -> Response:
    return _file(ledger.read(who).sheet, "course.evp", "application/octet-stream")


def save_report(ledger: CourseLedger, who: int, link: str) -> Response:
    return _file(report_csv(ledger.read(who).report), "report.csv", "text/csv")


def save_calls(ledger: CourseLedger, who: int, link: str) -> Response:
    calls = ledger.all_calls(who)
    lines = ((call.who, ledger.name(call.who), call.kind, call.row, call.vehicles, call.number) for call in calls)
    return _file(table_text(("who", "name", "call", "row", "vehicles", "number"), lines), "calls.csv", "text/csv")


def save_rows(ledger: CourseLedger, who: int, link: str) -> Response:
    reading = ledger.read(who)
    header = ("row", "vehicles", *("%s_%s_mg" % (name, end) for name in MECHANISMS for end in Band._fields))
    rows = ((row, reading.row(row)) for row in ledger.rows_of(who))
    lines = ((row, found.count, *(word for band in found.masses for word in band)) for row, found in rows)
    return _file(table_text(header, lines), "rows.csv", "text/csv")
