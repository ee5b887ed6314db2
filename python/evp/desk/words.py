"""The answers of a ledger in words. Each says only what its reader may know: their own rows and calls."""

from evp.desk.ledger import Call
from evp.explain import CALLS
from evp.layout import FIELDS
from evp.wording import apart, counted

MOST = FIELDS["vehicles"].most  # of a row, and of a participant


def done(call: Call) -> str:
    """What an accepted call did."""
    verb = "arrived at" if call.kind == "arrive" else "departed from"
    return "%s %s row %s" % (counted(call.vehicles, "vehicle"), verb, apart(call.row))


def why_not(call: Call) -> str:
    """Why a call was refused."""
    row = "row %s" % apart(call.row)
    if call.number == 30:
        return "%s is not yours to change" % row
    if call.before is None:
        return CALLS.get(call.number, "see docs/SHEET.md")
    has = "%s has %s" % (row, counted(call.before, "vehicle"))
    if call.number == 29 and call.kind == "depart":
        return "%s, so %s cannot depart" % (has, apart(call.vehicles))
    if call.number == 29:
        return "%s, and with %s more it would have more than %s" % (has, apart(call.vehicles), apart(MOST))
    if call.number == 31 and call.together is not None:
        return "your rows have %s, and with %s more they would have more than %s" % (
            counted(call.together, "vehicle"), apart(call.vehicles), apart(MOST))
    return CALLS.get(call.number, "see docs/SHEET.md")


def opposite(kind: str) -> str:
    return "depart" if kind == "arrive" else "arrive"
