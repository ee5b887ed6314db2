"""`evp serve`: makes a ledger where one is wanted, says its links once, and serves."""

import secrets
import sys
import time
from argparse import Namespace
from typing import NamedTuple

from evp import layout
from evp.commands import SheetRefused, get_library
from evp.desk.ending import Ending, Stopped, ignore_broken_pipes, log
from evp.desk.ledger import MARKER, MOST_DIGITS, PARTICIPANTS, CourseLedger, new_person, open_first
from evp.desk.memory import share_arenas
from evp.desk.store import Opening, Store, create, files_of
from evp.desk.supervisor import READY, STOPPING, notify
from evp.desk.versions import difference, found_versions
from evp.explain import call_text, explain
from evp.files import InputError, check_target, read_sheet, read_text, write_file
from evp.layout import FIELDS
from evp.library import Library, Number, Refusal
from evp.pages.needs import PACKAGES, require
from evp.tables import read_table
from evp.wording import apart, counted, name_shown, quoted

ALIAS = "desk"
SECRET_BYTES = 16  # 128 bits
MOST_NAME = 40  # signs
MOST_ROWS = 100  # of a participant, as the library has it
EVERYWHERE = ("0.0.0.0", "::", "")
HERE = "127.0.0.1"  # this machine alone
LOOPBACK = (HERE, "::1", "localhost")
PLAIN = """\
This desk can be reached from the network at {address}, by plain HTTP: whoever can listen to that network, as everyone
in an open Wi-Fi, can read links and figures and use them. Serve so in a network of your own, or leave --lan out and
let participants come through ssh -L {port}:127.0.0.1:{port}.
"""


class Dealt(NamedTuple):
    """Who has which row: a byte for each, and the names of participants 1 to 8."""
    owners: bytes
    names: tuple[str, ...]


# ------------------------------------------------------------------ who has which row


def dealt_in_turn(rows: int) -> Dealt:
    """The rows dealt out one by one: row 1 to participant 1, row 9 to participant 1 again."""
    names = tuple("participant %d" % who for who in PARTICIPANTS)
    return Dealt(bytes(1 + row % len(PARTICIPANTS) for row in range(rows)), names)


def read_owners(file: str, rows: int) -> Dealt:
    """The rows as a table deals them out: row,participant, with at most eight names."""
    table = read_table(read_text(file), name_shown(file), ["row", "participant"], ("row", "participant"))
    owners, names = bytearray(rows), []
    for line in table.lines:
        where = "%s: line %d: " % (name_shown(file), line.number)
        row, name = line.cells.get("row", ""), line.cells.get("participant", "")
        if not (row.isascii() and row.isdigit() and len(row) <= MOST_DIGITS and 1 <= int(row) <= rows):
            raise InputError("%srow: %s is none; the sheet has %s" % (where, quoted(row), counted(rows, "row")))
        if owners[int(row) - 1]:
            raise InputError("%srow %s is there twice" % (where, row))
        owners[int(row) - 1] = _number_of(where, name, names)
    missing = [row for row in range(1, rows + 1) if not owners[row - 1]]
    if missing:
        raise InputError("%s: row %d has no participant" % (name_shown(file), missing[0]))
    spare = ["participant %d" % who for who in PARTICIPANTS[len(names):]]
    return Dealt(bytes(owners), (*names, *spare))


def _number_of(where: str, name: str, names: list[str]) -> int:
    """The number of a participant; new ones are counted as they come."""
    if name not in names:
        if not name or len(name) > MOST_NAME or not name.isprintable() or name[0] in "=+-@":
            raise InputError("%sparticipant: a name has 1 to %d signs and does not start with = + - or @, not %s" % (
                where, MOST_NAME, quoted(name)))
        if len(names) == len(PARTICIPANTS):
            raise InputError("%sparticipant: %s would be the ninth, and a ledger has eight" % (where, quoted(name)))
        names.append(name)
    return 1 + names.index(name)


def _too_much(sheet: bytes, dealt: Dealt, place: int) -> str:
    """Why the library does not open a ledger at this row: its owner has too much with it."""
    last = (place - layout.row_place(sheet, 0)) // layout.ROW_BYTES
    owner = dealt.owners[last]
    rows = [row for row in range(last + 1) if dealt.owners[row] == owner]
    vehicles = sum(layout.row(sheet, row)["vehicles"] for row in rows)
    name, most = dealt.names[owner - 1], FIELDS["vehicles"].most
    if len(rows) > MOST_ROWS:
        return "row %d is the %dst of %s, and a participant has at most %d; deal the rows out more evenly" % (
            last + 1, len(rows), name, MOST_ROWS)
    return "with row %d %s has %s vehicles, and a participant has at most %s; give the row to another" % (
        last + 1, name, apart(vehicles), apart(most))


# ------------------------------------------------------------------ a ledger is made


def make(library: Library, given: Namespace) -> dict[int, str]:
    """Makes the file of a ledger; gives the secrets, which are nowhere else."""
    sheet = read_sheet(given.new)
    if library.check(sheet) is not None:
        raise SheetRefused("%s: %s" % (name_shown(given.new), explain(library, sheet).line))
    rows = layout.row_count(sheet)
    dealt = read_owners(given.owners, rows) if given.owners else dealt_in_turn(rows)
    opening = Opening(sheet, dealt.owners, name_shown(given.new))
    try:
        digests = open_first(library, opening)
    except Refusal as refusal:
        why = _too_much(sheet, dealt, refusal.place) if refusal.number == Number.SHARE else call_text(refusal)
        raise SheetRefused("%s: %s" % (name_shown(given.new), why)) from None
    made = {who: secrets.token_urlsafe(SECRET_BYTES) for who in (MARKER, *PARTICIPANTS)}
    names = {MARKER: "marker", **dict(zip(PARTICIPANTS, dealt.names))}
    create(given.ledger, opening, [new_person(who, names[who], made[who]) for who in made], digests)
    return made


def renew(store: Store, name: str) -> dict[int, str]:
    """Another secret for one of the people, by name or number; their old link is none any more."""
    found = [person for person in store.people if name in (person.name, str(person.who))]
    if not found:
        raise InputError("%s is nobody in this ledger; it has %s" % (
            quoted(name), ", ".join(person.name for person in store.people)))
    made = secrets.token_urlsafe(SECRET_BYTES)
    store.renew(found[0].who, new_person(found[0].who, name, made).secret)
    return {found[0].who: made}


# ------------------------------------------------------------------ what is said


def address_of(given: Namespace) -> str:
    if given.lan in EVERYWHERE:
        raise InputError("--lan wants one address of this machine, as 192.168.1.5; hostname -I lists them")
    return given.lan or HERE


def base_of(address: str, port: int) -> str:
    return "http://%s:%d" % ("[%s]" % address if ":" in address else address, port)


def say_links(ledger: CourseLedger, made: dict[int, str], base: str):
    """The links, this once; or where the old ones lead."""
    if not made:
        print("The keys that were given out hold, at %s/ledger/KEY." % base)
        return
    print("\n%s alone." % ("Nine links, shown this once. Each is a key: give it to its owner" if len(made) > 1 else (
        "A new link, shown this once; the old one is none any more. It is a key: give it to its owner")))
    width = max(len(ledger.name(who)) for who in made)
    for who, secret in made.items():
        print("  %s  %s/ledger/%s" % (ledger.name(who).ljust(width), base, secret))
    print()


def say_ledger(ledger: CourseLedger, shown: str):
    calls = sum(map(ledger.made, (MARKER, *PARTICIPANTS)))
    rows, source = layout.row_count(ledger.opening.sheet), name_shown(ledger.opening.source)
    print("%s: %s of %s, %s" % (shown, counted(rows, "row"), source, (
        "%s played again, and all is as it was" % counted(calls, "call") if calls else "no calls yet")))
    if ledger.store.had_journal:
        journal = name_shown(files_of(ledger.store.path)[1])
        print("%s was left by a server that was killed, and what that had begun is undone. If %s is a copy that\n"
              "you put back, stop this server, remove %s and put the copy back again." % (journal, shown, journal))


# ------------------------------------------------------------------ the command


def add_parser(add, subparsers):
    desk = add(subparsers, "serve", run,
               "serves pages to browsers of this machine, and the ledger of a course where one is named",
               "evp serve\nevp serve --ledger course.db --new north.evp --owners owners.csv\n"
               "evp serve --ledger course.db --lan 192.168.1.5\n"
               "evp serve --ledger course.db --export north-now.evp", "force")
    subparsers.choices[ALIAS] = desk  # the command's first name, which the help does not list
    desk.add_argument("file", nargs="?", metavar="LEDGER", help="the same as --ledger LEDGER")
    desk.add_argument("--ledger", metavar="FILE", help="the file of a course's ledger")
    desk.add_argument("--new", metavar="SHEET", help="make the ledger from this sheet, and say its nine links once")
    desk.add_argument("--owners", metavar="FILE",
                      help="csv: row,participant; without it the rows are dealt out in turn")
    desk.add_argument("--renew", metavar="WHO", help="a new link for one of the nine; the old one is none any more")
    desk.add_argument("--export", metavar="SHEET", help="write the sheet as it stands, and serve nothing")
    desk.add_argument("--port", type=int, default=8765, metavar="N", help="8765 where none is given")
    desk.add_argument("--lan", "--host", metavar="ADDRESS",
                      help="serve a network at this address of the machine, by plain HTTP that can be listened to; "
                      "without it this machine alone is served")
    desk.add_argument("--patience", type=int, default=30, metavar="SECONDS",
                      help="how long a request may take to come in, and an answer to be read; 30 where none is "
                      "given")


def ledger_of(given: Namespace) -> str | None:
    """The ledger that is named, with --ledger or alone."""
    if given.file is not None and given.ledger is not None:
        raise InputError("two ledgers are named, %s and %s; a desk has one" % (
            name_shown(given.ledger), name_shown(given.file)))
    return given.ledger if given.file is None else given.file


def check_given(given: Namespace):
    for option, value in (("--new", given.new), ("--renew", given.renew), ("--export", given.export)):
        if value is not None and given.ledger is None:
            raise InputError("%s wants a ledger: evp serve --ledger FILE %s .." % (option, option))
    if given.patience < 1:
        raise InputError("--patience wants at least 1 second")
    if given.owners is not None and given.new is None:
        raise InputError("--owners goes with --new SHEET: rows are dealt out when a ledger is made")


class _Replaying:
    """Says once that calls are played again, where that takes longer than a second."""

    def __init__(self, shown: str):
        self._shown, self._start, self._is_said = shown, time.monotonic(), False

    def __call__(self, done: int, many: int):
        if not self._is_said and time.monotonic() - self._start > 1:
            self._is_said = True
            print("%s: playing %s again; %s after a second" % (
                self._shown, counted(many, "call"), apart(done)), file=sys.stderr, flush=True)


def open_ledger(library: Library, given: Namespace) -> tuple[CourseLedger, dict[int, str]]:
    """The ledger that is named, made first where that is asked for; and the secrets that are new."""
    made = make(library, given) if given.new is not None else {}
    store = Store(given.ledger)
    try:
        if given.renew is not None:
            made = renew(store, given.renew)
        return CourseLedger(library, store, _Replaying(name_shown(given.ledger))), made
    except BaseException:
        store.close()
        raise


def run(given: Namespace) -> int:
    given.ledger = ledger_of(given)
    check_given(given)
    library = get_library()
    if given.export is not None:
        return export(library, given)
    require(*PACKAGES)
    return serve(library, given)


def export(library: Library, given: Namespace) -> int:
    """Writes the sheet as it stands, and serves nothing."""
    sources = [name for name in (*files_of(given.ledger), given.new, given.owners) if name]
    check_target(given.export, given.force, sources)  # before a ledger is made or a link changed
    ledger, _ = open_ledger(library, given)
    try:
        data = ledger.read(MARKER).sheet
    finally:
        ledger.close()
    write_file(given.export, data, given.force, sources)
    if given.export != "-":
        print("%s: %d bytes, %s" % (name_shown(given.export), len(data), explain(library, data).line))
    return 0


def serve(library: Library, given: Namespace) -> int:
    """Serves until a signal ends it; says which one, in the last line."""
    ending = Ending()
    try:
        with ending.caught():
            _serve(library, given, ending)
    except Stopped:  # before anything was served
        pass
    except Exception:
        if ending.fault is not None:
            ending.say(given.ledger is not None)
        raise
    ending.say(given.ledger is not None)
    return ending.status


def _serve(library: Library, given: Namespace, ending: Ending):
    from evp.desk.app import create_app, has_pages
    from evp.desk.security import hosts_of
    from evp.desk.server import listening, server_of
    if given.ledger is None and not has_pages():
        raise InputError("there is nothing to serve: --ledger FILE names a ledger, --new SHEET makes one")
    share_arenas()
    address = address_of(given)
    listener = listening(address, given.port)
    port, ledger = listener.getsockname()[1], None
    try:
        base = base_of(address, port)
        if given.ledger is not None:
            ledger, made = open_ledger(library, given)
            ledger.store.make_ready()
            say_ledger(ledger, name_shown(given.ledger))
            say_links(ledger, made, base)
        hosts = hosts_of(address, port) | hosts_of(listener.getsockname()[0], port)
        server = server_of(create_app(hosts, ledger), listener, given.patience)
        if address not in LOOPBACK:
            print(PLAIN.format(address=address, port=port))
        say_versions()
        print("Serving at %s until Ctrl-C." % base, flush=True)
        ignore_broken_pipes()
        notify(READY)
        with ending.faults():
            server.run()
        notify(STOPPING)
    finally:
        listener.close()
        if ledger is not None:
            ledger.close()


def say_versions():
    """Where the server runs with other versions than it was tested with."""
    said = difference(found_versions())
    if said:
        log("evp: %s" % said)
