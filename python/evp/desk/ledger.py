"""A ledger that eight participants and a marker share for an afternoon.

Who may do what, and what comes of it, the library's calls for a shared ledger decide and nothing else: here they are
handed who calls, and their answers are kept. A call is played on a copy, put on the disk, and only then is the copy
the ledger: so a reader never sees what is not kept, and a call that could not be kept has not happened.

A ledger starts from the sheet it was opened with and plays every call again that its file has. The answers must be
those that were given, and the digests of sheet and words those that were kept.
"""

import hashlib
import hmac
import struct
import threading
from collections.abc import Callable
from typing import NamedTuple

from evp import layout
from evp.desk.store import Digests, Opening, Person, Store, StoreError, StoredCall, StoreLost
from evp.files import InputError
from evp.library import Library, Number, Refusal, Report, RowRead, SharedLedger
from evp.wording import counted, name_shown

MARKER = 0
PARTICIPANTS = range(1, 9)
KINDS = ("arrive", "depart")
MOST_CALLS = 20_000  # of each of the people, so that nobody fills the disk
SHOWN_CALLS = 20  # the last of one's own, on a page
MOST_DIGITS = 18  # of a number in a call: what SQLite holds
LOST = "the desk failed (%s) and must be started anew"


class Call(NamedTuple):
    """A call and its answer. `own` counts the caller's own calls from 1; before and after are the vehicles of the row,
    None where the row is not theirs; `together` are those of all their rows, where a refusal is for these."""
    own: int
    kind: str
    row: int
    vehicles: int
    number: int
    before: int | None
    after: int | None
    together: int | None = None


class Wanted(NamedTuple):
    """A call as it is asked for; the row counts from 1."""
    kind: str
    row: int
    vehicles: int


class NotTaken(Exception):
    """A call that did not reach the library; why, in words."""


class TooMany(NotTaken):
    """The caller has made as many calls as a ledger has room for."""


class OutOfDate(NotTaken):
    """The page that the call was made on is older than the caller's last call."""


class NoRoom(NotTaken):
    """The call could not be kept."""


class _Waiting:
    """A call that waits for its answer."""

    def __init__(self, who: int, own: int | None, wanted: Wanted):
        self.who, self.own, self.wanted = who, own, wanted
        self.answer: Call | NotTaken | None = None


class _Played:
    """A ledger and what its calls led to, so far."""

    def __init__(self, shared: SharedLedger):
        self.shared = shared
        self.made = dict.fromkeys((MARKER, *PARTICIPANTS), 0)
        self.last: dict[int, tuple[Call, ...]] = dict.fromkeys(self.made, ())

    def play(self, who: int, wanted: Wanted) -> Call:
        """A call on the ledger and its answer; the ledger changes where the library says so."""
        before = self._count(who, wanted.row)
        number = 0
        try:
            (self.shared.arrive if wanted.kind == "arrive" else self.shared.depart)(
                who, wanted.row - 1, wanted.vehicles)
        except Refusal as refusal:
            number = int(refusal.number)
        together = self._together(who) if number == Number.SHARE else None
        return Call(self.made[who] + 1, *wanted, number, before, self._count(who, wanted.row), together)

    def _together(self, who: int) -> int:
        rows = range(1, layout.row_count(self.shared.sheet) + 1)
        return sum(self._count(who, row) or 0 for row in rows)

    def _count(self, who: int, row: int) -> int | None:
        try:
            return self.shared.row(who, row - 1).count
        except Refusal:
            return None

    def note(self, who: int, call: Call):
        self.made[who] = call.own
        self.last[who] = (*self.last[who], call)[-SHOWN_CALLS:]


class Reading:
    """A ledger as it stood at one moment, to one of the people: a call makes a copy, and this one stays as it is."""

    def __init__(self, shared: SharedLedger, who: int):
        self._shared, self._who = shared, who

    def row(self, row: int) -> RowRead:
        """A row, counted from 1; Refusal where it is not theirs to read."""
        return self._shared.row(self._who, row - 1)

    def totals(self) -> Report:
        """The report without its rows; Refusal for all but the marker."""
        return self._shared.totals(self._who)

    @property
    def report(self) -> Report:
        """Rows and totals, for who may read the totals."""
        self.totals()
        return self._shared.report

    @property
    def sheet(self) -> bytes:
        """The sheet, for who may read the totals."""
        self.totals()
        return self._shared.sheet


class CourseLedger:
    """The ledger of a file; several threads may call at once."""

    def __init__(self, library: Library, store: Store, progress: Callable[[int, int], None] | None = None):
        """Plays the calls of the file; InputError where they lead elsewhere than they did. `progress` gets how many
        are played, and of how many."""
        self.store = store
        self.opening = store.opening
        self.people = {person.who: person for person in store.people}
        self._played = _Played(self._opened(library))
        self._replay(store, progress)
        self._queue: list[_Waiting] = []
        self._queue_lock, self._lock = threading.Lock(), threading.Lock()
        self._lost = ""
        self._not_kept = ""  # why the last call could not be kept

    def _opened(self, library: Library) -> SharedLedger:
        try:
            return library.shared_ledger(self.opening.sheet, self.opening.owners)
        except Refusal as refusal:
            raise InputError("%s: this library does not open the ledger's sheet, %s; nothing is served" % (
                name_shown(self.store.path), refusal)) from None

    def _replay(self, store: Store, progress: Callable[[int, int], None] | None):
        played, calls = self._played, store.calls()
        for serial, stored in enumerate(calls, 1):
            if progress is not None and serial % 100 == 0:
                progress(serial, len(calls))
            if stored.kind not in KINDS or stored.row < 1 or stored.vehicles < 0 or stored.who not in played.made:
                raise InputError("%s: call %d is none: the file was changed, and nothing is served%s" % (
                    name_shown(store.path), serial, store.about_journal()))
            call = played.play(stored.who, Wanted(stored.kind, stored.row, stored.vehicles))
            if call.number != stored.number:
                raise InputError("%s: call %d was answered with number %d, and played again with %d; "
                                 "nothing is served%s" % (name_shown(store.path), serial, stored.number, call.number,
                                                          store.about_journal()))
            played.note(stored.who, call)
        _compare(store, digests_of(played.shared))

    # ------------------------------------------------------------------ who is there

    def who(self, secret: str) -> int | None:
        """Whose secret this is. All nine are compared, each in the same time whatever it has in common with them."""
        digest = hash_of(secret)
        found = None
        for person in self.people.values():
            if hmac.compare_digest(person.secret, digest):
                found = person.who
        return found

    def name(self, who: int) -> str:
        return self.people[who].name

    # ------------------------------------------------------------------ what is read

    def read(self, who: int) -> "Reading":
        """The ledger as it stands, to one of the people."""
        return Reading(self._played.shared, who)

    def rows_of(self, who: int) -> list[int]:
        """The rows of a participant, or all for the marker, counted from 1."""
        rows = range(1, layout.row_count(self.opening.sheet) + 1)
        return [row for row in rows if who in (MARKER, self.owner(row))]

    def owner(self, row: int) -> int:
        return self.opening.owners[row - 1]

    def opened(self, row: int) -> dict[str, int]:
        """A row as the ledger was opened with it."""
        return layout.row(self.opening.sheet, row - 1)

    def made(self, who: int) -> int:
        """How many calls someone has made."""
        return self._played.made[who]

    def last_calls(self, who: int) -> tuple[Call, ...]:
        """The last of someone's calls, the last one first."""
        return self._played.last[who][::-1]

    def all_calls(self, who: int) -> list[StoredCall]:
        """Every call, for who may read the totals."""
        self.read(who).totals()
        with self._lock:
            return self.store.calls()

    # ------------------------------------------------------------------ what is called

    def call(self, who: int, wanted: Wanted, own: int | None = None) -> Call:
        """The answer to a call, once it is kept. With `own`, the number that it is to have among the caller's own, a
        call that is sent twice is made once.

        Whoever comes first keeps the calls of all who wait meanwhile, with one commit."""
        waiting = _Waiting(who, own, wanted)
        with self._queue_lock:
            self._queue.append(waiting)
        with self._lock:
            if waiting.answer is None:
                with self._queue_lock:
                    batch, self._queue = self._queue, []
                self._serve_all(batch)
        if isinstance(waiting.answer, NotTaken):
            raise waiting.answer
        return waiting.answer

    def _serve_all(self, batch: list[_Waiting]):
        """Answers all of a batch, whatever happens: after a fault of this program no call is taken any more."""
        try:
            self._serve(batch)
        except Exception:
            self._lost = "a fault of evp itself"
            raise
        finally:
            for waiting in batch:
                waiting.answer = waiting.answer or NoRoom(LOST % self._lost)

    def _serve(self, batch: list[_Waiting]):
        """Answers all of a batch: plays them on a copy, keeps them, and takes the copy."""
        trial = _Played(self._played.shared.copy())
        trial.made = dict(self._played.made)
        new = self._try(batch, trial)
        failure = self._keep(new, trial.shared) if new else ""
        for waiting, call in new:
            waiting.answer = NoRoom(failure) if failure else call
        if not failure:
            self._take(trial.shared, new)
        for waiting in batch:
            if isinstance(waiting.answer, OutOfDate):  # or the same call, sent twice at once
                waiting.answer = self._known(waiting, self._played) or waiting.answer

    def _try(self, batch: list[_Waiting], trial: _Played) -> list[tuple[_Waiting, Call]]:
        """Plays the calls of a batch that are new, and gives them with their answers; the others are answered here."""
        new = []
        for waiting in batch:
            waiting.answer = self._known(waiting, trial)
            if waiting.answer is None:
                call = trial.play(waiting.who, waiting.wanted)
                trial.made[waiting.who] = call.own
                new.append((waiting, call))
        return new

    def _take(self, shared: SharedLedger, new: list[tuple[_Waiting, Call]]):
        """What was kept is the ledger."""
        for waiting, call in new:
            self._played.note(waiting.who, call)
        self._played.shared = shared

    def _known(self, waiting: _Waiting, trial: _Played) -> Call | NotTaken | None:
        """What can be said of a call without the library; None where it is to be played."""
        made = trial.made[waiting.who]
        if self._lost:
            return NoRoom(LOST % self._lost)
        if waiting.own is not None and waiting.own != made + 1:
            found = next((call for call in self._played.last[waiting.who] if call.own == waiting.own), None)
            if found is not None and found[1:4] == waiting.wanted:
                return found
            return OutOfDate("the page was older than your last call; look at the counts and call again")
        if made >= MOST_CALLS:
            return TooMany("you have made %s, and a ledger has no room for more; ask the teacher" % (
                counted(made, "call")))
        return None

    def _keep(self, new: list[tuple[_Waiting, Call]], shared: SharedLedger) -> str:
        """Puts calls into the file; says why not where that fails, and nothing where it does not."""
        stored = [StoredCall(waiting.who, *waiting.wanted, call.number) for waiting, call in new]
        try:
            self.store.append(stored, digests_of(shared))
        except StoreError as error:
            self._not_kept = "%s where the desk runs" % error
            return self._not_kept
        except StoreLost as error:
            self._lost = str(error)
            return LOST % error
        self._not_kept = ""
        return ""

    @property
    def trouble(self) -> str:
        """Why calls cannot be kept, where the last one could not be; empty where all is well."""
        why = LOST % self._lost if self._lost else self._not_kept
        return "calls cannot be kept: %s" % why if why else ""

    def close(self):
        with self._lock:
            self.store.close()


# ------------------------------------------------------------------ digests and hashes


def hash_of(secret: str) -> bytes:
    """What is kept of a secret. It has 128 random bits, so that no salt and no slow hash is needed."""
    return hashlib.sha256(secret.encode("utf-8", "replace")).digest()


def digests_of(shared: SharedLedger) -> Digests:
    words = shared.words
    return Digests(hashlib.sha256(shared.sheet).digest(),
                   hashlib.sha256(struct.pack("<%dQ" % len(words), *words)).digest())


def _compare(store: Store, found: Digests):
    kept, shown = store.digests, name_shown(store.path)
    if found.sheet != kept.sheet:
        raise InputError("%s: the calls played again lead to another sheet than was kept; the file was changed or is "
                         "damaged, and nothing is served%s" % (shown, store.about_journal()))
    if found.words != kept.words:
        raise InputError("%s: the calls played again lead to the same counts and other masses; this library reckons "
                         "other bands than the one that the ledger was kept with, and nothing is served" % shown)


def open_first(library: Library, opening: Opening) -> Digests:
    """The digests of a ledger that has no calls yet; Refusal where the library does not open it."""
    return digests_of(library.shared_ledger(opening.sheet, opening.owners))


def new_person(who: int, name: str, secret: str) -> Person:
    return Person(who, name, hash_of(secret))
