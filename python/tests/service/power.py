"""Power cuts: the states in which a disk may be after one, each opened as a ledger. Every answered call must be there.

    /usr/bin/python3 python/tests/service/power.py --calls 300 --states 5000

A process with a ledger answers calls while recorder.c records what it writes, truncates and syncs. A power cut may come
behind any of these. What was synced before is on the disk; of what was not, any part may be: nothing, all, what came
first, some writes and not others, and of a write some sectors of 512 bytes. What a file grew by and was not written is
zeros or what was on the disk before.
"""

import argparse
import os
import random
import shutil
import struct
import subprocess
import sys
import tempfile
import threading
from collections import Counter
from collections.abc import Iterator
from pathlib import Path
from typing import NamedTuple

if __name__ == "__main__":
    sys.path.insert(0, str(Path(__file__).resolve().parents[1]))

from support import LIBRARY, SAMPLES, run  # noqa: E402
from test_desk_load import Machine, random_call  # noqa: E402

from evp.desk.ledger import CourseLedger, Wanted  # noqa: E402
from evp.desk.store import Store, StoredCall  # noqa: E402

WRITE, TRUNCATE, SYNC, REMOVE = range(1, 5)
HEAD = struct.Struct("<4Q")
SECTOR = 512
LEDGER, ANSWERED, FOLDER = "course.db", "answered", ""
WAYS = ("none", "all", "first", "some", "sectors")  # what is on the disk of what was not synced
COMPILER = shutil.which("gcc") or shutil.which("cc")
NO_COMPILER = "there is no C compiler to make recorder.so with"


class Event(NamedTuple):
    """What a process did to a file of its folder; the folder itself has no name."""
    kind: int
    offset: int
    name: str
    data: bytes


class Recording(NamedTuple):
    """The files before, what happened, and the calls that the ledger had in the end."""
    before: dict[str, bytes]
    events: list[Event]
    after: dict[str, bytes]
    calls: list[StoredCall]

    def answered(self, cut: int) -> Counter[int]:
        """How many calls of each of the people were answered before a cut."""
        lines = b"".join(event.data for event in self.events[:cut] if event.name == ANSWERED)
        return Counter(map(int, lines.split()))


# ------------------------------------------------------------------ recording


def make_recorder(folder: Path) -> Path:
    """The recorder as a library to preload."""
    made = folder / "recorder.so"
    source = Path(__file__).with_name("recorder.c")
    subprocess.run([COMPILER or "cc", "-shared", "-fPIC", "-O1", "-o", made, source, "-ldl"], check=True)
    return made


def record(folder: Path, calls: int, unsafe: bool = False) -> Recording:
    """Makes a ledger, and has a process answer calls that are recorded. `unsafe` is without any sync, to see that a
    lost call is found."""
    ledger, log, recorder = folder / "ledger", folder / "log", make_recorder(folder)
    ledger.mkdir()
    made = run("desk", "--ledger", ledger / LEDGER, "--new", SAMPLES / "region.evp", "--export", folder / "sheet.evp")
    assert made.status == 0, made
    before = _files(ledger)
    words = [sys.executable, __file__, "--answer", ledger, "--calls", calls, *(["--unsafe"] if unsafe else [])]
    subprocess.run(list(map(str, words)), check=True, timeout=300, env={
        **os.environ, "LD_PRELOAD": str(recorder), "EVP_RECORD_FOLDER": os.path.realpath(ledger),
        "EVP_RECORD_LOG": str(log)})
    after = _files(ledger)
    return Recording(before, list(_events(log.read_bytes())), after, opened(after, folder / "after"))


def _files(folder: Path) -> dict[str, bytes]:
    return {path.name: path.read_bytes() for path in folder.iterdir() if path.name != ANSWERED}


def _events(log: bytes) -> Iterator[Event]:
    at = 0
    while at < len(log):
        kind, offset, name, data = HEAD.unpack_from(log, at)
        at += HEAD.size
        yield Event(kind, offset, log[at:at + name].decode(), log[at + name:at + name + data])
        at += name + data


def answer_calls(folder: Path, calls: int, unsafe: bool):
    """Answers calls, the first half one after the other and then those of four participants at once, and writes down
    who got an answer, each when it was given."""
    store = Store(folder / LEDGER)
    if unsafe:
        store._db.execute("PRAGMA synchronous = OFF")
    ledger = CourseLedger(LIBRARY, store)
    answered = os.open(folder / ANSWERED, os.O_CREAT | os.O_WRONLY | os.O_APPEND)

    def call(who: int, many: int, chance: random.Random):
        machine = Machine(who)
        for _ in range(many):
            ledger.call(who, Wanted(*random_call(chance, machine)))
            os.write(answered, b"%d\n" % who)

    for who in range(1, 5):
        call(who, calls // 8, random.Random(who))
    threads = [threading.Thread(target=call, args=(who, calls // 8, random.Random(who))) for who in range(5, 9)]
    for thread in threads:
        thread.start()
    for thread in threads:
        thread.join()
    ledger.close()


# ------------------------------------------------------------------ states


class Disk:
    """Files as a disk has them, with what was not synced yet."""

    def __init__(self, files: dict[str, bytes]):
        self.files = {name: bytearray(data) for name, data in files.items()}
        self._pending: dict[str, list[Event]] = {}
        self._known = set(files)  # names that a sync of the folder has put on the disk
        self._removed: set[str] = set()

    def take(self, event: Event):
        """Something that happened before the cut."""
        if event.kind == SYNC and event.name == FOLDER:
            self._sync_folder()
        elif event.kind == SYNC:
            for one in self._pending.pop(event.name, ()):
                self._apply(one)
        elif event.kind == REMOVE:
            self._removed.add(event.name)
        else:
            self._removed.discard(event.name)
            self._pending.setdefault(event.name, []).append(event)

    def _sync_folder(self):
        for name in self._removed:
            self.files.pop(name, None)
            self._pending.pop(name, None)
            self._known.discard(name)
        self._known |= {*self.files, *self._pending}
        self._removed.clear()

    def _apply(self, event: Event, chance: random.Random | None = None):
        """A write or a truncation; with `chance` some sectors of a write alone."""
        data = self.files.setdefault(event.name, bytearray())
        if event.kind == TRUNCATE:
            del data[event.offset:]
            data.extend(bytes(event.offset - len(data)))
            return
        parts = [(at, event.data[at:at + SECTOR]) for at in range(0, len(event.data), SECTOR)]
        last = event.offset + len(event.data)
        if chance is not None:
            parts = [part for part in parts if chance.random() < 0.5]
            last = event.offset + max((at + len(part) for at, part in parts), default=0)
        if len(data) < last:  # what is not written here is zeros, or what the disk had there
            more = last - len(data)
            data.extend(bytes(more) if chance is None or chance.random() < 0.5 else chance.randbytes(more))
        for at, part in parts:
            data[event.offset + at:event.offset + at + len(part)] = part

    def cut(self, way: str, chance: random.Random) -> dict[str, bytes]:
        """The files after a power cut, with what `way` names of what was not synced."""
        for events in self._pending.values():
            for event, sectors in _left(way, events, chance):
                self._apply(event, chance if sectors else None)
        gone = {name for name in self.files if way != "all" and (
            name in self._removed or name not in self._known) and chance.random() < 0.5}
        gone |= self._removed if way == "all" else set()
        return {name: bytes(data) for name, data in self.files.items() if name not in gone}


def _left(way: str, events: list[Event], chance: random.Random) -> list[tuple[Event, bool]]:
    """The writes that reached the disk, and whether only sectors of one did."""
    if way in ("none", "all"):
        return [(event, False) for event in events] if way == "all" else []
    if way == "first":
        many = chance.randrange(len(events) + 1)
        return [(event, i == many) for i, event in enumerate(events[:many + 1])]
    share = chance.choice((0.2, 0.5, 0.8))
    return [(event, way == "sectors" and chance.random() < 0.5) for event in events if chance.random() < share]


def state(recording: Recording, number: int, seed: int) -> tuple[int, str, dict[str, bytes]]:
    """A state by its number: behind how many events the cut is, what was left, and the files."""
    chance = random.Random("%d %d" % (seed, number))
    cut, way = chance.randrange(len(recording.events) + 1), WAYS[number % len(WAYS)]
    disk = Disk(recording.before)
    for event in recording.events[:cut]:
        if event.name != ANSWERED:
            disk.take(event)
    return cut, way, disk.cut(way, chance)


# ------------------------------------------------------------------ judging


def opened(files: dict[str, bytes], folder: Path) -> list[StoredCall]:
    """The calls of a ledger whose files are these, in a folder that is not there yet."""
    folder.mkdir()
    for name, data in files.items():
        (folder / name).write_bytes(data)
    store = Store(folder / LEDGER)
    try:
        CourseLedger(LIBRARY, store)
        return store.calls()
    finally:
        store.close()


def fault_of(recording: Recording, number: int, seed: int, folder: Path) -> str:
    """What is wrong with a state; empty where nothing is."""
    cut, way, files = state(recording, number, seed)
    where = "state %d of seed %d (behind event %d of %d, of what was not synced: %s)" % (
        number, seed, cut, len(recording.events), way)
    try:
        kept = opened(files, folder)
    except Exception as error:  # a ledger after a power cut opens, without a word
        return "%s: the ledger does not open: %s: %s" % (where, type(error).__name__, error)
    finally:
        shutil.rmtree(folder, ignore_errors=True)
    if kept != recording.calls[:len(kept)]:
        return "%s: the calls are not the first of those that were made" % where
    lost = recording.answered(cut) - Counter(call.who for call in kept)
    return "%s: %d answered calls are lost" % (where, lost.total()) if lost else ""


def whole(recording: Recording) -> bool:
    """Whether the recording has all that was done: with all of it the files are as they were in the end."""
    disk = Disk(recording.before)
    for event in recording.events:
        if event.name != ANSWERED:
            disk.take(event)
    return disk.cut("all", random.Random(0)) == recording.after


def faults(recording: Recording, states: int, seed: int) -> list[str]:
    """What is wrong with the first states of a seed. They are files in memory where that can be: what a sync of theirs
    takes shows nothing."""
    memory = "/dev/shm" if os.access("/dev/shm", os.W_OK) else None
    with tempfile.TemporaryDirectory(dir=memory) as folder:
        found = [fault_of(recording, number, seed, Path(folder) / "state") for number in range(states)]
    return [fault for fault in found if fault]


def counts(recording: Recording) -> str:
    kinds = Counter(event.kind for event in recording.events if event.name != ANSWERED)
    return "%d calls, %d writes, %d truncations, %d syncs" % (
        len(recording.calls), kinds[WRITE], kinds[TRUNCATE], kinds[SYNC])


def main() -> int:
    parser = argparse.ArgumentParser(description=__doc__.partition("\n")[0])
    parser.add_argument("--calls", type=int, default=112)
    parser.add_argument("--states", type=int, default=3000)
    parser.add_argument("--seed", type=int, default=1)
    parser.add_argument("--unsafe", action="store_true", help="without syncs: the states must be found at fault")
    parser.add_argument("--answer", type=Path, help=argparse.SUPPRESS)
    given = parser.parse_args()
    if given.answer:
        answer_calls(given.answer, given.calls, given.unsafe)
        return 0
    with tempfile.TemporaryDirectory() as name:
        recording = record(Path(name), given.calls, given.unsafe)
    found = faults(recording, given.states, given.seed)
    print("%s; %d states, %d at fault" % (counts(recording), given.states, len(found)))
    print("\n".join(found[:10]))
    return 1 if found or not whole(recording) else 0


if __name__ == "__main__":
    sys.exit(main())
