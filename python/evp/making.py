"""Makes the shared library where the repository has none: c/shared, with how far it is."""

import shutil
import subprocess
import sys
from collections.abc import Iterable
from pathlib import Path

from evp.files import InputError
from evp.library import TOP
from evp.wording import MOST_SHOWN, printable

TARGET = "evaporation_c"


def crates_wanted(listing: str, target: str = TARGET) -> set[str]:
    """The crates that a crate stands on, and itself, by the lines of crates.txt."""
    lines = (line.partition(":") for line in listing.splitlines())
    below = {name.split()[0]: rest.split() for name, colon, rest in lines if colon and not name.startswith("#")}
    wanted, left = set(), [target]
    while left:
        name = left.pop()
        if name not in wanted:
            wanted.add(name)
            left += below.get(name, [])
    return wanted


def make_library():
    """Makes the library, and says that it takes some minutes and how far it is."""
    script = TOP / "c" / "shared"
    if not script.exists():
        raise InputError("the library libevaporation.so.1 is not there; EVP_LIBRARY=FILE names one")
    for program in ("rt", "gcc"):
        if shutil.which(program) is None:
            raise InputError("the library is not made yet, and making it needs %s; "
                             "EVP_LIBRARY=FILE names one that is" % program)
    wanted = crates_wanted((TOP / "crates.txt").read_text(encoding="utf-8"))
    print("evp: the library is not made yet. Proving and making it takes some minutes;\n"
          "evp: it is kept, and the next call starts at once.", file=sys.stderr)
    with subprocess.Popen(["bash", script], stdout=subprocess.PIPE, stderr=subprocess.STDOUT, text=True) as making:
        last = _follow(making.stdout, wanted)
    if making.returncode:
        if sys.stderr.isatty():
            print(file=sys.stderr)  # behind the line that was written over
        raise InputError("the library could not be made: %s\nrun it by itself to see more: bash %s" % (
            printable(last[:MOST_SHOWN]), Path("c") / "shared"))
    _say("evp: all %d parts proved, the library is made" % len(wanted), True)  # the last with the library


def _follow(lines: Iterable[str], wanted: set[str]) -> str:
    """Says of each part that is proved how many are; the last line that c/shared prints."""
    proved, last = set(), ""
    for line in lines:
        last = line.strip() or last
        words = line.split()
        if words[:1] == ["c/archive:"] and words[2:] == ["proved"] and words[1] in wanted - proved:
            proved.add(words[1])
            _say("evp: %d of %d parts proved" % (len(proved), len(wanted)))
    return last


def _say(words: str, is_last: bool = False):
    """One line that is written over on a terminal; elsewhere every tenth, and the last."""
    if sys.stderr.isatty():
        print("\r%s " % words, end="\n" if is_last else "", file=sys.stderr, flush=True)
    elif is_last or words.split()[1].endswith("0"):
        print(words, file=sys.stderr, flush=True)
