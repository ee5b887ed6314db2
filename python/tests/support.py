"""What the tests share: the library, a way to run a command, and sheets."""

import contextlib
import io
import subprocess
import sys
import tempfile
import unittest
from collections.abc import Callable
from pathlib import Path
from typing import NamedTuple

TOP = Path(__file__).resolve().parents[2]
SAMPLES = TOP / "samples"
for _folder in (TOP, TOP / "python"):
    if str(_folder) not in sys.path:
        sys.path.insert(0, str(_folder))

from evp import cli, library, sheet  # noqa: E402

LIBRARY = library.load()
library.load = lambda: LIBRARY

SCREEN = 24  # lines
TRIES = 10  # of a measurement
# In front of a command to which a test sends signals: they do what they do by default, whatever the tests were started
# with. nohup ignores SIGHUP, and a shell ignores SIGINT for what it starts in the background.
DEFAULT_SIGNALS = ("env", "--default-signal=HUP,INT,TERM")

LISTS = "durations 420 140 20" + " 0" * 20 + " 130\nhours" + " 10" * 24 + "\n"
SEASONS = "season days=182 lowest=-2.0 highest=9.5 vp=90.0\nseason days=183 lowest=14.5 highest=29.0 vp=60.0\n"
CAR = "row class=1 technology=0 carburettor=99 hot=45 fill=40 vehicles=18400 trips=4.80 minutes=12\n"
FITTED = ("row class=2 technology=3 carburettor=0 hot=50 fill=45 vehicles=500 trips=5.10 minutes=13 "
          "load=32.0 saturation=60.0\n")
TEXT = LISTS + SEASONS + CAR + FITTED


def grid(count: int = 1) -> str:
    """A grid with one cell."""
    rows = [[count if (t, d) == (8, 20) else 0 for d in range(1, 25)] for t in range(1, 25)]
    return "".join("grid %d %s\n" % (t, " ".join(map(str, counts))) for t, counts in enumerate(rows, 1))


DRIVEN = ("row class=1 technology=1 carburettor=20 hot=45 fill=40 vehicles=700 trips=2.00 minutes=12 "
          "saturation=40.0 mileage=84000\n")
GRID_TEXT = grid() + SEASONS + CAR + DRIVEN


class Run(NamedTuple):
    """What a command gave: its exit status, standard output and standard error."""
    status: int
    out: str
    err: str


def run(*words: object, given: bytes = b"") -> Run:
    """A command of evp, in this process."""
    out, err = io.TextIOWrapper(io.BytesIO(), "utf-8"), io.StringIO()
    status = _run(words, out, err, given)
    out.flush()
    return Run(status, out.buffer.getvalue().decode(errors="replace"), err.getvalue())


def run_together(*words: object) -> str:
    """What a command prints, both streams as they come."""
    out = io.StringIO()
    _run(words, out, out)
    return out.getvalue()


def _run(words, out, err, given: bytes = b"") -> int:
    stdin, sys.stdin = sys.stdin, io.TextIOWrapper(io.BytesIO(given))
    try:
        with contextlib.redirect_stdout(out), contextlib.redirect_stderr(err):
            return cli.main([str(word) for word in words])
    except SystemExit as error:  # argparse
        return error.code
    finally:
        sys.stdin = stdin


# The modules and codecs are loaded before, since the other user may not be allowed to read them.
WITHOUT_RIGHTS = """
import codecs, contextlib, io, os, sys
sys.path.insert(0, sys.argv.pop(1))
from evp.cli import main
with contextlib.redirect_stdout(io.StringIO()):
    main(["check", os.devnull])
codecs.lookup("utf-8-sig")
os.getuid() or os.setuid(65534)
sys.exit(main())
"""


def run_without_rights(*words: object) -> Run:
    """A command as a user who has no right to what is closed: the superuser, who has, becomes another one."""
    found = subprocess.run([sys.executable, "-I", "-c", WITHOUT_RIGHTS, TOP / "python", *words], capture_output=True,
                           text=True, env={"EVP_LIBRARY": str(library.find())})
    return Run(found.returncode, found.stdout, found.stderr)


def sample(name: str) -> bytes:
    return (SAMPLES / (name + ".evp")).read_bytes()


def samples() -> list[Path]:
    return sorted(SAMPLES.glob("*.evp"))


def least(measured: Callable[[], float], limit: float) -> float:
    """The least of several measurements of time, as many as it takes to have one below a limit: other programs make a
    machine slower, by a factor of two and more, and none makes it faster."""
    found = measured()
    for _ in range(TRIES - 1):
        if found < limit:
            break
        found = min(found, measured())
    return found


class DeskTestCase(unittest.TestCase):
    """A test with an empty folder."""

    def setUp(self):
        folder = tempfile.TemporaryDirectory()
        self.addCleanup(folder.cleanup)
        self.folder = Path(folder.name)

    def put(self, name: str, content: bytes | str) -> Path:
        path = self.folder / name
        path.parent.mkdir(parents=True, exist_ok=True)
        path.write_bytes(content if isinstance(content, bytes) else content.encode())
        return path

    def put_sheet(self, name: str, text: str) -> Path:
        return self.put(name, sheet.write(text))

    def assert_plain(self, found: Run, status: int | tuple[int, ...]):
        """An exit status, no traceback, and no more than a screen."""
        self.assertIn(found.status, status if isinstance(status, tuple) else (status,), found)
        self.assertNotIn("Traceback", found.out + found.err)
        self.assertNotIn("fault of evp", found.err)
        self.assertLessEqual((found.out + found.err).count("\n"), SCREEN)
