"""The commands: their help, their exit status, and files that are not up to date."""

import contextlib
import io
import tempfile
import unittest
from pathlib import Path
from unittest import mock

from tools import command
from tools.check.__main__ import parser as check_parser
from tools.command import MadeFile, write_or_check
from tools.landing import parser as landing_parser
from tools.make.__main__ import parser as make_parser
from tools.progress import parser as progress_parser
from tools.reckoning.__main__ import main as reckoning_main
from tools.reckoning.__main__ import parser as reckoning_parser
from tools.sheet.__main__ import parser as sheet_parser
from tools.tests.__main__ import parser as tests_parser
from tools.tests.support import sample
from tools.vectors.__main__ import parser as vectors_parser
from tools.vectors.frame import ROOM, VectorError, VectorSet

PARSERS = (check_parser, make_parser, reckoning_parser, sheet_parser, vectors_parser)


def said(run, *words: str) -> tuple[int, str]:
    """The exit status of a command, and what it printed."""
    out = io.StringIO()
    with contextlib.redirect_stdout(out), contextlib.redirect_stderr(out):
        try:
            status = run(list(words))
        except SystemExit as left:
            status = left.code
    return status, out.getvalue()


class HelpTest(unittest.TestCase):
    """Every command says what it does, with an example that it understands."""

    def test_help(self):
        for parser in PARSERS:
            top = parser()
            for name in top._subparsers._group_actions[0].choices:
                with self.subTest(command="%s %s" % (top.prog, name)):
                    status, text = said(top.parse_args, name, "--help")
                    self.assertEqual(status, 0)
                    self.assertIn("example:\n  %s %s" % (top.prog, name), text)
                    example = text.rpartition("example:\n")[2].strip().removeprefix(top.prog).partition(">")[0].split()
                    top.parse_args([word.replace("-3/2", " -3/2") for word in example])

    def test_help_of_single_commands(self):
        for parser in (landing_parser, progress_parser, tests_parser):
            top = parser()
            with self.subTest(command=top.prog):
                status, text = said(top.parse_args, "--help")
                self.assertEqual(status, 0)
                example = text.rpartition("example:\n")[2].partition(top.prog)[2].split()
                self.assertTrue(example)
                top.parse_args(example)

    def test_no_such_test(self):
        top = tests_parser()
        status, text = said(lambda words: command.run(top, words), "-k", "nonsense")
        self.assertEqual((status, text), (2, "tests: no test's name has nonsense in it\n"))

    def test_misuse(self):
        for parser in PARSERS:
            self.assertEqual(said(parser().parse_args)[0], 2)
            self.assertEqual(said(parser().parse_args, "nonsense")[0], 2)


class ReckoningTest(unittest.TestCase):
    """What the command of the reckoning prints."""

    def setUp(self):
        folder = tempfile.TemporaryDirectory()
        self.addCleanup(folder.cleanup)
        self.sheet = str(Path(folder.name) / "a.evp")
        Path(self.sheet).write_bytes(sample("example", ".evp"))

    def test_answers(self):
        for words, status, text in (
            (("check", self.sheet), 0, "accepted\n"), (("check", self.sheet, "--words", "31"), 1, "refused 22 at 0\n"),
            (("factor", self.sheet, "0", "1", "1"), 1, "refused 23 at 0\n"),
            (("e", "-3/2", "--n", "2", "--exact"), 0, "8/29 0.275862068965517241379310344827\n"),
            (("e", "-1.5", "--n", "2"), 0, "0.275862068965517241379310344827\n"),
            (("root", "4"), 0, "32.%s\n" % ("0" * 30)),
        ):
            with self.subTest(words=words):
                self.assertEqual(said(reckoning_main, *words), (status, text))

    def test_lines(self):
        for words, lines in (
            (("factors", self.sheet, "--of", "0", "0"), 7), (("factors", self.sheet), 7), (("masses", self.sheet), 3),
            (("loads", self.sheet, "0", "0"), 48), (("weights",), 48), (("table",), 43), (("species", "10001"), 29),
        ):
            with self.subTest(words=words):
                status, text = said(reckoning_main, *words)
                self.assertEqual((status, text.count("\n")), (0, lines))

    def test_misuse(self):
        for words in (("check",), ("check", self.sheet + ".no"), ("e", "x"), ("factors", self.sheet, "--of", "0"),
                      ("species", "-1")):
            self.assertEqual(said(reckoning_main, *words)[0], 2, words)


class FilesTest(unittest.TestCase):
    """Files that are written or compared."""

    def setUp(self):
        folder = tempfile.TemporaryDirectory()
        self.addCleanup(folder.cleanup)
        self.folder = Path(folder.name)
        self.enterContext(mock.patch.object(command, "TOP", self.folder))

    def test_check(self):
        made = [MadeFile("a", b"1"), MadeFile("b", b"2")]
        self.assertEqual(len(write_or_check(made, True, "make")), 2, "no file is there")
        self.assertEqual(write_or_check(made, False, "make"), [])
        self.assertEqual(write_or_check(made, True, "make"), [])
        (self.folder / "b").write_bytes(b"3")
        self.assertEqual(write_or_check(made, True, "make"), ["b is not what make writes"])
        self.assertEqual((self.folder / "b").read_bytes(), b"3", "nothing is written")

    def test_vectors(self):
        """A set that lacks something, or is longer than what the program reads, has no files."""
        good = VectorSet("vectors_a", lambda: [1], bytes, lambda vectors: [])
        self.assertEqual([made.path for made in good.files()], ["crates/vectors_a/stdin"])
        for faulty in (good._replace(missing=lambda vectors: ["no second vector"]),
                       good._replace(encode=lambda _: bytes(ROOM + 1))):
            with self.assertRaises(VectorError):
                list(faulty.files())
