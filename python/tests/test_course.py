"""docs/COURSE.md and README.md: their commands print what they say.

    python3 python/tests/test_course.py --write    puts what they print into them
"""

import os
import re
import shlex
import subprocess
import sys
import tempfile
import unittest
from decimal import Decimal
from pathlib import Path

from support import SAMPLES, TOP, run_together

from evp.masses import exact

COURSE, README = TOP / "docs" / "COURSE.md", TOP / "README.md"
BLOCK = re.compile(r"(?<=^```console\n).*?(?=^```$)", re.M | re.S)


def printed(line: str) -> str:
    """What a line of a shell prints. evp runs in this process, what follows a pipe in a shell."""
    command, pipe, rest = line.partition(" | ")
    if not command.startswith("./evp "):
        return subprocess.run(line, shell=True, text=True, stdout=subprocess.PIPE, stderr=subprocess.STDOUT).stdout
    out = run_together(*shlex.split(command)[1:])
    return subprocess.run(rest, shell=True, text=True, input=out, stdout=subprocess.PIPE).stdout if pipe else out


def with_output(text: str) -> str:
    """The page with what its commands print."""
    def block(found: re.Match) -> str:
        commands = [line for line in found[0].splitlines() if line.startswith("$ ")]
        return "".join("%s\n%s" % (line, printed(line[2:])) for line in commands)
    return BLOCK.sub(block, text)


def made(page: Path) -> str:
    """The page with what its commands print, run in a folder of their own."""
    text, before = page.read_text(encoding="utf-8"), os.getcwd()
    with tempfile.TemporaryDirectory() as folder:
        os.chdir(folder)
        try:
            Path("samples").symlink_to(SAMPLES)
            return with_output(text)
        finally:
            os.chdir(before)


class CourseTest(unittest.TestCase):
    def test_pages(self):
        for page, commands in ((COURSE, 10), (README, 1)):
            with self.subTest(page=page.name):
                text = page.read_text(encoding="utf-8")
                self.assertEqual(made(page).splitlines(), text.splitlines())
                self.assertGreaterEqual(text.count("$ ./evp "), commands)

    def test_the_figure_that_fits(self):
        """What is said in words of a band is what the command above it prints."""
        text = " ".join(COURSE.read_text(encoding="utf-8").split())
        filed, low, high = re.search(r" ridge\.evp,cars,soak,([0-9.]+),t,fits,([0-9]+),([0-9]+) ", text).groups()
        self.assertIn("asks why %s t of the cars' soak mass" % filed, text)
        self.assertIn("The band, %s t to %s t, reaches over" % (exact(int(low), "t"), exact(int(high), "t")), text)
        middle = Decimal(filed)
        self.assertIn("%s t stands for %s t to %s t." % (filed, middle - Decimal("0.0005"), middle + Decimal("0.0005")),
                      text)


def main():
    for page in (COURSE, README):
        page.write_text(made(page), encoding="utf-8")


if __name__ == "__main__":
    main() if "--write" in sys.argv else unittest.main()
