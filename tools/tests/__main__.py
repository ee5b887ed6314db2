"""The command: python3 -m tools.tests [-v] [-f] [-k PART OF A NAME]."""

import argparse
import sys
import unittest

from tools.command import TOP, described, run


def run_tests(given: argparse.Namespace) -> int:
    """Exit status 0 where all pass, 1 where one fails, 2 where no test has such a name."""
    loader = unittest.TestLoader()
    loader.testNamePatterns = ["*%s*" % part for part in given.parts] or None
    tests = loader.discover(str(TOP / "tools" / "tests"), top_level_dir=str(TOP))
    if not tests.countTestCases():
        print("tests: no test's name has %s in it" % " or ".join(given.parts), file=sys.stderr)
        return 2
    runner = unittest.TextTestRunner(verbosity=2 if given.verbose else 1, failfast=given.failfast)
    return 0 if runner.run(tests).wasSuccessful() else 1


def parser() -> argparse.ArgumentParser:
    top = argparse.ArgumentParser(prog="python3 -m tools.tests", **described(
        "Tests the second reckoning, the vectors, what is made and the checks.",
        "python3 -m tools.tests -v -k mileage"))
    top.add_argument("-k", dest="parts", metavar="PART", action="append", default=[],
                     help="only tests with this in their name, which is that of their file, class and function too")
    top.add_argument("-v", "--verbose", action="store_true", help="a line for each test")
    top.add_argument("-f", "--failfast", action="store_true", help="stop at the first that fails")
    top.set_defaults(run=run_tests)
    return top


if __name__ == "__main__":
    sys.exit(run(parser()))
