"""The gate's share of the fuzzer: the corpus as it is, and EVP_FUZZ_SECONDS seconds of each part, 5 where none are
named, always from the same seed."""

import os
import sys
import unittest

from desk_support import HAS_MODULES, NO_MODULES
from support import DeskTestCase

from service import fuzz

SECONDS = float(os.environ.get("EVP_FUZZ_SECONDS", "5"))
SEED = int(os.environ.get("EVP_FUZZ_SEED", "1"))


@unittest.skipUnless(HAS_MODULES, NO_MODULES)
class FuzzTest(DeskTestCase):
    def test_functions(self):
        tried, found = fuzz.fuzz_functions(SECONDS, SEED)
        print("fuzzer: %s" % dict(tried), file=sys.stderr)
        self.assertEqual([(one.kind, one.name, one.fault) for one in found], [])

    def test_server(self):
        statuses, found = fuzz.fuzz_server(self.folder, SECONDS, SEED)
        print("fuzzer: requests by status %s" % dict(sorted(statuses.items())), file=sys.stderr)
        self.assertEqual([(one.name, one.fault, one.data[:200]) for one in found], [])
        self.assertGreater(statuses[200], 0)


if __name__ == "__main__":
    unittest.main()
