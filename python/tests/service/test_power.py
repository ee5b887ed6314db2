"""The gate's share of the power cuts: EVP_POWER_STATES states, 250 where none are named."""

import os
import sys
import unittest

from support import DeskTestCase

from service import power

STATES = int(os.environ.get("EVP_POWER_STATES", "250"))
CALLS = 112


@unittest.skipUnless(power.COMPILER, power.NO_COMPILER)
class PowerTest(DeskTestCase):
    def test_every_answered_call_is_kept(self):
        recording = power.record(self.folder, CALLS)
        self.assertEqual(len(recording.calls), CALLS)
        self.assertEqual(recording.answered(len(recording.events)).total(), CALLS)
        self.assertTrue(power.whole(recording), "the recorder has missed something")
        self.assertEqual(power.faults(recording, STATES, 1), [])
        print("power cuts: %s; %d states" % (power.counts(recording), STATES), file=sys.stderr)

    def test_a_ledger_without_syncs_is_found(self):
        recording = power.record(self.folder, 24, unsafe=True)
        self.assertTrue(power.whole(recording), "the recorder has missed something")
        self.assertNotEqual(power.faults(recording, 20, 1), [])


if __name__ == "__main__":
    unittest.main()
