"""A laptop is closed in the midst of a call, and the server killed and started again: the others work on, the call is
made once, and the pages are what they were. docs/SERVER.md has the same walk with a browser."""

import contextlib
import unittest
from urllib.parse import urlencode

from desk_support import HAS_MODULES, NO_MODULES, Desk
from service_support import ServiceTestCase, connected, is_closed, leave, posted

WHO = 8
CALLS = 4


@unittest.skipUnless(HAS_MODULES, NO_MODULES)
class LaptopTest(ServiceTestCase):
    def call(self, desk: Desk, own: int) -> bytes:
        """The bytes of a participant's call, which is the one of this number."""
        fields = {"call": "arrive", "row": WHO, "vehicles": 10 * own, "own": own}
        return posted(desk.port, desk.links[WHO], urlencode(fields).encode())

    def leave(self, desk: Desk, own: int, reset: bool):
        """Sends a call, whose answer finds nobody."""
        leaving = connected(desk.port)
        leaving.sendall(self.call(desk, own))
        leave(leaving, reset)

    def kept(self, desk: Desk, links: list[str]) -> list[list[str]]:
        """The participant's calls, as the marker sees them."""
        return [line for line in desk.client(links[0]).table("calls.csv") if line[0] == str(WHO)]

    def test_lid_closed_and_server_killed(self):
        desk = self.serve("--patience", 1)
        before = self.files(desk)
        with self.at_work(desk, within=5, people=2), contextlib.ExitStack() as stack:
            self.leave(desk, 1, True)  # a reset may be there before its call, which is then not made
            self.assertEqual(desk.client(desk.links[WHO]).call("arrive", WHO, 10, own=1).status, 303)
            self.leave(desk, 2, False)
            self.wait_for(lambda: len(self.kept(desk, desk.links)) == 2, 10, "the call is not made")
            silent = [stack.enter_context(connected(desk.port)) for _ in range(3)]  # neither closed nor reset
            silent[0].sendall(self.call(desk, 3))
            silent[1].sendall(self.call(desk, 4)[:-5])
            self.wait_for(lambda: len(self.kept(desk, desk.links)) == 3, 10, "the call is not made")
            for connection in silent:
                self.assertTrue(is_closed(connection, 10))
            for own in range(1, CALLS + 1):  # the lid is open again: all that were not answered are sent again
                answer = desk.client(desk.links[WHO]).call("arrive", WHO, 10 * own, own=own)
                self.assertEqual(answer.status, 303, own)
        self.assertEqual([line[4] for line in self.kept(desk, desk.links)], ["10", "20", "30", "40"])
        self.wait_for(lambda: self.files(desk) <= before + 4, 10, "connections stay open")
        self.check_after_kill(desk)

    def check_after_kill(self, desk: Desk):
        """kill -9, the same command again: the links hold, and every page is what it was."""
        pages = [desk.client(link).get().body for link in desk.links]
        desk.kill()
        again = Desk(desk.ledger, "--patience", 1, port=desk.port)
        self.addCleanup(again.close)
        self.assertIn("played again, and all is as it was", again.said)
        self.assertEqual([again.client(link).get().body for link in desk.links], pages)
        self.assertEqual(again.client(desk.links[WHO]).call("arrive", WHO, 50, own=CALLS + 1).status, 303)


if __name__ == "__main__":
    unittest.main()
