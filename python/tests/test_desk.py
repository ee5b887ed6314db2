"""The course's ledger over HTTP, each desk a process of its own: what its people are told, what is turned away, and
what comes of a file that is not as it was or has no room."""

import base64
import contextlib
import html
import os
import re
import secrets
import shlex
import socket
import sqlite3
import subprocess
import sys
import threading
import time
import unittest
from collections import Counter
from pathlib import Path
from unittest import mock
from urllib.parse import quote

from desk_support import HAS_MODULES, HOST, MARKER, NO_MODULES, Desk, report_words
from html_check import Page
from support import LIBRARY, SAMPLES, TOP, DeskTestCase, run, sample

from evp import layout
from evp.desk import command, ledger, store
from evp.desk.ledger import CourseLedger, NoRoom, Wanted
from evp.files import InputError
from evp.wording import apart

SHEET = SAMPLES / "region.evp"
REGION = sample("region")
ROWS = layout.row_count(REGION)
COUNT = {row: layout.row(REGION, row - 1)["vehicles"] for row in range(1, ROWS + 1)}


def made_ledger(path: Path, sheet: bytes = REGION, owners: bytes | None = None, names: dict[int, str] | None = None,
                keys: dict[int, str] | None = None) -> dict[int, str]:
    """A ledger's file without the command, with secrets that a test may choose."""
    keys = keys or {who: secrets.token_urlsafe(16) for who in range(9)}
    owners = owners or command.dealt_in_turn(layout.row_count(sheet)).owners
    names = names or {who: "participant %d" % who for who in range(9)}
    opening = store.Opening(sheet, owners, "a test")
    people = [ledger.new_person(who, names[who], keys[who]) for who in range(9)]
    store.create(path, opening, people, ledger.open_first(LIBRARY, opening))
    return keys


class LedgerTestCase(DeskTestCase):
    @property
    def file(self) -> Path:
        return self.folder / "course.db"

    def serve(self, *words: object, file: Path | None = None, port: int | None = None) -> Desk:
        desk = Desk(file or self.file, *words, port=port)
        self.addCleanup(desk.close)
        return desk

    def refused_start(self, *words: object) -> str:
        """What a desk says that does not serve."""
        found = subprocess.run([sys.executable, str(TOP / "evp"), "desk", *map(str, words), "--port", "0"],
                               capture_output=True, text=True, timeout=60, cwd=self.folder)
        self.assertEqual((found.returncode, found.stdout), (2, ""), found.stderr)
        self.assertEqual(found.stderr.count("\n"), 1, found.stderr)
        return found.stderr


@unittest.skipUnless(HAS_MODULES, NO_MODULES)
class PeopleTest(LedgerTestCase):
    """An afternoon."""

    def test_call(self):
        marker, *people = self.serve("--new", SHEET).people()
        answer = people[2].call("arrive", 3, 10)
        self.assertEqual((answer.status, dict(answer.headers)["Location"]), (303, people[2].link))
        self.assertEqual(people[2].said(), "Done: 10 vehicles arrived at row 3.")
        self.assertIn("Row 3 had %s vehicles and has %s now." % (apart(COUNT[3]), apart(COUNT[3] + 10)),
                      people[2].get().text)
        sheet = marker.get("/sheet.evp").body
        self.assertEqual(layout.row(sheet, 2)["vehicles"], COUNT[3] + 10)
        self.assertEqual(report_words(marker), LIBRARY.words(sheet))
        self.assertEqual(marker.table("calls.csv"), [["3", "participant 3", "arrive", "3", "10", "0"]])

    def test_pages(self):
        """A participant has the rows of their own and no other's; the marker has all rows and totals."""
        marker, *people = self.serve("--new", SHEET).people()
        for who, client in enumerate(people, 1):
            page = client.get().text
            own = [row for row in range(1, ROWS + 1) if 1 + (row - 1) % 8 == who]
            self.assertEqual([int(row) for row in re.findall(r'id="row([0-9]+)"', page)], own)
            self.assertEqual([int(line[0]) for line in client.table("rows.csv")], own)
            for rest in ("/sheet.evp", "/report.csv", "/calls.csv"):
                self.assertEqual(client.get(rest).status, 403)
            self.assertEqual(Page(page).faults, [])
            self.assertEqual({address for address in Page(page).addresses if address.startswith("/")},
                             {client.link, client.link + "/rows.csv"})
        page = marker.get().text
        for rest in ("", "?bands=mg", "?bands=mg&every=10", "/nothing"):
            self.assertEqual(Page(marker.get(rest).text).faults, [])
        self.assertEqual(len(re.findall(r'data-l="vehicles"', page)), ROWS)
        report = LIBRARY.report(REGION)
        self.assertIn(apart(report.total.low), re.sub("<[^>]*>", "", page))
        self.assertNotIn("Refresh", dict(marker.get().headers))
        self.assertEqual(dict(marker.get("?every=10").headers)["Refresh"], "10")
        self.assertNotIn("Refresh", dict(people[0].get("?every=10").headers))

    def test_refusals(self):
        marker, one, *_ = self.serve("--new", SHEET).people()
        most = 10_000_000 - sum(COUNT[row] for row in (1, 9, 17))
        for kind, row, vehicles, said in (
                ("depart", 1, COUNT[1] + 1, "Refused 29: row 1 has %s vehicles, so %s cannot depart." % (
                    apart(COUNT[1]), apart(COUNT[1] + 1))),
                ("arrive", 1, 10_000_000, "Refused 29: row 1 has %s vehicles, and with 10,000,000 more it would have "
                 "more than 10,000,000." % apart(COUNT[1])),
                ("arrive", 1, most + 1, "Refused 31: your rows have %s vehicles, and with %s more they would have more "
                 "than 10,000,000." % (apart(10_000_000 - most), apart(most + 1))),
                ("arrive", 2, 5, "Refused 30: row 2 is not yours to change."),
                ("arrive", 999, 5, "Refused 30: row 999 is not yours to change.")):
            self.assertEqual(one.call(kind, row, vehicles).status, 303)
            self.assertEqual(html.unescape(one.said()), said)
        self.assertEqual(marker.get("/sheet.evp").body, REGION)
        self.assertEqual(marker.call("arrive", 1, 5).status, 303)
        self.assertEqual(marker.table("calls.csv")[-1], ["0", "marker", "arrive", "1", "5", "30"])
        self.assertEqual(one.call("arrive", 1, most).status, 303)
        self.assertEqual(one.said(), "Done: %s vehicles arrived at row 1." % apart(most))

    def test_not_understood(self):
        """What is no call does not reach the library, and is not kept."""
        marker, one, *_ = self.serve("--new", SHEET).people()
        for fields, said in (
                ({"call": "arrive", "row": 1, "vehicles": "2.5"}, "'2.5'"), ({"call": "arrive", "row": 1}, "vehicles"),
                ({"call": "arrive", "row": 0, "vehicles": 5}, "rows count from 1"),
                ({"row": 1, "vehicles": 5}, "arrive or depart"),
                ({"call": "arrive", "row": 1, "vehicles": "9" * 19}, "whole number"),
                ({"call": "arrive", "row": 1, "vehicles": "-5"}, "whole number"),
                ({"call": "arrive", "row": 1, "vehicles": "٣"}, "whole number"),
                ({"call": "<b>", "row": 1, "vehicles": 5}, "'<b>'")):
            answer = one.post(**fields)
            self.assertEqual(answer.status, 400)
            self.assertIn(said, html.unescape(answer.text))
            self.assertNotIn("<b>'", answer.text)
        self.assertEqual(marker.table("calls.csv"), [])

    def test_sent_twice(self):
        """A call whose answer was lost can be sent again, and is made once; a page that is out of date makes none."""
        marker, one, *_ = self.serve("--new", SHEET).people()
        for _ in range(3):
            self.assertEqual(one.call("arrive", 1, 5, own=1).status, 303)
        self.assertEqual(one.call("arrive", 1, 6, own=1).status, 409)
        self.assertEqual(one.call("arrive", 1, 6, own=3).status, 409)
        self.assertIn("older than your last call", one.call("arrive", 1, 6, own=1).text)
        self.assertEqual(len(marker.table("calls.csv")), 1)

    def test_sent_twice_at_once(self):
        marker, one, *_ = (desk := self.serve("--new", SHEET)).people()
        for own in range(1, 11):
            answers = []
            threads = [threading.Thread(target=lambda: answers.append(
                desk.client(one.link).call("arrive", 1, 5, own=own).status)) for _ in range(4)]
            for thread in threads:
                thread.start()
            for thread in threads:
                thread.join()
            self.assertEqual(answers, [303] * 4)
        self.assertEqual(len(marker.table("calls.csv")), 10)

    def test_two_tabs_at_once(self):
        """Two tabs of one page make different calls: one is made, and the other is told that its page is old."""
        marker, one, *_ = (desk := self.serve("--new", SHEET)).people()
        for own in range(1, 11):
            answers = []
            threads = [threading.Thread(target=lambda count: answers.append(
                desk.client(one.link).call("arrive", 1, count, own=own).status), args=[count]) for count in (5, 6)]
            for thread in threads:
                thread.start()
            for thread in threads:
                thread.join()
            self.assertEqual(sorted(answers), [303, 409])
        self.assertEqual(len(marker.table("calls.csv")), 10)

    def test_limit_of_calls(self):
        made_ledger(self.file)
        found = store.Store(self.file)
        course = CourseLedger(LIBRARY, found)
        self.addCleanup(course.close)
        with mock.patch("evp.desk.ledger.MOST_CALLS", 2):
            for _ in range(2):
                course.call(1, Wanted("arrive", 1, 1))
            with self.assertRaisesRegex(ledger.TooMany, "you have made 2 calls"):
                course.call(1, Wanted("arrive", 1, 1))
            course.call(2, Wanted("arrive", 2, 1))

    def test_next_day(self):
        """Stopped and started again: the same links, counts and calls; the sheet by a command."""
        desk = self.serve("--new", SHEET)
        marker, one, *_ = desk.people()
        one.call("arrive", 1, 7)
        one.call("depart", 2, 7)
        before, sheet = one.get().told(), marker.get("/sheet.evp").body
        self.assertEqual(desk.stop(), 0)
        self.assertIn("every call that was answered is kept", desk.said)
        found = run("desk", self.file, "--export", self.folder / "now.evp")
        self.assert_plain(found, 0)
        self.assertEqual((self.folder / "now.evp").read_bytes(), sheet)
        again = self.serve()
        self.assertIn("2 calls played again, and all is as it was", again.said)
        self.assertEqual(again.links, [])
        self.assertEqual(again.client(one.link).get().told(), before)

    def test_renewed_link(self):
        desk = self.serve("--new", SHEET)
        self.assertEqual(len(set(desk.links)), 9)
        desk.stop()
        again = self.serve("--renew", "participant 4")
        self.assertEqual(len(again.links), 1)
        self.assertEqual(again.client(desk.links[4]).get().status, 404)
        self.assertIn("participant 4", again.client(again.links[0]).get().text)
        self.assertEqual(again.client(desk.links[5]).get().status, 200)


@unittest.skipUnless(HAS_MODULES, NO_MODULES)
class TwoHistoriesTest(LedgerTestCase):
    """What a participant is told depends on the seasons, the parking, their rows and their calls alone."""

    OWN = (3, 11, 19)

    def histories(self) -> tuple[Desk, Desk, dict[int, str]]:
        """Two ledgers alike for participant 3: one has more rows, other vehicles in them, other owners and names."""
        keys = made_ledger(self.file)
        start, rows = layout.row_place(REGION, 0), 30
        other = bytearray(REGION[:6] + bytes([rows]) + REGION[7:] + REGION[start:start + 24 * (rows - ROWS)])
        for row in range(1, rows + 1):
            if row not in self.OWN:
                other[start + 24 * row - 16:start + 24 * row - 12] = (40 * row).to_bytes(4, "little")
        owners = bytes(3 if row in self.OWN else 1 + row % 2 for row in range(1, rows + 1))
        names = {who: "participant 3" if who == 3 else "somebody %d" % who for who in range(9)}
        made_ledger(self.folder / "other.db", bytes(other), owners, names, {**keys, 1: "1" * 22, 0: "0" * 22})
        return self.serve(), self.serve(file=self.folder / "other.db"), keys

    def others(self, desk: Desk, links: list[str], moment: int, rows: list[int]):
        """What others do meanwhile in one of the histories."""
        for i in range(moment % 3 * 2):
            for link in links:
                client = desk.client(link)
                client.call(("arrive", "depart")[i % 2], rows[(moment + i) % len(rows)], 17 * moment + i)
                client.get()
                client.close()

    def test_same_bytes(self):
        a, b, keys = self.histories()
        link = "/ledger/" + keys[3]
        told = {a: [], b: []}
        requests = list(self.requests(link))
        for moment, request in enumerate(requests):
            self.others(a, ["/ledger/" + keys[who] for who in (1, 8)], moment, [1, 2, 8, 16, 3])
            self.others(b, ["/ledger/" + "1" * 22, "/ledger/" + keys[2]], moment * 7 + 1, [2, 4, 5, 6, 30])
            if moment == len(requests) // 2:  # one of them has a bad afternoon
                b.kill()
                b, old = self.serve(file=b.ledger), b
                told[b] = told.pop(old)
            for desk in (a, b):
                told[desk].append(raw(desk.port, request))
        self.assertGreater(len(told[a]), 30)
        self.assertEqual([without_date(answer) for answer in told[a]], [without_date(answer) for answer in told[b]])
        statuses = {answer.split()[1] for answer in told[a]}
        self.assertEqual(statuses, {b"200", b"303", b"400", b"403", b"404", b"405", b"409", b"413"})
        self.assertNotEqual(a.client("/ledger/" + keys[0]).get("/sheet.evp").body,
                            b.client("/ledger/" + "0" * 22).get("/sheet.evp").body)

    def requests(self, link: str):
        """What participant 3 asks for: pages and files, calls that are taken and refused, and what is no call."""
        for call in ("call=arrive&row=3&vehicles=5", "call=depart&row=11&vehicles=2", "call=arrive&row=4&vehicles=1",
                     "call=depart&row=3&vehicles=99999999", "call=arrive&row=19&vehicles=9999999",
                     "call=arrive&row=99&vehicles=1", "call=arrive&row=30&vehicles=1", "call=arrive&row=3&vehicles=x",
                     "call=depart&row=19&vehicles=3&own=8", "call=depart&row=19&vehicles=3&own=3", "call=none"):
            yield posted(link, call)
            yield got(link)
        for rest in ("", "/rows.csv", "/sheet.evp", "/report.csv", "/calls.csv", "/nothing", "/", "?every=10", "x"):
            yield got(link + rest)
        for method in ("HEAD", "DELETE", "OPTIONS", "TRACE"):
            yield got(link, method)
        yield posted(link, "x" * 5_000)


@unittest.skipUnless(HAS_MODULES, NO_MODULES)
class TurnedAwayTest(LedgerTestCase):
    """Each is turned away or shown as text, and the others are served on meanwhile."""

    def setUp(self):
        super().setUp()
        self.desk = self.serve("--new", SHEET, "--patience", 3)
        self.marker, *self.people = self.desk.people()

    def assert_served(self, meanwhile: str = "", within: float = 15):
        """A participant makes a call and reads the answer; how long that took is printed, for docs/COURSE.md."""
        client = self.desk.client(self.people[0].link, timeout=within)
        began = time.monotonic()
        self.assertEqual(client.call("arrive", 1, 1).status, 303)
        self.assertEqual(client.said(), "Done: 1 vehicle arrived at row 1.")
        took = time.monotonic() - began
        self.assertLess(took, within)
        if meanwhile:
            print("%s: a call and a page meanwhile in %.2f s" % (meanwhile, took), file=sys.stderr)
        client.close()

    def test_wrong_secret(self):
        right, told = self.people[0].link, set()
        for link in (right[:-1], right + "A", right.swapcase(), "/ledger/" + "A" * 22, "/ledger/", "/ledger/%00",
                     "/ledger/é", "/ledger/" + "A" * 5_000):
            answer = raw(self.desk.port, got(link))
            self.assertEqual(answer.split()[1], b"404" if link.isascii() else b"400", link)
            self.assertNotIn(right.encode(), answer)
            told |= {without_date(answer)} if link.isascii() else set()
        self.assertEqual(len(told), 1)  # the same page for all
        self.assert_served()

    def test_no_secret_is_kept_or_said(self):
        """The file has no secret, and the terminal does not repeat one after the links."""
        with self.assertRaises(OSError):
            self.desk.client(self.people[0].link, timeout=0.0001).get()
        self.people[0].get("/no-such-page")
        self.people[0].call("arrive", 1, 1)
        kept = self.file.read_bytes()
        for link in self.desk.links:
            self.assertNotIn(link.rpartition("/")[2].encode(), kept)
            self.assertEqual(self.desk.said.count(link), 1)
        for file in (self.file, self.file.with_name(self.file.name + "-journal")):
            self.assertEqual(file.stat().st_mode & 0o777, 0o600)

    def test_another_row(self):
        before = self.marker.get("/sheet.evp").body
        self.people[0].call("arrive", 2, 5)
        self.assertIn("not yours", self.people[0].said())
        self.assertEqual(self.marker.get("/sheet.evp").body, before)

    def test_long_body(self):
        """10 MB are turned away by their length alone; where someone sends them all the same, they are not read."""
        head = b"POST %s HTTP/1.1\r\nHost: %s\r\nContent-Length: 10000000\r\n\r\n" % (
            self.people[0].link.encode(), b"127.0.0.1:%d" % self.desk.port)
        began = time.monotonic()
        answer = raw(self.desk.port, head)
        self.assertEqual(answer.split()[1], b"413")
        self.assertIn(b"This is longer than anything that is wanted here.", answer)
        self.assertLess(time.monotonic() - began, 5)
        answer = raw(self.desk.port, head.replace(b"\r\n\r\n", b"\r\nExpect: 100-continue\r\n\r\n"))
        self.assertEqual(answer.split()[1], b"413")  # nobody is asked to go on
        chunked = head.replace(b"Content-Length: 10000000", b"Transfer-Encoding: chunked") + b"989680\r\n"
        for start, status in ((head, b"413"), (chunked, b"411")):
            with socket.create_connection((HOST, self.desk.port), 5) as sending:
                with contextlib.suppress(OSError):  # the desk may be gone in the midst
                    sending.sendall(start + b"x" * 1_000_000)
                self.assert_served("a body of 10 MB")
                with contextlib.suppress(OSError):
                    sending.sendall(b"x" * 9_000_000)
                self.assertEqual(sending.recv(100).split()[1], status)
        self.assertEqual(self.people[0].post(call="arrive", row=1, vehicles="1" + " " * 5_000).status, 413)
        self.assert_served()

    def test_thousand_connections(self):
        """A thousand that only stay open; they are let go of in time."""
        from evp.desk.server import most_connections
        self.assertGreater(most_connections(), 1_000)  # of this process too
        with contextlib.ExitStack() as stack:
            idle = [stack.enter_context(socket.create_connection((HOST, self.desk.port), 10)) for _ in range(1_000)]
            self.assert_served("1,000 connections")
            for connection in idle[::100]:
                connection.settimeout(15)
                self.assertEqual(connection.recv(1), b"")
            self.assert_served()

    def test_slow_senders(self):
        """Fifty who send a byte now and then: they hold nobody up, and are let go of though they never stop."""
        head = posted(self.people[0].link, "call=arrive&row=1&vehicles=5")
        stop, closed = threading.Event(), []

        def drip():
            with socket.create_connection((HOST, self.desk.port), 10) as sending:
                for at in range(len(head)):
                    if stop.wait(0.5):
                        return
                    try:
                        sending.sendall(head[at:at + 1])
                        sending.settimeout(0.001)
                        if sending.recv(1) == b"":
                            break
                    except TimeoutError:
                        continue
                    except OSError:
                        break
                closed.append(1)
        threads = [threading.Thread(target=drip) for _ in range(50)]
        self.addCleanup(stop.set)
        for thread in threads:
            thread.start()
        self.assert_served("50 slow senders")
        end = time.monotonic() + 20
        while len(closed) < len(threads) and time.monotonic() < end:
            time.sleep(0.1)
        self.assertEqual(len(closed), len(threads))
        self.assertEqual(len(self.marker.table("calls.csv")), 1)
        for thread in threads:
            thread.join()

    def test_many_classes(self):
        """Twenty classes to be marked at once: eight are, two at a time, and the others are told to try again."""
        form = "example=course&hints=on"
        answers = []
        threads = [threading.Thread(target=lambda path: answers.append(raw(self.desk.port, posted(path, form), 60)),
                                    args=[("/class", "/open")[i % 2]]) for i in range(20)]
        for thread in threads:
            thread.start()
        self.assert_served("20 classes")
        for thread in threads:
            thread.join()
        statuses = Counter(answer.split()[1] for answer in answers)
        self.assertEqual(set(statuses), {b"303", b"503"})
        self.assertGreaterEqual(statuses[b"303"], 8)
        self.assert_served()

    def test_many_pages(self):
        """Thirty pages of a sheet at once: twelve are made or wait, four at a time, and the others are told to try
        again."""
        form = "sheet64=%s&name=a.evp" % quote(base64.b64encode(sample("districts")).decode())
        answers = []
        threads = [threading.Thread(target=lambda: answers.append(raw(self.desk.port, posted("/day", form), 60)))
                   for _ in range(30)]
        for thread in threads:
            thread.start()
        self.assert_served("30 pages")
        for thread in threads:
            thread.join()
        statuses = Counter(answer.split()[1] for answer in answers)
        self.assertLessEqual(set(statuses), {b"303", b"503"})
        self.assertGreaterEqual(statuses[b"303"], 12)

    def test_foreign_page(self):
        """What the page of another site sends is turned away, though it had a link; what a desk's own page sends is
        taken, and a link to the desk may stand anywhere."""
        call = posted(self.people[0].link, "call=arrive&row=1&vehicles=5")
        for header in (b"Origin: http://evil.example", b"Origin: http://127.0.0.1:1", b"Origin: https://HOST",
                       b"Sec-Fetch-Site: cross-site", b"Sec-Fetch-Site: same-site\r\nOrigin: null"):
            for request in (call, posted("/class", "example=course&hints=on"), posted("/form/save", "form=x")):
                answer = raw(self.desk.port, request.replace(b"\r\n\r\n", b"\r\n%s\r\n\r\n" % header, 1))
                self.assertEqual(answer.split()[1], b"403", header)
        self.assertEqual(self.marker.table("calls.csv"), [])
        own = b"Origin: http://127.0.0.1:%d" % self.desk.port
        for header in (b"Origin: null", own, b"Sec-Fetch-Site: same-origin"):
            answer = raw(self.desk.port, call.replace(b"\r\n\r\n", b"\r\n%s\r\n\r\n" % header, 1))
            self.assertEqual(answer.split()[1], b"303", header)
        link = got(self.people[0].link).replace(b"\r\n\r\n", b"\r\nSec-Fetch-Site: cross-site\r\n\r\n")
        self.assertEqual(raw(self.desk.port, link).split()[1], b"200")

    def test_foreign_host(self):
        for host in (b"evil.example", b"evil.example:%d" % self.desk.port, b"127.0.0.1", b"127.0.0.1:1", b"",
                     b"127.0.0.1.evil", b"localhost:%d.evil" % self.desk.port, b"127.0.0.1:%d@evil" % self.desk.port):
            answer = raw(self.desk.port, b"GET %s HTTP/1.1\r\nHost: %s\r\nConnection: close\r\n\r\n" % (
                self.people[0].link.encode(), host))
            self.assertEqual(answer.split()[1], b"421", host)
            self.assertNotIn(b"row1", answer)
        answer = raw(self.desk.port, b"GET %s HTTP/1.0\r\n\r\n" % self.people[0].link.encode())
        self.assertEqual(answer.split()[1], b"421")
        answer = raw(self.desk.port, b"GET %s HTTP/1.1\r\nHost: LOCALHOST:%d\r\nConnection: close\r\n\r\n" % (
            self.people[0].link.encode(), self.desk.port))
        self.assertEqual(answer.split()[1], b"200")
        self.assert_served()

    def test_paths(self):
        (self.folder / "secret.txt").write_text("not for you")
        link = self.people[0].link
        for path in ("/../secret.txt", "/ledger/../secret.txt", "/ledger/..%2f..%2fsecret.txt", "/%2e%2e/secret.txt",
                     "//secret.txt", link + "/../../../../etc/passwd", link + "/..%2fsheet.evp", "/static/../evp",
                     "/ledger/..\\..\\secret.txt"):
            answer = raw(self.desk.port, got(path))
            self.assertEqual(answer.split()[1], b"404", path)
            self.assertNotIn(b"not for you", answer)
            self.assertNotIn(b"root:x:", answer)
        self.assert_served()

    def test_headers(self):
        """No page may be kept, framed or told of; none has a script of its own or a cookie."""
        for client in (self.marker, self.people[0]):
            answer = client.get()
            headers = dict(answer.headers)
            self.assertEqual(headers["Cache-Control"], "no-store")
            self.assertEqual(headers["Referrer-Policy"], "no-referrer")
            self.assertIn("default-src 'none'", headers["Content-Security-Policy"])
            self.assertIn("frame-ancestors 'none'", headers["Content-Security-Policy"])
            self.assertNotIn("Set-Cookie", headers)
            self.assertNotIn("Server", headers)
            self.assertNotRegex(answer.text, r'(src|href)="(https?:)?//')

    def test_garbage(self):
        for sent in (b"\0" * 100, b"GET\r\n\r\n", b"GET / HTTP/1.1\r\nHost: a\r\nHost: b\r\n\r\n", b"x" * 300_000,
                     b"\x16\x03\x01\x02", b"POST / HTTP/1.1\r\nContent-Length: -5\r\n\r\n",
                     b"GET /ledger/%ff%fe HTTP/1.1\r\n\r\n"):
            with contextlib.suppress(OSError):
                raw(self.desk.port, sent, wait=1)
        self.assert_served()


@unittest.skipUnless(HAS_MODULES, NO_MODULES)
class NamesTest(LedgerTestCase):
    NAME = "<script>alert(1)</script>"

    def test_markup_is_text(self):
        names = [self.NAME, "\"><img src=x>", "{{ 7 * 7 }}", "Zoë & Søn", "a'b", "six", "seven", "eight"]
        rows = ["%d,\"%s\"" % (row, names[row % 8].replace('"', '""')) for row in range(1, ROWS + 1)]
        file = self.put("owners.csv", "row,participant\n" + "\n".join(rows) + "\n")
        desk = self.serve("--new", SHEET, "--owners", file)
        pages = [client.get().text for client in desk.people()]
        for page in pages:
            self.assertNotIn(self.NAME, page)
            self.assertNotIn("<img", page)
        self.assertIn(html.escape(self.NAME), pages[MARKER])
        self.assertIn("{{ 7 * 7 }}", pages[MARKER])
        self.assertEqual(sum(html.escape(self.NAME) in page for page in pages[1:]), 1)

    def test_markup_in_a_class(self):
        """In the names of dropped sheets and in those of filed.csv, over HTTP."""
        desk = self.serve("--new", SHEET)
        names = [self.NAME + ".evp", "\"><img src=x onerror=alert(1)>.evp", "{{ 7 * 7 }}.evp"]
        lines = ["\"%s\",total,,1.0,t" % name.replace('"', '""') for name in (*names, "<b>nobody</b>")]
        files = [*((name, REGION) for name in names),
                 ("<i>filed</i>.csv", ("sheet,row,mechanism,mass,unit\n" + "\n".join(lines) + "\n").encode())]
        for path in ("/class", "/open"):
            answer = desk.client().ask("POST", path, *uploaded(files))
            self.assertEqual(answer.status, 303)
            answer = desk.client().ask("GET", dict(answer.headers)["Location"])
            self.assertEqual(answer.status, 200)
            for sign in ("<script>alert", "<img", "<b>nobody", "<i>"):
                self.assertNotIn(sign, answer.text)
            for name in (self.NAME, "<b>nobody</b>"):
                self.assertIn(html.escape(name), answer.text)
            self.assertIn("{{ 7 * 7 }}", answer.text)
        marker, one, *_ = desk.people()
        self.assertEqual(one.call("arrive", 1, 1).status, 303)

    def test_owners(self):
        for text, said in (
                ("row,participant\n1,a\n", "row 2 has no participant"),
                ("row,participant\n1,a\n1,b\n", "line 3: row 1 is there twice"),
                ("row,participant\n25,a\n", "line 2: row: '25' is none; the sheet has 24 rows"),
                ("row,participant\n" + "9" * 5_000 + ",a\n", "line 2: row: '99999"),
                ("row,participant\n1,=1+2\n", "does not start with ="),
                ("row,participant\n1," + "x" * 41 + "\n", "1 to 40 signs"),
                ("row,participant\n" + "".join("%d,p%d\n" % (row, row) for row in range(1, 25)), "'p9' would be the"),
                ("row;who\n1;a\n", "participant")):
            file = self.put("owners.csv", text)
            self.assertIn(said, self.refused_start("course.db", "--new", SHEET, "--owners", file))
            self.assertFalse(self.file.exists())


class FileTest(LedgerTestCase):
    """A file that is not as it was is said, and nothing is served."""

    def played(self, calls: int = 5) -> dict[int, str]:
        keys = made_ledger(self.file)
        course = CourseLedger(LIBRARY, store.Store(self.file))
        for i in range(calls):
            course.call(1 + i % 8, Wanted("arrive", 1 + i % 8, 10 + i))
        course.close()
        return keys

    def change(self, statement: str, *values):
        with contextlib.closing(sqlite3.connect(self.file)) as db, db:
            db.execute(statement, values)

    @unittest.skipUnless(HAS_MODULES, NO_MODULES)
    def test_mismatch(self):
        for statement, said in (
                ("UPDATE calls SET vehicles = 11 WHERE serial = 1", "lead to another sheet than was kept"),
                ("DELETE FROM calls WHERE serial = 3", "lead to another sheet than was kept"),
                ("UPDATE calls SET number = 29 WHERE serial = 2", "call 2 was answered with number 29, and played"),
                ("UPDATE digests SET words = sheet", "the same counts and other masses"),
                ("DELETE FROM digests", "lead to another sheet than was kept"),
                ("UPDATE calls SET line = 0 WHERE serial = 4", "call 4 is none"),
                ("UPDATE calls SET kind = 'x' WHERE serial = 4", "call 4 is none"),
                ("UPDATE opening SET sheet = substr(sheet, 2)", "does not open the ledger's sheet, refused 2 at 0")):
            self.played()
            self.change(statement)
            said_so = self.refused_start(self.file)
            self.assertIn(said, said_so)
            self.assertIn("nothing is served", said_so)
            self.assert_plain(run("desk", self.file, "--export", self.folder / "now.evp"), 2)
            self.assertFalse((self.folder / "now.evp").exists())
            self.file.unlink()

    def test_damaged(self):
        self.played(200)
        data = bytearray(self.file.read_bytes())
        data[4096 * 3:4096 * 3 + 300] = bytes(300)
        self.file.write_bytes(data)
        with self.assertRaises(InputError):
            CourseLedger(LIBRARY, store.Store(self.file))
        self.file.write_bytes(bytes(data[:3_000]))
        with self.assertRaises(InputError):
            store.Store(self.file)

    def test_no_ledger(self):
        for content, said in ((b"EVP" * 5_000, "no ledger of a course"), (b"", "no ledger of a course")):
            with self.assertRaisesRegex(InputError, said):
                store.Store(self.put("other.db", content))
        with self.assertRaisesRegex(InputError, "there is no such ledger; --new SHEET makes one"):
            store.Store(self.folder / "absent.db")
        for statement in ("DELETE FROM opening", "DELETE FROM people WHERE who = 3", "DROP TABLE people",
                          "UPDATE people SET name = char(27) || '[2J' WHERE who = 3"):
            made_ledger(self.file)
            self.change(statement)
            with self.assertRaisesRegex(InputError, "damaged|no such table"):
                store.Store(self.file)
            self.file.unlink()
        with contextlib.closing(sqlite3.connect(self.folder / "notes.db")) as db, db:
            db.execute("CREATE TABLE calls (a)")
        with self.assertRaisesRegex(InputError, "no ledger of a course"):
            store.Store(self.folder / "notes.db")

    def test_never_written_over(self):
        made_ledger(self.file)
        before = self.file.read_bytes()
        found = run("desk", self.file, "--new", SHEET, "--export", "-")
        self.assert_plain(found, 2)
        self.assertIn("never written over", found.err)
        self.assertEqual(self.file.read_bytes(), before)

    def test_one_desk(self):
        made_ledger(self.file)
        first = store.Store(self.file)
        with self.assertRaisesRegex(InputError, "another desk has it open"):
            store.Store(self.file)
        first.close()
        store.Store(self.file).close()

    def test_too_much(self):
        """What the library does not open is said with the row, and no file is made."""
        rows = layout.row_place(REGION, 0)
        heavy = bytearray(REGION)
        for row in (0, 8):
            heavy[rows + 24 * row + 8:rows + 24 * row + 12] = (6_000_000).to_bytes(4, "little")
        found = run("desk", self.file, "--new", self.put("heavy.evp", bytes(heavy)), "--export", "-")
        self.assert_plain(found, 1)
        self.assertIn("with row 9 participant 1 has 12,000,000 vehicles, and a participant has at most", found.err)
        thousand = sample("districts")
        many = layout.row_count(thousand)
        found = run("desk", self.file, "--new", SAMPLES / "districts.evp", "--export", "-", "--owners", self.put(
            "owners.csv", "row,participant\n" + "".join("%d,one\n" % row for row in range(1, many + 1))))
        if many > 100:
            self.assertIn("row 101 is the 101st of one, and a participant has at most 100", found.err)
        refused = self.put("refused.evp", REGION[:-1])
        self.assertIn("refused 7 at 0", run("desk", self.file, "--new", refused, "--export", "-").err)
        self.assertFalse(self.file.exists())


class DiskFullTest(LedgerTestCase):
    """A call that cannot be kept is refused, and nothing of it is done."""

    def test_no_more_pages(self):
        """SQLite's max_page_count stands in for the disk."""
        made_ledger(self.file)
        pages = self.file.stat().st_size // 4096
        course = CourseLedger(LIBRARY, store.Store(self.file, pages + 1))
        taken = 0
        with self.assertRaisesRegex(NoRoom, "the disk is full where the desk runs"):
            for taken in range(5_000):
                course.call(1, Wanted("arrive", 1, 3))
        self.assertGreater(taken, 50)
        sheet = course.read(MARKER).sheet
        self.assertEqual(layout.row(sheet, 0)["vehicles"], COUNT[1] + 3 * taken)
        self.assertEqual(course.made(1), taken)
        with self.assertRaises(NoRoom):
            course.call(2, Wanted("arrive", 2, 3))
        course.close()
        again = CourseLedger(LIBRARY, store.Store(self.file))
        self.assertEqual(again.read(MARKER).sheet, sheet)
        again.call(2, Wanted("arrive", 2, 3))
        again.close()

    @unittest.skipUnless(HAS_MODULES, NO_MODULES)
    @unittest.skipUnless(sys.platform == "linux" and os.geteuid() == 0, "a small tmpfs is mounted by root alone")
    def test_full_tmpfs(self):
        """A disk of 64 KB: the desk says so, serves pages on, and takes calls again when there is room."""
        disk = self.folder / "disk"
        disk.mkdir()
        mounted = subprocess.run(["mount", "-t", "tmpfs", "-o", "size=64k", "tmpfs", disk], capture_output=True)
        if mounted.returncode:
            self.skipTest("mount is not allowed here")
        self.addCleanup(subprocess.run, ["umount", "-l", disk])
        desk = self.serve("--new", SHEET, file=disk / "course.db")
        marker, one, two, *_ = desk.people()
        (disk / "filler").write_bytes(bytes(8 * 1024))
        taken = 0
        while (answer := one.call("arrive", 1, 3)).status == 303:
            taken += 1
            self.assertLess(taken, 20_000)
        self.assertEqual(answer.status, 507)
        self.assertIn("Not done: the disk", answer.text)
        self.assertIn("Nothing has changed", answer.text)
        sheet = marker.get("/sheet.evp").body
        self.assertEqual(layout.row(sheet, 0)["vehicles"], COUNT[1] + 3 * taken)
        self.assertEqual(report_words(marker), LIBRARY.words(sheet))
        self.assertEqual(two.call("arrive", 2, 3).status, 507)
        self.assertEqual(two.get().status, 200)
        subprocess.run(["mount", "-o", "remount,size=1m", disk], check=True)
        self.assertEqual(two.call("arrive", 2, 3).status, 303)
        desk.kill()
        again = self.serve(file=disk / "course.db")
        self.assertEqual(len(again.client(marker.link).table("calls.csv")), taken + 1)
        again.kill()


class CommandTest(LedgerTestCase):
    def test_missing_modules(self):
        with mock.patch("evp.pages.needs.find_spec", side_effect=lambda name: None if name == "waitress" else True):
            found = run("desk", self.file, "--new", SHEET)
        self.assert_plain(found, 2)
        self.assertEqual(
            found.err, "evp: waitress is missing: sudo apt install python3-flask python3-waitress python3-jinja2\n")
        self.assertFalse(self.file.exists())

    def test_options(self):
        for words, said in (
                (("--new", SHEET), "--new wants a ledger"), (("--export", "x"), "--export wants a ledger"),
                (("course.db", "--owners", "x"), "--owners goes with --new"),
                (("a.db", "--ledger", "b.db"), "two ledgers are named, b.db and a.db")):
            found = run("desk", *words)
            self.assert_plain(found, 2)
            self.assertIn(said, found.err)

    def test_spellings(self):
        """A ledger is named with --ledger or alone."""
        made_ledger(self.file)
        for words in (("--ledger", self.file), (self.file,)):
            self.assert_plain(run("desk", *words, "--export", self.folder / "now.evp", "--force"), 0)
            self.assertEqual((self.folder / "now.evp").read_bytes(), REGION)

    @unittest.skipUnless(HAS_MODULES, NO_MODULES)
    def test_addresses(self):
        for address in ("0.0.0.0", "::", ""):
            self.assertIn("--lan wants one address of this machine", self.refused_start(
                "course.db", "--new", SHEET, "--lan", address))
        self.assertIn("nothing can be served at 203.0.113.7", self.refused_start(
            "course.db", "--new", SHEET, "--lan", "203.0.113.7"))
        with socket.socket() as taken:
            taken.bind((HOST, 0))
            taken.listen()
            found = run("desk", self.file, "--new", SHEET, "--port", taken.getsockname()[1])
        self.assertRegex(found.err, "port [0-9]+ is taken, maybe by another desk; --port N names another")
        self.assertFalse(self.file.exists())

    @unittest.skipUnless(HAS_MODULES and sys.platform == "linux", NO_MODULES)
    def test_loopback_unless_asked(self):
        """Without --lan the desk listens at 127.0.0.1 alone; with it the terminal says what that means."""
        desk = self.serve("--new", SHEET)
        self.assertEqual(listened(desk.port), {"0100007F"})  # the bytes of 127.0.0.1, the lowest first
        self.assertNotIn("plain HTTP", desk.said)
        desk.kill()
        again = self.serve("--lan", "127.0.0.2")
        self.assertEqual(listened(again.port), {"0200007F"})
        self.assertIn("by plain HTTP: whoever can listen to that network", again.said)
        self.assertIn("The keys that were given out hold, at http://127.0.0.2:%d/ledger/KEY." % again.port, again.said)


@unittest.skipUnless(HAS_MODULES, NO_MODULES)
class CoursePageTest(LedgerTestCase):
    """docs/COURSE.md, "The afternoon": its commands print what it says, and its answers are given."""

    BLOCK = re.compile(r"^```text\n\$ \./evp serve (.*)\n((?:.*\n)*?)```$", re.M)
    CALLS = (("arrive", 3, 250), ("depart", 11, 90_000), ("arrive", 3, 10_000_000), ("arrive", 4, 1),
             ("arrive", 3, 9_935_000))

    def setUp(self):
        super().setUp()
        self.page = (TOP / "docs" / "COURSE.md").read_text(encoding="utf-8").partition("\n## The afternoon\n")[2]
        (self.folder / "samples").symlink_to(SAMPLES)

    def shown(self, text: str, port: int) -> list[str]:
        """Without what a run has of its own: the port and the keys."""
        text = text.replace(":%d" % port, ":8765")
        return re.sub("/ledger/[A-Za-z0-9_-]{22}$", "/ledger/..", text, flags=re.M).splitlines()

    def test_commands(self):
        blocks = self.BLOCK.findall(self.page)
        self.assertEqual(len(blocks), 4)
        links = []
        for words, printed in blocks:
            option, file, *rest = shlex.split(words)
            self.assertEqual((option, file), ("--ledger", self.file.name))
            if "--export" in rest:
                found = subprocess.run([sys.executable, TOP / "evp", "serve", option, file, *rest], cwd=self.folder,
                                       text=True, capture_output=True)
                self.assertEqual(found.stdout, printed)
                continue
            desk = self.serve(*rest)
            self.assertEqual(self.shown(desk.said, desk.port), self.shown(printed, 8765))
            links = links or desk.links
            if "--renew" in rest:  # the afternoon comes after this
                for call in self.CALLS[:2]:
                    desk.client(links[3]).call(*call)
            desk.kill()

    def test_answers(self):
        told = re.findall(r"^\| (Done: .*|Refused .*) \| (.*) \|$", self.page, re.M)
        self.assertEqual(len(told), len(self.CALLS))
        three = self.serve("--new", SHEET).people()[3]
        for call, (said, more) in zip(self.CALLS, told):
            three.call(*call)
            self.assertEqual(html.unescape(three.said()), said)
            if said.startswith("Done"):
                self.assertIn(more, three.get().text)


# ------------------------------------------------------------------ requests as bytes


def got(path: str, method: str = "GET") -> bytes:
    return b"%s %s HTTP/1.1\r\nHost: HOST\r\nConnection: close\r\n\r\n" % (method.encode(), path.encode())


def posted(path: str, body: str) -> bytes:
    return (b"POST %s HTTP/1.1\r\nHost: HOST\r\nConnection: close\r\nContent-Length: %d\r\n"
            b"Content-Type: application/x-www-form-urlencoded\r\n\r\n%s" % (path.encode(), len(body), body.encode()))


def uploaded(files: list[tuple[str, bytes]]) -> tuple[bytes, dict[str, str]]:
    """Files as a browser sends them: the body and its headers."""
    parts = (b'--BOUND\r\nContent-Disposition: form-data; name="files"; filename="%s"\r\n\r\n%s\r\n' % (
        name.replace('"', "%22").encode(), data) for name, data in files)
    return b"".join(parts) + b"--BOUND--\r\n", {"Content-Type": "multipart/form-data; boundary=BOUND"}


def listened(port: int) -> set[str]:
    """The addresses at which anyone listens at a port, as the kernel of Linux has them."""
    files = [Path("/proc/net/tcp"), Path("/proc/net/tcp6")]
    lines = [line.split() for file in files if file.exists() for line in file.read_text().splitlines()[1:]]
    places = (line[1].split(":") for line in lines if line[3] == "0A")
    return {address for address, at in places if int(at, 16) == port}


def raw(port: int, request: bytes, wait: float = 10) -> bytes:
    """All bytes of the answer to a request."""
    with socket.create_connection((HOST, port), wait) as connection:
        connection.sendall(request.replace(b"Host: HOST", b"Host: 127.0.0.1:%d" % port))
        parts = []
        while part := connection.recv(65_536):
            parts.append(part)
        return b"".join(parts)


def without_date(answer: bytes) -> bytes:
    return re.sub(rb"\r\nDate: [^\r]*", b"", answer, count=1)


if __name__ == "__main__":
    unittest.main()
