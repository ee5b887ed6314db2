"""Requests that are none: codecs, boundaries, versions, lengths. Each is answered with its status, at once, without a
line on the terminal, and with the headers of every answer."""

import re
import sys
import threading
import time
import unittest
from pathlib import Path

from desk_support import HAS_MODULES, HOST, NO_MODULES, Desk
from service_support import SHEET, ServiceTestCase, asked, exchange, head_of, posted, quick_folder

TAKE_FORMS = ("/open", "/class", "/sheet", "/day", "/parking", "/species", "/fuels", "/cells", "/pool", "/form",
              "/form/read", "/form/save", "/sheet/save")
CODECS = ("punycode", "foo", "hex", "mbcs", "idna", "utf-7", "utf-16", "unicode_escape", "base64", "rot13", "cp437",
          "latin-1", "utf-8-sig", "")
SAME = ("Cache-Control", "Content-Security-Policy", "Cross-Origin-Opener-Policy", "Cross-Origin-Resource-Policy",
        "Referrer-Policy", "X-Content-Type-Options", "X-Frame-Options")


def part(disposition: str, kind: str = "", content: bytes = b"x") -> bytes:
    """A form of one part."""
    more = "Content-Type: %s\r\n" % kind if kind else ""
    return b"--b\r\nContent-Disposition: form-data; %s\r\n%s\r\n%s\r\n--b--\r\n" % (
        disposition.encode(), more.encode(), content)


def status(answer: bytes) -> int:
    return int(answer.split()[1]) if answer else 0


def headers_of(answer: bytes) -> dict[str, str]:
    lines = answer.partition(b"\r\n\r\n")[0].decode("latin-1").split("\r\n")[1:]
    return dict(line.split(": ", 1) for line in lines)


@unittest.skipUnless(HAS_MODULES, NO_MODULES)
class RequestTestCase(ServiceTestCase):
    """Tests with one server, whose terminal is looked at."""

    desk: Desk

    @classmethod
    def setUpClass(cls):
        folder = quick_folder()
        cls.addClassCleanup(folder.cleanup)
        cls.desk = Desk(Path(folder.name) / "course.db", "--new", SHEET)
        cls.addClassCleanup(cls.desk.close)

    def setUp(self):
        super().setUp()
        self.said = self.desk.said

    def form(self, path: str, body: bytes, kind: str = "multipart/form-data; boundary=b") -> bytes:
        return asked(self.desk.port, posted(self.desk.port, path, body, kind))

    def assert_quiet(self):
        """Nothing was printed for it, and the server serves on."""
        self.assertEqual(self.desk.said, self.said)
        self.assertEqual(self.desk.client(self.desk.links[1]).call("arrive", 1, 1).status, 303)


class FormTest(RequestTestCase):
    def test_codecs(self):
        """A part that names a codec is rejected before it is decoded, on every address that takes a form."""
        for path in (*TAKE_FORMS, self.desk.links[1]):
            for codec in ("punycode", "foo", "hex"):
                answer = self.form(path, part('name="filed"', "text/plain; charset=" + codec))
                self.assertEqual(status(answer), 400, (path, codec))
        for codec in CODECS:
            for body in (part('name="filed"', 'text/plain; charset="%s"' % codec),
                         part('name="files"; filename="a.evp"', "text/plain; charset=" + (codec or "''")),
                         part("name=\"files\"; filename*=%s''a" % (codec or "x")),
                         part("name=\"files\"; filename*0*=%s''a" % (codec or "x")),
                         part("name*=%s''a" % (codec or "x"))):
                answer = self.form("/sheet", body)
                self.assertEqual(status(answer), 400, (codec, body))
                self.assertIn(b"did not understand", answer, (codec, body))
        self.assert_quiet()

    def test_codecs_of_a_form(self):
        for kind in ("multipart/form-data; boundary=b; charset=punycode", "multipart/form-data; boundary*=foo''b",
                     "multipart/form-data; boundary*0*=punycode''b", "application/x-www-form-urlencoded; charset=hex",
                     "multipart/form-data; boundary=b; x=" + "y" * 300):
            self.assertEqual(status(self.form("/sheet", part('name="example"', "", b"region"), kind)), 400, kind)
        self.assert_quiet()

    def test_utf_8(self):
        """What browsers and programs send is taken."""
        for body in (part('name="example"', "", b"region"), part('name="example"', "text/plain", b"region"),
                     part('name="example"', "text/plain; charset=UTF-8", b"region"),
                     part('name="example"', "text/plain;charset=us-ascii", b"region")):
            self.assertEqual(status(self.form("/sheet", body)), 303, body)  # to the address of the result
        region = b"EVP" + bytes(100)
        for name in ('filename="a*b\'c.evp"', "filename*=UTF-8''%C3%A9.evp", 'filename="é.evp"'):
            answer = self.form("/sheet", part('name="files"; ' + name, "application/octet-stream", region))
            self.assertEqual(status(answer), 303, name)  # to the page of a sheet that is refused
        answer = self.form("/sheet", "example=region&x=%C3%A9&y=%ff".encode(), "application/x-www-form-urlencoded")
        self.assertEqual(status(answer), 303)
        self.assert_quiet()

    def test_boundaries(self):
        for kind in ("multipart/form-data; boundary=", 'multipart/form-data; boundary=""', "multipart/form-data",
                     "multipart/form-data; boundary=" + "b" * 71, "multipart/form-data; boundary=\xe9"):
            for path in (*TAKE_FORMS, self.desk.links[1]):
                self.assertEqual(status(self.form(path, part('name="example"', "", b"region"), kind)), 400,
                                 (kind, path))
        for body in (b"", b"--b", b"--b\r\n\r\n", b"--b\r\nx\r\n\r\n--b--",
                     b"--b\r\nContent-Disposition: form-data\r\n",
                     b"--b\r\nContent-Disposition\xff: form-data\r\n\r\n\r\n--b--", part("x" * 5_000)):
            self.assertEqual(status(self.form("/sheet", body)), 400, body[:60])
        self.assert_quiet()

    def test_too_much(self):
        """What would take minutes or gigabytes takes a moment."""
        long = 3_900_000
        tries = {
            "a part in punycode": (part('name="x"', "text/plain; charset=punycode", b"a" * long), 400),
            "a part of a field": (part('name="x"', "", b"a" * long), 413),
            "many parts": (b"--b\r\nContent-Disposition: form-data; name=x\r\n\r\n\r\n" * 60_000 + b"--b--\r\n", 413),
            "a header of a part": (b"--b\r\n" + b"a:\n" * (long // 3) + b"\r\n\r\nx\r\n--b--\r\n", 400),
            "no boundary": (b"\r\n" * (long // 2), 400),
            "almost a boundary": (b"--b\r\nContent-Disposition: form-data; name=\"files\"; filename=\"a\"\r\n\r\n"
                                  + b"\r\n--bx" * (long // 6), 400),
            "a header and no more": (b"--b\r\nContent-Disposition: form-data; " + b"x=;" * 1_300 + b"\r\n\r\n", 400),
        }
        for what, (body, wanted) in tries.items():
            began = self.processor(self.desk)
            self.assertEqual(status(self.form("/class", body)), wanted, what)
            self.assertLess(self.processor(self.desk) - began, 2, what)
        began = self.processor(self.desk)
        self.assertEqual(status(self.form("/class", b"a&" * (long // 2), "application/x-www-form-urlencoded")), 413)
        self.assertLess(self.processor(self.desk) - began, 2)
        self.assertLess(self.memory(self.desk), 200)
        self.assert_quiet()

    def test_many_at_once(self):
        """Forms of 4 MB and of 950 KB in punycode, 32 of each, while participants work."""
        bodies = [(b"a&" * 1_950_000, "application/x-www-form-urlencoded"),
                  (part('name="x"', "text/plain; charset=punycode", b"a" * 950_000), "multipart/form-data; boundary=b")]
        statuses = []
        threads = [threading.Thread(target=lambda *body: statuses.append(status(self.form("/class", *body))), args=body)
                   for body in bodies * 32]
        with self.at_work(self.desk, within=5):
            time.sleep(0.3)
            for thread in threads:
                thread.start()
            for thread in threads:
                thread.join()
        print("64 long forms: the longest call meanwhile %.2f s" % self.longest, file=sys.stderr)
        self.assertLessEqual(set(statuses), {400, 413, 503})
        self.assertEqual(len(statuses), 64)


class AnswerTest(RequestTestCase):
    def answers(self) -> dict[int, list[bytes]]:
        """Answers of every kind, from waitress and from the application, by their status."""
        port, link = self.desk.port, self.desk.links[1]
        requests = [
            head_of(port, "/"), head_of(port, "/form"), head_of(port, "/health"), head_of(port, link),
            head_of(port, self.desk.links[0] + "/sheet.evp"), head_of(port, "/", "HEAD"),
            posted(port, link, b"call=arrive&row=1&vehicles=1"), posted(port, link, b"call=none"),
            posted(port, "/form/check", b"{"), posted(port, "/sheet", b"", "multipart/form-data; boundary="),
            posted(port, link, b"call=arrive", "text/plain", "Origin: http://evil.example"),
            head_of(port, link + "/report.csv"), head_of(port, "/nothing"), head_of(port, "/", "DELETE"),
            head_of(port, "/", "OPTIONS"), posted(port, "/health", b""), posted(port, link, b"x" * 5_000),
            posted(port, link, b"call=arrive&row=1&vehicles=1&own=7"),
            head_of(port, "/").replace(HOST.encode(), b"evil.example"),
            head_of(port, "/class", "POST", "Content-Length: 10000000"),
            head_of(port, "/class", "POST", "Content-Length: x"), head_of(port, "/", "get"),
            head_of(port, "/", "GET", "A bad header"), head_of(port, "/", "GET", "X: " + "y" * 40_000),
            head_of(port, "/class", "POST", "Transfer-Encoding: gzip"), b"GET /\r\n\r\n", b"\x16\x03\x01\r\n\r\n",
            head_of(port, "/class", "POST", "Transfer-Encoding: chunked") + b"zz\r\n",
            head_of(port, "/").replace(b"HTTP/1.1", b"HTTP/9.9"), head_of(port, "/").replace(b"HTTP/1.1", b"HTTP/2.0"),
            head_of(port, "/").replace(b"HTTP/1.1", b"HTTP/1.2"),
        ]
        found: dict[int, list[bytes]] = {}
        for request in requests:
            answer = asked(port, request)
            found.setdefault(status(answer), []).append(answer)
        return found

    def test_headers_of_every_answer(self):
        found = self.answers()
        self.assertEqual(set(found), {200, 303, 400, 403, 404, 405, 409, 411, 413, 421, 431, 501, 505})
        for answers in found.values():
            for answer in answers:
                self.assertEqual(set(SAME) - set(headers_of(answer)), set(), answer[:300])
                self.assertEqual(headers_of(answer)["X-Content-Type-Options"], "nosniff")
                self.assertIn("no-store", headers_of(answer)["Cache-Control"])
                self.assertNotIn(b"waitress", answer)
                self.assertNotIn(b"Werkzeug", answer)
        self.assert_quiet()

    def test_versions_of_http(self):
        port = self.desk.port
        for version, wanted in ((b"1.1", 200), (b"1.0", 200), (b"1.2", 505), (b"2.0", 505), (b"0.9", 505),
                                (b"9.9", 505), (b"1.1.1", 505), (b"11", 505)):
            answer = asked(port, head_of(port, "/health").replace(b"HTTP/1.1", b"HTTP/" + version))
            self.assertEqual(status(answer), wanted, version)
        for line in (b"GET http://[ HTTP/1.1", b"POST http://[a HTTP/1.1", b"GET /health", b"GET /health HTTP/",
                     b"GET /health HTTP/one", b"GET", b"x" * 100):
            answer = exchange(port, line + b"\r\nHost: %s:%d\r\n\r\n" % (HOST.encode(), port))
            self.assertEqual(status(answer), 400, line)

    def test_nothing_behind_an_error(self):
        """What is behind a request that is rejected is not taken for another request."""
        port, link = self.desk.port, self.desk.links[1]
        call = posted(port, link, b"call=arrive&row=1&vehicles=1")
        before = len(self.desk.client(self.desk.links[0]).table("calls.csv"))
        for bad in (head_of(port, "/").replace(b"HTTP/1.1", b"HTTP/9.9"), b"GET /\r\n\r\n",
                    head_of(port, "/class", "POST", "Content-Length: 10000000")):
            answers = exchange(port, bad + call)
            self.assertEqual(len(re.findall(rb"HTTP/1\.[01] \d", answers)), 1, bad)
        self.assertEqual(len(self.desk.client(self.desk.links[0]).table("calls.csv")), before)


if __name__ == "__main__":
    unittest.main()
