"""Heads, forms and connections that are made to take time: each is rejected at once, and a participant who works
meanwhile waits for nothing."""

import io
import socket
import time
import unittest
from functools import partial

from desk_support import HAS_MODULES, HOST, NO_MODULES, Desk
from service_support import ServiceTestCase, connected, exchange, head_of, is_closed, leave, posted, status_of
from support import least

HEAD = b"POST /class HTTP/1.1\r\nHost: 127.0.0.1:8765\r\n"
SECONDS = 0.25  # of a processor that a head or a form may take; those below took 0.01 to 117 s before
CALL = b"call=arrive&row=8&vehicles=1"
HEADS = {  # in 32 KB, with the status of the answer
    "an address of digits that does not end": (b"GET http://" + b"1" * 32_000 + b"? ?\r\n\r\n", 400),
    "blanks and a control character": (HEAD + b"a:" + b" " * 32_000 + b"\x01\r\n\r\n", 400),
    "blanks and a letter": (HEAD + b"a:" + b" " * 32_000 + b"x\r\n\r\n", 400),
    "tabulators and a letter": (HEAD + b"a:" + b"\t" * 32_000 + b"x\r\n\r\n", 400),
    "a header in many lines": (HEAD + b"a: b\r\n" + b" x\r\n" * 90 + b"\r\n", 400),
    "8,000 headers": (HEAD + b"a:\r\n" * 8_000 + b"\r\n", 431),
    "chunks": (HEAD + b"Transfer-Encoding: chunked\r\n\r\n", 411),
    "chunks in HTTP/1.0": (HEAD.replace(b"1.1", b"1.0") + b"Transfer-Encoding: chunked\r\n\r\n", 411),
    "chunks and a length": (HEAD + b"Transfer-Encoding: chunked\r\nContent-Length: 5\r\n\r\n", 411),
    "blank lines": (b"\r\n" * 16_000, 400),
    "NUL in the address": (b"GET /\x00 HTTP/1.1\r\nHost: a\r\n\r\n", 400),
    "a length of 5,000 digits": (HEAD + b"Content-Length: " + b"9" * 5_000 + b"\r\n\r\n", 400),
}
PARTS = {  # headers of a part, of 4,000 bytes
    "a quotation mark that is not closed": b'form-data; name="' + b'\\"' * 1_950,
    "one long word": b"form-data; " + b"a" * 3_900,
    "blanks": b"form-data; name=a" + b" " * 3_900 + b'"',
    "semicolons": b"form-data" + b";" * 3_900,
    "stars": b"form-data; name*0=" + b"a*" * 1_900,
    "no name": b"attachment",
}


@unittest.skipUnless(HAS_MODULES, NO_MODULES)
class TimeTest(unittest.TestCase):
    """The time that a head or a form takes by itself; nobody is served while a head is read."""

    def of_head(self, head: bytes, status: int) -> float:
        from waitress.adjustments import Adjustments

        from evp.desk.channel import Parser
        parser = Parser(Adjustments(max_request_header_size=32_768, clear_untrusted_proxy_headers=True))
        began = time.process_time()
        parser.received(head)
        taken = time.process_time() - began
        self.assertTrue(parser.completed)
        self.assertEqual(parser.error.code, status)
        return taken

    def test_heads(self):
        for name, (head, status) in HEADS.items():
            with self.subTest(name):
                self.assertLess(least(partial(self.of_head, head, status), SECONDS), SECONDS)

    def of_form(self, body: bytes) -> float:
        from flask import Flask
        from werkzeug.exceptions import BadRequest

        from evp.desk.form_data import FormParser
        with Flask("a").test_request_context(environ_base={"REMOTE_ADDR": HOST}):
            began = time.process_time()
            with self.assertRaises(BadRequest):
                FormParser().parse(io.BytesIO(body), "multipart/form-data", len(body), {"boundary": "B"})
            return time.process_time() - began

    def test_parts(self):
        for name, disposition in PARTS.items():
            body = b"--B\r\nContent-Disposition: %s\r\n\r\nx\r\n" % disposition * 900 + b"--B--\r\n"
            with self.subTest(name):
                self.assertLess(least(partial(self.of_form, body), SECONDS), SECONDS)

    def test_parts_of_browsers(self):
        """What Firefox, Chromium and curl send is read."""
        from flask import Flask

        from evp.desk.form_data import FormParser
        for disposition, name, file in (
                ('form-data; name="files"; filename="a.evp"', "files", "a.evp"), ('form-data; name="a"', "a", None),
                ('form-data; name="a;b"; filename="=1\\"x\\".evp"', "a;b", '=1"x".evp'),
                ("form-data; name=a; filename=b.csv", "a", "b.csv"), ('form-data;name="a";', "a", None),
                ("form-data; name=\"a\"; filename*=utf-8''%c3%a4.evp", "a", "\u00e4.evp"),
                ('form-data; name="a"; filename=""', "a", "")):
            body = b"--B\r\nContent-Disposition: %s\r\n\r\nx\r\n--B--\r\n" % disposition.encode()
            with Flask("a").test_request_context():
                _, fields, files = FormParser().parse(
                    io.BytesIO(body), "multipart/form-data", len(body), {"boundary": "B"})
            if file is None:
                self.assertEqual(dict(fields), {name: "x"}, disposition)
            else:
                self.assertEqual(files[name].filename, file, disposition)


@unittest.skipUnless(HAS_MODULES, NO_MODULES)
class HostileTest(ServiceTestCase):
    """Over a connection, while participants work."""

    def test_while_participants_work(self):
        desk = self.serve("--patience", 5)
        before = self.files(desk)
        with self.at_work(desk, within=5, people=2):
            for name, (head, status) in HEADS.items():
                self.assertIn(b" %d " % status, exchange(desk.port, head)[:20], name)
            for attack in (self.many_heads, self.blank_lines, self.upgrades, self.calls_and_reset, self.without_end,
                           self.urgent_data):
                attack(desk)
        self.wait_for(lambda: self.files(desk) <= before + 4, 15, "connections stay open")
        self.assertNotIn("failed", desk.said)

    def many_heads(self, desk: Desk):
        """Two hundred of 8,000 headers each, whose last bytes come at once."""
        held = [connected(desk.port, source="127.0.0.9") for _ in range(200)]
        for last in (False, True):
            for connection in held:
                try:
                    connection.sendall(b"\r\n" if last else HEAD + b"a:\r\n" * 8_000)
                except OSError:
                    pass  # it was answered before its end
        for connection in held:
            connection.close()

    def blank_lines(self, desk: Desk):
        for _ in range(100):
            with connected(desk.port) as connection:
                connection.setblocking(False)
                try:
                    connection.send(b"\r\n" * 30_000)
                except OSError:
                    pass

    def upgrades(self, desk: Desk):
        """Nobody is led to another protocol: a websocket is refused, and HTTP/2 is not begun."""
        for status, *more in ((400, "Upgrade: websocket", "Sec-WebSocket-Key: dGhlIHNhbXBsZSBub25jZQ=="),
                              (200, "Upgrade: h2c", "HTTP2-Settings: AAMAAABk")):
            with connected(desk.port) as connection:
                connection.sendall(head_of(desk.port, "/health", "GET", "Connection: Upgrade", *more))
                self.assertEqual(status_of(connection), status)
                connection.sendall(b"\x81\x85\r\n\r\n")
                self.assertEqual(status_of(connection), 400)

    def calls_and_reset(self, desk: Desk):
        """Calls sent ahead by who then resets: each is made once or not at all."""
        one = posted(desk.port, desk.links[8], CALL)
        for _ in range(20):
            connection = connected(desk.port)
            connection.sendall(one * 5)
            leave(connection, True)
        kept = [line for line in desk.client(desk.links[0]).table("calls.csv") if line[0] == "8"]
        self.assertLessEqual(len(kept), 100)

    def without_end(self, desk: Desk):
        kind = "multipart/form-data; boundary=B"
        start = b'--B\r\nContent-Disposition: form-data; name="files"; filename="a.evp"\r\n'
        for body in (b"", b"--B", start, start + b"\r\n" + b"x" * 90_000, start + b"Content-Type: multipart/mixed; "
                     b"boundary=C\r\n\r\n--C\r\n\r\nx\r\n--C--"):
            answer = exchange(desk.port, posted(desk.port, "/class", body, kind, "Connection: close"))
            self.assertIn(b" 400 ", answer[:20], body[:100])

    def urgent_data(self, desk: Desk):
        """A byte of it ends its connection, before the patience does: it would keep the server busy until then."""
        with connected(desk.port) as connection:
            connection.send(b"G")
            began = time.monotonic()
            connection.send(b"!", socket.MSG_OOB)
            self.assertTrue(is_closed(connection, 10))
            self.assertLess(time.monotonic() - began, 4)


if __name__ == "__main__":
    unittest.main()
