"""The versions of waitress, Werkzeug and Flask that the server was tested with, and methods of theirs that it
changes."""

import hashlib
import inspect
import sys
import unittest

from desk_support import HAS_MODULES, NO_MODULES, Desk
from service_support import CHANGED, ServiceTestCase
from support import SAMPLES

from evp.desk import versions

OTHER = """
import importlib.metadata as metadata
real = metadata.version
metadata.version = lambda name: "9.0" if name == "waitress" else real(name)
"""
DIGESTS = {  # of the source of each, as Debian 12 has it
    "waitress.buffers.OverflowableBuffer.append": "c809e391a4e6",
    "waitress.channel.HTTPChannel.__init__": "a194769af3fd",
    "waitress.channel.HTTPChannel._flush_outbufs_below_high_watermark": "27a2b75117ab",
    "waitress.channel.HTTPChannel._flush_some": "fe7a9a752a41",
    "waitress.channel.HTTPChannel.handle_close": "8f59b9aaa455",
    "waitress.channel.HTTPChannel.handle_read": "5f1fb08c95aa",
    "waitress.channel.HTTPChannel.handle_write": "6c900f395b30",
    "waitress.channel.HTTPChannel.readable": "e4722238ce60",
    "waitress.channel.HTTPChannel.received": "08d6df73fb69",
    "waitress.channel.HTTPChannel.send_continue": "842ebf929f6d",
    "waitress.channel.HTTPChannel.service": "f73afa13748e",
    "waitress.channel.HTTPChannel.writable": "d0cbd4ae1b3b",
    "waitress.channel.HTTPChannel.write_soon": "496db22908cf",
    "waitress.parser.HTTPRequestParser.parse_header": "056969079319",
    "waitress.parser.HTTPRequestParser.received": "5bbf291608ac",
    "waitress.parser.crack_first_line": "e93cfb7105e9",
    "waitress.parser.get_header_lines": "968a7db45a59",
    "waitress.parser.split_uri": "2959428735d4",
    "waitress.server.BaseWSGIServer.__init__": "bf855dde9389",
    "waitress.server.BaseWSGIServer.add_task": "19e994eb9cc9",
    "waitress.server.BaseWSGIServer.handle_accept": "e12ad874d45a",
    "waitress.server.BaseWSGIServer.maintenance": "4ab5b7f595bc",
    "waitress.server.BaseWSGIServer.readable": "4eea9c1036b5",
    "waitress.server.BaseWSGIServer.run": "f6d4f8a820ec",
    "waitress.server.TcpWSGIServer.set_socket_options": "7eb2e6462054",
    "waitress.task.ErrorTask.execute": "5e5ba040e936",
    "waitress.task.Task.build_response_header": "6a5c81709942",
    "waitress.task.ThreadedTaskDispatcher.add_task": "1028105a9aed",
    "waitress.task.ThreadedTaskDispatcher.handler_thread": "fe586964e3f0",
    "waitress.task.ThreadedTaskDispatcher.shutdown": "f2550ddbfb8d",
    "waitress.wasyncore.dispatcher.accept": "f74c690fd884",
    "waitress.wasyncore.dispatcher.close": "dd4afafdd011",
    "waitress.wasyncore.dispatcher.handle_error": "e25212b7acb0",
    "waitress.wasyncore.dispatcher.handle_expt": "75e972a21a13",
    "waitress.wasyncore.dispatcher.handle_expt_event": "ff216795f27f",
    "waitress.wasyncore.poll2": "f2ea2bd150ff",
    "waitress.wasyncore.readwrite": "2467235cc3f4",
    "werkzeug.sansio.multipart.MultipartDecoder._parse_headers": "26544a0f74dd",
    "werkzeug.sansio.multipart.MultipartDecoder.next_event": "2145fc298462",
    "werkzeug.wrappers.request.Request._load_form_data": "8f64d777c40f",
    "werkzeug.wrappers.request.Request.make_form_data_parser": "c0c9d74d8f10",
}


@unittest.skipUnless(HAS_MODULES, NO_MODULES)
class VersionTest(ServiceTestCase):
    """The methods of others that the server changes or relies on are those that were read."""

    def internals(self) -> dict[str, object]:
        from waitress import buffers, channel, parser, server, task, wasyncore
        from werkzeug import wrappers
        from werkzeug.sansio import multipart
        base, conn, loop = server.BaseWSGIServer, channel.HTTPChannel, wasyncore
        found = [
            base.__init__, base.readable, base.handle_accept, base.maintenance, base.add_task, base.run,
            server.TcpWSGIServer.set_socket_options, conn.__init__, conn.readable, conn.writable, conn.handle_read,
            conn.handle_write, conn.received, conn.send_continue, conn.service, conn.write_soon, conn._flush_some,
            conn._flush_outbufs_below_high_watermark, conn.handle_close, parser.HTTPRequestParser.received,
            parser.HTTPRequestParser.parse_header, parser.get_header_lines, parser.crack_first_line, parser.split_uri,
            task.ErrorTask.execute, task.Task.build_response_header, task.ThreadedTaskDispatcher.handler_thread,
            task.ThreadedTaskDispatcher.add_task, task.ThreadedTaskDispatcher.shutdown,
            buffers.OverflowableBuffer.append,
            loop.poll2, loop.readwrite, loop.dispatcher.accept, loop.dispatcher.close, loop.dispatcher.handle_error,
            loop.dispatcher.handle_expt, loop.dispatcher.handle_expt_event,
            wrappers.Request.make_form_data_parser, wrappers.Request._load_form_data,
            multipart.MultipartDecoder._parse_headers, multipart.MultipartDecoder.next_event,
        ]
        return {"%s.%s" % (one.__module__, one.__qualname__): one for one in found}

    def test_internals(self):
        found = {name: hashlib.sha256(inspect.getsource(one).encode()).hexdigest()[:12]
                 for name, one in self.internals().items()}
        other = sorted(name for name in {*found, *DIGESTS} if found.get(name) != DIGESTS.get(name))
        self.assertEqual(other, [], "read these again, with what channel.py, server.py and form_data.py make of them; "
                         "then note the digests that are here: %s" % {name: found.get(name) for name in other})

    def test_tested_versions_are_here(self):
        self.assertEqual(versions.found_versions(), versions.TESTED)

    def test_sentence(self):
        self.assertEqual(versions.difference(versions.TESTED), "")
        self.assertEqual(
            versions.difference({**versions.TESTED, "waitress": "3.0.2", "Flask": ""}),
            "this server was tested with waitress 2.1.2, Werkzeug 2.2.2 and Flask 2.2.2; here is waitress 3.0.2 and "
            "Flask of an unknown version: try a page and a call before others use it")

    def test_said_at_start(self):
        desk = self.serve(before=(sys.executable, "-c", CHANGED % OTHER))
        self.assertIn("evp: this server was tested with waitress 2.1.2, Werkzeug 2.2.2 and Flask 2.2.2; here is "
                      "waitress 9.0: try a page", desk.said)
        self.assertEqual(desk.client(desk.links[1]).call("arrive", 1, 1).status, 303)
        again = Desk(self.folder / "other.db", "--new", SAMPLES / "region.evp")
        self.addCleanup(again.close)
        self.assertNotIn("tested with", again.said)


if __name__ == "__main__":
    unittest.main()
