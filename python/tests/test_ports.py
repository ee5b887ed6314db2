"""The ports at which tests start servers: nobody else gets one meanwhile."""

import errno
import socket
import struct
import unittest

from desk_support import HOST, ReservedPort

RANGE = 51  # IP_LOCAL_PORT_RANGE of Linux 6.3: the ports that a socket may get where it asks for any


def of_one_port(port: int) -> socket.socket:
    """A socket that gets this port or none where it takes any."""
    made = socket.socket()
    try:
        made.setsockopt(socket.IPPROTO_IP, RANGE, struct.pack("=I", port << 16 | port))
    except OSError as error:
        made.close()
        raise unittest.SkipTest("this Linux gives a socket no range of ports of its own") from error
    return made


class PortTest(unittest.TestCase):
    def setUp(self):
        self.server = socket.create_server((HOST, 0))
        self.addCleanup(self.server.close)

    def error(self, port: int, *address: object, reuse: bool = False) -> int | None:
        """Why a socket does not get the port, if it does not: as a connection, or as a server at an address."""
        with of_one_port(port) as tried:
            tried.setsockopt(socket.SOL_SOCKET, socket.SO_REUSEADDR, reuse)
            try:
                tried.bind(address) if address else tried.connect(self.server.getsockname())
            except OSError as error:
                return error.errno
        return None

    def test_reserved(self):
        with ReservedPort() as port:
            self.assertEqual(self.error(port), errno.EADDRNOTAVAIL)
            for reuse in (False, True):
                for host in (HOST, "127.0.0.2", ""):
                    self.assertEqual(self.error(port, host, 0, reuse=reuse), errno.EADDRINUSE)
            self.assertEqual(self.error(port, HOST, port), errno.EADDRINUSE)
        self.assertIsNone(self.error(port))

    def test_given_to_servers(self):
        """One after another, whatever is left of the connections of the one before."""
        with ReservedPort() as port:
            for _ in range(3):
                with socket.create_server((HOST, port)) as server:  # which sets SO_REUSEADDR
                    with socket.create_connection((HOST, port)), server.accept()[0]:
                        self.assertEqual(self.error(port), errno.EADDRNOTAVAIL)


if __name__ == "__main__":
    unittest.main()
