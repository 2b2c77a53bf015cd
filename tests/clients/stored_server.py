"""A server that answers stored replies, for one connection: what comes is compared with what was to come, and what goes out goes out as it is
stored, in the pieces in which it is stored."""

import contextlib
import socket
import struct
import threading
import time

from common import SECONDS

# Between two pieces, so that the other side reads each by itself.
PAUSE_SECONDS = 0.001

# Closes with a reset in place of an end.
RESET = struct.pack("ii", 1, 0)


def cut(data, size):
    """The bytes in pieces of so many."""
    return [data[at:at + size] for at in range(0, len(data), size)]


class StoredServer:
    """Listens on a port of its own. For each pair of a request's bytes and a reply's pieces it reads as many bytes as the request has, and
    sends the pieces; where nothing comes it closes. Then it closes if `closes`, with a reset if `resets`, and otherwise waits until the other side closes."""

    def __init__(self, exchanges, closes=False, resets=False):
        self.exchanges, self.closes, self.resets = exchanges, closes, resets
        # What came for each exchange, and all that came after them.
        self.came, self.rest = [], b""
        self.listener = socket.create_server(("127.0.0.1", 0))
        self.address = "%s:%d" % self.listener.getsockname()
        self.thread = threading.Thread(target=self._serve, daemon=True)

    def __enter__(self):
        self.thread.start()
        return self

    def __exit__(self, *_):
        # (an accept or a read that waits ends, where nobody came or nobody closed)
        with contextlib.suppress(OSError):
            self.listener.shutdown(socket.SHUT_RDWR)
        self.thread.join(SECONDS)
        self.listener.close()

    def _serve(self):
        with contextlib.suppress(OSError):
            connection, _ = self.listener.accept()
            with connection:
                connection.settimeout(SECONDS)
                connection.setsockopt(socket.IPPROTO_TCP, socket.TCP_NODELAY, 1)
                self._exchange(connection)

    def _exchange(self, connection):
        for request, pieces in self.exchanges:
            came = read_bytes(connection, len(request))
            if not came:
                return
            self.came.append(came)
            for piece in pieces:
                connection.sendall(piece)
                if len(pieces) > 1:
                    time.sleep(PAUSE_SECONDS)
        if self.resets:
            connection.setsockopt(socket.SOL_SOCKET, socket.SO_LINGER, RESET)
        elif not self.closes:
            self.rest = read_bytes(connection)


def read_bytes(connection, count=None):
    """So many bytes, or fewer where the other side closes; all up to there without a count."""
    found = bytearray()
    while count is None or len(found) < count:
        piece = connection.recv(65_536 if count is None else min(65_536, count - len(found)))
        if not piece:
            break
        found += piece
    return bytes(found)
