"""What stands between a primary and its standby, and passes on what comes either way: the base of what holds a link, or cuts it."""

import contextlib
import socket
import threading

from pair import HOST, Port, wait_until


class Between:
    """Takes connections at a port of its own. `standby` is the port of the node behind it, which may change; `open` has the connections that there are."""

    def __init__(self, standby):
        self.standby, self.open = standby, []
        self.port, self.door = Port(), socket.socket()
        self.door.setsockopt(socket.SOL_SOCKET, socket.SO_REUSEADDR, 1)
        self.door.bind((HOST, self.port.number))
        self.door.listen()
        threading.Thread(target=self._take_connections, daemon=True).start()

    def close(self):
        self.cut()
        shut(self.door)
        self.door.close()
        self.port.close()

    def cut(self):
        """Ends the connections that there are."""
        for end in self.open:
            shut(end)

    def _connect(self):
        """A connection to the standby, for one of the primary's, which is refused where this fails."""
        return socket.create_connection((HOST, self.standby))

    def _take_connections(self):
        with contextlib.suppress(OSError):
            while True:
                primary, _ = self.door.accept()
                try:
                    standby = self._connect()
                except OSError:
                    primary.close()
                    continue
                self.open = [*(it for it in self.open if it.fileno() >= 0), primary, standby]
                for one, other, is_primary in ((primary, standby, True), (standby, primary, False)):
                    other.setsockopt(socket.IPPROTO_TCP, socket.TCP_NODELAY, 1)
                    threading.Thread(target=self._run, args=(one, other, is_primary), daemon=True).start()

    def _run(self, one, other, is_primary):
        """Passes on what comes on one connection to the other, and ends both with it."""
        with contextlib.suppress(OSError):
            self._pass_on(one, other, is_primary)
        shut(one)
        shut(other)


def put_between(nodes, between):
    """Starts the primary of a pair again, to send by way of this."""
    primary = nodes.primary
    primary.end()
    primary.words[primary.words.index("--link") + 1] = between.port.address()
    primary.start()
    wait_until(primary.is_listening, "a primary that listens")


def shut(end):
    """Ends a connection, also where another thread waits on it."""
    with contextlib.suppress(OSError):
        end.shutdown(socket.SHUT_RDWR)
