"""A front before a node that loses one reply: what a client meets whose primary is lost between a commit and its reply."""

import contextlib
import socket
import threading

from pair import HOST, PATIENCE


class LosingFront:
    """Passes on all that comes, both ways, but of the first request whose bytes hold `word`: what is answered to that it keeps back, and then it ends
    the client's connection. `lost` is what it kept back."""

    def __init__(self, port, word):
        self.port, self.word, self.lost = port, word, b""
        self.is_lost = threading.Event()
        self.door = socket.create_server((HOST, 0))
        self.number = self.door.getsockname()[1]
        self.is_ending = False
        threading.Thread(target=self._accept, daemon=True).start()

    def close(self):
        self.is_ending = True
        with contextlib.suppress(OSError):
            # (which wakes the thread that waits)
            socket.create_connection((HOST, self.number), 1).close()
        self.door.close()

    def _accept(self):
        while not self.is_ending:
            client, _ = self.door.accept()
            threading.Thread(target=self._serve, args=(client,), daemon=True).start()

    def _serve(self, client):
        with contextlib.suppress(OSError), client, socket.create_connection((HOST, self.port)) as node:
            is_losing = threading.Event()
            back = threading.Thread(target=self._pass_back, args=(node, client, is_losing), daemon=True)
            back.start()
            while data := client.recv(65_536):
                if not self.is_lost.is_set() and self.word in data.upper():
                    self.is_lost.set()
                    is_losing.set()
                node.sendall(data)
            node.shutdown(socket.SHUT_WR)
            back.join(PATIENCE)

    def _pass_back(self, node, client, is_losing):
        with contextlib.suppress(OSError):
            while data := node.recv(65_536):
                if is_losing.is_set():
                    self.lost = data
                    client.shutdown(socket.SHUT_RDWR)
                    return
                client.sendall(data)
            client.shutdown(socket.SHUT_WR)
