"""A connection to a node, as a client has it."""

import contextlib
import select
import socket

import common
from spelling import spell

HOST = "127.0.0.1"
# What is waited for comes within this time; else the test has failed. It is for a machine that is busy with other things, and slower than most.
PATIENCE = 180 * common.BUSY


class Ended(Exception):
    """The other side has closed the connection."""


class Client:
    """One connection. What is sent and what comes are bytes; each wait has its bound."""

    def __init__(self, port, seconds=PATIENCE):
        self.socket = socket.create_connection((HOST, port), timeout=seconds)
        self.socket.setsockopt(socket.IPPROTO_TCP, socket.TCP_NODELAY, 1)
        self.come = bytearray()

    def __enter__(self):
        return self

    def __exit__(self, *_):
        self.close()

    def close(self):
        self.socket.close()

    def send(self, data):
        self.socket.sendall(data)

    def ask(self, *words):
        """The reply to one request, as its bytes."""
        self.send(spell(*words))
        return self.reply()

    def ask_all(self, rows):
        """The replies to many requests that are sent in one piece."""
        return self.ask_all_spelled([spell(*row) for row in rows])

    def ask_all_spelled(self, requests):
        """The same, of requests that are spelled already."""
        self.send(b"".join(requests))
        return [self.reply() for _ in requests]

    def reply(self):
        """The bytes of the next reply."""
        end = self._end_of_reply(0)
        return self._take(end)

    def _end_of_reply(self, at):
        """Where the reply that begins here ends."""
        end = self._end_of_line(at)
        kind, count = self.come[at:at + 1], self.come[at + 1:end - 2]
        if kind == b"$" and int(count) >= 0:
            end += int(count) + 2
            self._need(end)
        for _ in range(int(count) if kind == b"*" else 0):
            end = self._end_of_reply(end)
        return end

    def _end_of_line(self, at):
        while (place := self.come.find(b"\r\n", at)) < 0:
            self._receive()
        return place + 2

    def _need(self, length):
        while len(self.come) < length:
            self._receive()

    def _receive(self):
        piece = self.socket.recv(1 << 18)
        if not piece:
            raise Ended(f"with {bytes(self.come[:200])!r} left")
        self.come += piece

    def _take(self, length):
        taken = bytes(self.come[:length])
        del self.come[:length]
        return taken

    def read(self, length):
        """The next bytes, exactly so many."""
        self._need(length)
        return self._take(length)

    def read_all(self):
        """All bytes until the other side closes its sending side."""
        with contextlib.suppress(Ended):
            while True:
                self._receive()
        return self._take(len(self.come))

    def end_sending(self):
        self.socket.shutdown(socket.SHUT_WR)

    def is_silent(self, seconds=0.2):
        """Whether nothing has come and nothing comes within this time."""
        return not self.come and not select.select([self.socket], [], [], seconds)[0]
