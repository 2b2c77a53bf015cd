"""Clients that pipeline without pause: each sends a SET of a value, if there is one, and an INCR of one counter, over and over. All are one process, other
than the test's, so that what they do takes no time of the test's own clients.

    pipelines.py PORT COUNT LENGTH      for each line that comes it prints how many INCRs of each were answered; it ends where its input ends"""

import contextlib
import selectors
import socket
import subprocess
import sys

from spelling import spell

HOST = "127.0.0.1"
# How many bytes one writes at once, at least.
PIECE = 65_536


class Pipeline:
    """One of them. `answered` counts the replies to its INCRs."""

    def __init__(self, number, port, length):
        batch = (spell("SET", f"key{number}", length * b"v") if length else b"") + spell("INCR", "count")
        self.text = batch * max(1, PIECE // len(batch))
        self.left, self.answered = memoryview(self.text), 0
        self.socket = socket.create_connection((HOST, port))
        self.socket.setblocking(False)

    def go_on(self, events):
        """Reads what has come, and sends what may be sent."""
        if events & selectors.EVENT_READ:
            piece = self.socket.recv(1 << 16)
            if not piece:
                raise ConnectionError("the server ended a pipeline")
            self.answered += piece.count(b":")
        if events & selectors.EVENT_WRITE:
            self.left = self.left[self.socket.send(self.left):] or memoryview(self.text)


class Pipelines:
    """Those of a process."""

    def __init__(self, process):
        self.process = process

    def answered(self):
        """How many INCRs of each were answered so far."""
        self.process.stdin.write("\n")
        self.process.stdin.flush()
        return [int(word) for word in self.process.stdout.readline().split()]


@contextlib.contextmanager
def pipelines(port, count, length):
    """So many of them, which run until this is left."""
    command = [sys.executable, "-B", __file__, str(port), str(count), str(length)]
    with subprocess.Popen(command, stdin=subprocess.PIPE, stdout=subprocess.PIPE, text=True, env={"PYTHONPATH": ":".join(sys.path)}) as process:
        try:
            yield Pipelines(process)
        finally:
            process.kill()


def run(port, count, length):
    """Keeps so many of them busy until the input ends."""
    made = [Pipeline(number, port, length) for number in range(count)]
    with selectors.DefaultSelector() as selector:
        for one in made:
            selector.register(one.socket, selectors.EVENT_READ | selectors.EVENT_WRITE, one)
        selector.register(sys.stdin, selectors.EVENT_READ)
        while True:
            for key, events in selector.select():
                if key.data is not None:
                    key.data.go_on(events)
                elif sys.stdin.readline():
                    print(*(one.answered for one in made), flush=True)
                else:
                    return


if __name__ == "__main__":
    run(*map(int, sys.argv[1:]))
