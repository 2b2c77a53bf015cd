"""Who waits is woken: a reply goes out when it may, and not at the look that a driver takes once a second; and the last replies go out before
a connection ends."""

import subprocess
import sys
import threading
import time

from pair import Client, ServingCases
from plain_replies import OK, integer
from spelling import spell
from test_crowds import run_threads
from worked_cases import NO_STAR

PROGRAMS = ["server"]
IS_SLOW = True
IS_ALONE = True

# A reply takes 5 to 60 ms on a machine that is busy. Where a wake is lost, it takes up to a second.
SECONDS = 0.1
ASKED = 200
# Of so many at most one in ten may take longer, and as many more as the same number of wakes took of two processes beside that only wake one another: a machine
# that is busy with other things stops a process now and then. Where it was busier with one than with the other it is tried again.
MOST_LATE, TRIES = ASKED // 10, 3
# How often a request and its reply wake somebody: the thread that serves, a driver, the committer, the link, and on the standby two of them, and back.
WAKES = 10
ECHO = "import os\nwhile it := os.read(0, 1): os.write(1, it)"
# How many others there are, and how many requests each sends in one piece.
OTHERS, PIECE = 8, 16
# Connections that end at once, and how many follow one another in a thread.
THREADS, TURNS, LONGEST = 8, 60, 24


class Latency(ServingCases):
    """How long one client's SET takes. It catches a wake that is lost: of the thread that serves, of the committer, of the link or of a driver."""

    def assert_soon(self):
        """One client's SETs are answered soon."""
        found = []
        with subprocess.Popen([sys.executable, "-ISc", ECHO], stdin=subprocess.PIPE, stdout=subprocess.PIPE, bufsize=0) as echo:
            for _ in range(TRIES):
                found.append(self.late(echo))
                if found[-1][0] <= MOST_LATE + found[-1][1]:
                    return
        self.fail(f"so many of {ASKED} replies were late, and so many of as many wakes: {found}")

    def late(self, echo):
        """How many of a client's SETs are late, and how often as many wakes of another process are."""
        replies = wakes = 0
        with Client(self.nodes.door.number) as client:
            for at in range(ASKED):
                begun = time.monotonic()
                self.assertEqual(client.ask("SET", "one", f"{at}"), OK)
                replied = time.monotonic()
                for _ in range(WAKES // 2):
                    echo.stdin.write(b".")
                    echo.stdout.read(1)
                replies, wakes = replies + (replied - begun > SECONDS), wakes + (time.monotonic() - replied > SECONDS)
                # (there is no need to look at more)
                if replies > 2 * MOST_LATE + wakes:
                    break
        return replies, wakes

    def test_alone(self):
        self.assert_soon()

    def test_beside_others_that_are_silent(self):
        clients = [self.nodes.client() for _ in range(20 * OTHERS)]
        self.assertEqual([client.ask("SET", "a", "v") for client in clients], len(clients) * [OK])
        self.assert_soon()

    def test_beside_others_that_ask(self):
        ended = threading.Event()

        def ask(number):
            with Client(self.nodes.door.number) as client:
                while not ended.is_set():
                    found = client.ask_all(PIECE * [("SET", f"other{number}", "v")])
                    self.assertEqual(found, PIECE * [OK])
                    # (so that the threads in between sleep, and have to be woken)
                    time.sleep(0.01)

        def measure():
            try:
                self.assert_soon()
            finally:
                ended.set()

        run_threads(measure, *(lambda number=number: ask(number) for number in range(OTHERS)))


class ShortPipelines(ServingCases):
    """Connections whose requests end as soon as they are sent. It catches a last reply, or a last request, that is lost where a connection ends."""

    # What ends the requests, what is answered to that, and whether the client says that it sends no more.
    ENDS = {
        "the end of what is sent": (b"", b"", True),
        "a fault": (b"P", NO_STAR, False),
        "both": (b"P", NO_STAR, True),
    }

    def one(self, key, count, last, reply, is_ended):
        """One connection asks for the numbers up to this count, and its requests end. It is answered all of them."""
        with Client(self.nodes.door.number) as client:
            client.send(b"".join(count * [spell("INCR", key)]) + last)
            if is_ended:
                client.end_sending()
            self.assert_bytes(client.read_all(), b"".join(map(integer, range(1, count + 1))) + reply)

    def test_all_replies_come(self):
        for end, row in self.ENDS.items():

            def ask(thread, end=end, row=row):
                for turn in range(TURNS):
                    self.one(f"{end} {thread} {turn}", 1 + turn % LONGEST, *row)

            with self.case(end):
                run_threads(*(lambda thread=thread: ask(thread) for thread in range(THREADS)))
