"""Many connections at the same time, and connections whose rings are filled: a ring has 1,024 places for what came and for replies."""

import contextlib
import pathlib
import re
import socket
import threading
import time

from common import TakesTooLong
from pair import HOST, NO_SEAT, PATIENCE, Client, Ended, ServingCases, allow_descriptors, wait_until
from plain_replies import OK, bulk, integer
from spelling import spell
from worked_cases import NULL, PONG

PROGRAMS = ["server"]
IS_SLOW = True

SEATS, THREADS = 1_024, 4
# More requests than a ring has places, and a value of which so many do not fit into what sockets hold.
REQUESTS, VALUE = 2_000, 16_384 * b"v"


def run_threads(*works):
    """Runs these side by side to their ends, and raises what one of them raised."""
    wrong = []

    def run(work):
        try:
            work()
        except BaseException as error:  # (of a thread, to be told by the test)
            wrong.append(error)

    threads = [threading.Thread(target=run, args=(work,), daemon=True) for work in works]
    for thread in threads:
        thread.start()
    for thread in threads:
        thread.join(PATIENCE)
        if thread.is_alive():
            wrong.append(TakesTooLong("a thread that does not end"))
    if wrong:
        raise wrong[0]


class Doors(ServingCases):
    """Connections that come at the same time. It catches a seat that is given twice, or to nobody."""

    def test_four_threads_take_all_seats(self):
        self.assertTrue(allow_descriptors(SEATS + 200), "this process may not have so many descriptors")
        wait_until(self.is_empty, "a pair without connections")
        parts = [[] for _ in range(THREADS)]

        def enter(part):
            for _ in range(SEATS // THREADS):
                part.append(self.nodes.client())
                with contextlib.suppress(ConnectionError):
                    part[-1].send(spell("PING") + spell("INCR", "n"))

        run_threads(*(lambda part=part: enter(part) for part in parts))
        with self.case("each is served"):
            clients = [self.seated(client) for part in parts for client in part]
            self.assertEqual(len(clients), SEATS)
            found = sorted(int(client.reply()[1:]) for client in clients)
            self.assertEqual(found, list(range(1, SEATS + 1)))
        with self.case("one more"), Client(self.nodes.door.number) as one_more:
            self.assertEqual(one_more.read_all(), NO_SEAT)
        with self.case("one leaves, and one more gets in"):
            clients.pop().close()
            self.assertEqual(wait_until(self.nodes.seated_client, "a seat that was given back").ask("INCR", "n"), integer(SEATS + 1))
            with Client(self.nodes.door.number) as one_more:
                self.assertEqual(one_more.read_all(), NO_SEAT)
        with self.case("all leave at the same time, and as many come"):
            run_threads(*(lambda part=part: [client.close() for client in part] for part in parts))
            clients = [wait_until(self.nodes.seated_client, "a seat") for _ in range(SEATS // THREADS)]
            self.assertEqual([client.ask("GET", "n") for client in clients], len(clients) * [bulk(b"%d" % (SEATS + 1))])

    def is_empty(self):
        """Whether the primary has no connection of a client, as the system's table says."""
        table = pathlib.Path("/proc/net/tcp").read_text(encoding="ascii")
        return re.search(rf": \w+:{self.nodes.door.number:04X} \w+:\w+ 0[18] ", table) is None

    def seated(self, client):
        """A connection that is served, before its second reply: this one, or one in its place. (The seat of the connection that was there before all others is
        given back just behind its close, so one of the first may be told that there is none yet.)"""
        found = NO_SEAT
        with contextlib.suppress(Ended, ConnectionError):
            found = client.reply()
        if found == NO_SEAT:
            client = wait_until(self.nodes.seated_client, "the seat of one that left")
            client.send(spell("INCR", "n"))
            found = PONG
        self.assertEqual(found, PONG)
        return client


class ReadingBack(ServingCases):
    """What one connection was answered another reads. It catches a read that is answered from before a write that was."""

    def test_a_thousand_times_under_load(self):
        ended = threading.Event()

        def load(number):
            with Client(self.nodes.door.number) as client:
                while not ended.is_set():
                    rows = [("INCR", f"n{number}"), ("SET", f"other{number}", "v"), ("GET", "a"), ("DEL", f"other{number}")]
                    client.ask_all(4 * rows)

        def read_back():
            try:
                one, other = (self.nodes.client() for _ in range(2))
                for at in range(1_000):
                    self.assertEqual(one.ask("SET", "a", f"{at}"), OK)
                    self.assertEqual(other.ask("GET", "a"), bulk(b"%d" % at))
                    one, other = other, one
            finally:
                ended.set()

        run_threads(read_back, *(lambda number=number: load(number) for number in range(3)))


class FullRings(ServingCases):
    """A ring that is filled, taken from, and offered to again. It catches a place that is lost or used twice where a ring is full or
    wraps around, and a reader that is not woken once there is room."""

    def narrow_client(self):
        """A connection that has little room for what comes."""
        client = self.nodes.client()
        client.close()
        client.socket = socket.socket()
        client.socket.setsockopt(socket.SOL_SOCKET, socket.SO_RCVBUF, 4_096)
        client.socket.settimeout(PATIENCE)
        client.socket.connect((HOST, self.nodes.door.number))
        self.addCleanup(client.close)
        return client

    def test_2000_requests_before_the_first_reply_is_read(self):
        """Three times on one connection; others are served meanwhile."""
        client = self.narrow_client()
        self.assertEqual(client.ask("SET", "long", VALUE), OK)
        for turn in range(3):
            with self.case("turn", turn=turn):
                client.send(b"".join(spell("GET", "long") + spell("INCR", "n") for _ in range(REQUESTS // 2)))
                self.assert_serves(5)
                for at in range(REQUESTS // 2):
                    if at < 5:
                        time.sleep(0.05)
                        self.assert_serves(1)
                    self.assert_bytes(client.reply(), bulk(VALUE))
                    self.assertEqual(client.reply(), integer(turn * REQUESTS // 2 + at + 1))

    def test_2000_requests_behind_a_frozen_standby(self):
        """None of them is answered while it is frozen; then all are. Four times on one connection."""
        client = self.nodes.client()
        for turn in range(4):
            with self.case("turn", turn=turn):
                self.nodes.standby.freeze()
                client.send(b"".join(spell("INCR", "n") for _ in range(REQUESTS)))
                self.assertTrue(client.is_silent())
                self.nodes.standby.thaw()
                for at in range(REQUESTS):
                    self.assertEqual(client.reply(), integer(turn * REQUESTS + at + 1))
        self.assert_serves()

    def test_a_full_ring_that_is_left(self):
        """Its connection leaves with all that it has not read, and its seat serves the next."""
        for _ in range(3):
            client = self.narrow_client()
            self.assertEqual(client.ask("SET", "long", VALUE), OK)
            client.send(REQUESTS * spell("GET", "long"))
            self.assert_serves(3)
            client.close()
        self.assert_serves()
        with self.nodes.client() as client:
            self.assertEqual(client.ask_all(REQUESTS * [("GET", "none")]), REQUESTS * [NULL])
