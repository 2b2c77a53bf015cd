"""Nodes that are refused a connection, a read or memory once in a while: what passes they bear, and where nobody can connect any more they end and say so."""

import contextlib
import errno
import os
import time

import common
from common import run_program
from damaged_frames import SET_A
from faulty_pair import BROKEN
from pair import Client, Ended, PairCases, wait_until
from plain_image import STANDBY
from plain_replies import OK, bulk
from plain_wire import Acknowledgement, text
from plain_writer import Writer
from refused_calls import FOR_EVER, FaultyCases
from standby_node import CANNOT_LISTEN, Node, StandingBy
from test_images import FAILED, LINES
from worked_cases import SET_A as SET_A_REQUEST

PROGRAMS = ["server", "client"]

PONG = b"+PONG\r\n"

# Errors of one connection, or of descriptors and memory, which there may be again; and those of the listener itself.
PASSING = [errno.ECONNABORTED, errno.EMFILE, errno.ENFILE, errno.ENOBUFS, errno.ENOMEM, errno.EPROTO, errno.EPERM, errno.ENETDOWN]
LASTING = [errno.EBADF, errno.EINVAL, errno.ENOTSOCK, errno.EOPNOTSUPP]
# How long a node rests after a refused connection.
PAUSE_SECONDS = 0.1
# More requests for memory than the thread that takes connections makes for the first of them, and how many connections come later.
REQUESTS, LATER = 48, 4


class Refused(FaultyCases, PairCases):
    def setUp(self):
        super().setUp()
        self.refused = self.faults()

    def settings(self):
        """The variables by which a program is refused what was said."""
        return os.environ | self.refused.settings()

    def start(self, nodes, kind, first, last=None, **how):
        """Starts the primary again so that it is refused these calls."""
        nodes.primary.end()
        self.refused.refuse(kind, first, last, **how)
        nodes.primary.before = self.refused.before()
        nodes.primary.errors.unlink()
        nodes.primary.start()

    def restart(self, nodes, *calls, **how):
        """The same, and waits until it listens."""
        self.start(nodes, *calls, **how)
        wait_until(nodes.primary.is_listening, "a primary that listens")

    def assert_told(self, node):
        """It has ended, since nobody can connect."""
        self.assertEqual(node.wait(), FAILED)
        self.assertEqual(common.without_news(node.errors.read_bytes()), CANNOT_LISTEN)


class Connections(Refused):
    def test_a_primary_bears_what_passes(self):
        nodes = self.pair(lines=LINES)
        for number in PASSING:
            with self.case("error", error=errno.errorcode[number]):
                start = time.monotonic()
                self.restart(nodes, "accept", 1, 3, how=number)
                with Client(nodes.door.number) as client:
                    self.assertEqual(client.ask_all([("SET", "a", "1"), ("GET", "a")]), [OK, bulk(b"1")])
                # it rests, and does not try again and again
                self.assertGreaterEqual(time.monotonic() - start, 3 * PAUSE_SECONDS)

    def test_a_primary_to_which_nobody_can_connect_ends(self):
        nodes = self.pair(lines=LINES)
        for number in LASTING:
            with self.case("error", error=errno.errorcode[number], call="first"):
                self.start(nodes, "accept", 1, FOR_EVER, how=number)
                self.assert_told(nodes.primary)
            with self.case("error", error=errno.errorcode[number], call="second"):
                self.restart(nodes, "accept", 2, FOR_EVER, how=number)
                # (the second call is made once there was a connection)
                with Client(nodes.door.number):
                    self.assert_told(nodes.primary)

    def test_a_pair_within_one_process(self):
        """Both of its listeners are refused the call, so it ends and says that its connections broke."""
        for number, wanted in [(errno.EMFILE, (0, OK, b"")), (errno.EINVAL, (FAILED, b"", BROKEN))]:
            with self.case("error", error=errno.errorcode[number]):
                self.refused.refuse("accept", 1, 4 if wanted[0] == 0 else FOR_EVER, how=number)
                self.assertEqual(run_program("server", stdin=SET_A_REQUEST, env=self.settings()), wanted)


class Dials(Refused):
    """A connection to somebody else that cannot be made: the cause is told, and it is tried again."""

    CAUSES = [
        (errno.EMFILE, b'no descriptor is left for a connection: see "A connection that cannot be taken" in docs/server.md'),
        (errno.ENFILE, b'no descriptor is left for a connection: see "A connection that cannot be taken" in docs/server.md'),
        (errno.ENOMEM, b"refusal 14: out of memory"),
        (errno.ECONNREFUSED, b"nobody takes a connection"),
    ]

    def test_a_primary_that_dials_its_standby(self):
        nodes = self.pair(lines=LINES)
        for number, cause in self.CAUSES:
            with self.case("error", error=errno.errorcode[number]):
                self.restart(nodes, "connect", 1, 3, how=number)
                with Client(nodes.door.number) as client:
                    self.assertEqual(client.ask("SET", "a", "1"), OK)
                line = b"no link to %s: %s\n" % (nodes.link.address().encode(), cause)
                wait_until(lambda line=line: line in nodes.primary.errors.read_bytes(), "the cause")
                self.assertEqual(nodes.primary.errors.read_bytes().count(line), 1, nodes.primary.errors.read_bytes())

    def test_the_client_program(self):
        for number, told in [(errno.EMFILE, b"no descriptor is left"), (errno.ENFILE, b"no descriptor is left"), (errno.ECONNREFUSED, b"nobody takes one there")]:
            with self.case("error", error=errno.errorcode[number]):
                self.refused.refuse("connect", 1, how=number)
                finished = run_program("client", ["--connect", "127.0.0.1:1", "PING"], env=self.settings())
                self.assertEqual(finished, (75, b"", b"no connection: %s\n" % told))


class Links(Refused, StandingBy):
    def test_a_standby_bears_what_passes(self):
        for number in PASSING:
            with self.case("error", error=errno.errorcode[number]), self.folder() as folder:
                writer = Writer(LINES, STANDBY)
                path = self.made(folder, writer.words)
                start = time.monotonic()
                self.refused.refuse("accept", 1, 3, how=number)
                with Node(path, env=self.settings()) as node:
                    self.assertEqual(node.exchange(SET_A), b"".join(text(Acknowledgement(1, at)) for at in (0, 1)))
                    self.assertIsNone(node.child.poll())
                self.assertGreaterEqual(time.monotonic() - start, 3 * PAUSE_SECONDS)

    def test_a_standby_to_which_nobody_can_connect_ends(self):
        for number in LASTING:
            with self.case("error", error=errno.errorcode[number]), self.folder() as folder:
                path = self.made(folder, Writer(LINES, STANDBY).words)
                self.refused.refuse("accept", 2, FOR_EVER, how=number)
                with Node(path, env=self.settings()) as node:
                    self.assertEqual(node.ended(), (FAILED, b"", CANNOT_LISTEN))

    def test_a_read_that_a_signal_interrupts_is_made_again(self):
        with self.folder() as folder:
            path = self.made(folder, Writer(LINES, STANDBY).words)
            self.refused.refuse("taken_recv", 2, FOR_EVER, every=2, how=errno.EINTR)
            with Node(path, env=self.settings()) as node:
                for before in (0, 1, 1):
                    self.assertEqual(node.exchange(SET_A), b"".join(text(Acknowledgement(1, at)) for at in (before, 1)))


class Reads(Refused):
    def test_a_read_that_a_signal_interrupts_is_made_again(self):
        nodes = self.pair(lines=LINES)
        for every in (2, 3):
            with self.case("every", every=every):
                self.restart(nodes, "taken_recv", every, FOR_EVER, every=every, how=errno.EINTR)
                with Client(nodes.door.number) as client:
                    for turn in range(20):
                        value = b"%d" % turn
                        self.assertEqual(client.ask("SET", "a", value), OK)
                        self.assertEqual(client.ask("GET", "a"), bulk(value))

    def test_a_read_of_the_link_that_a_signal_interrupts_is_made_again(self):
        """The link is opened once, and stays."""
        nodes = self.pair(lines=LINES, has_number=True)
        for first in (1, 2):
            with self.case("first", first=first):
                self.restart(nodes, "recv", first, FOR_EVER, every=2, how=errno.EINTR)
                with Client(nodes.door.number) as client:
                    for turn in range(20):
                        self.assertEqual(client.ask("SET", "a", b"%d" % turn), OK)
                wait_until(lambda: b"link open to " in nodes.primary.errors.read_bytes(), "a link that is told")
                told = nodes.primary.errors.read_bytes()
                self.assertEqual((told.count(b"link open to "), told.count(b" lost: "), told.count(b"no link to ")), (1, 0, 0), told)


class Memory(Refused):
    """The thread that takes connections is refused memory once. That connection may be closed, and all others are served on."""

    def is_served(self, client):
        """Whether a connection is served, and not closed for want of memory."""
        try:
            return client.ask("PING") == PONG
        except (Ended, ConnectionError):
            return False

    def test_each_request_for_memory_in_turn(self):
        nodes = self.pair(lines=LINES)
        for number in range(1, REQUESTS + 1):
            with self.case("request", number=number):
                self.restart(nodes, "acceptor_memory", number)
                with Client(nodes.door.number) as first, Client(nodes.door.number) as second, Client(nodes.door.number) as third:
                    served = [self.is_served(client) for client in (first, second, third)]
                    with contextlib.suppress(OSError):
                        first.end_sending()
                        first.read_all()
                    # (it is closed, or is so soon)
                    for _ in range(LATER):
                        with Client(nodes.door.number) as later:
                            served.append(self.is_served(later))
                self.assertGreaterEqual(sum(served), len(served) - 1, served)
