"""Connections that are closed since nothing comes on them (docs/server.md, `--idle`), and an address that is kept while the image is opened."""

import contextlib
import errno
import fcntl
import socket
import time

import common
from pair import HOST, Client, Ended, ServingCases, allow_descriptors, wait_until
from plain_replies import OK, bulk
from spelling import spell

PROGRAMS = ["server"]
IS_SLOW = True
IS_ALONE = True
QUICK = ["Idle.test_a_client_that_vanishes"]

SEATS = 1_024
SECONDS = 2
# A driver looks once a second, or in two; and it comes to that within this time, however busy the machine is.
LATE, SOON = 4 * common.BUSY, 30 * common.BUSY
# How often it is tried to ask now and then: on a busy machine more than that time may pass between two requests, or before one of them is read.
TRIES = 5
LONGEST = 65_536 * "v"


class Idle(ServingCases):
    def setUp(self):
        super().setUp()
        self.nodes.primary.words += ["--idle", f"{SECONDS}"]
        self.nodes.restart(self.nodes.primary)
        self.nodes.wait()

    def test_a_client_that_vanishes(self):
        """It says nothing more, nor that it is gone: its connection is closed, no sooner than it may be."""
        for name, requests in (("silent from the beginning", []), ("silent after a request", [("SET", "a", "1")]), ("within a transaction", [("MULTI",), ("GET", "a")])):
            # (the time is taken before what was read last, since this process may be held up behind it)
            began = time.monotonic()
            with self.case(name), Client(self.nodes.door.number) as client:
                for request in requests:
                    began = time.monotonic()
                    client.ask(*request)
                self.assertEqual(client.socket.recv(1), b"")
                self.assertGreaterEqual(time.monotonic() - began, SECONDS - 0.1)
                self.assert_in_time(time.monotonic() - began, SECONDS + SOON)
        self.assert_serves()

    def test_one_that_asks_now_and_then(self):
        self.assertTrue(any(self.is_served_for_long() for _ in range(TRIES)))

    def is_served_for_long(self):
        """Whether neither of two connections that ask now and then is closed in twice that time. Each reply is right."""
        with contextlib.suppress(Ended, ConnectionError), Client(self.nodes.door.number) as client, Client(self.nodes.door.number) as slow:
            request, sent = spell("SET", "slow", LONGEST[:20]), 0
            for _ in range(8):
                # (bytes of a request that is not whole yet count as well)
                slow.send(request[sent : sent + 5])
                sent += 5
                self.assertEqual(client.ask("PING"), b"+PONG\r\n")
                time.sleep(SECONDS / 4)
            slow.send(request[sent:])
            self.assertEqual(slow.reply(), OK)
            return True
        return False

    def test_one_that_is_slow_to_read(self):
        """Its replies wait for it, more than the system holds of them: it gets them all, however late."""
        count = 400
        with Client(self.nodes.door.number) as writer:
            self.assertEqual(writer.ask("SET", "a", LONGEST), OK)
        with Client(self.nodes.door.number) as client:
            client.send(count * spell("GET", "a"))
            time.sleep(3 * SECONDS + LATE)
            for _ in range(count):
                self.assertEqual(client.reply(), bulk(LONGEST.encode()))

    def test_one_whose_reply_waits(self):
        """For the standby, which is frozen longer than that."""
        with Client(self.nodes.door.number) as client:
            self.assertEqual(client.ask("SET", "a", "1"), OK)
            self.nodes.standby.freeze()
            client.send(spell("SET", "a", "2"))
            self.assertTrue(client.is_silent(3 * SECONDS + LATE))
            self.nodes.standby.thaw()
            self.assertEqual(client.reply(), OK)

    def test_one_whose_request_waits_for_room(self):
        """The image is full of versions that have ended, and the standby, which has to pass them first, is frozen."""
        pair = self.pair(lines=4_096, standby_lines=22_840)
        pair.primary.words += ["--idle", f"{SECONDS}"]
        pair.restart(pair.primary)
        pair.wait()
        client = pair.client()
        self.assertEqual(client.ask("SET", "a", "1"), OK)
        pair.standby.freeze()
        client.send(b"".join(spell("SET", "a", f"{at}") for at in range(600)))
        other = pair.client()
        other.send(spell("SET", "b", "1"))
        self.assertTrue(other.is_silent(3 * SECONDS + LATE))
        pair.standby.thaw()
        self.assertEqual(other.reply(), OK)
        self.assertEqual([client.reply() for _ in range(600)], 600 * [OK])


class AllSeatsTaken(ServingCases):
    def test_who_has_been_idle_for_too_long_goes(self):
        """All 1,024 seats are taken: somebody else gets in once one has been idle for so long, and who asks now and then stays."""
        self.assertTrue(allow_descriptors(SEATS + 200), "this process may not have so many descriptors")
        self.nodes.primary.words += ["--idle", f"{10 * SECONDS}"]
        self.nodes.restart(self.nodes.primary)
        self.nodes.wait()
        # (the first of them is idle from here on, however long the others take to come)
        began = time.monotonic()
        still, others = wait_until(self.nodes.seated_client, "a seat"), []

        def ask_now_and_then():
            for client in others[:: 100]:
                self.assertEqual(client.ask("PING"), b"+PONG\r\n")

        for number in range(1, SEATS):
            others.append(wait_until(self.nodes.seated_client, "a seat"))
            if number % 50 == 0:
                ask_now_and_then()

        def served():
            ask_now_and_then()
            return self.nodes.seated_client()

        wait_until(served, "a seat of one that was idle")
        self.assertGreaterEqual(time.monotonic() - began, 10 * SECONDS - 1)
        self.assertEqual(still.socket.recv(1), b"")
        ask_now_and_then()


class NotAsked(ServingCases):
    def test_nobody_is_closed(self):
        with Client(self.nodes.door.number) as client:
            self.assertEqual(client.ask("PING"), b"+PONG\r\n")
            time.sleep(SECONDS + LATE)
            self.assertEqual(client.ask("PING"), b"+PONG\r\n")


class Addresses(ServingCases):
    def test_an_address_is_kept_while_the_image_is_opened(self):
        """While another holds the image nobody can connect, and nobody else can have the address. Then each that connects is served."""
        for node in (self.nodes.primary, self.nodes.standby):
            with self.case("node", role=node.role):
                node.end()
                with open(node.image, "rb") as image:
                    fcntl.flock(image, fcntl.LOCK_EX)
                    node.start()
                    wait_until(lambda: self.is_taken(node), "an address that is taken")
                    for _ in range(20):
                        self.assertTrue(self.is_taken(node))
                        self.assertEqual(self.connected(node), errno.ECONNREFUSED)
                        self.assertFalse(node.is_listening())
                        time.sleep(0.01)
                self.nodes.wait()
        self.assert_serves()

    def is_taken(self, node):
        with socket.socket() as tried:
            try:
                tried.bind((HOST, node.port.number))
            except OSError as error:
                self.assertEqual(error.errno, errno.EADDRINUSE)
                return True
        return False

    def connected(self, node):
        with socket.socket() as tried:
            return tried.connect_ex((HOST, node.port.number))
