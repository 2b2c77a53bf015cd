"""A primary with few descriptors (`ulimit -n`): clients never take those that it wants for itself, and who is gone gives its own back (docs/server.md, "A
connection that cannot be taken")."""

import contextlib
import os
import pathlib
import re
import socket
import struct
import time

from pair import NO_SEAT, PATIENCE, Client, PairCases, allow_descriptors, wait_until
from plain_replies import OK, bulk
from spelling import spell
from worked_cases import PONG

PROGRAMS = ["server"]
IS_SLOW = True
QUICK = ["Few.test_a_standby_that_comes_back"]

# The least that a node serves with, and what most shells give it.
LIMITS = [64, 1_024]
KEPT = 32
NO_DESCRIPTOR = b"no descriptor is left"
TOLD = re.compile(rb"(?m)^room for (\d+) clients: the limit of open files is (\d+): ")
# For so long one waits for a client that may never be accepted.
SOON = PATIENCE / 4
# More clients come than there can be.
MORE = 40


class FewDescriptors(PairCases):
    """Tests over a pair of which both nodes have few descriptors."""

    def try_each_limit(self, work):
        """Does this with a pair for each limit, and with how many clients it has room for."""
        self.assertTrue(allow_descriptors(LIMITS[-1] + 300), "this process may not have so many descriptors")
        for limit in LIMITS:
            with self.case("limit", limit=limit), contextlib.closing(self.pair(descriptors=limit, has_number=True)) as pair:
                work(pair, limit - KEPT)

    def crowd(self, pair, count):
        """So many connections, whether or not they are accepted."""
        return [pair.client() for _ in range(count)]

    def end_standby(self, pair):
        """Ends the standby. The primary had a link, and knows that it is lost, when this returns."""
        with pair.client() as client:
            self.assertEqual(client.ask("SET", "b", "1"), OK)
        pair.standby.end()
        wait_until(lambda: b" lost: " in pair.primary.errors.read_bytes(), "a link that is lost")

    def start_standby(self, pair):
        pair.standby.start(pair.descriptors)
        wait_until(pair.standby.is_listening, "a standby that listens")


class Few(FewDescriptors):
    def test_how_many_there_is_room_for(self):
        """It is told at the start. So many clients are served, one more is told so, and one comes in where another left."""

        def work(pair, room):
            told = wait_until(lambda: TOLD.search(pair.primary.errors.read_bytes()), "a line that tells of the room")
            self.assertEqual(tuple(map(int, told.groups())), (room, room + KEPT))
            clients = [wait_until(pair.seated_client, "room") for _ in range(room)]
            with Client(pair.door.number, SOON) as one_more:
                self.assertEqual(one_more.read_all(), NO_SEAT)
            self.assertEqual([client.ask("PING") for client in clients], room * [PONG])
            clients[0].close()
            self.assertEqual(wait_until(pair.seated_client, "room that was given back").ask("SET", "a", "1"), OK)
            self.assertLessEqual(len(os.listdir(f"/proc/{pair.primary.process.pid}/fd")), room + KEPT // 2)

        self.try_each_limit(work)

    def test_nothing_is_told_where_there_is_room_for_all(self):
        pair = self.pair()
        self.assertNotIn(b"room for", pair.primary.errors.read_bytes())

    def test_a_standby_that_comes_back(self):
        """Clients take all descriptors that they may while it is away. The primary connects to it nevertheless, and answers."""

        def work(pair, room):
            self.end_standby(pair)
            clients = self.crowd(pair, room + MORE)
            for client in clients:
                client.send(spell("SET", "a", "1"))
            time.sleep(0.5)
            self.start_standby(pair)
            self.assertEqual([client.reply() for client in clients[:room]], room * [OK])
            for client in clients[room:]:
                client.socket.settimeout(SOON)
                # (what it is told may be lost, since its request was never read)
                with contextlib.suppress(ConnectionResetError):
                    self.assertEqual(client.read_all(), NO_SEAT)
            self.assertNotIn(NO_DESCRIPTOR, pair.primary.errors.read_bytes())

        self.try_each_limit(work)


class Gone(FewDescriptors):
    """Clients that leave while the standby is away."""

    def fill(self, pair, room):
        """So many clients of which each waits for a reply, after which there is no room for one more."""
        clients = self.crowd(pair, room)
        for client in clients:
            client.send(spell("SET", "a", "1"))
        with Client(pair.door.number, SOON) as one_more:
            self.assertEqual(one_more.read_all(), NO_SEAT)
        self.assertTrue(all(client.is_silent(0) for client in clients))
        return clients

    def test_others_have_their_room(self):
        """Whether they reset their connections, or end them as a client does that gave up."""
        pair, room = self.pair(descriptors=LIMITS[0]), LIMITS[0] - KEPT
        self.end_standby(pair)
        clients = self.fill(pair, room)
        with self.case("reset"):
            for client in clients:
                client.socket.setsockopt(socket.SOL_SOCKET, socket.SO_LINGER, struct.pack("ii", 1, 0))
                client.close()
            clients = self.fill(pair, room)
        with self.case("closed"):
            for client in clients:
                client.close()
            clients = self.fill(pair, room)
        with self.case("who is left is answered"):
            self.start_standby(pair)
            self.assertEqual([client.reply() for client in clients], room * [OK])
        clients[0].close()
        self.assertEqual(wait_until(pair.seated_client, "room that was given back").ask("GET", "a"), bulk(b"1"))

    def test_who_only_ends_its_sending_side_is_answered(self):
        """It is no client that is gone, while there is room for others."""
        pair = self.pair(descriptors=LIMITS[0])
        self.end_standby(pair)
        clients = self.crowd(pair, 4)
        for client in clients:
            client.send(spell("SET", "a", "1"))
            client.end_sending()
        self.assertTrue(clients[0].is_silent(1.5))
        self.start_standby(pair)
        self.assertEqual([client.read_all() for client in clients], len(clients) * [OK])

    def test_each_client_is_asked_whether_it_is_there(self):
        """By its system, when nothing comes from it: so says the system's table of the primary's sockets, whose timers are of that kind."""
        pair = self.pair(descriptors=LIMITS[0])
        clients = self.crowd(pair, 3)
        self.assertEqual([client.ask("PING") for client in clients], len(clients) * [PONG])
        table = pathlib.Path("/proc/net/tcp").read_text(encoding="ascii")
        door = f"0100007F:{pair.door.number:04X}"
        rows = [row.split() for row in table.splitlines()]
        timers = [row[5].partition(":")[0] for row in rows if row[1] == door and row[3] == "01"]
        self.assertEqual(timers, len(clients) * ["02"])
