"""A pair whose nodes run with a library that refuses single calls of theirs (refused_calls), a client whose requests are tried with calls refused, and a
bystander that is to be served whatever becomes of that one."""

import contextlib
import errno
import time

from common import TakesTooLong, drawn, tell, without_news
from pair import PATIENCE, Client, Ended, PairCases, allow_descriptors, wait_until
from plain_image import MORE_LINES
from plain_machine import SEATS
from plain_replies import OK, bulk, elements, integer
from plain_starved import REFUSED, Settled, replies_in
from refused_calls import FaultyCases
from spelling import read

# What a node says last that was refused memory, and one whose image could not be written; and a pair within one process that lost a connection of its own.
NO_MEMORY, FAULT, BROKEN = b"refusal 14: out of memory\n", b"refusal 1: device fault\n", b"broken connection\n"
FAILED, PASSING = 1, 75
# How long a request waits before it is asked by another connection: at first, and at most where it was asked again and again, as on a busy machine.
ASKED_SECONDS, MOST_ASKED_SECONDS = 0.5, 10


def status_after(told):
    """The status behind these last words: memory may be there another time, and so may a connection."""
    return PASSING if told.endswith(NO_MEMORY) or b"connection" in told else FAILED


def map_of(client):
    """All records of the keys that rows name, as a connection reads them."""
    found = {}
    for key in (b"a", b"b", b"c", b"h"):
        kind = client.ask("TYPE", key)
        if kind == b"+string\r\n":
            found[(key,)] = client.ask("GET", key)
        if kind == b"+hash\r\n":
            pairs = elements(client.ask("HGETALL", key))
            found |= {(key, place): pair for place, pair in enumerate(pairs)}
    return found


def told(records):
    """The same of a map from names to values, for hashes of one field."""
    found = {}
    for name, value in records.items():
        found |= {name: bulk(value)} if len(name) == 1 else {(name[0], 0): bulk(name[1]), (name[0], 1): bulk(value)}
    return found


class FaultyPair(FaultyCases, PairCases):
    """Tests over such a pair. `KINDS` names the calls that a test refuses."""

    def faulty_pair(self, lines):
        """A new one, with the faults of each node by its role; the standby has more lines."""
        nodes = self.pair(lines=lines, standby_lines=lines + MORE_LINES, has_number=True)
        self.by_role = {node.role: self.faults(f"{node.role}.{id(nodes)}") for node in (nodes.standby, nodes.primary)}
        for node in (nodes.primary, nodes.standby):
            node.end()
            node.before = self.by_role[node.role].before()
        for node in (nodes.standby, nodes.primary):
            node.start(nodes.descriptors)
        nodes.wait()
        self.counter = 0
        return nodes

    def ask_all(self, nodes, data):
        """All that a connection is told which sends these bytes and nothing more, as far as it comes."""
        with Client(nodes.door.number) as client:
            try:
                client.send(data)
                client.end_sending()
                return client.read_all()
            except (Ended, OSError) as ended:
                # (the other side has closed)
                if isinstance(ended, TimeoutError):
                    raise
                return bytes(client.come)

    def assert_replies(self, data, output, is_single):
        """What came is right, or refuses memory, and is broken off where the connection was ended. Returns what became of it, and the maps that may be left."""
        items, (replies, _) = read(data).items, replies_in(output)
        pair, answered, maps = Settled(replies), b"", []
        for number, item in enumerate(items):
            if number >= len(replies):
                maps.append(told(pair.map))
            answered += pair.serve(item)
        maps.append(told(pair.map))
        self.assertTrue(answered.startswith(output), (output[-200:], answered[-200:]))
        refused = output.count(REFUSED)
        if is_single:
            self.assertLessEqual(refused, 1)
        kind = "ended the connection" if output != answered else "were answered" if refused else "were made good"
        return kind, maps

    def assert_stands_by(self, bystander):
        """A connection that was there before counts on."""
        self.counter += 1
        self.assertEqual(bystander.ask("INCR", "bystander"), integer(self.counter))

    def assert_serves(self, nodes):
        """A new connection writes and reads."""
        with nodes.client() as client:
            self.assertEqual(client.ask_all([("SET", "other", "1"), ("GET", "other")]), [OK, bulk(b"1")])

    def try_row(self, nodes, faults, data, is_single, bystander):
        """One row, of which calls are refused as was said before. Returns what became of it."""
        output = self.ask_all(nodes, data)
        has_hit = any(faults.refused(kind) for kind in self.KINDS)
        for kind in self.KINDS:
            faults.end(kind)
        kind, maps = self.assert_replies(data, output, is_single)
        if not has_hit:
            self.assertEqual(kind, "were made good")
        self.assert_stands_by(bystander)
        self.assert_serves(nodes)
        with nodes.client() as client:
            found = map_of(client)
            # (of several that were refused, some may be behind the end of the connection)
            if is_single or kind != "ended the connection":
                self.assertIn(found, maps)
            self.assertEqual(client.ask("DEL", "a", "b", "c", "h", "other")[:1], b":")
        return kind if has_hit else "came too late"

    def assert_seats(self, nodes):
        """As many connections as there are seats are served beside the bystander: none of those that were refused anything has kept its own."""
        if allow_descriptors(SEATS + 256):
            with contextlib.ExitStack() as held:
                # (one that has just left gives its seat back a moment later)
                for _ in range(SEATS - 1):
                    held.enter_context(wait_until(nodes.seated_client, "a seat"))

    def assert_same(self, nodes):
        """Both images hold the same."""
        first, second = self.assert_positions(nodes)
        self.assertEqual(first, second)
        self.assertEqual(nodes.primary.read_image().map, nodes.standby.read_image().map)

    def ended(self, node):
        """Waits until a node has ended, and returns why it did. Its last words may be missing: as it ends it waits a second for them to be written."""
        status = node.wait()
        words = without_news(node.errors.read_bytes())
        if not words:
            raise TakesTooLong(f"the last words of a {node.role} that ended with {status}")
        return status, words

    def fill(self, nodes):
        """Some records, of which some have ended."""
        with nodes.client() as client:
            client.ask_all([("SET", "a", "1"), ("HSET", "h", "f", "1"), ("SET", "a", "2"), ("DEL", "h")])

    def sweep_starts(self, nodes, role, kind, count, last_words, how, is_final=False):
        """A node that opens its image again, of which one of `count` calls of this kind is refused: it ends with these last words, or serves where that is not
        final; and started once more it serves and has lost nothing."""
        node, faults, counted = getattr(nodes, role), self.by_role[role], {}
        for number in drawn(f"starting {role} {kind} {how}", range(1, count + 1)):
            with self.case("start", role=role, kind=kind, how=how, number=number):
                node.end()
                faults.refuse(kind, number, how=how)
                has_ended = self.ends_or_serves(nodes, node, number)
                faults.end(kind)
                has_hit = faults.refused(kind)
                # (it may be hit behind the first answer)
                has_ended = has_ended or is_final and has_hit > 0
                found = "ended the node" if has_ended else "let it serve" if has_hit else "came too late"
                counted[found] = counted.get(found, 0) + 1
                if has_ended:
                    self.assertEqual(self.ended(node), (status_after(last_words), last_words))
                    self.assertFalse(self.ends_or_serves(nodes, node, number))
                with nodes.client() as client:
                    self.assertEqual(client.ask("GET", "a"), bulk(b"2"))
        tell(f"a {role} that starts, {kind} with {errno.errorcode.get(how, 'short')}", counted)

    def ends_or_serves(self, nodes, node, number):
        """Starts a node again, and waits until it has ended or a change was answered; whether it ended."""
        node.errors.unlink(missing_ok=True)
        node.start(nodes.descriptors)
        end, seconds = time.monotonic() + PATIENCE, ASKED_SECONDS
        while time.monotonic() < end:
            if not node.is_running():
                return True
            if self.is_answered(nodes, number, seconds):
                return False
            time.sleep(0.002)
            seconds = min(1.2 * seconds, MOST_ASKED_SECONDS)
        raise TakesTooLong(f"the {node.role} neither ends nor serves: {node.errors.read_bytes()!r}")

    def is_answered(self, nodes, number, seconds):
        """Whether a change is answered within so many seconds."""
        try:
            with Client(nodes.door.number, seconds) as client:
                return client.ask("SET", "start", f"{number}") == OK
        except (Ended, OSError):
            return False

    def wait_for(self, node):
        wait_until(node.is_listening, f"a {node.role} that listens")
