"""What is large, over sockets and on both nodes: frames and free lists above 1,024 changes, read from the standby's image once it is promoted, values
that replies share with the keyspace, and replies above a mebibyte through wbl-cli. The lists of changes, of frees and of a frame grow past the room that they begin with."""

import struct

import plain_journal
from common import run_program
from pair import LINES, PairCases, wait_until
from plain_image import LAYOUT
from plain_replies import OK, QUEUED, array, bulk, integer, simple
from spelling import MOST_WORDS, spell

PROGRAMS = ["server", "client"]
IS_SLOW = True

# The requests of a transaction, at most, and the keys that each MSET here has.
REQUESTS, KEYS = 256, 20
# Images whose entries hold 2,000 records twice, and not three times.
RECORDS, FEW_LINES = 2_000, 8 * 4_096


def position_in(image):
    """The position in the current record of an image whose node runs (docs/image.md)."""
    data = plain_journal.read_file(image)
    words = struct.unpack_from("<8Q", data)
    return struct.unpack_from("<2Q", data, 8 * LAYOUT.slot_word(words[2], words[LAYOUT.root_word]))[1]


class Large(PairCases):
    def start(self, lines=LINES):
        self.nodes = self.pair(lines=lines)
        self.client = self.nodes.client()

    def fail_over(self):
        """Only what the standby holds is left."""
        self.nodes.fail_over()
        self.client = self.nodes.client()

    def run_transaction(self, rows):
        """The replies of its requests."""
        found = self.client.ask_all([("MULTI",), *rows, ("EXEC",)])
        self.assertEqual(found[:-1], [OK, *len(rows) * [QUEUED]])
        return found[-1]

    def assert_values(self, keys, value_of):
        """Each key has this value, and there is no other key."""
        for at in range(0, len(keys), MOST_WORDS - 1):
            some = keys[at:at + MOST_WORDS - 1]
            self.assert_bytes(self.client.ask("MGET", *some), array([bulk(value_of(key)) for key in some]))
        self.assertEqual(self.client.ask("DBSIZE"), integer(len(keys)))


class Frames(Large):
    """One EXEC of 5,120 changes is one frame. It catches a standby that takes a frame in part, or cuts it at a limit of its own."""

    ALL = [f"k{at:05}" for at in range(REQUESTS * KEYS)]

    def rows(self, value_of):
        """As many MSETs as a transaction may have, of each key once."""
        cut = [self.ALL[at:at + KEYS] for at in range(0, len(self.ALL), KEYS)]
        return [("MSET", *(word for key in keys for word in (key, value_of(key)))) for keys in cut]

    def test_on_the_standby(self):
        self.start(lines=2 * LINES)
        for turn in ("first", "second"):
            with self.case("turn", turn=turn):
                value_of = lambda key: f"{turn} of {key}".encode()
                self.assertEqual(self.run_transaction(self.rows(value_of)), array(REQUESTS * [OK]))
                self.fail_over()
                self.assert_values(self.ALL, value_of)
        self.assertEqual(self.assert_positions(self.nodes), (2, 2))

    def test_of_a_delta(self):
        """The standby is away, and the primary is opened again: one frame tells of all that it lacks."""
        self.start(lines=2 * LINES)
        self.assertEqual(self.client.ask("MSET", *(word for key in self.ALL[:100] for word in (key, "old"))), OK)
        self.nodes.standby.end()
        value_of = lambda key: f"new of {key}".encode()
        found = self.client.ask_all([("MULTI",), *self.rows(value_of)])
        self.assertEqual(found, [OK, *REQUESTS * [QUEUED]])
        self.client.send(spell("EXEC"))
        wait_until(lambda: position_in(self.nodes.primary.image) == 2, "an EXEC that is durable")
        self.assertTrue(self.client.is_silent())
        self.nodes.restart(self.nodes.primary)
        self.nodes.standby.start()
        self.nodes.wait()
        self.client = self.nodes.client()
        self.assert_values(self.ALL, value_of)
        self.fail_over()
        self.assert_values(self.ALL, value_of)
        self.assertEqual(self.assert_positions(self.nodes), (2, 2))


class Values(Large):
    """Values about as long as those that a reply shares with the keyspace: alone, beside small ones, in arrays, and replaced or removed while their
    replies wait. It catches a part of a reply that is lost, sent twice or put elsewhere, and a value that changes under its reply."""

    LENGTHS = (0, 1, 32_767, 32_768, 32_769, 65_536)

    def setUp(self):
        super().setUp()
        self.start(lines=131_072)
        self.values = {f"v{length}": (f"{length} of {length} " * 8_192).encode()[:length] for length in self.LENGTHS}

    def ask_each(self, rows, replies):
        """All in one send, and then one at a time."""
        self.assertEqual(self.client.ask_all(rows), replies)
        self.assertEqual([self.client.ask(*row) for row in rows], replies)

    def test_of_strings(self):
        keys, bulks = list(self.values), [bulk(value) for value in self.values.values()]
        self.assertEqual(self.client.ask("MSET", *(word for pair in self.values.items() for word in pair)), OK)
        self.ask_each([("GET", key) for key in keys], bulks)
        self.ask_each([("MGET", *keys, *reversed(keys)), ("PING",)], [array([*bulks, *reversed(bulks)]), simple(b"PONG")])
        self.ask_each([("ECHO", value) for value in self.values.values()], bulks)
        self.assertEqual(self.run_transaction([("GET", key) for key in keys] + [("MGET", *keys)]), array([*bulks, array(bulks)]))

    def test_of_hashes(self):
        fields = sorted(self.values)
        pairs = [word for field in fields for word in (field, self.values[field])]
        self.assertEqual(self.client.ask("HSET", "h", *pairs), integer(len(fields)))
        wanted = array([bulk(word if isinstance(word, bytes) else word.encode()) for word in pairs])
        self.ask_each([("HGETALL", "h"), ("HVALS", "h")], [wanted, array([bulk(self.values[field]) for field in fields])])

    def test_of_replies_that_wait(self):
        """Each reply has the value of its time."""
        old, new = self.values["v65536"], self.values["v32768"]
        rows = [("SET", "k", old), ("GET", "k"), ("SET", "k", new), ("GET", "k"), ("APPEND", "k", b"x"), ("GET", "k"), ("GETDEL", "k"), ("GET", "k")]
        replies = [OK, bulk(old), OK, bulk(new), integer(len(new) + 1), bulk(new + b"x"), bulk(new + b"x"), b"$-1\r\n"]
        self.assertEqual(self.client.ask_all(20 * rows), 20 * replies)


class FreeLists(Large):
    """One EXEC ends 2,000 versions. It catches room that does not come back on a node, the standby's seen once it serves: five turns need
    more entries than there are."""

    def set(self, keys, value):
        """The transaction that makes all of these this value."""
        cut = [keys[at:at + 500] for at in range(0, len(keys), 500)]
        rows = [("MSET", *(word for key in some for word in (key, value))) for some in cut]
        self.assertEqual(self.run_transaction(rows), array(len(rows) * [OK]))

    def remove(self, keys):
        cut = [keys[at:at + 500] for at in range(0, len(keys), 500)]
        found = self.run_transaction([("DEL", *some) for some in cut])
        self.assertEqual(found, array([integer(len(some)) for some in cut]))

    def check(self, turn):
        """Five turns of this, which returns the keys that are left and their value; then once more where the standby is promoted."""
        self.start(FEW_LINES)
        for number in range(5):
            with self.case("turn", number=number):
                keys, value = turn(number)
                self.assert_values(keys, lambda _: value.encode())
        self.fail_over()
        with self.case("promoted"):
            self.assert_values(keys, lambda _: value.encode())
            for number in range(5, 7):
                keys, value = turn(number)
                self.assert_values(keys, lambda _: value.encode())
        first, second = self.assert_positions(self.nodes)
        self.assertEqual(first, second)

    def test_of_overwriting(self):
        keys = [f"k{at:05}" for at in range(RECORDS)]

        def turn(number):
            self.set(keys, f"{number}")
            return keys, f"{number}"

        self.check(turn)

    def test_of_removing(self):
        """2,000 keys are removed, and 2,000 others written."""
        def turn(number):
            keys = [f"{number}.{at:05}" for at in range(RECORDS)]
            self.set(keys, f"{number}")
            if number:
                self.remove([f"{number - 1}.{at:05}" for at in range(RECORDS)])
            return keys, f"{number}"

        self.check(turn)

    def test_of_a_hash(self):
        """One DEL of a hash of 2,000 fields ends as many versions."""
        def turn(number):
            words = [[word for at in range(first, first + 500) for word in (f"f{at:05}", f"{number}")] for first in range(0, RECORDS, 500)]
            self.assertEqual(self.run_transaction([("HSET", f"h{number}", *some) for some in words]), array(4 * [integer(500)]))
            self.assertEqual(self.client.ask("HLEN", f"h{number}"), integer(RECORDS))
            self.assert_bytes(self.client.ask("HVALS", f"h{number}"), array(RECORDS * [bulk(b"%d" % number)]))
            self.assertEqual(self.client.ask("SET", "a", f"{number}"), OK)
            self.assertEqual(self.client.ask("DEL", f"h{number}"), integer(1))
            return ["a"], f"{number}"

        self.check(turn)


class Printed(Large):
    """Replies above a mebibyte through wbl-cli. It catches a client that stops at the end of a piece, or of a buffer."""

    def test_hgetall_of_40_values_of_65536_bytes(self):
        self.start()
        values = {f"f{at:02}": bytes([0x61 + at % 26]) * 65_536 for at in range(40)}
        for field, value in values.items():
            self.assertEqual(self.client.ask("HSET", "h", field, value), integer(1))
        finished = run_program("client", ["--connect", self.nodes.door.address(), "HGETALL", "h"])
        lines = [b'  "%s"\n  "%s"\n' % (field.encode(), value) for field, value in values.items()]
        self.assert_written(finished, b"(array 80)\n" + b"".join(lines))
