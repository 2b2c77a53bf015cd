"""The pair of processes as its clients meet it: replies over sockets, which both images stand behind."""

import threading

import worked_cases as worked
from pair import PATIENCE, Client, PairCases
from plain_replies import NULL_ARRAY, OK, QUEUED, array, bulk, integer
from spelling import spell
from worked_cases import GET_A, NULL, ONE, PONG, SET_A, STORE_IS_FULL

PROGRAMS = ["server"]
IS_SLOW = True
QUICK = ["Rows", "Held", "Transactions"]

# A text that no row has: it is answered last, behind all that was asked before.
LAST = spell("ECHO", "the last of them")
LAST_REPLY = bulk(b"the last of them")


class Rows(PairCases):
    """The cases of worked_cases, each over a connection of its own to one pair, which is emptied after each."""

    def setUp(self):
        super().setUp()
        self.nodes = self.pair()
        self.position = 0

    def served(self, pieces):
        """All that comes back to a connection that sends these pieces, and no more."""
        with Client(self.nodes.door.number) as client:
            try:
                for piece in pieces:
                    client.send(piece)
                client.end_sending()
            except OSError:
                pass  # (it was closed at a fault in what was sent)
            return client.read_all()

    def empty(self):
        with Client(self.nodes.door.number) as client:
            self.position += client.ask("DBSIZE") != integer(0)
            self.assertEqual(client.ask("FLUSHDB"), OK)

    def check(self, data, output, position=0, cuts=()):
        """These bytes are answered so, whole, byte by byte and in two pieces."""
        ways = {"whole": [data], "byte by byte": [data[at:at + 1] for at in range(len(data))]}
        ways |= {f"cut at {cut}": [data[:cut], data[cut:]] for cut in cuts}
        for way, pieces in ways.items():
            with self.case(way):
                self.assert_bytes(self.served(pieces), output)
                self.position += position
                self.empty()

    def check_positions(self):
        """The list has as many positions as were counted, on both images."""
        self.assertEqual(self.assert_positions(self.nodes), (self.position, self.position))

    def test_the_first_path(self):
        for name, (data, output) in worked.FIRST_PATH.items():
            with self.case("row", name=name):
                # (each row changes something once, or not at all)
                self.check(data, output, int(output.startswith(OK)), range(1, len(data)))
        self.check_positions()

    def test_protocol(self):
        for name, (data, output) in worked.FAULTS.items():
            with self.case("row", name=name):
                self.check(data, output, cuts=range(1, len(data)))
                self.check(SET_A + GET_A + data + GET_A, OK + ONE + output, 1)
                self.check_last_byte(data, output)
        self.check_positions()

    def check_last_byte(self, data, output):
        """The fault is answered at its last byte, and not before it."""
        with self.case("last byte"), Client(self.nodes.door.number) as client:
            client.send(data[:-1])
            self.assertTrue(client.is_silent(0.01))
            client.send(data[-1:])
            self.assert_bytes(client.read_all(), output)

    def test_commands(self):
        self.check_sessions(worked.COMMANDS)

    def test_transactions(self):
        self.check_sessions(worked.TRANSACTIONS)

    def check_sessions(self, table):
        for name, row in table.items():
            session = worked.Session(*row)
            with self.case("row", name=name):
                self.check(session.input(), session.output(), session.position)
        self.check_positions()


class Held(PairCases):
    """No reply leaves before the standby has acknowledged what it rests on."""

    def setUp(self):
        super().setUp()
        self.nodes = self.pair()
        self.writer, self.reader = self.nodes.client(), self.nodes.client()
        self.assertEqual(self.writer.ask("SET", "a", "old"), OK)

    def test_reads_and_writes_wait_for_a_frozen_standby(self):
        self.nodes.standby.freeze()
        self.writer.send(spell("SET", "a", "new") + spell("GET", "a"))
        self.assertTrue(self.writer.is_silent(0.5))
        # another connection's reads rest on it too, once it is executed
        self.reader.send(spell("GET", "a") + spell("DBSIZE") + LAST)
        self.assertTrue(self.reader.is_silent(0.5))
        self.assertTrue(self.writer.is_silent(0.1))
        self.nodes.standby.thaw()
        self.assertEqual(self.writer.reply() + self.writer.reply(), OK + bulk(b"new"))
        self.assertEqual([self.reader.reply() for _ in range(3)], [bulk(b"new"), integer(1), LAST_REPLY])

    def test_what_rests_on_nothing_new_is_answered(self):
        """A read of what the standby has acknowledged is no reason to wait."""
        self.nodes.standby.freeze()
        self.assertEqual(self.reader.ask("GET", "a"), bulk(b"old"))
        self.assertEqual(self.reader.ask("PING"), PONG)

    def test_a_thousand_requests_behind_a_frozen_standby(self):
        self.nodes.standby.freeze()
        self.writer.send(b"".join(spell("INCR", "n") for _ in range(1_000)))
        self.assertTrue(self.writer.is_silent(0.5))
        self.nodes.standby.thaw()
        self.assertEqual([self.writer.reply() for _ in range(1_000)], [integer(at + 1) for at in range(1_000)])

    def test_a_pair_without_its_standby_answers_once_it_is_back(self):
        self.nodes.standby.end()
        self.writer.send(spell("SET", "a", "new") + spell("GET", "a"))
        self.assertTrue(self.writer.is_silent(0.5))
        self.nodes.standby.start()
        self.assertEqual(self.writer.reply() + self.writer.reply(), OK + bulk(b"new"))

    def test_what_one_connection_was_answered_another_reads(self):
        for count in range(300):
            value = b"%d" % count
            self.assertEqual(self.writer.ask("SET", "a", value), OK)
            self.assertEqual(self.reader.ask("GET", "a"), bulk(value))
            self.writer, self.reader = self.reader, self.writer


class Transactions(PairCases):
    """Transactions and watched keys of two connections."""

    def setUp(self):
        super().setUp()
        self.nodes = self.pair()
        self.one, self.other = self.nodes.client(), self.nodes.client()

    def run_one(self, *rows):
        """The reply to EXEC of these requests."""
        found = self.one.ask_all([("MULTI",), *rows, ("EXEC",)])
        self.assertEqual(found[:-1], [OK, *len(rows) * [QUEUED]])
        return found[-1]

    def test_another_writes_a_watched_key(self):
        self.assertEqual(self.one.ask("WATCH", "k"), OK)
        self.assertEqual(self.other.ask("SET", "k", "1"), OK)
        self.assertEqual(self.run_one(("SET", "k", "2")), NULL_ARRAY)
        self.assertEqual(self.one.ask("GET", "k"), ONE)
        # the watch is gone with it
        self.assertEqual(self.run_one(("SET", "k", "2"), ("GET", "k")), array([OK, bulk(b"2")]))

    def test_of_two_that_watch_one_key_the_first_runs(self):
        for client in (self.one, self.other):
            self.assertEqual(client.ask_all([("WATCH", "k"), ("MULTI",), ("INCR", "k")]), [OK, OK, QUEUED])
        self.assertEqual(self.one.ask("EXEC"), array([integer(1)]))
        self.assertEqual(self.other.ask("EXEC"), NULL_ARRAY)

    def test_nothing_of_a_transaction_shows_before_exec(self):
        self.assertEqual(self.one.ask_all([("MULTI",), ("SET", "a", "1"), ("SET", "b", "1")]), [OK, QUEUED, QUEUED])
        self.assertEqual(self.other.ask("MGET", "a", "b"), array([NULL, NULL]))
        self.assertEqual(self.one.ask("EXEC"), array([OK, OK]))
        self.assertEqual(self.other.ask("MGET", "a", "b"), array([ONE, ONE]))

    def test_a_connection_that_leaves_takes_its_transaction_along(self):
        self.assertEqual(self.one.ask_all([("WATCH", "k"), ("MULTI",), ("SET", "a", "1")]), [OK, OK, QUEUED])
        self.one.close()
        self.assertEqual(self.other.ask_all([("GET", "a"), ("EXEC",)]), [NULL, b"-ERR EXEC without MULTI\r\n"])

    def test_two_that_compare_and_set(self):
        """Each of two connections adds 1 a hundred times by WATCH, GET and EXEC: nothing is counted twice or lost."""
        def add(client):
            added = 0
            while added < 100:
                _, value = client.ask_all([("WATCH", "n"), ("GET", "n")])
                number = 0 if value == NULL else int(value.split(b"\r\n")[1])
                found = client.ask_all([("MULTI",), ("SET", "n", str(number + 1)), ("EXEC",)])[-1]
                added += found == array([OK])

        threads = [threading.Thread(target=add, args=(client,), daemon=True) for client in (self.one, self.other)]
        for thread in threads:
            thread.start()
        for thread in threads:
            thread.join(PATIENCE)
        self.assertEqual(self.nodes.client().ask("GET", "n"), bulk(b"200"))


class Sizes(PairCases):
    """Long pipelines, long values, any bytes, large hashes."""

    LONGEST = bytes(range(256)) * 256

    def setUp(self):
        super().setUp()
        self.nodes = self.pair()
        self.client = self.nodes.client()

    def test_a_thousand_requests_in_one_piece(self):
        rows = [row for at in range(250) for row in (("SET", f"k{at}", f"v{at}"), ("GET", f"k{at}"), ("INCR", "n"), ("NOSUCH",))]
        wanted = [it for at in range(250) for it in (OK, bulk(b"v%d" % at), integer(at + 1), worked.UNKNOWN)]
        self.assertEqual(self.client.ask_all(rows), wanted)

    def test_ten_thousand_reads_in_one_piece(self):
        self.assertEqual(self.client.ask("SET", "a", "1"), OK)
        sender = threading.Thread(target=self.client.send, args=(10_000 * GET_A,), daemon=True)
        sender.start()
        self.assert_bytes(self.client.read(10_000 * len(ONE)), 10_000 * ONE)
        sender.join(PATIENCE)

    def test_values_of_1048576_bytes(self):
        longest = 16 * self.LONGEST
        for way, pieces in [("whole", 1), ("in pieces", 4_096)]:
            with self.case(way):
                data = spell("SET", "long", longest) + spell("GET", "long") + spell("STRLEN", "long")
                for at in range(0, len(data), len(data) // pieces):
                    self.client.send(data[at:at + len(data) // pieces])
                self.assertEqual(self.client.reply(), OK)
                self.assert_bytes(self.client.reply(), bulk(longest))
                self.assertEqual(self.client.reply(), integer(1_048_576))
        too_long = b"*3\r\n$3\r\nSET\r\n$4\r\nlong\r\n$1048577\r\n"
        self.client.send(too_long)
        self.assert_bytes(self.client.read_all(), worked.BAD_LENGTH)

    def test_many_long_values(self):
        keys = [f"long{at}" for at in range(16)]
        self.assertEqual(self.client.ask_all([("SET", key, self.LONGEST) for key in keys]), 16 * [OK])
        self.assert_bytes(self.client.ask("MGET", *keys), array(16 * [bulk(self.LONGEST)]))

    def test_keys_of_any_bytes(self):
        keys = [b"", b"\r\n", b"\0", b"*1\r\n$1\r\n", b"\xff\xfe", b"a", b" a", b"a ", b"$-1", bytes(range(256)), 512 * b"k"]
        self.assertEqual(self.client.ask_all([("SET", key, key[::-1]) for key in keys]), len(keys) * [OK])
        self.assertEqual(self.client.ask_all([("GET", key) for key in keys]), [bulk(key[::-1]) for key in keys])
        self.assertEqual(self.client.ask("DBSIZE"), integer(len(keys)))

    def test_hashes_above_1024_fields(self):
        fields = [b"f%05d" % at for at in range(3_000)]
        for at in range(0, len(fields), 500):
            words = [word for field in fields[at:at + 500] for word in (field, b"v" + field)]
            self.assertEqual(self.client.ask("HSET", "h", *words), integer(500))
        self.assertEqual(self.client.ask("HLEN", "h"), integer(3_000))
        pairs = [word for field in fields for word in (field, b"v" + field)]
        self.assert_bytes(self.client.ask("HGETALL", "h"), array(list(map(bulk, pairs))))
        self.assert_bytes(self.client.ask("HKEYS", "h"), array(list(map(bulk, fields))))
        self.assert_bytes(self.client.ask("HVALS", "h"), array([bulk(b"v" + field) for field in fields]))
        found = self.client.ask_all([("MULTI",), ("HGETALL", "h"), ("DEL", "h"), ("HGETALL", "h"), ("EXEC",)])[-1]
        self.assert_bytes(found, array([array(list(map(bulk, pairs))), integer(1), array([])]))

    def test_frames_and_free_lists_of_2000_changes(self):
        """Transactions that write 2,000 keys, and one that removes them all, again and again: more than the image holds at one time."""
        keys = [f"k{at:04}" for at in range(2_000)]
        for turn in range(8):
            rows = [("MSET", *(word for key in keys[at:at + 500] for word in (key, f"{turn}"))) for at in range(0, 2_000, 500)]
            self.assertEqual(self.client.ask_all([("MULTI",), *rows, ("EXEC",)])[-1], array(4 * [OK]))
            self.assert_bytes(self.client.ask("MGET", *keys[::2]), array(1_000 * [bulk(b"%d" % turn)]))
            if turn % 3 == 2:
                self.assertEqual(self.client.ask("FLUSHDB"), OK)
        self.assertEqual(self.client.ask("DBSIZE"), integer(2_000))
        self.assertEqual(self.assert_positions(self.nodes), (10, 10))

    def test_a_reply_above_a_mebibyte(self):
        """32 fields of 65,536 bytes: two MiB in one reply."""
        for at in range(32):
            self.assertEqual(self.client.ask("HSET", "h", f"f{at:02}", self.LONGEST), integer(1))
        self.assert_bytes(self.client.ask("HVALS", "h"), array(32 * [bulk(self.LONGEST)]))


class Room(PairCases):
    """What a command replaced or removed gives its room back, however fast the commands come."""

    ON_DISK = True

    CLIENTS, PIPELINE, ROUNDS = 50, 16, 40

    def overwrite(self, pair, key_of):
        """The replies other than OK to SETs by 50 connections, each of 16 requests at a time."""
        wrong = []

        def run(number):
            with Client(pair.door.number) as client:
                for turn in range(self.ROUNDS):
                    rows = [("SET", key_of(number, at), f"{turn}.{at}") for at in range(self.PIPELINE)]
                    wrong.extend(reply for reply in client.ask_all(rows) if reply != OK)

        threads = [threading.Thread(target=run, args=(number,), daemon=True) for number in range(self.CLIENTS)]
        for thread in threads:
            thread.start()
        for thread in threads:
            thread.join(PATIENCE)
        self.assertFalse(any(thread.is_alive() for thread in threads))
        return wrong

    def check(self, pair, key_of, keys):
        with self.case("overwriting"):
            wrong = self.overwrite(pair, key_of)
            self.assertEqual(wrong[:3], [], f"{len(wrong)} of {self.CLIENTS * self.PIPELINE * self.ROUNDS}")
        with self.case("keys that are left"):
            self.assertEqual(pair.client().ask("DBSIZE"), integer(keys))
            self.assert_positions(pair)

    def test_one_key_over_and_over_with_room(self):
        """32,000 SETs of one key into 8,174 entries."""
        self.check(self.pair(), lambda *_: "a", 1)

    def test_keys_of_each_client_over_and_over_with_room(self):
        """32,000 SETs of 800 keys into 8,174 entries."""
        self.check(self.pair(), lambda number, at: f"k{number}.{at}", 800)

    def test_small_image_of_4096_lines_one_key_over_and_over(self):
        """32,000 SETs of one key into 494 entries, of which 800 wait at a time."""
        self.check(self.pair(lines=4_096), lambda *_: "a", 1)

    def test_small_image_of_4096_lines_100_keys_over_and_over(self):
        """32,000 SETs of 100 keys into 494 entries."""
        self.check(self.pair(lines=4_096), lambda number, at: f"k{(16 * number + at) % 100}", 100)

    def test_image_of_16384_lines_800_keys_over_and_over(self):
        """32,000 SETs of 800 keys into 2,048 entries: some of the time there is room for 1,024 more."""
        self.check(self.pair(lines=16_384), lambda number, at: f"k{number}.{at}", 800)

    def test_a_full_image_says_so_and_takes_what_fits_again(self):
        """494 keys fill an image of 4,096 lines. Reads go on; a key that is removed gives its room back."""
        pair = self.pair(lines=4_096)
        client = pair.client()
        # (each is answered before the next, so no room is on its way)
        self.assertEqual([client.ask("SET", f"k{at}", "v") for at in range(494)], 494 * [OK])
        self.assertEqual(client.ask("SET", "one more", "v"), STORE_IS_FULL)
        self.assertEqual(client.ask("GET", "k0"), bulk(b"v"))
        self.assertEqual(client.ask("DEL", "k0"), integer(1))
        found = STORE_IS_FULL
        for _ in range(1_000):
            found = client.ask("SET", "one more", "v")
            if found == OK:
                break
        self.assertEqual(found, OK)
        self.assertEqual(client.ask("DBSIZE"), integer(494))


