"""The server as its client meets it: bytes in, bytes out, statuses and messages."""

import draws
import plain_redis
import plain_replies
import plain_writer
import worked_cases as worked
from common import Cases, run_in_pieces, run_program
from plain_keyspace import Put
from spelling import spell
from worked_cases import GET_A, NULL, OK, ONE, SET_A, SHORTEST, STORE_IS_FULL, UNKNOWN

PROGRAMS = ["server"]

# The lines of an image, and the versions that it takes.
LINES = 4_096
MOST_VERSIONS = 494
# As many keys as there are versions.
FULL = b"".join(spell("SET", f"k{number}", "v") for number in range(MOST_VERSIONS))


def serve(data):
    return run_program("server", stdin=data)


class Served(Cases):
    """Tests that compare the server with what should come out."""

    def assert_served(self, data, wanted):
        self.assert_written(serve(data), wanted)

    def assert_plainly_served(self, data):
        """The server answers as the plain Redis does to what the plain reader reads."""
        self.assert_served(data, plain_redis.served(data, plain_writer.Room(LINES)))

    def check_pieces(self, data, output):
        """The server answers so however the bytes come."""
        with self.case("in one piece"):
            self.assert_served(data, output)
        with self.case("in single bytes"):
            self.assert_written(run_in_pieces("server", [data[at:at + 1] for at in range(len(data))]), output)
        for cut in range(1, len(data)):
            with self.case("cut in two", cut=cut):
                self.assert_written(run_in_pieces("server", [data[:cut], data[cut:]]), output)

    def check_prefixes(self, data):
        for length in range(len(data)):
            with self.case("prefix", length=length):
                self.assert_plainly_served(data[:length])


@worked.one_test_for_each(worked.FIRST_PATH, "check_row")
class FirstPath(Served):
    """The first path of worked_cases, and every prefix of it."""

    def check_row(self, data, output):
        self.check_pieces(data, output)
        self.check_prefixes(data)

    def test_no_input(self):
        self.assert_served(b"", b"")

    def test_more_versions_of_one_key_than_an_image_takes(self):
        """Each SET ends the version before it, and what has ended is freed."""
        self.assert_served(4 * MOST_VERSIONS * SET_A + GET_A, 4 * MOST_VERSIONS * OK + ONE)


@worked.one_test_for_each(worked.FAULTS, "check_row")
class Faults(Served):
    """The faults of worked_cases: nothing is answered before the last byte, and nothing is read after it."""

    def check_row(self, data, output):
        self.check_pieces(data, output)
        for length in range(len(data)):
            with self.case("prefix", length=length):
                self.assert_served(data[:length], b"")
        with self.case("with a request after it"):
            self.assert_served(data + SET_A, output)
        with self.case("behind two requests"):
            self.assert_served(SET_A + GET_A + data + GET_A, OK + ONE + output)

    def test_each_byte_in_place_of_each(self):
        for at in range(len(worked.PING)):
            for byte in b"*$\r\n 0139:-+\x00\x7f\xff":
                data = worked.PING[:at] + bytes([byte]) + worked.PING[at + 1:] + GET_A
                with self.case("byte in place of another", at=at, byte=byte):
                    self.assert_plainly_served(data)


@worked.one_test_for_each(worked.COMMANDS, "check_row")
class Commands(Served):
    """The commands of worked_cases."""

    def check_row(self, *row):
        session = worked.Session(*row)
        data, output = session.input(), session.output()
        with self.case("in one piece"):
            self.assert_served(data, output)
        with self.case("in single bytes"):
            self.assert_written(run_in_pieces("server", [data[at:at + 1] for at in range(len(data))]), output)
        with self.case("breaking off"):
            self.assert_plainly_served(data[:-1])


@worked.one_test_for_each(worked.TRANSACTIONS, "check_row")
class Transactions(Served):
    """The transactions of worked_cases."""

    def check_row(self, *row):
        session = worked.Session(*row)
        self.check_pieces(session.input(), session.output())
        self.check_prefixes(session.input())


class Limits(Served):
    """What clients meet at their limits, and one above (docs/protocol.md, "Limits that a client meets")."""

    LONG = bytes(range(256)) * 256
    LONGEST = 16 * LONG

    def test_a_word_of_1048576_bytes(self):
        # no image of 4,096 lines has room for it
        data = spell("ECHO", self.LONGEST) + spell("SET", "a", self.LONGEST) + GET_A
        self.assert_served(data, plain_replies.bulk(self.LONGEST) + STORE_IS_FULL + NULL)
        self.assert_served(b"*2\r\n$4\r\nECHO\r\n$1048577\r\n" + SET_A, worked.BAD_LENGTH)

    def test_a_value_of_65536_bytes(self):
        data = spell("SET", "a", self.LONG) + GET_A
        output = OK + plain_replies.bulk(self.LONG)
        self.assert_served(data, output)
        for size in (7, 63, 4_096, 65_536):
            with self.case("in pieces", size=size):
                pieces = [data[at:at + size] for at in range(0, len(data), size)]
                self.assert_written(run_in_pieces("server", pieces), output)

    def test_a_request_of_1024_words(self):
        self.assert_served(SET_A + spell("EXISTS", *(1_023 * ["a"])), OK + b":1023\r\n")
        self.assert_served(SET_A + spell("MGET", *(1_023 * ["a"])), OK + b"*1023\r\n" + 1_023 * ONE)
        self.assert_served(b"*1025\r\n" + SET_A, worked.BAD_COUNT)

    def test_keys_of_512_and_513_bytes(self):
        longest, longer = 512 * b"k", 513 * b"k"
        refusal = b"-ERR key or field is longer than 512 bytes\r\n"
        data = spell("SET", longest, "1") + spell("GET", longest) + spell("GET", longer) + spell("MGET", "a", longer) + GET_A
        self.assert_served(data, OK + ONE + 2 * refusal + NULL)

    def test_append_past_the_limit(self):
        # (of what is not past the limit there is no room)
        data = spell("SET", "a", "xy") + spell("APPEND", "a", 1_048_575 * "v") + spell("STRLEN", "a") + spell("APPEND", "a", 1_048_574 * "v")
        refusal = b"-ERR string is longer than 1048576 bytes\r\n"
        self.assert_served(data, OK + refusal + b":2\r\n" + STORE_IS_FULL)
        self.assert_served(data + spell("APPEND", "a", 1_048_576 * "v") + spell("APPEND", "a", "v"), OK + refusal + b":2\r\n" + STORE_IS_FULL + refusal + b":3\r\n")

    def test_the_store_is_full_by_lines(self):
        # 502, 1,025 and 1,025 of 3,576 lines; 1,024 are left, which a value of 65,535 bytes takes with its key
        sets = spell("SET", "a", 32_127 * "1") + spell("SET", "b", 65_536 * "2") + spell("SET", "c", 65_536 * "3")
        data = sets + spell("SET", "a", 65_536 * "4") + spell("STRLEN", "a") + spell("MSET", "d", "5", "e", 65_472 * "6")
        output = 3 * OK + STORE_IS_FULL + b":32127\r\n" + STORE_IS_FULL
        self.assert_served(data, output)
        self.assert_served(data + spell("SET", "a", 65_535 * "7") + spell("EXISTS", "d", "e"), output + OK + b":0\r\n")

    def test_what_makes_no_version_needs_no_room(self):
        """Of as many keys as an image takes one is removed, which makes room for one more."""
        data = FULL + spell("SET", "k0", "2") + spell("DEL", "k0") + spell("SET", "k0", "3") + spell("SET", "k1", "4")
        data += spell("MGET", "k0", "k1") + spell("FLUSHDB") + spell("DBSIZE")
        output = MOST_VERSIONS * OK + STORE_IS_FULL + b":1\r\n" + OK + STORE_IS_FULL
        self.assert_served(data, output + b"*2\r\n$1\r\n3\r\n$1\r\nv\r\n" + OK + b":0\r\n")


class Names(Served):
    """Rules of docs/commands.md."""

    def test_names_without_regard_to_case(self):
        for name in ["SET", "set", "Set", "sEt", "SEt"]:
            with self.case("SET", name=name):
                self.assert_served(spell(name, "a", "1") + GET_A, OK + ONE)
        for name in ["get", "gET", "GEt"]:
            with self.case("GET", name=name):
                self.assert_served(SET_A + spell(name, "a"), OK + ONE)

    def test_unknown_names(self):
        names = [b"", b"SE", b"SET ", b"GET\0", b"\xc7ET", b"SETN", b"QUI", b"PINGS"]
        names += [b"MULT", b"EXECS", b"UNWATC", b"SELECT", b"HELLO", b"KEYS", 65_536 * b"G"]
        for name in names:
            with self.case("unknown", name=name):
                self.assert_served(spell(name) + spell(name, "a", "1"), 2 * UNKNOWN)

    def test_numbers_of_words(self):
        for words in [("SET",), ("sEt", "a"), ("GET",), ("GET", "a", "b"), ("gEt", "a", ""), ("Del",), ("MSET", "a", "1", "b")]:
            with self.case("refused", words=words):
                name = words[0].lower().encode()
                reply = b"-ERR wrong number of arguments for '%s' command\r\n" % name
                self.assert_served(SET_A + spell(*words) + GET_A, OK + reply + ONE)

    def test_words_of_any_bytes(self):
        words = [b"", b"\r\n", b"\0", b"*1\r\n$1\r\n", b"\xff\xfe", b"A", b"a", b" a", b"a ", b"$-1", b"123456789"]
        for key in words:
            with self.case("key", key=key):
                sets = b"".join(spell("SET", word, word) for word in words)
                others = b"".join(spell("SET", word, "other") for word in words if word != key)
                output = (2 * len(words) - 1) * OK + plain_replies.bulk(key)
                self.assert_served(sets + others + spell("GET", key), output)

    def test_a_value_is_replaced(self):
        data = b"".join(spell("SET", "a", value) + GET_A for value in ["1", "", "123456789", "1"])
        self.assert_served(data, OK + ONE + OK + b"$0\r\n\r\n" + OK + b"$9\r\n123456789\r\n" + OK + ONE)


class Damaged(Served):
    """Requests with a few bytes changed, against the plain reader and the plain Redis."""

    def check(self, seed):
        numbers = draws.numbers(f"damaged {seed}")
        for copy in range(100):
            rows = [draws.request(numbers) for _ in range(numbers.randint(1, 4))]
            data = draws.damaged(numbers, b"".join(spell(*row) for row in rows))
            with self.case("damaged", copy=copy, data=data[:200]):
                self.assert_plainly_served(data)

    def test_seed_0(self):
        self.check(0)

    def test_seed_1(self):
        self.check(1)

    def test_seed_2(self):
        self.check(2)

    def test_seed_3(self):
        self.check(3)

    def test_scripts(self):
        """Those that find room for each version that they write, so that nothing depends on what is freed when."""
        for seed in (1, 2, 3, 4, 5, 7, 9, 10):
            data = draws.Script(draws.numbers(f"script {seed}"), 400).text
            with self.case("script", seed=seed):
                self.assertNotIn(STORE_IS_FULL, plain_redis.served(data, plain_writer.Room(LINES)))
                self.assert_plainly_served(data)

    def test_scripts_that_write_more_versions_than_an_image_takes(self):
        """Of few and short records, so that there is room once what has ended is freed."""
        for seed in range(4):
            numbers, redis = draws.numbers(f"long script {seed}"), plain_redis.Redis()
            rows = [row for row in self.long_script(numbers) if max(map(len, row)) <= 64]
            with self.case("script", seed=seed):
                output = b"".join(redis.call(0, row) for row in rows)
                puts = sum(isinstance(change, Put) for part in redis.parts for change in part)
                self.assertGreater(puts, MOST_VERSIONS)
                self.assert_served(b"".join(spell(*row) for row in rows), output)

    def long_script(self, numbers):
        rows = []
        while len(rows) < 8_000:
            rows += draws.transaction(numbers) if numbers.randrange(8) == 0 else [draws.request(numbers, draws.NAMES_THAT_GO_ON)]
        return rows


class Large(Served):
    """More requests than a pipe holds, and outputs longer than a pipe of the system."""

    def test_more_requests_than_a_pipe_holds(self):
        data = 300 * SET_A + 1_000 * SHORTEST + 1_000 * GET_A
        self.assert_served(data, 300 * OK + 1_000 * UNKNOWN + 1_000 * ONE)

    def test_ten_thousand_shortest_requests(self):
        self.assert_served(10_000 * SHORTEST, 10_000 * UNKNOWN)

    def test_shortest_requests_and_a_fault(self):
        for count in [1, 2, 255, 256, 257, 1_000, 9_999]:
            with self.case("shortest", count=count):
                self.assert_served(count * SHORTEST, count * UNKNOWN)
            with self.case("with a fault", count=count):
                self.assert_served(count * SHORTEST + b"P", count * UNKNOWN + worked.NO_STAR)

    def test_requests_of_no_words_between(self):
        data = 5_000 * b"*0\r\n" + 3_000 * (SHORTEST + b"*0\r\n")
        self.assert_served(data, 3_000 * UNKNOWN)

    def test_lengths_of_output_around_a_pipe(self):
        # 5 bytes and 7 bytes a reply make every length
        for length in [4_096, 65_535, 65_536, 65_537, 131_072]:
            sevens = length % 5 * 3 % 5
            fives = (length - 7 * sevens) // 5
            data = spell("GET", "z") * fives + SET_A + GET_A * sevens
            output = fives * NULL + OK + sevens * ONE
            with self.case("length", length=len(output)):
                self.assertEqual(len(output), length + 5)
                self.assert_served(data, output)

    def test_more_versions_made_and_removed_than_an_image_takes(self):
        # each version is written and removed, one after another or 63 requests apart
        pair = spell("SET", "a", "1") + spell("DEL", "a")
        self.assert_served(3 * MOST_VERSIONS * pair + SET_A, 3 * MOST_VERSIONS * (OK + b":1\r\n") + OK)
        apart = 63 * SHORTEST
        data = 2 * MOST_VERSIONS * (SET_A + apart + spell("FLUSHDB") + apart)
        self.assert_served(data, 2 * MOST_VERSIONS * 2 * (OK + 63 * UNKNOWN))

    def test_store_is_full_and_stays_as_it_is(self):
        keys = [b"k%d" % number for number in range(MOST_VERSIONS)]
        data = b"".join(spell("SET", key, key) for key in keys)
        data += spell("SET", "k0", "new") + spell("SET", "new", "new")
        data += b"".join(spell("GET", key) for key in keys) + spell("GET", "new")
        output = MOST_VERSIONS * OK + 2 * STORE_IS_FULL + b"".join(map(plain_replies.bulk, keys)) + NULL
        self.assert_served(data, output)
