"""What the commands on hashes reply and change (docs/commands.md), in runs of the simulator."""

from command_runs import Commands, write_field
from draws import GREATEST, LEAST, LONGEST_KEY
from plain_keyspace import Drop, Put
from plain_replies import NULL_BULK, array, bulk, error, integer, simple

PROGRAMS = ["simulator"]

WRONG_TYPE = error("WRONGTYPE Operation against a key holding the wrong kind of value")
NO_INTEGER = error("ERR value is not an integer or out of range")
NO_INTEGER_OF_A_FIELD = error("ERR hash value is not an integer")
OVERFLOW = error("ERR increment or decrement would overflow")

EMPTY_ARRAY = array([])


def bulks(*values):
    return array(list(map(bulk, values)))


class Written(Commands):
    def test_hset(self):
        self.show_requests([
            ("HSET h a 1", integer(1), write_field("h", "a", "1")),
            ("HSET h f 1", integer(0), write_field("h", "f", "1")),
            ("HSET h f 2", integer(0), write_field("h", "f", "2")),
            ("HSET new a 1 b 2", integer(2), write_field("new", "a", "1"), write_field("new", "b", "2")),
            ("HSET h b 1 f 2 a 3", integer(2), write_field("h", "b", "1"), write_field("h", "f", "2"), write_field("h", "a", "3")),
            ("HSET s f 1", WRONG_TYPE),
            ("HSET e f 1", WRONG_TYPE),
            ((b"HSET", b"h", b"", b""), integer(0), Put((b"h", b""), b"")),
            ((b"HSET", b"", b"\0\r\n", b"\xff "), integer(1), Put((b"", b"\0\r\n"), b"\xff ")),
            ((b"HSET", b"h", LONGEST_KEY, 524_288 * b"v"), integer(1), Put((b"h", LONGEST_KEY), 524_288 * b"v")),
        ])

    def test_a_field_named_twice(self):
        self.show_requests([
            ("HSET h b 1 a 2 b 3", integer(2), write_field("h", "b", "1"), write_field("h", "a", "2"), write_field("h", "b", "3")),
            ("HSET new b 1 b 1", integer(1), write_field("new", "b", "1"), write_field("new", "b", "1")),
            ("HSET h f 1 f 2", integer(0), write_field("h", "f", "1"), write_field("h", "f", "2")),
            ("HSET new a b b a", integer(2), write_field("new", "a", "b"), write_field("new", "b", "a")),
        ])

    def test_hsetnx(self):
        self.show_requests([
            ("HSETNX h a 1", integer(1), write_field("h", "a", "1")),
            ("HSETNX new f 1", integer(1), write_field("new", "f", "1")),
            ("HSETNX h f 2", integer(0)),
            ((b"HSETNX", b"h", b"", b"1"), integer(0)),
            ((b"HSETNX", b"new", b"", b""), integer(1), Put((b"new", b""), b"")),
            ("HSETNX s f 1", WRONG_TYPE),
        ])

    def test_hdel(self):
        self.show_requests([
            ("HDEL h f", integer(1), Drop((b"h", b"f"))),
            ("HDEL h new", integer(0)),
            ("HDEL h F", integer(0)),
            ("HDEL new f", integer(0)),
            ("HDEL h t new f", integer(2), Drop((b"h", b"t")), Drop((b"h", b"f"))),
            ("HDEL h f f", integer(1), Drop((b"h", b"f"))),
            ("HDEL h g t g f t", integer(3), Drop((b"h", b"g")), Drop((b"h", b"t")), Drop((b"h", b"f"))),
            ((b"HDEL", b"h", b""), integer(1), Drop((b"h", b""))),
            ("HDEL s f", WRONG_TYPE),
            ("HDEL n n", WRONG_TYPE),
        ])

    def test_the_most_words(self):
        names = [b"%03d" % number for number in range(1_022)]
        kept = [Put((b"h", name), b"v") for name in names]
        pairs = tuple(word for name in names[:511] for word in (name, b"w"))
        self.show_requests([
            ((b"HDEL", b"h", *names), integer(1_022), *(Drop((b"h", name)) for name in names)),
            ((b"HMGET", b"h", *names), bulks(*len(names) * [b"v"])),
            ((b"HSET", b"h", *pairs), integer(0), *(Put((b"h", name), b"w") for name in names[:511])),
            ((b"HSET", b"new", *pairs), integer(511), *(Put((b"new", name), b"w") for name in names[:511])),
            ("HLEN h", integer(1_022)),
            ("HKEYS h", bulks(*sorted(names))),
        ], kept)


class Read(Commands):
    def test_hget(self):
        self.show_requests([
            ("HGET h f", bulk(b"1")),
            ("HGET h t", bulk(b"text")),
            ("HGET h new", NULL_BULK),
            ("HGET h F", NULL_BULK),
            ("HGET new f", NULL_BULK),
            ("HGET H f", NULL_BULK),
            ((b"HGET", b"h", b""), bulk(b"")),
            ("HGET s f", WRONG_TYPE),
            ("HGET e s", WRONG_TYPE),
        ])

    def test_hmget(self):
        self.show_requests([
            ("HMGET h f", bulks(b"1")),
            ("HMGET h new", bulks(None)),
            ("HMGET h t new f t", bulks(b"text", None, b"1", b"text")),
            ((b"HMGET", b"h", b"", b"g"), bulks(b"", b"2")),
            ("HMGET new f g", bulks(None, None)),
            ("HMGET s f g", WRONG_TYPE),
        ])

    def test_hexists(self):
        self.show_requests([
            ("HEXISTS h f", integer(1)),
            ((b"HEXISTS", b"h", b""), integer(1)),
            ("HEXISTS h new", integer(0)),
            ("HEXISTS h h", integer(0)),
            ("HEXISTS new f", integer(0)),
            ("HEXISTS s s", WRONG_TYPE),
        ])

    def test_hstrlen(self):
        self.show_requests([
            ("HSTRLEN h t", integer(4)),
            ((b"HSTRLEN", b"h", b""), integer(0)),
            ("HSTRLEN h new", integer(0)),
            ("HSTRLEN new t", integer(0)),
            ("HSTRLEN s t", WRONG_TYPE),
        ])

    def test_whole_hashes(self):
        self.show_requests([
            ("HLEN h", integer(4)),
            ("HLEN new", integer(0)),
            ("HLEN s", WRONG_TYPE),
            ("HGETALL h", bulks(b"", b"", b"f", b"1", b"g", b"2", b"t", b"text")),
            ("HGETALL new", EMPTY_ARRAY),
            ("HGETALL s", WRONG_TYPE),
            ("HKEYS h", bulks(b"", b"f", b"g", b"t")),
            ("HKEYS new", EMPTY_ARRAY),
            ("HKEYS s", WRONG_TYPE),
            ("HVALS h", bulks(b"", b"1", b"2", b"text")),
            ("HVALS new", EMPTY_ARRAY),
            ("HVALS s", WRONG_TYPE),
        ])

    def test_ascending_bytes_of_the_field(self):
        fields = [b"b", b"", b"\xff", b"aa", b"a", b"\0", b"B", b"a\0", b"10", b"9", b"\x80"]
        kept = [Put((b"h", field), b"<%s" % field) for field in fields] + [Put((b"ha",), b""), Put((b"g", b"z"), b"")]
        ordered = [b"", b"\0", b"10", b"9", b"B", b"a", b"a\0", b"aa", b"b", b"\x80", b"\xff"]
        self.show_requests([
            ("HKEYS h", bulks(*ordered)),
            ("HVALS h", bulks(*(b"<%s" % field for field in ordered))),
            ("HGETALL h", bulks(*(part for field in ordered for part in (field, b"<%s" % field)))),
            ("HLEN h", integer(11)),
        ], kept)


class Counted(Commands):
    # Texts of no integer (rule 4).
    NO_INTEGERS = [b"", b"-", b"-0", b"+1", b"01", b" 1", b"1 ", b"1.0", b"x", b"9223372036854775808", b"-9223372036854775809", 65_536 * b"1"]

    def test_hincrby(self):
        self.show_requests([
            ("HINCRBY h f 5", integer(6), write_field("h", "f", "6")),
            ("HINCRBY h g -3", integer(-1), write_field("h", "g", "-1")),
            ("HINCRBY h f 0", integer(1), write_field("h", "f", "1")),
            ("HINCRBY h new 7", integer(7), write_field("h", "new", "7")),
            ("HINCRBY new f -7", integer(-7), write_field("new", "f", "-7")),
            ((b"HINCRBY", b"new", b"", LEAST), integer(-(2**63)), Put((b"new", b""), LEAST)),
            ("HINCRBY h t 1", NO_INTEGER_OF_A_FIELD),
            ((b"HINCRBY", b"h", b"", b"1"), NO_INTEGER_OF_A_FIELD),
            ("HINCRBY n n 1", WRONG_TYPE),
        ])

    def test_texts_of_no_integer(self):
        kept = [Put((b"h", b"%d" % place), text) for place, text in enumerate(self.NO_INTEGERS)]
        table = [(f"HINCRBY h {place} 1", NO_INTEGER_OF_A_FIELD) for place in range(len(kept))]
        # (before the key is looked at)
        for text in self.NO_INTEGERS:
            table += [((b"HINCRBY", key, field, text), NO_INTEGER) for key in (b"h", b"s", b"new") for field in (b"0", b"f")]
        self.show_requests(table, [*kept, Put((b"s",), b"1")])

    def test_results_out_of_range(self):
        kept = [Put((b"h", b"most"), GREATEST), Put((b"h", b"least"), LEAST), Put((b"h", b"n"), b"-1")]
        self.show_requests([
            ("HINCRBY h most 1", OVERFLOW),
            ("HINCRBY h least -1", OVERFLOW),
            ((b"HINCRBY", b"h", b"most", GREATEST), OVERFLOW),
            ((b"HINCRBY", b"h", b"n", LEAST), OVERFLOW),
            ("HINCRBY h most -1", integer(2**63 - 2), write_field("h", "most", "9223372036854775806")),
            ((b"HINCRBY", b"h", b"most", LEAST), integer(-1), write_field("h", "most", "-1")),
        ], kept)


class Kinds(Commands):
    """Commands on all kinds of values, over hashes, and those on strings, which take none."""

    def test_what_takes_hashes(self):
        self.show_requests([
            ("TYPE h", simple(b"hash")),
            ("EXISTS h h f", integer(2)),
            ("DBSIZE", integer(4)),
            ("MGET h s h", bulks(None, b"value", None)),
            ("SETNX h 1", integer(0)),
            ("MSETNX new 1 h 2", integer(0)),
        ])

    def test_what_takes_strings_alone(self):
        asked = ["GET h", "GETDEL h", "STRLEN h", "APPEND h 1", "INCR h", "DECR h", "INCRBY h 1", "DECRBY h 1"]
        self.show_requests((each, WRONG_TYPE) for each in asked)
