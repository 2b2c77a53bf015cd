"""What the commands on strings, counters, keys and the connection reply and change (docs/commands.md), in runs of the simulator."""

from command_runs import CLEAR, CLOSE, Commands, write
from draws import GREATEST, LEAST
from plain_keyspace import DropKey, Put
from plain_replies import NULL_BULK, OK, array, bulk, error, integer, simple

PROGRAMS = ["simulator"]

SYNTAX = error("ERR syntax error")
WRONG_TYPE = error("WRONGTYPE Operation against a key holding the wrong kind of value")
NO_INTEGER = error("ERR value is not an integer or out of range")
OVERFLOW = error("ERR increment or decrement would overflow")


class Strings(Commands):
    def test_set(self):
        self.show_requests([
            ("SET s 1", OK, write("s", "1")),
            ("SET new 1", OK, write("new", "1")),
            ("SET h 1", OK, write("h", "1")),
            ("SET s value", OK, write("s", "value")),
            ((b"SET", b"", b""), OK, Put((b"",), b"")),
            ((b"SET", b"\0\r\n", b"\xff "), OK, Put((b"\0\r\n",), b"\xff ")),
            ((b"SET", b"s", 524_288 * b"v"), OK, Put((b"s",), 524_288 * b"v")),
        ])

    def test_options_of_set(self):
        self.show_requests([
            ("SET new 1 NX", OK, write("new", "1")),
            ("SET s 1 NX", NULL_BULK),
            ("SET e 1 NX", NULL_BULK),
            ("SET h 1 NX", NULL_BULK),
            ("SET new 1 XX", NULL_BULK),
            ("SET s 1 XX", OK, write("s", "1")),
            ("SET h 1 XX", OK, write("h", "1")),
            ("SET new 1 nx NX nX Nx", OK, write("new", "1")),
            ("SET s 1 xx XX xX", OK, write("s", "1")),
            ("SET s 1 NX NX", NULL_BULK),
            ("SET s 1 NX XX", SYNTAX),
            ("SET new 1 xx nx", SYNTAX),
            ("SET s 1 NX NX XX", SYNTAX),
            ("SET s 1 EX 10", SYNTAX),
            ("SET new 1 NX GET", SYNTAX),
            ("SET new 1 GET NX", SYNTAX),
            ("SET s 1 N", SYNTAX),
            ("SET s 1 NXX", SYNTAX),
            ((b"SET", b"s", b"1", b""), SYNTAX),
            ((b"SET", b"s", b"1", b"NX "), SYNTAX),
            ((b"SET", b"s", b"1", 513 * b"N"), SYNTAX),
        ])

    def test_get_and_getdel(self):
        self.show_requests([
            ("GET s", bulk(b"value")),
            ("GET e", bulk(b"")),
            ("GET new", NULL_BULK),
            ("GET S", NULL_BULK),
            ("GET h", WRONG_TYPE),
            ("GETDEL s", bulk(b"value"), DropKey(b"s")),
            ("GETDEL e", bulk(b""), DropKey(b"e")),
            ("GETDEL new", NULL_BULK),
            ("GETDEL h", WRONG_TYPE),
        ])

    def test_setnx(self):
        self.show_requests([
            ("SETNX new 1", integer(1), write("new", "1")),
            ("SETNX s 1", integer(0)),
            ("SETNX e 1", integer(0)),
            ("SETNX h 1", integer(0)),
            ((b"SETNX", b"new", b""), integer(1), write("new", "")),
        ])

    def test_strlen_and_append(self):
        self.show_requests([
            ("STRLEN s", integer(5)),
            ("STRLEN e", integer(0)),
            ("STRLEN new", integer(0)),
            ("STRLEN h", WRONG_TYPE),
            ("APPEND s s", integer(6), write("s", "values")),
            ("APPEND e 1", integer(1), write("e", "1")),
            ("APPEND new 1", integer(1), write("new", "1")),
            ((b"APPEND", b"s", b""), integer(5), write("s", "value")),
            ((b"APPEND", b"new", b""), integer(0), write("new", "")),
            ("APPEND h 1", WRONG_TYPE),
            ((b"APPEND", b"h", 1_048_576 * b"v"), WRONG_TYPE),
        ])

    def test_append_up_to_the_limit(self):
        long, longest, too_long = 1_048_575 * b"v", 1_048_576 * b"v", error("ERR string is longer than 1048576 bytes")
        written = Put((b"long",), longest)
        self.show_requests([
            ((b"APPEND", b"long", b""), integer(1_048_575), Put((b"long",), long)),
            ((b"APPEND", b"long", b"v"), integer(1_048_576), written),
            ((b"APPEND", b"long", b"vv"), too_long),
            ((b"APPEND", b"longest", b""), integer(1_048_576), Put((b"longest",), longest)),
            ((b"APPEND", b"longest", b"v"), too_long),
            ((b"APPEND", b"longest", longest), too_long),
            ((b"APPEND", b"one", long), integer(1_048_576), Put((b"one",), b"1" + long)),
            ((b"APPEND", b"one", longest), too_long),
            ((b"APPEND", b"new", longest), integer(1_048_576), Put((b"new",), longest)),
            ((b"STRLEN", b"longest"), integer(1_048_576)),
        ], [Put((b"long",), long), Put((b"longest",), longest), Put((b"one",), b"1")], lines=131_072)

    def test_mset_and_msetnx(self):
        self.show_requests([
            ("MSET new 1", OK, write("new", "1")),
            ("MSET b 1 a 2 s 3", OK, write("b", "1"), write("a", "2"), write("s", "3")),
            ("MSET h 1 n 10", OK, write("h", "1"), write("n", "10")),
            ("MSET a 1 b 2 a 3", OK, write("a", "1"), write("b", "2"), write("a", "3")),
            ("MSETNX new 1", integer(1), write("new", "1")),
            ("MSETNX b 1 a 2", integer(1), write("b", "1"), write("a", "2")),
            ("MSETNX a 1 a 2", integer(1), write("a", "1"), write("a", "2")),
            ("MSETNX a 1 s 2", integer(0)),
            ("MSETNX h 1 a 2", integer(0)),
            ("MSETNX a 1 b 2 e 3", integer(0)),
            ("MSETNX a s b h", integer(1), write("a", "s"), write("b", "h")),
        ])

    def test_mget(self):
        self.show_requests([
            ("MGET s", array([bulk(b"value")])),
            ("MGET new", array([NULL_BULK])),
            ("MGET h", array([NULL_BULK])),
            ("MGET e h s new n", array([bulk(b""), NULL_BULK, bulk(b"value"), NULL_BULK, bulk(b"10")])),
            ("MGET s new s", array([bulk(b"value"), NULL_BULK, bulk(b"value")])),
        ])


class Counters(Commands):
    # Texts of integers, and texts of none (rule 4).
    INTEGERS = [b"0", b"1", b"-1", b"7", b"10", b"-10", b"1000000000000000000", GREATEST, b"-9223372036854775807", LEAST]
    NO_INTEGERS = [
        b"", b"-", b"-0", b"+1", b"+0", b"01", b"00", b"-01", b"--1", b" 1", b"1 ", b"1\r\n", b"1\0", b"1.0", b"1e3", b"0x1", b"1_0", b"x",
        b"9223372036854775808", b"-9223372036854775809", b"18446744073709551615", b"18446744073709551616", b"09223372036854775807",
        b"\xd9\xa1", 65_536 * b"1",
    ]

    def test_one_more_and_one_less(self):
        self.show_requests([
            ("INCR n", integer(11), write("n", "11")),
            ("DECR n", integer(9), write("n", "9")),
            ("INCR new", integer(1), write("new", "1")),
            ("DECR new", integer(-1), write("new", "-1")),
            ("INCR s", NO_INTEGER),
            ("DECR e", NO_INTEGER),
            ("INCR h", WRONG_TYPE),
            ("DECR h", WRONG_TYPE),
        ])

    def test_amounts(self):
        self.show_requests([
            ("INCRBY n 5", integer(15), write("n", "15")),
            ("INCRBY n -11", integer(-1), write("n", "-1")),
            ("DECRBY n 10", integer(0), write("n", "0")),
            ("DECRBY n -5", integer(15), write("n", "15")),
            ("INCRBY n 0", integer(10), write("n", "10")),
            ("DECRBY new 0", integer(0), write("new", "0")),
            ("INCRBY new 7", integer(7), write("new", "7")),
            ("DECRBY new 7", integer(-7), write("new", "-7")),
            ("INCRBY s 1", NO_INTEGER),
            ("DECRBY e 1", NO_INTEGER),
            ("INCRBY h 1", WRONG_TYPE),
            ("DECRBY h 1", WRONG_TYPE),
        ])

    def test_integers_of_strings(self):
        kept = [Put((b"%d" % place,), text) for place, text in enumerate(self.INTEGERS + self.NO_INTEGERS)]
        names = [str(place) for place in range(len(kept))]
        numbers = list(zip(names, map(int, self.INTEGERS)))
        found = [(f"INCRBY {name} 0", integer(number), write(name, str(number))) for name, number in numbers]
        found += [(f"DECRBY {name} 0", integer(number), write(name, str(number))) for name, number in numbers]
        refused = [(f"INCR {name}", NO_INTEGER) for name in names[len(numbers):]]
        self.show_requests(found + refused, kept)

    def test_integers_of_arguments(self):
        table = [((b"INCRBY", b"new", text), integer(int(text)), Put((b"new",), text)) for text in self.INTEGERS]
        for text in set(self.INTEGERS) - {LEAST}:
            table.append(((b"DECRBY", b"new", text), integer(-int(text)), Put((b"new",), b"%d" % -int(text))))
        # (before the key is looked at)
        for text in self.NO_INTEGERS:
            table += [((name, key, text), NO_INTEGER) for name in (b"INCRBY", b"DECRBY") for key in (b"new", b"n", b"h")]
        self.show_requests(table)

    def test_results_out_of_range(self):
        kept = [Put((b"most",), GREATEST), Put((b"least",), LEAST), Put((b"n",), b"-1")]
        no_opposite = error("ERR decrement would overflow")
        self.show_requests([
            ("INCR most", OVERFLOW),
            ("DECR least", OVERFLOW),
            ("DECR most", integer(2**63 - 2), write("most", "9223372036854775806")),
            ("INCR least", integer(-(2**63) + 1), write("least", "-9223372036854775807")),
            ("INCRBY most 1", OVERFLOW),
            ("INCRBY least -1", OVERFLOW),
            ("DECRBY most -1", OVERFLOW),
            ("DECRBY least 1", OVERFLOW),
            ((b"INCRBY", b"most", GREATEST), OVERFLOW),
            ((b"INCRBY", b"least", LEAST), OVERFLOW),
            ((b"INCRBY", b"most", LEAST), integer(-1), write("most", "-1")),
            ((b"INCRBY", b"n", LEAST), OVERFLOW),
            ((b"DECRBY", b"n", GREATEST), integer(-(2**63)), Put((b"n",), LEAST)),
            ((b"DECRBY", b"least", b"-9223372036854775807"), integer(-1), write("least", "-1")),
            # before the key is looked at
            *(((b"DECRBY", key, LEAST), no_opposite) for key in (b"n", b"least", b"new", b"h", b"s")),
        ], [*kept, Put((b"h", b"f"), b"1"), Put((b"s",), b"value")])


class Keys(Commands):
    def test_del(self):
        self.show_requests([
            ("DEL s", integer(1), DropKey(b"s")),
            ("DEL h", integer(1), DropKey(b"h")),
            ("DEL new", integer(0)),
            ("DEL s new h e", integer(3), DropKey(b"s"), DropKey(b"h"), DropKey(b"e")),
            ("DEL s s", integer(1), DropKey(b"s")),
            ("DEL n s n h s", integer(3), DropKey(b"n"), DropKey(b"s"), DropKey(b"h")),
            ("DEL new new", integer(0)),
        ])

    def test_exists(self):
        self.show_requests([
            ("EXISTS s", integer(1)),
            ("EXISTS h", integer(1)),
            ("EXISTS new", integer(0)),
            ("EXISTS s s", integer(2)),
            ("EXISTS h new s h new", integer(3)),
        ])

    def test_type(self):
        kinds = [("s", b"string"), ("n", b"string"), ("e", b"string"), ("h", b"hash"), ("new", b"none"), ("f", b"none")]
        self.show_requests((f"TYPE {key}", simple(kind)) for key, kind in kinds)

    def test_dbsize_and_flushdb(self):
        self.show_requests([
            ("DBSIZE", integer(4)),
            ("FLUSHDB", OK, CLEAR),
            ("FLUSHDB ASYNC", SYNTAX),
            ("FLUSHDB a b", SYNTAX),
            ((b"FLUSHDB", b""), SYNTAX),
        ])

    def test_nothing_to_flush(self):
        self.show_requests([("DBSIZE", integer(0)), ("FLUSHDB", OK), ("FLUSHDB SYNC", SYNTAX)], [])

    def test_a_hash_alone(self):
        self.show_requests([("DBSIZE", integer(1)), ("FLUSHDB", OK, CLEAR)], [Put((b"h", b"f"), b""), Put((b"h", b"g"), b"")])

    def test_the_most_words(self):
        names = tuple(b"%d" % number for number in range(1_023))
        kept = [Put((name,), b"v") for name in names]
        self.show_requests([
            ((b"DEL", *names), integer(1_023), *map(DropKey, names)),
            ((b"EXISTS", *1_023 * [b"7"]), integer(1_023)),
            ((b"MGET", *names), array(1_023 * [bulk(b"v")])),
            ((b"MSET", *names[:-1]), OK, *(Put((key,), value) for key, value in zip(names[:-1:2], names[1::2]))),
        ], kept)


class Connection(Commands):
    def test_ping_and_echo(self):
        self.show_requests([
            ("PING", simple(b"PONG")),
            ("PING s", bulk(b"s")),
            ((b"PING", b""), bulk(b"")),
            ("ECHO s", bulk(b"s")),
            ((b"ECHO", b""), bulk(b"")),
            ((b"ECHO", 1_048_576 * b"e"), bulk(1_048_576 * b"e")),
            ((b"PING", b"+\r\n\0\xff"), bulk(b"+\r\n\0\xff")),
        ])

    def test_quit_alone_closes(self):
        closing = [(asked, OK, CLOSE) for asked in ("QUIT", "quit", "qUiT now", "QUIT a b c", (b"QUIT", 1_048_576 * b"q"))]
        unknown = error("ERR unknown command")
        self.show_requests([*closing, ("QUI", unknown), ("QUITS", unknown), ("ECHO QUIT", bulk(b"QUIT"))])
