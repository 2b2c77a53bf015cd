"""The rules for all commands (docs/commands.md): what is refused before it runs, in which order; requests one after
another; and requests drawn by a seed, against the plain Redis."""

import itertools
import re

import common
import draws
import pages
import plain_commands
import plain_keyspace
import plain_redis
import plain_replies
import plain_writer
from command_runs import CLEAR, CLOSE, Commands, write, write_field
from draws import GREATEST, LEAST, LONG_KEY, LONGEST_KEY
from plain_keyspace import Drop, DropKey
from plain_replies import OK, array, bulk, error, integer, simple
from simulation import Runs, Schedule
from spelling import spell

PROGRAMS = ["server", "simulator"]

PAGE = common.ROOT / "docs" / "commands.md"

UNKNOWN, SYNTAX = error("ERR unknown command"), error("ERR syntax error")
TOO_LONG = error("ERR key or field is longer than 512 bytes")
WRONG_TYPE = error("WRONGTYPE Operation against a key holding the wrong kind of value")
NO_INTEGER = error("ERR value is not an integer or out of range")


class Refused(Commands):
    """What is refused before it runs (rule 2), from the tables of the page."""

    @classmethod
    def setUpClass(cls):
        cls.words = {}
        for signatures, words, *_ in pages.rows(PAGE, "Table"):
            cls.words |= {signature.split()[0]: words for signature in signatures.split(", ")}
        cls.others = ["MULTI", "EXEC", "DISCARD", "WATCH"]
        cls.names = [name for name in cls.words if name not in cls.others]

    def takes(self, name, count):
        """Whether the page says that the command has so many words."""
        words = self.words[name]
        numbers = [int(number) for number in re.findall(r"\d+", words)]
        if "+" not in words:
            return count in numbers
        return count >= numbers[0] and ("," not in words or count % 2 == {"odd": 1, "even": 0}[words.split(", ")[1]])

    def test_the_plain_redis_has_the_rows_of_the_page(self):
        self.assertEqual(sorted(plain_commands.COMMANDS), sorted(name.lower().encode() for name in self.words))
        self.assertEqual(sorted(plain_commands.RUNNING), sorted(name.lower().encode() for name in self.names))
        self.assertEqual((len(self.names), len(self.others)), (34, 4))

    def test_numbers_of_words(self):
        table, empty = [], plain_keyspace.Keyspace()
        for name in self.names:
            wrong = error(f"ERR wrong number of arguments for '{name.lower()}' command")
            for count in range(1, 11):
                asked = (name.encode(), *(count - 1) * [b"1"])
                served, refused = plain_commands.effect(empty, asked), plain_commands.Effect(wrong)
                self.assertEqual(served == refused, not self.takes(name, count))
                table.append((asked, served if self.takes(name, count) else refused))
        self.show_effects(table)

    def test_names(self):
        table, empty = [], plain_keyspace.Keyspace()
        for name in map(str.encode, self.names):
            count = next(count for count in range(1, 5) if self.takes(name.decode(), count))
            arguments = (count - 1) * (b"1",)
            served = plain_commands.effect(empty, (name, *arguments))
            self.assertFalse(served.reply.startswith(b"-ERR"))
            table += [((other, *arguments), served) for other in (name.lower(), name.title(), name.title().swapcase())]
            for other in (name[:-1], name + b"X", name + b"\0", b" " + name, name + name):
                table.append(((other, *arguments), plain_commands.Effect(UNKNOWN)))
        self.show_effects(table)

    def test_names_of_no_command(self):
        names = ["NOSUCH", "SELECT", "KEYS", "COMMAND", ""]
        self.show_requests(((name.encode(), *count * [b"h"]), UNKNOWN) for name in names for count in range(6))

    # Commands of Redis 7, by what they are on. All of lists, sets and the like are unknown too.
    UNKNOWN_COMMANDS = {
        "strings": "GETEX GETRANGE GETSET INCRBYFLOAT LCS PSETEX SETEX SETRANGE SUBSTR",
        "bits of strings": "BITCOUNT BITFIELD BITFIELD_RO BITOP BITPOS GETBIT SETBIT",
        "hashes": "HINCRBYFLOAT HMSET HRANDFIELD HSCAN",
        "hashes, from Redis 7.4 on": "HEXPIRE HEXPIREAT HEXPIRETIME HPERSIST HPEXPIRE HPEXPIREAT HPEXPIRETIME HPTTL HTTL",
        "keys of any type":
            "COPY DUMP KEYS MIGRATE MOVE OBJECT RANDOMKEY RENAME RENAMENX RESTORE SCAN SORT SORT_RO TOUCH UNLINK WAIT "
            "WAITAOF",
        "their expiry": "EXPIRE EXPIREAT EXPIRETIME PERSIST PEXPIRE PEXPIREAT PEXPIRETIME PTTL TTL",
        "connections": "AUTH CLIENT HELLO RESET SELECT",
        "the server":
            "ACL BGREWRITEAOF BGSAVE COMMAND CONFIG DEBUG FAILOVER FLUSHALL INFO LASTSAVE LATENCY LOLWUT MEMORY MODULE "
            "MONITOR PSYNC REPLCONF REPLICAOF ROLE SAVE SHUTDOWN SLAVEOF SLOWLOG SWAPDB SYNC TIME",
    }

    def test_commands_of_redis_that_are_unknown_here(self):
        """Those that the page names among them."""
        names = [name for group in self.UNKNOWN_COMMANDS.values() for name in group.split()]
        self.assertEqual((len(names), len(set(names))), (86, 86))
        _, _, rest = pages.text_of(PAGE).partition(" are unknown, such as ")
        named = re.findall(r"\b[A-Z]{3,}\b", rest.partition("\n\n")[0])
        self.assertGreater(len(named), 10)
        self.assertLessEqual(set(named), set(names))
        self.show_requests(((name.encode(), *count * [b"h"]), UNKNOWN) for name in names for count in range(4))

    # The words after each name: k is a key or a field, v is none.
    SHAPES = {
        "SET": "kv", "GET": "k", "PING": "v", "ECHO": "v", "QUIT": "vv", "SETNX": "kv", "GETDEL": "k", "STRLEN": "k", "APPEND": "kv",
        "DEL": "kkk", "EXISTS": "kkk", "MSET": "kvkvkv", "MSETNX": "kvkvkv", "MGET": "kkk", "INCR": "k", "DECR": "k", "INCRBY": "kv",
        "DECRBY": "kv", "TYPE": "k", "DBSIZE": "", "FLUSHDB": "vv", "HSET": "kkvkvkv", "HSETNX": "kkv", "HGET": "kk", "HMGET": "kkk",
        "HDEL": "kkk", "HLEN": "k", "HEXISTS": "kk", "HSTRLEN": "kk", "HINCRBY": "kkv", "HGETALL": "k", "HKEYS": "k", "HVALS": "k",
        "UNWATCH": "",
    }

    def test_keys_of_512_and_of_513_bytes(self):
        table, empty = [], plain_keyspace.Keyspace()
        self.assertEqual(sorted(self.SHAPES), sorted(self.names))
        for name, shape in self.SHAPES.items():
            short = [LONGEST_KEY if kind == "k" else b"1" for kind in shape]
            asked = (name.encode(), *short)
            table.append((asked, plain_commands.effect(empty, asked)))
            for place, kind in enumerate(shape):
                asked = (name.encode(), *short[:place], LONG_KEY, *short[place + 1:])
                served, refused = plain_commands.effect(empty, asked), plain_commands.Effect(TOO_LONG)
                self.assertEqual(served == refused, kind == "k")
                table.append((asked, refused if kind == "k" else served))
        self.show_effects(table)

    def test_the_first_cause_is_told(self):
        wrong = error("ERR wrong number of arguments for 'get' command")
        self.show_requests([
            ((b"NOSUCH", LONG_KEY), UNKNOWN),
            ((b"GET", LONG_KEY, b"1"), wrong),
            ((b"MSET", LONG_KEY), error("ERR wrong number of arguments for 'mset' command")),
            ((b"GET", LONG_KEY), TOO_LONG),
            ((b"SET", LONG_KEY, b"1", b"EX"), TOO_LONG),
            ((b"INCRBY", LONG_KEY, b"x"), TOO_LONG),
            ((b"DECRBY", LONG_KEY, LEAST), TOO_LONG),
            ((b"SET", b"h", b"1", b"EX"), SYNTAX),
            ((b"INCRBY", b"h", b"x"), NO_INTEGER),
            ((b"INCRBY", b"s", b"x"), NO_INTEGER),
            ((b"INCR", b"h"), WRONG_TYPE),
            ((b"HSET", b"s", b"f", b"1", LONG_KEY), error("ERR wrong number of arguments for 'hset' command")),
            ((b"HSET", b"s", b"f", b"1", LONG_KEY, b"2"), TOO_LONG),
            ((b"HINCRBY", b"s", LONG_KEY, b"x"), TOO_LONG),
            ((b"HINCRBY", b"s", b"f", b"x"), NO_INTEGER),
            ((b"HINCRBY", b"s", b"f", b"1"), WRONG_TYPE),
        ])

    # By the error text a request that is answered so.
    ERRORS = {
        "ERR unknown command": "NOSUCH",
        "ERR wrong number of arguments for 'get' command": "GeT",
        "ERR key or field is longer than 512 bytes": (b"GET", LONG_KEY),
        "ERR syntax error": "SET s 1 EX",
        "ERR value is not an integer or out of range": "INCR s",
        "ERR hash value is not an integer": "HINCRBY h t 1",
        "ERR increment or decrement would overflow": (b"INCRBY", b"n", GREATEST),
        "ERR decrement would overflow": (b"DECRBY", b"n", LEAST),
        "WRONGTYPE Operation against a key holding the wrong kind of value": "GET h",
        "ERR string is longer than 1048576 bytes": (b"APPEND", b"s", 1_048_576 * b"v"),
    }

    def test_error_texts(self):
        section = pages.text_of(PAGE).partition("## Error texts\n")[2].partition("\n## ")[0]
        self.assertEqual(pages.CODE.findall(section), list(self.ERRORS))
        self.show_requests((asked, error(text)) for text, asked in self.ERRORS.items())


class Served(Commands):
    """Requests one after another, each over what those before it changed."""

    def test_a_session(self):
        self.show_session([
            ("SET a 1", OK, write("a", "1")),
            ("INCR a", integer(2), write("a", "2")),
            ("APPEND a 0", integer(2), write("a", "20")),
            ("HSET h f 1", integer(1), write_field("h", "f", "1")),
            ("DBSIZE", integer(2)),
            ("GET h", WRONG_TYPE),
            ("MSET h 1 b 2", OK, write("h", "1"), write("b", "2")),
            ("MGET a b h", array([bulk(word) for word in (b"20", b"2", b"1")])),
            ("GETDEL h", bulk(b"1"), DropKey(b"h")),
            ("DEL a b h", integer(2), DropKey(b"a"), DropKey(b"b")),
            ("FLUSHDB", OK),
            ("SET a 1", OK, write("a", "1")),
            ("FLUSHDB", OK, CLEAR),
            ("QUIT", OK, CLOSE),
        ], [])

    def test_a_hash_from_its_first_field_to_its_last(self):
        self.show_session([
            ("HSET h f 1", integer(1), write_field("h", "f", "1")),
            ("HDEL h f", integer(1), Drop((b"h", b"f"))),
            ("TYPE h", simple(b"none")),
            ("DBSIZE", integer(0)),
            ("HSET h b 1 a 2 b 3", integer(2), *(write_field("h", *pair) for pair in ("b1", "a2", "b3"))),
            ("HGETALL h", array([bulk(word) for word in (b"a", b"2", b"b", b"3")])),
            ("HINCRBY h a 5", integer(7), write_field("h", "a", "7")),
            ("SET s 1", OK, write("s", "1")),
            ("HSET s f 1", WRONG_TYPE),
            ("APPEND h 1", WRONG_TYPE),
            ("HGETALL h", array([bulk(word) for word in (b"a", b"7", b"b", b"3")])),
            ("SET h x", OK, write("h", "x")),
            ("TYPE h", simple(b"string")),
            ("HGET h a", WRONG_TYPE),
            ("DEL h", integer(1), DropKey(b"h")),
            ("HSETNX h b 4", integer(1), write_field("h", "b", "4")),
        ], [((b"h", b"b"), b"4"), ((b"s",), b"1")])

    def test_what_holds_hashes(self):
        for asked, reply in (("SET h 1", OK), ("SET h 1 XX", OK), ("MSET h 1", OK)):
            self.show_session([
                ("HSET h f 1", integer(1), write_field("h", "f", "1")),
                ("HSET h g 1", integer(1), write_field("h", "g", "1")),
                (asked, reply, write("h", "1")),
            ], [((b"h",), b"1")])

    def test_a_key_that_begins_another(self):
        self.show_session([
            ("HSET h g 2 f 1", integer(2), write_field("h", "g", "2"), write_field("h", "f", "1")),
            ("HSET hh f 3", integer(1), write_field("hh", "f", "3")),
            ((b"HSET", b"h", b"", b""), integer(1), plain_keyspace.Put((b"h", b""), b"")),
            ("HDEL h f", integer(1), Drop((b"h", b"f"))),
            ("HDEL hh f", integer(1), Drop((b"hh", b"f"))),
            ("HLEN h", integer(2)),
            ("HLEN hh", integer(0)),
            ("HKEYS h", array([bulk(b""), bulk(b"g")])),
        ], [((b"h", b""), b""), ((b"h", b"g"), b"2")])


class Integers(common.Cases):
    """Texts that are integers (rule 4): `0`, or an optional `-`, a digit 1 to 9 and digits, in 64 bits. Each is added to a key of its own."""

    ALPHABET = b"019-+ "
    AT_THE_BORDERS = [10**18, 2**63 - 2, 2**63 - 1, -(10**18), 1 - 2**63, -(2**63)]
    PAST_THE_BORDERS = [2**63, 10**19 - 1, 10**19, 2**64 - 1, 2**64, 10**20 - 1, -(2**63) - 1, 1 - 10**19, -(10**19)]
    OTHERS = [b"09223372036854775807", b"+9223372036854775807", b"-09223372036854775808"]
    OTHERS += [b"1\n", b"\n1", b"1\0", b"0x1", b"1e1", b"1.0", b"1_0", b"\xff", b"\xd9\xa1", b"nan"]

    def show(self, table):
        """Texts, and of each its number or None."""
        asked = b"".join(spell("INCRBY", f"k{number}", text) for number, (text, _) in enumerate(table))
        finished = common.run_program("server", stdin=asked)
        self.assertEqual((finished.status, finished.errors), (0, b""))
        replies = finished.output.splitlines(keepends=True)
        self.assertEqual(len(replies), len(table))
        for (text, number), reply in zip(table, replies):
            with self.case("text", text=text):
                self.assertEqual(reply, NO_INTEGER if number is None else integer(number))

    def test_every_text_of_at_most_four_characters(self):
        integers = {str(number).encode(): number for number in range(-999, 10_000)}
        texts = [bytes(text) for length in range(5) for text in itertools.product(self.ALPHABET, repeat=length)]
        self.assertEqual(len(texts), 1 + 6 + 36 + 216 + 1_296)
        # a zero; of 1 and 9 with 0, 1 and 9 behind them those of 1 to 4 digits; and those of 1 to 3 with a minus
        self.assertEqual(sum(text in integers for text in texts), 1 + 2 * (1 + 3 + 9 + 27) + 2 * (1 + 3 + 9))
        self.show([(text, integers.get(text)) for text in texts])

    def test_at_the_borders(self):
        self.show([(str(number).encode(), number) for number in self.AT_THE_BORDERS])

    def test_past_the_borders(self):
        self.show([(str(number).encode(), None) for number in self.PAST_THE_BORDERS] + [(text, None) for text in self.OTHERS])


class Drawn(Runs):
    """Requests drawn by a seed, against the plain Redis. Those that need a session are drawn elsewhere (draws.transaction)."""

    SEEDS, REQUESTS, LINES = 24, 400, 131_072
    # At most so many changing calls wait for their group.
    OPEN = 50

    NAMES = [name for name in draws.NAMES if name not in draws.SESSION - {b"unwatch"}]

    # What the draws have to lead to.
    ERRORS = {error(text) for text in (plain_replies.OVERFLOW, plain_replies.NO_OPPOSITE, plain_replies.LONG_STRING, plain_replies.NO_INTEGER_OF_A_FIELD)}
    ERRORS |= {UNKNOWN, TOO_LONG, SYNTAX, NO_INTEGER, WRONG_TYPE}
    CHANGES = {plain_keyspace.Put, plain_keyspace.Drop, plain_keyspace.DropKey, plain_keyspace.Clear}

    def test_against_the_plain_redis(self):
        effects = []
        for seed in range(self.SEEDS):
            drawn, redis = draws.numbers(f"commands {seed}"), plain_redis.Redis(plain_writer.Room(self.LINES))
            asked = self.draw(drawn)
            served = [redis.serve(words) for words in asked]
            effects += served
            with self.case(f"seed {seed}"):
                trace = self.play(self.schedule_of(asked, served), lines=(self.LINES, self.LINES))
                self.assertEqual([call.reply for call in trace.calls], [effect.reply for effect in served])
                self.assertEqual(trace.records["standby"], redis.keyspace.records())
        self.check_draws(effects)

    def schedule_of(self, asked, served):
        """The requests one after another, each connection's up to the one that closes it; groups of `OPEN` requests."""
        schedule, c, groups = Schedule(1 + sum(effect.closes for effect in served)), 0, 0
        for number, (words, effect) in enumerate(zip(asked, served)):
            schedule.feed(c, spell(*words))
            schedule.serve(c)
            c += effect.closes
            if number % self.OPEN == self.OPEN - 1:
                schedule.commit()
                schedule.replicate(groups)
                groups += 1
        return schedule

    def check_draws(self, effects):
        """The draws lead to every error, kind of change and kind of key."""
        wanted = self.ERRORS | {simple(kind) for kind in (b"string", b"hash", b"none")}
        self.assertEqual(wanted - {it.reply for it in effects}, set())
        self.assertEqual(self.CHANGES, {type(change) for it in effects for change in it.changes})
        self.assertGreater(sum(bool(it.changes) for it in effects), len(effects) // 6)

    def draw(self, drawn):
        """Requests, now and then one more field of a hash, also where the key holds a string, and seldom a string of the greatest length, which grows."""
        asked = []
        while len(asked) < self.REQUESTS:
            if drawn.randrange(2_000) == 0:
                key = drawn.choice(draws.KEYS)
                asked += [(b"SET", key, 1_048_576 * b"v"), (b"APPEND", key, drawn.choice(draws.VALUES))]
            if drawn.randrange(8) == 0:
                key, field, value = drawn.choice(draws.KEYS), drawn.choice(draws.FIELDS), drawn.choice(draws.VALUES)
                asked += [(b"DEL", key)] * drawn.randrange(2) + [(b"HSET", key, field, value)]
            asked.append(draws.request(drawn, self.NAMES))
        return asked[:self.REQUESTS]
