"""The client program (docs/clients.md) over a server that answers stored replies: what it sends, what it prints of each form of reply however
the bytes are cut, requests by lines, and how it ends."""

import os
import re
import socket
import subprocess
import tempfile

import pages
from common import ROOT, SECONDS, Cases, program, run_program
from plain_replies import NULL_ARRAY, NULL_BULK, OK, array, bulk, error, integer, simple
from spelling import spell
from stored_server import StoredServer, cut

PROGRAMS = ["client"]

DONE, FAILED, MISUSED, PASSING = 0, 1, 2, 75

USAGE = b"wbl-cli --connect A [word ..]\n"
BROKEN = b"broken connection\n"
NOBODY = b"no connection: nobody takes one there\n"
NO_NAME = b"no connection: the name of the host does not resolve\n"
NO_REPLY = b"what came is no reply\n"

# Nested arrays are read up to this depth: an array within eight others must be empty.
DEPTH = 8

# What is printed of a reply.
FORMS = [
    ("simple string", OK, b"OK\n"),
    ("empty simple string", simple(b""), b"\n"),
    ("simple string of any bytes", simple(b'a "\\\x00\xff'), b'a "\\\x00\xff\n'),
    ("error", error("ERR syntax error"), b"(error) ERR syntax error\n"),
    ("integer", integer(7), b"(integer) 7\n"),
    ("zero", integer(0), b"(integer) 0\n"),
    ("least integer", integer(-2**63), b"(integer) -9223372036854775808\n"),
    ("greatest integer", integer(2**63 - 1), b"(integer) 9223372036854775807\n"),
    ("bulk string", bulk(b"one two"), b'"one two"\n'),
    ("empty bulk string", bulk(b""), b'""\n'),
    ("quote and backslash", bulk(b'"\\'), b'"\\x22\\x5c"\n'),
    ("line end", bulk(b"a\r\nb"), b'"a\\x0d\\x0ab"\n'),
    ("bytes at the borders", bulk(b"\x1f\x20\x7e\x7f"), b'"\\x1f ~\\x7f"\n'),
    ("digits in lower case", bulk(b"\xab\xcd\xef"), b'"\\xab\\xcd\\xef"\n'),
    ("no value", NULL_BULK, b"(nil)\n"),
    ("no array", NULL_ARRAY, b"(nil array)\n"),
    ("empty array", array([]), b"(array 0)\n"),
    ("array", array([bulk(b"f"), bulk(b"1")]), b'(array 2)\n  "f"\n  "1"\n'),
    (
        "array of each form",
        array([OK, error("ERR x"), integer(-1), bulk(b"\n"), NULL_BULK, NULL_ARRAY, array([])]),
        b'(array 7)\n  OK\n  (error) ERR x\n  (integer) -1\n  "\\x0a"\n  (nil)\n  (nil array)\n  (array 0)\n',
    ),
    (
        "nested arrays",
        array([array([integer(1), array([integer(2)])]), integer(3)]),
        b"(array 2)\n  (array 2)\n    (integer) 1\n    (array 1)\n      (integer) 2\n  (integer) 3\n",
    ),
]


def nested(depth, inner):
    """This reply within so many arrays of one."""
    return nested(depth - 1, array([inner])) if depth else inner


def escaped(data):
    """A bulk string as it is printed, from the page's words."""
    plain = lambda byte: 0x20 <= byte <= 0x7E and byte not in b'"\\'
    return '"%s"' % "".join(chr(byte) if plain(byte) else "\\x%02x" % byte for byte in data)


class Client(Cases):
    def run_client(self, exchanges, words=(), stdin=b"", **ends):
        """Runs the client over a server with these exchanges, and returns how it ended and the server."""
        with StoredServer(exchanges, **ends) as server:
            finished = run_program("client", ["--connect", server.address, *words], stdin)
        return finished, server

    def assert_asked(self, server, requests):
        """Just these requests came, each as it is spelled."""
        self.assertEqual(server.came, [spell(*words) for words in requests])
        self.assertEqual(server.rest, b"")

    def assert_failed(self, finished, printed=b"", errors=BROKEN):
        """Such a failure passes where it is of the connection."""
        self.assert_bytes(finished.output, printed)
        passes = errors in (BROKEN, NOBODY, NO_NAME)
        self.assertEqual((finished.status, finished.errors), (PASSING if passes else FAILED, errors))

    def assert_printed(self, finished, reply, printed):
        """All was printed, and the status says whether the reply is an error."""
        self.assert_bytes(finished.output, printed)
        self.assertEqual((finished.status, finished.errors), (FAILED if reply.startswith(b"-") else DONE, b""))


class Replies(Client):
    def test_each_form(self):
        for name, reply, printed in FORMS:
            with self.case("form", form=name):
                finished, server = self.run_client([(spell("GET", "a"), [reply])], ["GET", "a"])
                self.assert_printed(finished, reply, printed)
                self.assert_asked(server, [["GET", "a"]])

    def test_each_form_in_single_bytes(self):
        for name, reply, printed in FORMS:
            with self.case("form", form=name):
                finished, _ = self.run_client([(spell("GET", "a"), cut(reply, 1))], ["GET", "a"])
                self.assert_printed(finished, reply, printed)

    def test_every_byte(self):
        data = bytes(range(256))
        finished, _ = self.run_client([(spell("GET", "a"), [bulk(data)])], ["GET", "a"])
        self.assert_written(finished, escaped(data).encode() + b"\n")

    def test_arrays_as_deep_as_they_are_read(self):
        finished, _ = self.run_client([(spell("x"), [nested(DEPTH, array([]))])], ["x"])
        self.assert_written(finished, b"".join(b"  " * depth + b"(array 1)\n" for depth in range(DEPTH)) + b"  " * DEPTH + b"(array 0)\n")
        finished, _ = self.run_client([(spell("x"), [nested(DEPTH, array([integer(1)]))])], ["x"])
        self.assert_failed(finished, errors=NO_REPLY)

    def test_replies_above_1_mib(self):
        value = b"v" * 3_000_000
        fields = [bulk(b"field %06d" % place) for place in range(100_000)]
        lines = b"".join(b'  "field %06d"\n' % place for place in range(100_000))
        some = [("bulk string", bulk(value), b'"%s"\n' % value), ("array", array(fields), b"(array 100000)\n" + lines)]
        for name, reply, printed in some:
            for size in (len(reply), 50_000):
                with self.case(name, size=size):
                    self.assertGreater(len(reply), 1 << 20)
                    finished, _ = self.run_client([(spell("HGETALL", "h"), cut(reply, size))], ["HGETALL", "h"])
                    self.assert_written(finished, printed)

    def test_two_replies_to_one_request(self):
        finished, _ = self.run_client([(spell("x"), [OK + integer(1)])], ["x"])
        self.assert_written(finished, b"OK\n")
        # (the second is what the next request is answered)
        finished, _ = self.run_client([(spell("x"), [OK + integer(1)]), (spell("y"), [integer(2)])], stdin=b"x\ny\n")
        self.assert_written(finished, b"OK\n(integer) 1\n")

    def test_next_reply_begins_in_the_same_piece(self):
        whole = bulk(b"one") + bulk(b"two")
        for place in range(len(bulk(b"one")), len(whole)):
            with self.case("cut", place=place):
                exchanges = [(spell("x"), [whole[:place]]), (spell("y"), [whole[place:]])]
                finished, server = self.run_client(exchanges, stdin=b"x\ny\n")
                self.assert_written(finished, b'"one"\n"two"\n')
                self.assert_asked(server, [["x"], ["y"]])


class Requests(Client):
    def test_words_of_the_command_line(self):
        some = [
            ["PING"],
            ["SET", "a", ""],
            [""],
            ["SET", "a b", " c  d "],
            ["SET", "ä", "\n"],
            ["--", "INCRBY", "a", "-5"],
            ["--", "--connect", "x"],
            ["SET", "--", "a", "-1"],
            ["ECHO", "x" * 100_000],
            ["MSET", *["x"] * 2_000],
        ]
        for words in some:
            with self.case("words", words=[word[:20] for word in words[:9]]):
                wanted = [word for word in words if word != "--"]
                finished, server = self.run_client([(spell(*wanted), [OK])], words, stdin=b"not read\n")
                self.assert_written(finished, b"OK\n")
                self.assert_asked(server, [wanted])

    def test_lines(self):
        some = [
            ("one line", b"GET a\n", [["GET", "a"]]),
            ("no line feed at the end", b"GET a", [["GET", "a"]]),
            ("runs of spaces", b"   SET  a   1  \n", [["SET", "a", "1"]]),
            ("lines without a word", b"\n   \nGET a\n\n \nGET b\n\n", [["GET", "a"], ["GET", "b"]]),
            ("any bytes", b"SET \xff\x00 \t\r\n", [["SET", b"\xff\x00", b"\t\r"]]),
            ("words with a hyphen", b"INCRBY a -5\n-- x\n", [["INCRBY", "a", "-5"], ["--", "x"]]),
            ("a word above the limit", b"ECHO " + b"x" * 100_000 + b"\n", [["ECHO", b"x" * 100_000]]),
            ("more words than the limit", b"x " * 2_000 + b"\n", [["x"] * 2_000]),
            ("many lines", b"INCR a\n" * 1_000, [["INCR", "a"]] * 1_000),
        ]
        for name, stdin, requests in some:
            with self.case("lines", lines=name):
                exchanges = [(spell(*words), [integer(place)]) for place, words in enumerate(requests)]
                finished, server = self.run_client(exchanges, stdin=stdin)
                self.assert_written(finished, b"".join(b"(integer) %d\n" % place for place in range(len(requests))))
                self.assert_asked(server, requests)

    def test_no_request(self):
        for stdin in (b"", b"\n", b"   \n \n"):
            with self.case("input", input=stdin):
                finished, server = self.run_client([], stdin=stdin)
                self.assert_written(finished, b"")
                self.assert_asked(server, [])

    def test_each_reply_is_printed_before_the_next_line_is_read(self):
        asked = [(spell("INCR", "a"), [integer(place)]) for place in range(5)]
        with StoredServer(asked) as server:
            words = [program("client"), "--connect", server.address]
            with subprocess.Popen(words, stdin=subprocess.PIPE, stdout=subprocess.PIPE, bufsize=0) as child:
                for place in range(5):
                    child.stdin.write(b"INCR a\n")
                    self.assertEqual(child.stdout.readline(), b"(integer) %d\n" % place)
                child.stdin.close()
                self.assertEqual(child.wait(SECONDS), DONE)


class Endings(Client):
    def test_nobody_listens(self):
        with socket.socket() as bound:
            bound.bind(("127.0.0.1", 0))
            address = "%s:%d" % bound.getsockname()
            for words in (["PING"], []):
                self.assert_failed(run_program("client", ["--connect", address, *words]), errors=NOBODY)

    def test_addresses_that_are_none(self):
        for address in ("", "x", "7000", "127.0.0.1", "127.0.0.1:", "127.0.0.1:99999", ":7000", "a b:7000", "127.0.0.1:-1"):
            with self.case("address", address=address):
                finished = run_program("client", ["--connect", address, "PING"])
                self.assertEqual((finished.status, finished.output), (MISUSED, b""))
                self.assertIn(b"'--connect <A>' takes a host and a port", finished.errors)

    def test_a_name_that_does_not_resolve(self):
        self.assert_failed(run_program("client", ["--connect", "no-such-host.invalid:7000", "PING"]), errors=NO_NAME)

    def test_an_error_among_the_replies(self):
        """The other lines are asked all the same. One within an array is none of the request's."""
        refused, within = error("ERR x"), array([error("ERR x")])
        for replies, status in [([OK, refused, OK], FAILED), ([refused], FAILED), ([OK, refused], FAILED), ([OK, OK], DONE), ([within], DONE)]:
            with self.case("replies", replies=replies):
                exchanges = [(spell("x"), [reply]) for reply in replies]
                finished, server = self.run_client(exchanges, stdin=len(replies) * b"x\n")
                self.assertEqual((finished.status, finished.errors), (status, b""))
                self.assert_asked(server, len(replies) * [["x"]])

    def test_help(self):
        for words in (["--help"], ["-h"], ["--connect", "127.0.0.1:1", "--help"]):
            with self.case("words", words=words):
                finished = run_program("client", words)
                self.assertEqual((finished.status, finished.errors), (DONE, b""))
                self.assertIn(b"Usage: wbl-cli", finished.output)
        with open("/dev/full", "wb") as full:
            self.assertEqual(run_program("client", ["--help"], stdout=full).status, FAILED)
        # (behind `--` it is a word as any other)
        finished, server = self.run_client([(spell("GET", "--help"), [NULL_BULK])], ["--", "GET", "--help"])
        self.assert_written(finished, b"(nil)\n")

    def test_broken_in_the_middle(self):
        for name, reply, _ in FORMS:
            for place in sorted({0, 1, len(reply) // 2, len(reply) - 1}):
                with self.case("form", form=name, place=place):
                    finished, _ = self.run_client([(spell("x"), [reply[:place]])], ["x"], closes=True)
                    self.assert_failed(finished)

    def test_reset(self):
        finished, _ = self.run_client([(spell("x"), [b"$3\r\no"])], ["x"], resets=True)
        self.assert_failed(finished)

    def test_closed_after_some_replies(self):
        exchanges = [(spell("x"), [OK]), (spell("y"), [integer(2)])]
        finished, _ = self.run_client(exchanges, stdin=b"x\ny\nz\n", closes=True)
        self.assert_failed(finished, b"OK\n(integer) 2\n")
        # (nothing more was asked, so all replies came)
        finished, _ = self.run_client(exchanges, stdin=b"x\ny\n", closes=True)
        self.assert_written(finished, b"OK\n(integer) 2\n")

    def test_what_is_no_reply(self):
        some = [b"x", b"\r\n", b"+a\n", b":+5\r\n", b":05\r\n", b":9223372036854775808\r\n", b"$-2\r\n", b"$1\r\nab\r\n", b"$01\r\na\r\n"]
        some += [b"$536870913\r\n", b"*-2\r\n", b"*1\r\nx", b"*4294967296\r\n", b"-a\rb\r\n"]
        for reply in some:
            with self.case("reply", reply=reply):
                # (the server goes on waiting: a fault is told without the end of the connection)
                finished, _ = self.run_client([(spell("y"), [OK]), (spell("x"), [reply])], stdin=b"y\nx\nz\n")
                self.assert_failed(finished, b"OK\n", NO_REPLY)

    def test_bad_command_lines(self):
        some = [
            ["PING"],
            ["--connect"],
            ["--connect", "127.0.0.1:1", "--connect", "127.0.0.1:1"],
            ["--connect", "127.0.0.1:1", "INCRBY", "a", "-5"],
            ["--connect", "127.0.0.1:1", "--other", "x"],
            ["-x"],
            [""],
            ["--"],
            ["--connect", "127.0.0.1:1", b"\xff\xfe"],
        ]
        for words in some:
            with self.case("words", words=words):
                # (standard input stays open: it is not read)
                source, sink = os.pipe()
                try:
                    finished = run_program("client", words, stdin=source)
                finally:
                    os.close(source)
                    os.close(sink)
                self.assertEqual((finished.status, finished.output), (MISUSED, b""))
                self.assertRegex(finished.errors, rb"\Aerror: |Usage: wbl-cli")

    def test_no_words(self):
        self.assert_written(run_program("client", stdin=b"PING\n"), USAGE)
        with open("/dev/full", "wb") as full:
            self.assert_failed(run_program("client", stdout=full), errors=b"writing failed: No space left on device (os error 28)\n")

    def test_output_that_fails(self):
        with open("/dev/full", "wb") as full, StoredServer([(spell("x"), [OK]), (spell("y"), [OK])]) as server:
            finished = run_program("client", ["--connect", server.address], b"x\ny\n", stdout=full)
        self.assertEqual(finished.status, FAILED)
        self.assertRegex(finished.errors, rb"\Awriting failed: [^\n]+\n\Z")
        self.assert_asked(server, [["x"]])

    def test_input_that_fails(self):
        directory = os.open("/", os.O_RDONLY)
        try:
            finished, server = self.run_client([], stdin=directory)
        finally:
            os.close(directory)
        self.assertEqual((finished.status, finished.output), (FAILED, b""))
        self.assertRegex(finished.errors, rb"\Areading failed: [^\n]+\n\Z")

    def test_input_from_a_file(self):
        with tempfile.TemporaryFile() as source:
            source.write(b"GET a\nGET b\n")
            source.seek(0)
            finished, _ = self.run_client([(spell("GET", "a"), [OK]), (spell("GET", "b"), [NULL_BULK])], stdin=source.fileno())
        self.assert_written(finished, b"OK\n(nil)\n")


class Page(Client):
    """The session that docs/clients.md shows."""

    REPLIES = {
        ("HSET", "h", "f", "1"): integer(1),
        ("HGETALL", "h"): array([bulk(b"f"), bulk(b"1")]),
        ("GET", "a"): NULL_BULK,
        ("INCRBY", "a", "-5"): integer(-5),
        ("SET", "a", "x"): OK,
        ("MULTI",): OK,
        ("INCR", "a"): simple(b"QUEUED"),
        ("EXEC",): array([error("ERR value is not an integer or out of range")]),
    }

    def test_session(self):
        shown = 0
        for line, lines in pages.blocks(ROOT / "docs" / "clients.md"):
            for command, input_lines, output in sessions(lines):
                with self.case("command", line=line, command=command):
                    shown += 1
                    words = [word for word in command.split(" ") if word]
                    requests = [tuple(it.split(" ")) for it in input_lines] or [tuple(word for word in words if word != "--")]
                    exchanges = [(spell(*words), [self.REPLIES[words]]) for words in requests]
                    finished, server = self.run_client(exchanges, words, "".join(f"{it}\n" for it in input_lines).encode())
                    self.assert_written(finished, output.encode())
                    self.assert_asked(server, requests)
        self.assertGreater(shown, 3)


def sessions(lines):
    """The commands of a block of the page: the words after the address, the lines that are given to it, and what it prints."""
    found = []
    for line in lines:
        if command := re.fullmatch(r"\$ (?:printf '(.*)' \| )?bin/wbl-cli --connect 127\.0\.0\.1:7000(.*)", line):
            given = command[1].removesuffix("\\n").split("\\n") if command[1] else []
            found.append([command[2], given, ""])
        elif found:
            found[-1][2] += f"{line}\n"
    return found
