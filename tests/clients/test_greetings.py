"""What the two sides of a link say first (docs/replication.md, "The greeting"): nodes of another release, and strangers that greet otherwise or not at
all. Each is refused and told, nothing is changed, and no client is answered."""

import contextlib
import gzip
import select
import socket
import subprocess
import time

import common
import plain_image
import plain_journal
from damaged_frames import SET_A
from pair import HOST, LINES, PATIENCE, PairCases, ServingCases, number_in, run, wait_until
from plain_image import STANDBY
from plain_keyspace import Put
from plain_replies import OK, bulk
from plain_wire import ACK_BYTES, GREETING_BYTES, LINK_VERSION, Acknowledgement, Greeting, Group, number, text
from plain_writer import Writer
from spelling import spell
from standby_node import Node, StandingBy, without_records
from test_images import LINES as FEW_LINES, words_of

PROGRAMS = ["server"]
IS_SLOW = True
QUICK = ["ToAStandby", "ToAPrimary.test_each_is_refused"]

WRONG_LINK, WRONG_PAIR = b"refusal 19: wrong link version", b"refusal 18: wrong pair"
# The number of the pair of the node that is tried.
NUMBER = 2**61 + 7
# The last release whose links begin with an acknowledgement.
FORMER = 21


def wrong_greetings(pair):
    """What is no greeting of the pair of this number and of this release: of each a name, its bytes, and the refusal."""
    other = pair % 2**62 + 1
    return [
        ("the next version", text(Greeting(pair, LINK_VERSION + 1)), WRONG_LINK),
        ("version 0", text(Greeting(pair, 0)), WRONG_LINK),
        ("the version, lowest byte first", b"\x08\x01" + bytes(7) + number(pair), WRONG_LINK),
        ("the highest version", text(Greeting(pair, 2**64 - 1)), WRONG_LINK),
        ("another version of another pair", text(Greeting(other, LINK_VERSION + 1)), WRONG_LINK),
        ("another version without a pair", text(Greeting(0, LINK_VERSION + 1)), WRONG_LINK),
        ("another first byte", b"\x09" + text(Greeting(pair))[1:], WRONG_LINK),
        ("an acknowledgement", text(Acknowledgement(1, 0)), WRONG_LINK),
        ("a frame", SET_A, WRONG_LINK),
        ("a request", spell("SET", "a", "1"), WRONG_LINK),
        ("ones", 100 * b"\xff", WRONG_LINK),
        ("zeros", bytes(GREETING_BYTES), WRONG_LINK),
        ("another pair", text(Greeting(other)), WRONG_PAIR),
        ("the number, lowest byte first", text(Greeting(0))[:9] + pair.to_bytes(8, "little"), WRONG_PAIR),
        ("the highest number", text(Greeting(2**64 - 1)), WRONG_PAIR),
    ]


def former_program(folder):
    """The server of that release, in this folder, where the repository's history has it."""
    def git(*words):
        ran = subprocess.run(["git", "-C", common.ROOT, *words], capture_output=True, check=False)
        return ran.stdout if ran.returncode == 0 else b""

    for commit in git("log", "--format=%H", "--", "releases/LIST").decode().split():
        if f"release {FORMER}\n".encode() in git("show", f"{commit}:releases/LIST"):
            path = folder / "former-server"
            path.write_bytes(gzip.decompress(git("show", f"{commit}:releases/wbl-server.gz")))
            path.chmod(0o755)
            return str(path)
    return None


class ToAStandby(StandingBy):
    """A standby whose primary is this test."""

    @contextlib.contextmanager
    def standby(self, number=NUMBER):
        """A standby that holds something, its file, and that of what it tells."""
        with self.folder() as folder:
            writer = Writer(FEW_LINES, STANDBY, pair=number)
            writer.commit([[Put((b"a",), b"1")]])
            path, errors = self.made(folder, writer.words), common.ToldFile(folder / "errors")
            with open(errors, "ab") as told, Node(path, stderr=told) as node:
                yield node, path, errors

    def said(self, link):
        """All that comes up to the link's end."""
        found = b""
        link.settimeout(PATIENCE)
        with contextlib.suppress(ConnectionError):
            while more := link.recv(2**16):
                found += more
        return found

    def assert_stays(self, path, before):
        """The image is as it was, but for gaps that are cleared."""
        self.assertEqual(without_records(words_of(path.read_bytes())), without_records(before))

    def test_each_is_refused(self):
        """It has greeted, says no more, and takes the next link; the image stays."""
        with self.standby() as (node, path, errors):
            before = words_of(path.read_bytes())
            for name, data, words in wrong_greetings(NUMBER):
                with self.case("greeting", name=name):
                    told = errors.read_bytes().count(words)
                    with node.connect() as link:
                        link.sendall(data + SET_A)
                        self.assertEqual(self.said(link), text(Greeting(NUMBER)))
                    self.assert_stays(path, before)
                    self.assertGreaterEqual(errors.read_bytes().count(words), told)
            for words in (WRONG_LINK, WRONG_PAIR):
                wait_until(lambda words=words: b"left the link: " + words + b"\n" in errors.read_bytes(), "a refusal that is told")
            self.assertEqual(node.exchange(greeting=Greeting(NUMBER)), text(Acknowledgement(1, 1)))

    def test_who_leaves_before_it_greets(self):
        """It is told of once, and then ever more seldom; what it said of a greeting counts for nothing."""
        with self.standby() as (node, path, errors):
            before, told = words_of(path.read_bytes()), len(errors.read_bytes())
            for at in range(30):
                with node.connect() as link:
                    link.sendall(text(Greeting(NUMBER))[:at % GREETING_BYTES])
                    link.shutdown(socket.SHUT_WR)
                    self.assertEqual(self.said(link), text(Greeting(NUMBER)))
            wait_until(lambda: len(errors.read_bytes()) > told, "a line of it")
            time.sleep(0.2)
            lines = errors.read_bytes()[told:].splitlines()
            self.assertTrue(1 <= len(lines) <= 12, lines)
            self.assert_stays(path, before)
            self.assertEqual(node.exchange(greeting=Greeting(NUMBER)), text(Acknowledgement(1, 1)))

    def test_nothing_is_said_before_the_greeting_is_whole(self):
        """Nor behind it anything but where the standby is, however the greeting comes."""
        with self.standby() as (node, _, _):
            for piece in (1, 5, 16):
                with self.case("pieces", piece=piece), node.connect() as link:
                    link.settimeout(PATIENCE)
                    self.assertEqual(link.recv(100), text(Greeting(NUMBER)))
                    data = text(Greeting(NUMBER))
                    for at in range(0, len(data), piece):
                        self.assertFalse(select.select([link], [], [], 0.01)[0])
                        link.sendall(data[at:at + piece])
                    self.assertEqual(link.recv(100), text(Acknowledgement(1, 1)))
            for data in (b"", text(Group(1, 1, 2, (Put((b"a",), b"2"),)))):
                # (the greeting and a frame in one piece)
                with self.case("in one piece", bytes=len(data)), node.connect() as link:
                    link.sendall(text(Greeting(NUMBER)) + data)
                    link.shutdown(socket.SHUT_WR)
                    positions = (1, 2) if data else (1,)
                    self.assertEqual(self.said(link), text(Greeting(NUMBER)) + b"".join(text(Acknowledgement(1, at)) for at in positions))

    def test_a_stranger_that_dribbles(self):
        """A byte of a greeting now and then keeps nobody else from the link for long."""
        with self.standby() as (node, _, _), node.connect() as stranger:
            stranger.sendall(text(Greeting(NUMBER))[:1])
            time.sleep(0.2)
            began = time.monotonic()
            with node.connect() as link:
                link.settimeout(PATIENCE)
                data = text(Greeting(NUMBER))
                link.sendall(data)
                for byte in data[1:]:
                    with contextlib.suppress(OSError):
                        stranger.send(bytes([byte]))
                    if select.select([link], [], [], 0.5)[0]:
                        break
                found = b""
                while len(found) < GREETING_BYTES + ACK_BYTES and (piece := link.recv(GREETING_BYTES + ACK_BYTES - len(found))):
                    found += piece
                self.assertEqual(found, text(Greeting(NUMBER)) + text(Acknowledgement(1, 1)))
            self.assert_in_time(time.monotonic() - began, 30 * common.BUSY)


class ToAPrimary(PairCases):
    """A primary whose standby is this test, and then the one that it had."""

    def setUp(self):
        super().setUp()
        self.nodes = self.pair()
        with self.nodes.client() as client:
            self.assertEqual(client.ask("SET", "a", "1"), OK)
        self.number = number_in(self.nodes.primary.image)
        wait_until(lambda: number_in(self.nodes.standby.image) == self.number, "a standby that has the number")
        self.nodes.end()
        self.listener = socket.create_server((HOST, self.nodes.link.number))
        self.addCleanup(self.listener.close)
        self.listener.settimeout(PATIENCE)

    def accepted(self):
        """The next connection, on which nothing is said yet."""
        link, _ = self.listener.accept()
        self.addCleanup(link.close)
        link.settimeout(PATIENCE)
        return link

    def forget_dials(self):
        """Closes the connections that are there already."""
        self.listener.settimeout(0)
        with contextlib.suppress(BlockingIOError):
            while True:
                self.listener.accept()[0].close()
        self.listener.settimeout(PATIENCE)

    def start(self):
        self.nodes.primary.start()
        wait_until(self.nodes.primary.is_listening, "a primary that listens")

    def assert_told(self, words):
        wait_until(lambda: words in self.nodes.primary.errors.read_bytes()[self.nodes.primary.began:], f"that it tells {words}")

    def come(self, link):
        """All that comes up to the link's end."""
        found = b""
        with contextlib.suppress(ConnectionError):
            while more := link.recv(2**16):
                found += more
        return found

    def no_link(self, words):
        return b"no link to %s: %s\n" % (self.nodes.link.address().encode(), words)

    def assert_goes_on(self, client):
        """The right standby comes, and what waits is answered."""
        self.listener.close()
        self.nodes.standby.start()
        self.assertEqual([client.reply(), client.ask("GET", "a"), client.ask("SET", "b", "1")], [OK, bulk(b"2"), OK])

    def test_each_is_refused(self):
        """The primary has greeted and sends no frame; its image stays, and a client that writes is told nothing. It dials again, and takes the right one."""
        self.start()
        client, before = self.nodes.client(), self.nodes.primary.image.read_bytes()
        client.send(spell("SET", "a", "2"))
        for name, data, words in wrong_greetings(self.number):
            with self.case("greeting", name=name):
                began = len(self.nodes.primary.errors.read_bytes())
                link = self.accepted()
                link.sendall(data + text(Acknowledgement(1, 1)))
                self.assertEqual(self.come(link), text(Greeting(self.number)))
                self.assertTrue(client.is_silent(0))
                self.assert_bytes(self.nodes.primary.image.read_bytes(), before)
                self.assertNotIn(b"link open", self.nodes.primary.errors.read_bytes()[began:])
                link.close()
        for words in (WRONG_LINK, WRONG_PAIR):
            self.assert_told(self.no_link(words))
        self.assert_goes_on(client)

    def test_one_that_leaves_or_says_nothing(self):
        """Before it has greeted: nothing counts, and it is dialed again."""
        self.start()
        client, before = self.nodes.client(), self.nodes.primary.image.read_bytes()
        client.send(spell("SET", "a", "2"))
        for at in (0, 1, GREETING_BYTES - 1):
            with self.case("left", bytes=at):
                link = self.accepted()
                link.sendall(text(Greeting(self.number))[:at])
                link.shutdown(socket.SHUT_WR)
                self.assertEqual(self.come(link), text(Greeting(self.number)))
                link.close()
        self.assert_told(b"no link to ")
        self.assertTrue(client.is_silent(0))
        self.assert_bytes(self.nodes.primary.image.read_bytes(), before)
        self.assert_goes_on(client)

    def test_a_greeting_in_pieces(self):
        """And one with what the standby says then in one piece."""
        for name, pieces in [
            ("bytes", [bytes([byte]) for byte in text(Greeting(self.number)) + text(Acknowledgement(1, 1))]),
            ("one piece", [text(Greeting(self.number)) + text(Acknowledgement(1, 1))]),
            ("no number", [text(Greeting(0)) + text(Acknowledgement(1, 1))]),
        ]:
            with self.case("pieces", name=name):
                self.nodes.primary.end()
                self.forget_dials()
                self.start()
                link = self.accepted()
                for piece in pieces:
                    link.sendall(piece)
                    time.sleep(0.005)
                self.assertEqual(link.recv(GREETING_BYTES, socket.MSG_WAITALL), text(Greeting(self.number)))
                self.assert_told(b"link open to %s at position 1\n" % self.nodes.link.address().encode())
                link.close()


class AnotherRelease(ServingCases):
    """A node of the last release whose links begin otherwise, beside one of this one, in either role: nothing is answered, both tell what they can, and both
    images are as they were. Its node with one of its own goes on over them, and so do two of this release."""

    def setUp(self):
        super().setUp()
        self.assert_serves(5)
        number = number_in(self.nodes.primary.image)
        wait_until(lambda: number_in(self.nodes.standby.image) == number, "a standby that has the number")
        self.nodes.end()
        for node in (self.nodes.primary, self.nodes.standby):
            # (that release knows no journal)
            run("settle", "--image", str(node.image))

    def start(self, node, program):
        """Starts a node by this program."""
        with open(node.output, "ab") as output, open(node.errors, "ab") as errors:
            node.began = len(node.errors.read_bytes())
            # (what starts it is the test's: it ends with it)
            node.process = subprocess.Popen([program, *node.words], stdin=subprocess.DEVNULL, stdout=output, stderr=errors)
        wait_until(node.is_listening, f"a {node.role} that listens")

    def kept(self, node):
        return plain_image.read_image(plain_image.Words(LINES, words_of(plain_journal.read_file(node.image))))

    def told(self, node):
        return node.errors.read_bytes()[node.began:]

    def assert_nothing(self, wanted):
        """A client that writes and reads is told nothing, though both nodes run."""
        with self.nodes.client() as client:
            client.send(spell("SET", "late", "1") + spell("GET", "other"))
            self.assertTrue(client.is_silent(3))
        for node, image in zip((self.nodes.primary, self.nodes.standby), wanted):
            self.assertTrue(node.is_running())
            found = self.kept(node)
            self.assertEqual((found.map, found.record.told(), found.pair), (image.map, image.record.told(), image.pair))

    def check(self, primary, standby, tells):
        wanted = [self.kept(node) for node in (self.nodes.primary, self.nodes.standby)]
        self.start(self.nodes.standby, standby)
        self.start(self.nodes.primary, primary)
        self.assert_nothing(wanted)
        for node, words in zip((self.nodes.primary, self.nodes.standby), tells):
            wait_until(lambda node=node, words=words: words in self.told(node), f"the word of the {node.role}")
        self.nodes.end()

    def test_both_ways(self):
        former, own = former_program(self.nodes.folder), common.program("server")
        if former is None:
            print(f"{self.id()}: skipped, since the history of the repository is not there", flush=True)
            return
        with self.case("the primary is of the former release"):
            self.check(former, own, (b"no standby says where it is", b"a connection was closed before it greeted"))
        with self.case("the standby is of the former release"):
            self.check(own, former, (WRONG_LINK, b"refusal 10: frame fault"))
        with self.case("both are of the former release, over these images"):
            for node in (self.nodes.standby, self.nodes.primary):
                self.start(node, former)
            self.assert_serves(5)
            self.nodes.end()
        with self.case("both are of this release again"):
            for node in (self.nodes.standby, self.nodes.primary):
                node.start()
            self.nodes.wait()
            self.assert_serves(5)
            self.assertNotEqual(number_in(self.nodes.primary.image), 0)
