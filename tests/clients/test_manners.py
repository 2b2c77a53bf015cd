"""How the pair of processes bears its clients and its ends: many of them, slow ones, silent ones, those that leave, signals, and images that
are taken already."""

import contextlib
import itertools
import os
import signal
import socket
import struct
import threading
import time

import common
import worked_cases as worked
from pair import NO_SEAT, PATIENCE, Client, Ended, Port, ServingCases, allow_descriptors, wait_until
from plain_replies import OK, array, bulk, integer
from spelling import spell
from worked_cases import GET_A, NULL, ONE, SET_A

PROGRAMS = ["server"]
IS_SLOW = True
QUICK = ["Seats", "Leaving"]

SEATS = 1_024
LONGEST = 65_536 * b"v"


class Seats(ServingCases):
    def test_1024_connections_and_one_more(self):
        self.assertTrue(allow_descriptors(SEATS + 200), "this process may not have so many descriptors")
        clients = [wait_until(self.nodes.seated_client, "a seat") for _ in range(SEATS)]
        for _ in range(3):
            with self.case("one more"), Client(self.nodes.door.number) as one_more:
                self.assertEqual(one_more.read_all(), NO_SEAT)
        with self.case("all are served"):
            for client in clients:
                client.send(spell("INCR", "n"))
            found = sorted(int(client.reply()[1:]) for client in clients)
            self.assertEqual(found, list(range(1, SEATS + 1)))
        with self.case("a seat that is given back"):
            clients[0].close()
            again = wait_until(self.nodes.seated_client, "a seat that was given back")
            self.assertEqual(again.ask("GET", "n"), bulk(b"%d" % SEATS))

    def test_more_connections_one_after_another_than_there_are_seats(self):
        for at in range(SEATS + 100):
            with Client(self.nodes.door.number) as client:
                self.assertEqual(client.ask("ECHO", f"{at}"), bulk(b"%d" % at))
        self.assert_serves()


class Slow(ServingCases):
    def test_a_client_that_never_reads(self):
        """It is given its own replies up to what sockets hold, and all of them once it reads."""
        client = self.nodes.client()
        self.assertEqual(client.ask("SET", "long", LONGEST), OK)
        request, sent = spell("GET", "long"), 0
        client.socket.settimeout(1)
        with contextlib.suppress(TimeoutError):
            while sent < 400 * len(request):
                sent += client.socket.send(request[sent % len(request):])
        self.assert_serves()
        client.socket.settimeout(PATIENCE)
        wanted = bulk(LONGEST)
        for _ in range(sent // len(request)):
            self.assert_bytes(client.reply(), wanted)
        self.assert_serves()

    def test_clients_that_never_read_and_leave(self):
        for way in ("closed", "reset"):
            with self.case(way):
                client = self.nodes.client()
                self.assertEqual(client.ask("SET", "long", LONGEST), OK)
                client.send(200 * spell("GET", "long"))
                self.assert_serves()
                if way == "reset":
                    client.socket.setsockopt(socket.SOL_SOCKET, socket.SO_LINGER, struct.pack("ii", 1, 0))
                client.close()
                self.assert_serves()

    def test_half_a_request(self):
        """A request that does not go on stops nobody, and is answered once it does."""
        halves = [self.nodes.client() for _ in range(20)]
        for at, client in enumerate(halves):
            client.send(SET_A[:at + 1])
        for _ in range(3):
            self.assert_serves(20)
            self.assertTrue(halves[0].is_silent(0.5))
        for at, client in enumerate(halves):
            client.send(SET_A[at + 1:] + GET_A)
            self.assertEqual(client.reply() + client.reply(), OK + ONE)

    def test_a_value_in_single_bytes_beside_others(self):
        client = self.nodes.client()
        data = spell("SET", "slow", 2_000 * "v") + spell("STRLEN", "slow")
        for at in range(len(data)):
            client.send(data[at:at + 1])
        self.assert_serves()
        self.assertEqual(client.reply() + client.reply(), OK + integer(2_000))

    def test_20_clients_behind_a_frozen_standby(self):
        """Nothing comes out to any of them, and all of it once the standby goes on; what was asked by one that left is there too."""
        clients = [self.nodes.client() for _ in range(20)]
        self.nodes.standby.freeze()
        for at, client in enumerate(clients):
            client.send(spell("SET", f"k{at}", f"{at}") + spell("GET", f"k{at}"))
        for client in clients:
            self.assertTrue(client.is_silent(0.02))
        self.assertTrue(all(client.is_silent(0.02) for client in clients))
        clients[0].close()
        self.nodes.standby.thaw()
        for at, client in list(enumerate(clients))[1:]:
            self.assertEqual(client.reply() + client.reply(), OK + bulk(b"%d" % at))
        with Client(self.nodes.door.number) as another:
            self.assertEqual(another.ask("GET", "k0"), bulk(b"0"))

    def test_a_standby_that_is_killed_again_and_again(self):
        clients = [self.nodes.client() for _ in range(10)]
        for turn in range(4):
            self.nodes.standby.end()
            for client in clients:
                client.send(spell("INCR", "n"))
            self.assertTrue(all(client.is_silent(0.02) for client in clients))
            self.nodes.standby.start()
            found = sorted(int(client.reply()[1:]) for client in clients)
            self.assertEqual(found, list(range(10 * turn + 1, 10 * turn + 11)))


class Leaving(ServingCases):
    def test_a_client_that_closes_its_sending_side(self):
        client = self.nodes.client()
        client.send(500 * spell("INCR", "n"))
        client.end_sending()
        self.assert_bytes(client.read_all(), b"".join(integer(at + 1) for at in range(500)))

    def test_it_closes_its_sending_side_behind_a_frozen_standby(self):
        client = self.nodes.client()
        self.nodes.standby.freeze()
        client.send(SET_A + GET_A + b"*2\r\n$3\r\nGE")
        client.end_sending()
        self.assertTrue(client.is_silent(0.5))
        self.nodes.standby.thaw()
        self.assert_bytes(client.read_all(), OK + ONE)

    def test_the_text_of_a_fault_comes_before_the_close(self):
        """Also where more was sent than is read."""
        for size in (0, 1, 1_000, 100_000, 500_000):
            with self.case("input after the fault", size=size):
                client = self.nodes.client()
                client.send(SET_A + b"P" + size * b"x")
                self.assert_bytes(client.read_all(), OK + worked.NO_STAR)
                client.close()
        self.assert_serves()

    def test_what_comes_behind_a_fault_is_let_go(self):
        """The side that is at fault may go on sending for a while: it is not told that the connection is reset."""
        def may_go_on():
            with Client(self.nodes.door.number) as client:
                client.send(b"P")
                self.assert_bytes(client.read_all(), worked.NO_STAR)
                try:
                    for _ in range(3):
                        time.sleep(0.05)
                        client.send(1_000 * b"x")
                except OSError:
                    return False
                return True

        # (on a machine that is busy a second may pass between two pieces, which ends it)
        self.assertTrue(any(may_go_on() for _ in range(5)))

    def test_the_text_of_a_fault_waits_for_what_was_asked_before(self):
        client = self.nodes.client()
        self.nodes.standby.freeze()
        client.send(SET_A + GET_A + b"P" + GET_A)
        self.assertTrue(client.is_silent(0.5))
        self.nodes.standby.thaw()
        self.assert_bytes(client.read_all(), OK + ONE + worked.NO_STAR)

    def test_quit(self):
        client = self.nodes.client()
        client.send(SET_A + spell("QUIT") + spell("SET", "a", "2") + spell("NOSUCH"))
        self.assert_bytes(client.read_all(), OK + OK)
        with Client(self.nodes.door.number) as another:
            self.assertEqual(another.ask("GET", "a"), ONE)

    def test_quit_in_a_transaction(self):
        client = self.nodes.client()
        client.send(spell("MULTI") + SET_A + spell("QUIT"))
        self.assert_bytes(client.read_all(), OK + b"+QUEUED\r\n" + OK)
        with Client(self.nodes.door.number) as another:
            self.assertEqual(another.ask("GET", "a"), NULL)

    def test_a_client_that_is_gone_before_its_reply(self):
        for way in ("closed", "reset"):
            for _ in range(50):
                client = self.nodes.client()
                client.send(spell("INCR", way))
                if way == "reset":
                    # (it may be gone before it was read; only the close is abrupt here)
                    self.assertNotEqual(client.reply(), b"")
                    client.send(spell("GET", way))
                    client.socket.setsockopt(socket.SOL_SOCKET, socket.SO_LINGER, struct.pack("ii", 1, 0))
                client.close()
        with Client(self.nodes.door.number) as another:
            wait_until(lambda: another.ask("MGET", "closed", "reset") == array([bulk(b"50"), bulk(b"50")]), "what was asked by those that left")
        self.assert_serves()


class Ends(ServingCases):
    """The ends of a node, and nodes that cannot begin."""

    HAS_NUMBER = True

    def assert_no_torn_line(self, node):
        for file in (node.output, node.errors):
            text = file.read_bytes()
            self.assertTrue(not text or text.endswith(b"\n"), text)

    def test_signals_that_end_a_node(self):
        for number in (signal.SIGTERM, signal.SIGINT):
            with self.case(signal.Signals(number).name):
                with Client(self.nodes.door.number) as client:
                    position = int(client.ask("INCR", "n")[1:])
                    client.send(200 * GET_A)
                    for node in (self.nodes.primary, self.nodes.standby):
                        self.assertEqual(node.end(number), -number)
                        self.assert_no_torn_line(node)
                # the replies that came, if any, are whole
                primary, standby = self.nodes.inspect()
                self.assertEqual((primary["position"], standby["position"]), (position, position))
                self.nodes.standby.start()
                self.nodes.primary.start()
                self.nodes.wait()
                with Client(self.nodes.door.number) as client:
                    self.assertEqual(client.ask("GET", "n"), bulk(b"%d" % position))

    def assert_refused(self, words, text):
        """It is refused for now: another process has the image, or the address."""
        finished = common.run_program("server", words, seconds=PATIENCE)
        self.assertEqual(finished._replace(errors=common.without_news(finished.errors)), (75, b"", text))

    def test_a_second_process_on_the_same_image(self):
        fault = b"refusal 1: device fault\n"
        with contextlib.closing(Port()) as first, contextlib.closing(Port()) as second:
            for node in (self.nodes.primary, self.nodes.standby):
                image, role = str(node.image), node.role
                options = ["--link", second.address()] if role == "primary" else []
                for words in (
                    [role, "--image", image, "--listen", first.address(), *options],
                    ["format", "--image", image, "--lines", "65536", "--role", role],
                ):
                    with self.case("refused", words=words[0], role=role):
                        self.assert_refused(words, fault)
                with self.case("inspected", role=role):
                    finished = common.run_program("server", ["inspect", "--image", image], seconds=PATIENCE)
                    self.assertEqual((finished.status, common.without_news(finished.errors)), (0, b""))
                    self.assertIn(f"role {role}\n".encode(), finished.output)
        self.assert_serves()

    def wait_for(self, node, lines):
        """Waits until these are the lines that a node told last."""
        end = time.monotonic() + PATIENCE
        while not node.errors.read_bytes().endswith(lines):
            self.assert_in_time(time.monotonic(), end)
            time.sleep(0.02)

    def test_what_a_node_tells(self):
        """docs/server.md, "What a node tells"."""
        primary, standby, link = self.nodes.primary, self.nodes.standby, self.nodes.link.address().encode()
        self.wait_for(standby, b"opened at position 0, epoch 1, with 0 keys\nlistening on %s\n" % link)
        self.wait_for(primary, b"link open to %s at position 0\n" % link)
        self.assertIn(b"opened at position 0, epoch 1, with 0 keys\nlistening on ", primary.errors.read_bytes())
        with Client(self.nodes.door.number) as client:
            self.assertEqual(client.ask("SET", "a", "1"), OK)
        standby.end()
        self.wait_for(primary, b"link to %s lost: the connection ended\nno link to %s: nobody takes a connection\n" % (link, link))
        standby.start()
        self.wait_for(standby, b"opened at position 1, epoch 1, with 1 keys\nlistening on %s\n" % link)
        self.wait_for(primary, b"link open to %s at position 1\n" % link)

    def test_an_address_that_is_taken(self):
        self.nodes.primary.end()
        with socket.socket() as taken:
            taken.bind(("127.0.0.1", 0))
            taken.listen()
            address = "127.0.0.1:%d" % taken.getsockname()[1]
            words = ["primary", "--image", str(self.nodes.primary.image), "--listen", address, "--link", self.nodes.link.address()]
            self.assert_refused(words, b"cannot listen\n")
        self.nodes.primary.start()
        self.nodes.wait()
        self.assert_serves()

    def test_an_image_that_is_made_longer_or_shorter_under_its_node(self):
        """The next fence fails, and the node ends: nothing more is answered. Over a file of its length again it goes on. It catches a node that
        writes where another has put its hand to the file."""
        for node, change in itertools.product((self.nodes.standby, self.nodes.primary), (64, 1, -64)):
            with self.case("length", role=node.role, change=change):
                # (what was replaced is freed by now)
                time.sleep(0.1)
                size = node.image.stat().st_size
                os.truncate(node.image, size + change)
                before = node.image.read_bytes()
                with Client(self.nodes.door.number) as client:
                    client.send(spell("SET", node.role, "1"))
                    self.assertEqual(node.wait(), 1)
                    self.assertEqual(common.without_news(node.errors.read_bytes()).splitlines()[-1], b"refusal 1: device fault")
                    self.assert_bytes(node.image.read_bytes(), before)
                    if node is self.nodes.primary:
                        self.assert_bytes(client.read_all(), b"")
                    else:
                        self.assertTrue(client.is_silent(0.5))
                    os.truncate(node.image, size)
                    node.start()
                    self.nodes.wait()
                    if node is self.nodes.standby:
                        self.assertEqual(client.reply(), OK)
                self.assert_serves()


class Beside(ServingCases):
    def test_a_mix_of_all(self):
        """Clients that write, others that never read, half requests, faults and resets side by side: the writers count right."""
        ended = threading.Event()

        def disturb(number):
            while not ended.is_set():
                with contextlib.suppress(OSError, Ended), Client(self.nodes.door.number) as client:
                    if number % 4 == 0:
                        client.send(100 * spell("GET", "long"))
                    elif number % 4 == 1:
                        client.send(SET_A[:number % len(SET_A)])
                    elif number % 4 == 2:
                        client.send(GET_A + b"P" + GET_A)
                        client.read_all()
                    else:
                        client.send(50 * GET_A)
                        client.socket.setsockopt(socket.SOL_SOCKET, socket.SO_LINGER, struct.pack("ii", 1, 0))

        with Client(self.nodes.door.number) as client:
            self.assertEqual(client.ask("SET", "long", LONGEST), OK)
        threads = [threading.Thread(target=disturb, args=(number,), daemon=True) for number in range(8)]
        for thread in threads:
            thread.start()
        try:
            with Client(self.nodes.door.number) as client:
                for at in range(100):
                    self.assertEqual(client.ask("INCR", "n"), integer(at + 1))
        finally:
            ended.set()
        for thread in threads:
            thread.join(PATIENCE)
        self.assert_serves()
