"""A standby that takes over the number of its pair with its first frame: when it does, from whom it does not, kills and failing syncs about then
(docs/replication.md, "The greeting"; docs/image.md)."""

import contextlib
import os
import random
import signal
import time
import unittest

import common
import held_syncs
import noted_calls
import plain_image
from damaged_frames import SET_A
from noted_calls import Noting, mixed
from pair import greet, number_in, wait_until
from plain_image import BOUND, STANDBY, BadImage
from plain_keyspace import Put
from plain_wire import ACK_BYTES, Acknowledgement, Greeting, Group, text
from plain_writer import Writer
from standby_node import Node, StandingBy, take
from test_images import FAILED, LINES as FEW_LINES, refusal, words_of
from test_whose_image import TELLING

PROGRAMS = ["server"]
IS_SLOW = True
QUICK = ["TakingOver.test_with_its_first_frame", "TakingOver.test_not_from_a_primary_that_is_refused"]

# The number of the pair, and what a standby tells that takes it over.
NUMBER = 2**61 + 7
TAKEN_OVER = b"took over the number of its pair, %d\n"
# How often a standby is killed about when it takes the number over.
KILLS = 15


class TakingOver(StandingBy):
    """A standby whose primary is this test."""

    def new(self, folder, number=0):
        """The writer of a new standby's image, and its file."""
        writer = Writer(FEW_LINES, STANDBY, pair=number)
        return writer, self.made(folder, writer.words)

    def settled(self, path, number):
        wait_until(lambda: number_in(path) == number, "a number that is taken over", TELLING)

    def assert_is(self, path, writer):
        """The image is the plain one's, but for gaps that were cleared where nothing came for a second."""
        wait_until(lambda: self.is_readable(path), "an image that can be read")
        self.assert_words(words_of(path.read_bytes()), writer.words)

    def is_readable(self, path):
        with contextlib.suppress(BadImage):
            plain_image.read_image(self.words(path))
            return True

    def test_with_its_first_frame(self):
        """It acknowledges it, ends the link, and has the number in the words of the image alone; on the next link it greets with that."""
        frames = [Group(1, 0, 1, (Put((b"a",), b"1"),)), Group(1, 1, 2, (Put((b"b",), b"2"),))]
        with self.folder() as folder:
            writer, path = self.new(folder)
            writer.reopen()
            errors = common.ToldFile(folder / "errors")
            with open(errors, "ab") as told, Node(path, stderr=told) as node:
                with node.connect() as link:
                    self.assertEqual(greet(link, Greeting(NUMBER)), Greeting(0))
                    self.assertEqual(link.recv(ACK_BYTES), text(Acknowledgement(1, 0)))
                    self.assertEqual(number_in(path), 0)
                    link.sendall(text(frames[0]))
                    found = b""
                    with contextlib.suppress(ConnectionError):
                        while more := link.recv(2**16):
                            found += more
                    self.assertEqual(found, text(Acknowledgement(1, 1)))
                take(writer, frames[0])
                writer.take_over(NUMBER)
                self.settled(path, NUMBER)
                wait_until(lambda: TAKEN_OVER % NUMBER in errors.read_bytes(), "a standby that says so")
                with node.connect() as link:
                    self.assertEqual(greet(link, Greeting(NUMBER)), Greeting(NUMBER))
                    self.assertEqual(link.recv(ACK_BYTES), text(Acknowledgement(1, 1)))
                self.assertEqual(node.exchange(text(frames[1]), greeting=Greeting(NUMBER)), text(Acknowledgement(1, 1)) + text(Acknowledgement(1, 2)))
                take(writer, frames[1])
                self.assert_is(path, writer)

    def test_not_from_a_primary_that_is_refused(self):
        """Nor from one that sends nothing, or less than a frame; a stranger's number stays with the stranger."""
        change = (Put((b"b",), b"2"),)
        with self.folder() as folder:
            writer, path = self.new(folder)
            with Node(path) as node:
                node.exchange(SET_A)
                for name, data in [
                    ("nothing", b""), ("a part of a frame", text(Group(1, 1, 2, change))[:-1]), ("no frame", b"\xff"),
                    ("another epoch", text(Group(2, 1, 2, change))), ("a gap", text(Group(1, 7, 8, change))),
                    ("an acknowledgement", text(Acknowledgement(1, 1))),
                    ("no room", text(Group(1, 1, 2, tuple(Put((b"%d" % at,), 65_536 * b"v") for at in range(8))))),
                ]:
                    with self.case("refused", name=name):
                        self.assertEqual(node.exchange(data, greeting=Greeting(NUMBER + 1)), text(Acknowledgement(1, 1)))
                        self.assertEqual(number_in(path), 0)
                time.sleep(0.5)
                self.assertEqual(number_in(path), 0)
                # (nor does one without a number give it one)
                self.assertEqual(node.exchange(text(Group(1, 1, 2, change))), text(Acknowledgement(1, 1)) + text(Acknowledgement(1, 2)))
                self.assertEqual(number_in(path), 0)
                node.exchange(text(Group(1, 2, 3, change)), greeting=Greeting(NUMBER))
                self.settled(path, NUMBER)

    def test_one_that_has_a_number_keeps_it(self):
        """It takes frames of a primary that has the same or none, and of no other."""
        with self.folder() as folder:
            writer, path = self.new(folder, NUMBER)
            with Node(path) as node:
                for position, greeting in enumerate([Greeting(NUMBER), Greeting(0)]):
                    frame = Group(1, position, position + 1, (Put((b"a",), b"1"),))
                    found = node.exchange(text(frame), greeting=greeting)
                    self.assertEqual(found, text(Acknowledgement(1, position)) + text(Acknowledgement(1, position + 1)))
                for number in (1, NUMBER - 1, NUMBER + 1, BOUND, 2**64 - 1, int.from_bytes(NUMBER.to_bytes(8, "little"), "big")):
                    with self.case("another", number=number):
                        self.assertEqual(node.exchange(text(Group(1, 2, 3, ())), greeting=Greeting(number)), b"")
                self.assertEqual((number_in(path), plain_image.read_image(self.words(path)).record.position), (NUMBER, 2))

    def test_killed_at_once(self):
        """It acknowledges its first frame and is killed, at once or a moment later: it holds that frame, and the number or none; then it takes what follows."""
        draws, counted = random.Random(f"killed {time.time()}"), {}
        frames = [Group(1, at, at + 1, (Put((b"k%d" % at,), b"%d" % at),)) for at in range(3)]
        for count in range(KILLS):
            with self.case("killed", count=count), self.folder() as folder:
                _, path = self.new(folder)
                with Node(path) as node, node.link(Greeting(NUMBER)) as link:
                    link.recv(ACK_BYTES)
                    link.sendall(text(frames[0]))
                    self.assertEqual(link.recv(ACK_BYTES), text(Acknowledgement(1, 1)))
                    time.sleep(draws.choice([0, draws.uniform(0, 0.01)]))
                    node.child.send_signal(signal.SIGKILL)
                    node.child.wait()
                image = plain_image.read_image(self.words(path))
                self.assertIn(image.pair, (0, NUMBER))
                self.assertEqual((image.record.position, image.map), (1, {(b"k0",): b"0"}))
                counted["had it" if image.pair else "had it not"] = counted.get("had it" if image.pair else "had it not", 0) + 1
                with Node(path) as node:
                    self.assertEqual(node.exchange(text(frames[1]), greeting=Greeting(NUMBER)), text(Acknowledgement(1, 1)) + text(Acknowledgement(1, 2)))
                    self.settled(path, NUMBER)
                    self.assertEqual(node.exchange(text(frames[2]), greeting=Greeting(NUMBER)), text(Acknowledgement(1, 2)) + text(Acknowledgement(1, 3)))
                image = plain_image.read_image(self.words(path))
                self.assertEqual((image.record.position, sorted(image.map.values()), image.pair), (3, [b"0", b"1", b"2"], NUMBER))
        common.tell("standbys that were killed behind their first frame", counted)

    def failed(self, folder, library, number, frame):
        """The image of a node whose sync of this number failed behind the first frame, and what it asked of it. (One to which nothing came for a second has
        cleared a gap before, whose syncs count too: another takes its place.)"""
        wanted = text(Acknowledgement(1, 0)) + text(Acknowledgement(1, 1))
        while True:
            _, path = self.new(folder)
            noting, began = Noting(library, path, fails=number), time.monotonic()
            with Node(path, env=os.environ | noting.settings) as node:
                found = node.exchange(text(frame), greeting=Greeting(NUMBER))
                if found == wanted or time.monotonic() - began < 0.9:
                    self.assertEqual((found, node.ended()), (wanted, (FAILED, b"", refusal(1))))
                    return path, noting

    @unittest.skipUnless(held_syncs.HAS_COMPILER, "there is no gcc")
    def test_each_sync_of_it_fails(self):
        """The node ends, and whatever is left of the words that were not durable, the image holds the frame; started again it has the number soon."""
        frames = [Group(1, at, at + 1, (Put((b"k%d" % at,), b"%d" % at),)) for at in range(3)]
        with self.folder() as folder:
            library = noted_calls.library(folder)
            _, path = self.new(folder)
            noting = Noting(library, path)
            with Node(path, env=os.environ | noting.settings) as node:
                node.exchange(text(frames[0]), greeting=Greeting(NUMBER))
                self.settled(path, NUMBER)
                node.exchange(text(frames[1]), greeting=Greeting(NUMBER))
            syncs = sum(call.word in ("data", "sync") for call in noting.calls())
            # (three of opening the image, three of the frame, those of the number and of opening it again, and three of the next frame)
            self.assertGreaterEqual(syncs, 10)
            for number in range(7, syncs - 2):
                with self.case("sync", number=number):
                    path, noting = self.failed(folder, library, number, frames[0])
                    left, durable, drawn = path.read_bytes(), noting.synced.read_bytes(), random.Random(number)
                    for data in (left, durable, mixed(left, durable, drawn), mixed(left, durable, drawn)):
                        path.write_bytes(data)
                        image = plain_image.read_image(self.words(path))
                        self.assertEqual((image.record.position, image.map), (1, {(b"k0",): b"0"}))
                        self.assertIn(image.pair, (0, NUMBER))
                        with Node(path) as node:
                            found = node.exchange(text(frames[1]), greeting=Greeting(NUMBER))
                            self.assertEqual(found, text(Acknowledgement(1, 1)) + text(Acknowledgement(1, 2)))
                            self.settled(path, NUMBER)
