"""A standby whose free lines or entries are as many as a frame takes, but lie apart, or in a gap: it makes room, and the reply comes. What is caught is a
pair of healthy nodes that answers nothing any more."""

import contextlib
import os
import random

import common
import filling
import held_syncs
import noted_calls
import plain_image
import plain_journal
from noted_calls import Noting, mixed
from pair import PATIENCE, PairCases, wait_until
from plain_image import MORE_LINES, STANDBY, Words
from plain_keyspace import Drop, Put
from plain_replies import OK
from plain_wire import ACK_BYTES, Acknowledgement, Group, text
from plain_writer import Writer
from spelling import spell
from standby_node import Node, StandingBy, cut_short, take
from test_images import FAILED, LINES, refusal

PROGRAMS = ["server"]
IS_SLOW = True

# At a key of one byte it takes 1,025 of 3,576 lines.
LONGEST = 65_536 * b"v"
# How long each load writes (tests/sweep-room takes longer), and its seed, at which a standby that makes no room is soon stuck.
SECONDS, SEED = 3, 1
# An image that has room for values of a mebibyte.
LARGE_LINES = 65_536


class RoomCases(PairCases):
    def assert_both_hold(self, nodes, wanted):
        """Both nodes end, and both images hold just these values of strings."""
        nodes.end()
        for node in (nodes.primary, nodes.standby):
            with self.case("image", role=node.role):
                self.assertEqual(node.read_image().map, {(key.encode(),): value for key, value in wanted.items()})


class Lines(RoomCases):
    """Free lines that lie apart on the standby, and not on the primary."""

    def test_two_long_values_and_a_short_one(self):
        """The standby has the first long value again and then the short one as two frames, and frees the lines of the one before it takes the other: the
        short one lies in the middle of them then. On the primary they are free in one piece."""
        nodes = self.pair(lines=LINES)
        with nodes.client() as first, nodes.client() as second:
            self.assertEqual([first.ask("SET", key, value) for key, value in [("A", LONGEST), ("B", LONGEST), ("s", "1")]], 3 * [OK])
            nodes.standby.freeze()
            image = nodes.primary.image
            for client, request in [(first, spell("SET", "A", LONGEST)), (second, spell("SET", "s", "2"))]:
                # (each is a group of its own once it is on the image before the other is sent)
                before = plain_journal.read_file(image)
                client.send(request)
                wait_until(lambda: plain_journal.read_file(image)[40:48] != before[40:48], "a group that is committed")
            nodes.standby.thaw()
            self.assertEqual([first.reply(), second.reply()], 2 * [OK])
            # (the primary answers that its store is full before it has freed what the first has replaced)
            wait_until(lambda: first.ask("SET", "B", LONGEST) == OK, "room on the primary")
        self.assert_both_hold(nodes, {"A": LONGEST, "B": LONGEST, "s": b"2"})


class Gaps(RoomCases):
    """Entries of a commit that was cut short: each begins in a gap."""

    @common.unittest.skipUnless(held_syncs.HAS_COMPILER, "there is no gcc")
    def test_a_frame_that_was_cut_short_comes_again(self):
        """200 of 494 entries are live, and 200 more were begun when the standby was killed before the first sync of the frame: it is taken after the
        first start."""
        nodes = self.pair(lines=LINES)
        file, keys = nodes.folder / "held", [f"k{number}" for number in range(200)]
        nodes.standby.end()
        held_syncs.hold(nodes.standby, file)
        nodes.standby.start()
        nodes.wait()
        with nodes.client() as client:
            for value in ("old", "new"):
                request = spell("MSET", *(word for key in keys for word in (key, value)))
                if value == "new":
                    file.touch()
                client.send(request)
                if value == "new":
                    wait_until(held_syncs.begun(file).exists, "a sync that is held")
                    nodes.standby.end()
                    file.unlink()
                    nodes.standby.start()
                self.assertEqual(client.reply(), OK)
        self.assert_both_hold(nodes, dict.fromkeys(keys, b"new"))


class Named(RoomCases):
    """A frame for which no room can be made: it is named on both nodes."""

    def test_a_standby_that_is_too_small(self):
        nodes = self.pair(lines=2 * LINES, standby_lines=LINES)
        with nodes.client() as client:
            # (three of them have room on the standby)
            self.assertEqual([client.ask("SET", f"k{number}", LONGEST) for number in range(3)], 3 * [OK])
            client.send(spell("SET", "k3", LONGEST))
            for node, words in ((nodes.standby, b"left the link: refusal 5: full: "), (nodes.primary, b" links in a row and took nothing that was sent on them: ")):
                wait_until(lambda node=node, words=words: words in node.errors.read_bytes(), f"a {node.role} that names it")
                with self.case("what there is to do", role=node.role):
                    self.assertIn(b'see "A standby without room" in docs/server.md', node.errors.read_bytes())
            self.assertTrue(client.is_silent())

    def test_a_standby_that_is_only_away(self):
        """Links that the standby ends, with nothing sent on them, and one that comes back, are not taken for that."""
        nodes = self.pair(lines=LINES)
        with nodes.client() as client:
            for number in range(5):
                self.assertEqual(client.ask("SET", "a", str(number)), OK)
                nodes.restart(nodes.standby)
            self.assertEqual(client.ask("SET", "a", "5"), OK)
        self.assertNotIn(b"links in a row", nodes.primary.errors.read_bytes())


@common.unittest.skipUnless(held_syncs.HAS_COMPILER, "there is no gcc")
class Idle(StandingBy):
    """A standby to which nothing comes clears its gaps, the oldest first."""

    def record_of(self, path):
        """The image's record; `None` where it was read while a node wrote it."""
        with contextlib.suppress(plain_image.BadImage):
            return plain_image.read_image(self.words(path)).record
        return None

    def silent(self, node, path):
        """A link on which nothing is sent, until no gap is left, or the node has ended. Each record meanwhile lacks the oldest gap of the one before it."""
        first = wait_until(lambda: self.record_of(path), "a record")

        def has_cleared_all():
            record = self.record_of(path)
            if record:
                self.assertEqual(record.gaps, first.gaps[record.number - first.number:])
            return node.child.poll() is not None or record and not record.gaps

        with contextlib.suppress(ConnectionError), node.link() as link:
            link.recv(ACK_BYTES)
            wait_until(has_cleared_all, "gaps that are cleared")

    def test_all_gaps_are_cleared_and_the_map_stays(self):
        """One gap of a commit that was cut short, and those of three openings."""
        puts = [Put((b"%d" % number,), b"v") for number in range(500)]
        writer = Writer(LINES, STANDBY)
        self.assertTrue(take(writer, Group(1, 0, 1, tuple(puts[:300]))))
        with self.folder() as folder:
            path = self.made(folder, cut_short(writer, puts[300:400]))
            for _ in range(2):
                with Node(path):
                    pass
            live = live_versions(self.words(path))
            first = plain_image.read_image(self.words(path)).record
            with Node(path) as node:
                opened = wait_until(lambda: self.record_of(path), "a record")
                # (a reopening has one more gap, and clears none while there is room for it)
                cleared = opened.number - first.number - 1
                self.assertEqual(opened.gaps[:len(first.gaps) - cleared], first.gaps[cleared:])
                self.silent(node, path)
                # (and it takes what comes then)
                frame = Group(1, 1, 2, tuple(puts[400:500]))
                self.assertEqual(node.exchange(text(frame)), text(Acknowledgement(1, 1)) + text(Acknowledgement(1, 2)))
            words = self.words(path)
            self.assertEqual(plain_image.read_image(words).record.position, 2)
            self.assertEqual([version for version in live_versions(words) if version in live], live)

    def test_each_sync_of_it_fails(self):
        """The node ends then; whatever is left of the words that were not durable, the image holds the same map."""
        puts = [Put((b"%d" % number,), b"v") for number in range(200)]
        writer = Writer(LINES, STANDBY)
        self.assertTrue(take(writer, Group(1, 0, 1, tuple(puts[:100]))))
        words = cut_short(writer, puts[100:])
        with self.folder() as folder:
            library = noted_calls.library(folder)
            # (three are those of opening the image, the first that of the whole file; three are those of a gap)
            for number in range(4, 7):
                path = self.made(folder, words)
                live = live_versions(self.words(path))
                noting = Noting(library, path, fails=number)
                with Node(path, env=os.environ | noting.settings) as node:
                    self.silent(node, path)
                    self.assertEqual(node.ended(), (FAILED, b"", refusal(1)))
                left, durable, drawn = path.read_bytes(), noting.synced.read_bytes(), random.Random(number)
                for data in (left, durable, mixed(left, durable, drawn), mixed(left, durable, drawn)):
                    path.write_bytes(data)
                    self.assertEqual(live_versions(self.words(path)), live)
                    with Node(path) as node:
                        self.silent(node, path)
                        self.assertIsNone(node.child.poll())
                    self.assertEqual(live_versions(self.words(path)), live)


def live_versions(words):
    """The versions of a whole image that have not ended, wherever they are."""
    return sorted(version for version in plain_image.versions_on(words) if not version.has_ended)


@common.unittest.skipUnless(held_syncs.HAS_COMPILER, "there is no gcc")
class CutShort(StandingBy):
    """A sync fails while a standby makes room for a frame. Whatever is left of the words that were not durable, the image holds what it held before the frame
    or after it, each version at its position; started again the node takes the frame."""

    def check(self, before, frames):
        """Over these words, of an image that stands before the last of these frames, each sync of taking that one fails in turn."""
        ample, live = Writer(2 * LINES, STANDBY), {}
        for frame in frames:
            self.assertTrue(take(ample, frame))
            live[frame.after] = live_versions(Words(2 * LINES, ample.words))
        with self.folder() as folder:
            library = noted_calls.library(folder)
            # (three are those of opening the image, the first that of the whole file)
            number = first = 4
            while self.fails(path := self.made(folder, before), frames[-1], live, Noting(library, path, fails=number)):
                number += 1
            # three are those of the commit
            self.assertGreater(number - first, 3)

    def fails(self, path, frame, live, noting):
        """Whether that sync fails before the frame is taken."""
        with Node(path, env=os.environ | noting.settings) as node:
            if self.is_taken(node, frame, frame.before):
                return False
            self.assertTrue(noting.calls()[-1].failed, "the frame was refused")
            self.assertEqual(node.ended(), (FAILED, b"", refusal(1)))
        left, durable, drawn = path.read_bytes(), noting.synced.read_bytes(), random.Random(noting.fails)
        for data in (left, durable, mixed(left, durable, drawn), mixed(left, durable, drawn)):
            path.write_bytes(data)
            words = self.words(path)
            position = plain_image.read_image(words).record.position
            self.assertEqual(live_versions(words), live[position])
            with Node(path) as node:
                self.assertTrue(self.is_taken(node, frame, position))
            self.assertEqual(live_versions(self.words(path)), live[frame.after])
        return True

    def is_taken(self, node, frame, position):
        """Whether a node that stands there acknowledges a frame. One that has ended before says nothing."""
        wanted = b"".join(text(Acknowledgement(1, at)) for at in (position, frame.after))
        found = b""
        with contextlib.suppress(ConnectionRefusedError):
            found = node.exchange(text(frame))
        self.assertIn(found, (b"", wanted[:ACK_BYTES], wanted))
        return found == wanted

    def test_a_version_is_moved(self):
        long = [Put((key,), LONGEST) for key in (b"A", b"B")]
        puts = [*long, Put((b"s",), b"1"), long[0], Put((b"s",), b"2"), long[1]]
        frames, writer = [Group(1, at, at + 1, (put,)) for at, put in enumerate(puts)], Writer(LINES, STANDBY)
        self.assertEqual([take(writer, frame) for frame in frames], [True, True, True, True, True, False])
        self.check(writer.words, frames)

    def test_many_versions_are_moved(self):
        """Of 400 versions of eight lines every other one is dropped. Some 64 of the others are in the way of a long value, and go to the holes together."""
        puts = [Put((b"%d" % number,), 508 * b"v") for number in range(400)]
        changes = [tuple(puts), tuple(Drop(put.name) for put in puts[::2]), (Put((b"A",), LONGEST),)]
        frames, writer = [Group(1, at, at + 1, change) for at, change in enumerate(changes)], Writer(LINES, STANDBY)
        self.assertEqual([take(writer, frame) for frame in frames], [True, True, False])
        self.check(writer.words, frames)

    def test_a_gap_is_cleared(self):
        puts = [Put((b"%d" % number,), b"v") for number in range(600)]
        frames, writer = [Group(1, 0, 1, tuple(puts[:300])), Group(1, 1, 2, tuple(puts[500:]))], Writer(LINES, STANDBY)
        self.assertTrue(take(writer, frames[0]))
        self.check(cut_short(writer, puts[300:480]), frames)


class Loads(PairCases):
    """Writers for a few seconds, of each kind."""


def add_loads():
    """One test for each kind, and how full it is; every other one with kills; and the standby is of the same size, or larger by what lets it always make
    room."""
    rows = [("sessions", 80), ("sessions", 90), ("pages", 80), ("pages", 90), ("blobs", 90), ("blobs", 60), ("any", 80), ("any", 90)]
    rows = [*((kind, LINES, fill) for kind, fill in rows), ("mebibytes", LARGE_LINES, 60), ("mebibytes", LARGE_LINES, 80)]
    for number, (kind, lines, fill) in enumerate(rows):
        for extra in (0, MORE_LINES):
            options = {"standby_lines": lines + extra, "kills": number % 2 == 1, "seed": SEED}

            def test(self, row=(kind, lines, fill, SECONDS), options=options):
                outcome = filling.load(*row, **options, most_wait=PATIENCE, folder=self.image_folder())
                self.assertGreater(outcome.answered, 0)

            setattr(Loads, f"test_{kind}_at_{fill}_beside_{lines + extra}", test)


add_loads()
