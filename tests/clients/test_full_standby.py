"""A nearly full standby to which the longest value comes, with its free lines in holes: it moves the versions of one stretch of its lines out of the way, and not
those of the whole image, up to 64 under one record. What is counted are stamps, of which each move has one, and records."""

import os
import random
import re
import typing

import common
import noted_calls
from noted_calls import Noting
from plain_image import MORE_LINES, SPARE_LINES, extents_begin, lines_of_puts
from plain_keyspace import Drop, Put
from plain_wire import Acknowledgement, Group, text
from standby_node import Node, StandingBy
from test_images import format_words

PROGRAMS = ["server"]

# The longest value, and how many lines it takes.
LAST = Put((b"last",), 2**20 * b"v")
NEED = lines_of_puts([LAST])[0]
# How many changes a frame has that fills the image.
CHANGES = 500
# How many versions move under one record.
MOST_PARTS = 64


class Filled(typing.NamedTuple):
    """The primary's lines, which share of them is in use once the longest value is there, how many bytes the others have at most, and whether the holes are drawn
    or lie as far from one another as can be."""

    lines: int
    share: float
    most_bytes: int
    is_drawn: bool

    def usable(self, spared=0):
        return self.lines + spared - extents_begin(self.lines + spared)

    def changes(self, draws):
        """Puts that take all lines of the standby below its spare place, and drops of some of them; and how many lines each has that is left, in order."""
        free, puts, counts = self.usable(MORE_LINES) - SPARE_LINES, [], []
        while True:
            put = Put((b"%d" % len(puts),), draws.randint(64, self.most_bytes) * b"v")
            count = lines_of_puts([put])[0]
            if free < count:
                break
            free -= count
            puts.append(put)
            counts.append(count)
        wanted = NEED + (1 - self.share) * self.usable() - free
        gone = holes(draws, counts, wanted, self.is_drawn)
        drops = [Drop(puts[at].name) for at in sorted(gone)]
        return [*puts, *drops], [count for at, count in enumerate(counts) if at not in gone]


def holes(draws, counts, wanted, is_drawn):
    """Which of these are gone, so that so many lines are free."""
    order = range(len(counts))
    every = sum(counts) / wanted
    first = draws.sample(order, len(order)) if is_drawn else [int(at * every) for at in range(int(len(counts) / every))]
    gone, free = set(), 0
    for at in [*first, *order]:
        if free >= wanted:
            break
        if at not in gone:
            gone.add(at)
            free += counts[at]
    return gone


def most_within(counts, lines):
    """How many of these at most lie one behind another in so many lines."""
    most, first, used = 0, 0, 0
    for last, count in enumerate(counts):
        used += count
        while used > lines:
            used -= counts[first]
            first += 1
        most = max(most, last + 1 - first)
    return most


class Moved(typing.NamedTuple):
    """What the standby wrote before the record of the last frame: how many records, and how many stamps these gave; and how often its image was synced, with that
    record, where calls are noted."""

    records: int
    moves: int
    syncs: int


class FullStandby(StandingBy):
    FILLED = [Filled(65_536, 0.97, 4_096, True), Filled(65_536, 0.998, 4_096, True), Filled(65_536, 0.98, 900, False), Filled(262_144, 0.995, 4_096, False)]
    LONG = [Filled(1_048_576, share, 4_096, is_drawn) for share in (0.97, 0.98, 0.995) for is_drawn in (True, False)]

    def test_what_one_frame_moves(self):
        for filled in self.FILLED + self.LONG * common.IS_LONG:
            with self.case("image", filled=filled), self.folder() as folder:
                changes, left = filled.changes(random.Random(str(filled)))
                moved = self.moved(folder / "s.img", filled.lines + MORE_LINES, changes)
                self.assertGreater(moved.moves, 2 * MOST_PARTS)
                # (what lies in two mebibytes goes out of the way, once each)
                self.assertLessEqual(moved.moves, most_within(left, 2 * NEED))
                # (a record ends early where the next version goes to lines that one under it leaves)
                least = -(-moved.moves // MOST_PARTS)
                self.assertGreaterEqual(moved.records, least)
                self.assertLessEqual(moved.records, 2 * least)
                # (each fence is a sync of the file: three are of a record, one frees what was moved under it, and three are of the record of the frame)
                self.assertLessEqual(moved.syncs, 4 * moved.records + 3)

    def moved(self, path, lines, changes):
        """What a frame that puts the longest value has the standby do, behind these changes."""
        self.assertEqual(self.run_words(format_words(path, lines, "standby")).status, 0)
        parts = [tuple(changes[at:at + CHANGES]) for at in range(0, len(changes), CHANGES)]
        noting = Noting(noted_calls.library(path.parent), path, keeps=False) if noted_calls.HAS_COMPILER else None
        with Node(path, env=os.environ | noting.settings if noting else None) as node:
            # (what the last of the changes ended is freed with the frame behind it)
            self.assert_taken(node, 0, [*parts, ()])
            before = self.given(path, noting)
            self.assert_taken(node, len(parts) + 1, [(LAST,)])
            records, moves, syncs = (after - earlier for after, earlier in zip(self.given(path, noting), before))
            return Moved(records - 1, moves - 1, syncs)

    def assert_taken(self, node, position, parts):
        frames = [Group(1, at, at + 1, changes) for at, changes in enumerate(parts, position)]
        acknowledgements = [Acknowledgement(1, at) for at in range(position, position + len(parts) + 1)]
        self.assertEqual(node.exchange_each(frames), b"".join(map(text, acknowledgements)))

    def given(self, path, noting):
        """The number of the record, its last stamp, and how often the image was synced, while nothing is written."""
        output = self.inspect(path).output
        record, stamp = (int(re.search(rb"^%s (\d+)$" % word, output, re.MULTILINE)[1]) for word in (b"record", b"cp"))
        return record, stamp, sum(call.path == str(path) and call.word in ("sync", "data") for call in noting.calls()) if noting else 0
