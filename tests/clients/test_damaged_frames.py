"""Damaged frames that come to a standby's socket (docs/replication.md, "Frames")."""

import random
import select
import socket

from damaged_frames import SET_A, damaged, drawn_group, written
from pair import PATIENCE
from plain_image import STANDBY
from plain_keyspace import Put
from plain_wire import ACK_BYTES, Acknowledgement, Group, read_stream, text
from plain_writer import Writer
from standby_node import LIMIT, Node, StandingBy, with_record
from test_images import LINES, words_of
from worked_cases import DELTA

PROGRAMS = ["server"]

# The frame of the transaction of the worked cases, and others of its epoch, drawn by seed, that a standby has taken before.
TRANSACTION = text(Group(1, 0, 1, (Put((b"a",), b"x"), Put((b"b",), b"y"))))
DRAWN = [text(drawn_group(random.Random(f"front {seed}"))._replace(epoch=1, before=6, after=9)) for seed in range(20)]
# How long nothing is to be said of a frame that is no fault yet.
SILENT_SECONDS = 0.01



def acknowledged(epoch, position, data):
    """What a standby at this position acknowledges of these bytes, none of whose frames it commits: those that end there or below, up to one that ends
    the link."""
    count = 1
    for _, message in read_stream(data)[0]:
        if not isinstance(message, Group) or message.epoch != epoch or message.after > position:
            break
        count += 1
    return count * text(Acknowledgement(epoch, position))


def fault_of(data):
    """How many of these bytes make a fault of their first frame, of which nothing is refused before; or None."""
    frames, end = read_stream(data)
    has_epoch, is_old = data[1:9] == bytes(7) + b"\1", int.from_bytes(data[17:25], "big") < LIMIT
    return end if not frames and end is not None and (end <= 8 or has_epoch) and (end <= 24 or is_old) else None


class Damaged(StandingBy):
    """Damaged frames, to a standby at the highest position, which acknowledges each frame again that it can read."""

    def show(self, rows, pieces):
        with self.folder() as folder:
            record = Writer(LINES, STANDBY).record._replace(position=LIMIT - 1)
            path = self.made(folder, with_record(Writer(LINES, STANDBY).words, record))
            with Node(path) as node:
                before = words_of(path.read_bytes())
                for name, sent in rows:
                    for piece in pieces:
                        with self.case(name, piece=piece):
                            self.assertEqual(node.exchange(sent, piece), acknowledged(1, LIMIT - 1, sent))
                self.assert_words(words_of(path.read_bytes()), before)

    def test_500_damaged_frames(self):
        rows = [(seed, damaged(seed)[1]) for seed in range(500)]
        self.show(rows, [7, 2**20])
        # some are read all the same
        read = {len(acknowledged(1, LIMIT - 1, data)) // ACK_BYTES for _, data in rows}
        self.assertEqual(read, {1, 2, 3})

    def test_the_worked_delta_with_another_byte_in_each_place(self):
        self.show(
            [
                (f"byte {byte} at {at}", written(DELTA, at, byte, 1) + SET_A)
                for at in range(len(DELTA)) for byte in sorted({0, 255, DELTA[at] ^ 1, DELTA[at] ^ 4} - {DELTA[at]})
            ],
            [5, 2**20],
        )

    def test_fronts_of_frames(self):
        """No front is a fault: the rest comes later."""
        with self.folder() as folder:
            path = self.made(folder, with_record(Writer(LINES, STANDBY).words, Writer(LINES, STANDBY).record._replace(position=LIMIT - 1)))
            with Node(path) as node:
                for data in (SET_A, DELTA, TRANSACTION, *DRAWN):
                    for end in range(1, len(data)):
                        with self.case("front", bytes=len(data), end=end), node.link() as link:
                            link.sendall(data[:end])
                            link.sendall(data[end:])
                            link.shutdown(socket.SHUT_WR)
                            found = b""
                            while more := link.recv(2**16):
                                found += more
                            self.assertEqual(found, 2 * text(Acknowledgement(1, LIMIT - 1)))

    def test_a_fault_ends_the_link_with_its_byte(self):
        """And not before it."""
        rows = [(f"seed {seed}", damaged(seed)[1]) for seed in range(0, 500, 3)]
        rows += [("from of FF", written(SET_A, 9, 2**64 - 1)), ("key of 3 bytes in a body of 9", written(SET_A, 34, 3, 2))]
        with self.folder() as folder:
            record = Writer(LINES, STANDBY).record._replace(position=LIMIT - 1)
            with Node(self.made(folder, with_record(Writer(LINES, STANDBY).words, record))) as node:
                shown = set()
                for name, data in rows:
                    end = fault_of(data)
                    if end is not None:
                        with self.case(name), node.link() as link:
                            shown.add(end)
                            link.settimeout(PATIENCE)
                            link.sendall(data[:end - 1])
                            self.assertEqual(link.recv(ACK_BYTES, socket.MSG_WAITALL), text(Acknowledgement(1, LIMIT - 1)))
                            self.assertFalse(select.select([link], [], [], SILENT_SECONDS)[0])
                            link.sendall(data[end - 1:end])
                            self.assertEqual(link.recv(1), b"")
                self.assertLessEqual({1, 17, 36}, shown)

    def test_the_first_byte_that_no_frame_has(self):
        """The page and the plain reader agree on where a fault is."""
        for at, byte, fault in [
            (0, 0, 1), (0, 6, 1), (0, 3, 10), (0, 5, 26), (24, 0, 25), (25, 1, 26), (27, 2, 28), (32, 1, 34), (33, 7, 34), (33, 6, 35),
            (33, 2, 36), (34, 1, 35), (35, 3, 36), (37, 1, 38), (40, 2, 41), (41, 50, None),
        ]:
            with self.case(f"byte {byte} at {at}"):
                self.assertEqual(read_stream(written(SET_A, at, byte, 1))[1], fault)
