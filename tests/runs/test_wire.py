"""What passes between the two nodes, as bytes (docs/replication.md, "Frames"), and frames that come in pieces."""

import plain_keyspace
import plain_wire
from simulation import Runs, Schedule
from spelling import spell
from worked_cases import SET_A

PROGRAMS = ["simulator"]

# The worked frame of `SET a 1`, and its acknowledgement.
FIRST_FRAME = bytes.fromhex(
    "01 0000000000000001 0000000000000000 0000000000000001 0000000000000009 01 0001 61 00000001 31"
)
FIRST_ACKNOWLEDGEMENT = bytes.fromhex("02 0000000000000001 0000000000000001")

# A copy at position 2 of a `1` and b `2` is wanted, its one part, and its end: what `proofs/WorkedCases.antt` of stream_codec evaluates.
COPY_FRAMES = [
    (plain_wire.CopyWanted(1), "03 0000000000000001", 9),
    (plain_wire.CopyPart(1, 2, 0, (plain_keyspace.Put((b"a",), b"1"), plain_keyspace.Put((b"b",), b"2"))),
     "04 0000000000000001 0000000000000002 0000000000000000 0000000000000012 010001610000000131 010001620000000132", 51),
    (plain_wire.CopyEnd(1, 2, 1), "05 0000000000000001 0000000000000002 0000000000000001", 25),
]
# Where a part of a copy is at fault: what is behind its three numbers, and how many bytes there are up to the fault.
PART_FAULTS = [
    ("0000000000000000", 33), ("0000000000000006", 33), ("0000000000200001", 33), ("0000000000000012 03", 34),
    ("000000000000000d 01 0000 00000001", 40),
]

# One of each change: puts and drops of a string and of a field, a key that is dropped, and all of them.
CHANGES = [
    spell("SET", "a", "1"), spell("HSET", "h", "f", "1", "g", "2"), spell("HDEL", "h", "f"), spell("DEL", "a"), spell("DEL", "h"),
    spell("SET", "b", "x" * 300), spell("FLUSHDB"),
]


def delivered_in(piece, *requests):
    """Each request is a group of its own, and each frame comes in pieces of this many bytes."""
    schedule = Schedule(1)
    for number, request in enumerate(requests):
        schedule.group(0, request)
        schedule.add("send", f"deliver {number} {piece}", "apply")
        schedule.acknowledge(number)
    return schedule


class Wire(Runs):
    """The bytes are those of the documents, and a frame is the same however it is cut."""

    def test_worked_frames(self):
        trace = self.play(delivered_in(0, SET_A))
        self.assertEqual(trace.texts, ([FIRST_FRAME], [FIRST_ACKNOWLEDGEMENT]))
        self.assertEqual((len(FIRST_FRAME), len(FIRST_ACKNOWLEDGEMENT)), (42, 17))
        put = plain_keyspace.Put((b"a",), b"1")
        self.assertEqual(plain_wire.read(FIRST_FRAME), plain_wire.Group(1, 0, 1, (put,)))

    def test_worked_frames_of_a_copy(self):
        stream = b""
        for message, text, size in COPY_FRAMES:
            with self.case(type(message).__name__):
                self.assertEqual((plain_wire.text(message), plain_wire.read(bytes.fromhex(text))), (bytes.fromhex(text), message))
                self.assertEqual(len(plain_wire.text(message)), size)
            stream += plain_wire.text(message)
        frames, fault = plain_wire.read_stream(stream)
        self.assertEqual(([message for _, message in frames], fault), ([message for message, _, _ in COPY_FRAMES], None))
        longest = plain_wire.Put((b"k" * 512, b"f" * 512), b"v" * 1_048_576)
        self.assertEqual(len(plain_wire.change_text(longest)), 1_049_609)

    def test_faults_of_a_part_of_a_copy(self):
        for rest, place in PART_FAULTS:
            with self.case(rest):
                text = bytes.fromhex(COPY_FRAMES[1][1])[:25] + bytes.fromhex(rest)
                self.assertEqual(plain_wire.read_stream(text), ([], place))
                self.assertEqual(len(text), place)

    def test_a_frame_that_is_cut_anywhere_is_one_frame(self):
        whole = self.play(delivered_in(0, SET_A))
        for piece in range(1, len(FIRST_FRAME) + 2):
            with self.case("piece", bytes=piece):
                cut = self.play(delivered_in(piece, SET_A))
                self.assertEqual((cut.texts, cut.nodes, cut.records), (whole.texts, whole.nodes, whole.records))

    def test_every_change_passes(self):
        for piece in (0, 1, 2, 7, 64, 2**64 - 1):
            with self.case("piece", bytes=piece):
                trace = self.play(delivered_in(piece, *CHANGES))
                frames = [plain_wire.read(text) for text in trace.texts[0]]
                self.assertEqual([frame.before for frame in frames], list(range(len(CHANGES))))
                self.assertEqual({type(change) for frame in frames for change in frame.changes}, {
                    plain_keyspace.Put, plain_keyspace.Drop, plain_keyspace.DropKey, plain_keyspace.Clear,
                })
                acknowledged = [plain_wire.read(text).position for text in trace.texts[1]]
                self.assertEqual(acknowledged, [position + 1 for position in range(len(CHANGES))])

    def test_a_frame_that_comes_again_in_pieces(self):
        schedule = delivered_in(1, SET_A)
        schedule.add("open-link", "send", "deliver 0 5", "apply", "deliver 0 41", "apply")
        trace = self.play(schedule)
        self.assertEqual(set(trace.texts[1]), {FIRST_ACKNOWLEDGEMENT})
