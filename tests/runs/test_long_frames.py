"""Frames with a value of 1,048,576 bytes, of a group and of a delta, that come to the standby whole, in pieces of a byte and in larger ones. It catches a frame
that is taken in part, and a reader of frames that loses its place.

Each run is compared with the plain machine, event by event and both images word by word (simulation.Runs)."""

from draws import numbers
from plain_image import MOST_VALUE_BYTES
from plain_keyspace import Put
from plain_wire import Group, text
from simulation import Runs, Schedule
from spelling import spell
from worked_cases import OK

PROGRAMS = ["simulator"]
IS_SLOW = True

# An image that holds the value once, and its directory.
LINES = 20_480
# (such bytes are printed as they are)
VALUE = bytes(numbers("a long frame").choices(b"0123456789abcdefghijklmnopqrstuvwxyz", k=MOST_VALUE_BYTES))
# How many bytes a piece has; 0 where the frame comes whole.
PIECES = (1, 65_536, 0)


def delivered(number, piece):
    """The event by which this frame comes in such pieces."""
    return f"deliver {number} {piece}" if piece else f"deliver {number}"


class LongFrames(Runs):
    def assert_taken(self, schedule, frame):
        """The last frame that was sent is this one, and the standby took it: both nodes hold the value."""
        trace = self.play(schedule, lines=(LINES, LINES))
        self.assert_bytes(trace.texts[0][-1], text(frame))
        self.assertEqual(trace.acknowledgements[-1], (1, frame.after))
        self.assertEqual(trace.records["standby"], trace.records["primary"])
        self.assertIn(((b"a",), VALUE), trace.records["standby"])
        return trace

    def test_of_a_group(self):
        for piece in PIECES:
            with self.case("piece", bytes=piece):
                schedule = Schedule(1)
                schedule.group(0, spell("SET", "a", VALUE))
                schedule.add("send", delivered(0, piece), "apply")
                schedule.acknowledge(0)
                schedule.read_marks(0)
                schedule.write_out(0)
                trace = self.assert_taken(schedule, Group(1, 0, 1, (Put((b"a",), VALUE),)))
                self.assertEqual(trace.released, [OK])

    def test_of_a_delta(self):
        """The primary alone has it, and is opened again."""
        schedule = Schedule(1)
        schedule.serve_to_end(0, 0, spell("SET", "b", "1"))
        schedule.group(0, spell("SET", "a", VALUE))
        schedule.add("crash primary 0", "reopen primary", "open-link", "send", delivered(1, 1), "apply")
        self.assert_taken(schedule, Group(1, 1, 2, (Put((b"a",), VALUE),)))
