"""Large runs to their end with ample memory: no clause of a proof can say that memory was really refused where it is
told, so that a server that tells it too early is seen only here."""

import common
import worked_cases as worked
from plain_image import LAYOUT
from plain_replies import array, bulk
from simulation import Runs, Schedule, simulate
from spelling import spell
from worked_cases import GET_A, OK, ONE, SET_A, SHORTEST, STORE_IS_FULL, TOO_LARGE, UNKNOWN

PROGRAMS = ["simulator"]
IS_SLOW = True


def changes(count, request_of):
    """`count` changes of one connection, each served to its end before the next one."""
    schedule = Schedule(1)
    for number in range(count):
        schedule.feed(0, request_of(number))
        schedule.serve(0)
        schedule.commit()
        schedule.replicate(number)
        schedule.read_marks(0)
        schedule.add("release 0", "write 0 5")
    return schedule


class Capacity(Runs):
    """Limits that README.md and docs/image.md name, reached and not passed too early."""

    def play(self, schedule, *options, **others):
        trace = super().play(schedule, *options, **others)
        self.assertNotIn(b"out of memory", b"".join(call.reply for call in trace.calls))
        self.assertRegex(trace.ended, r"\Aafter all \d+ events\Z")
        return trace

    def check_room(self, lines, request_of):
        """An image of `lines` lines takes a change for each of its entries, and then is full."""
        room = LAYOUT.entries(lines)
        schedule = changes(room, request_of)
        schedule.feed(0, request_of(room) + spell("GET", "a") + request_of(room + 1))
        schedule.drain(1, 3, 0)
        trace = self.play(schedule, lines=(lines, lines))
        replies = [call.reply for call in trace.calls]
        self.assertEqual(replies[:room], room * [OK])
        self.assertEqual(replies[room:], [STORE_IS_FULL, ONE, STORE_IS_FULL])
        self.assert_bytes(trace.released[0], b"".join(replies))
        self.assertEqual([node.position for node in trace.nodes.values()], [room, room])

    def test_room_of_4096_lines(self):
        self.check_room(4_096, lambda number: SET_A)

    def test_room_of_8192_lines(self):
        self.check_room(8_192, lambda number: SET_A)

    def test_room_of_8192_lines_for_different_keys(self):
        self.check_room(8_192, lambda number: spell("SET", f"k{number}", "1") if number else SET_A)

    def test_more_than_5000_changes(self):
        count = 5_100
        trace = self.play(changes(count, lambda number: SET_A), lines=(65_536, 65_536))
        self.assertEqual([call.reply for call in trace.calls], count * [OK])
        self.assertEqual([node.position for node in trace.nodes.values()], [count, count])
        self.assert_bytes(trace.released[0], count * OK)

    def serve_piece(self, data, items):
        """Serves one piece to its end, and gives what was released."""
        schedule = Schedule(1)
        schedule.feed(0, data)
        for _ in range(items + 1):
            schedule.serve(0)
        schedule.drain(1, 0, 4)
        return self.play(schedule).released[0]

    def test_pieces_above_65536_bytes(self):
        for length in [65_534, 65_535, 65_536, 65_537, 70_000, 131_072, 200_000]:
            with self.case("requests of no words", length=length):
                # four bytes each, and the key of the first GET makes up the length
                ends = [spell("GET", "z" * key) + SET_A + GET_A for key in range(4)]
                end = next(it for it in ends if (length - len(it)) % 4 == 0)
                data = b"*0\r\n" * ((length - len(end)) // 4) + end
                self.assertEqual(len(data), length)
                self.assert_bytes(self.serve_piece(data, 3), b"$-1\r\n" + OK + ONE)

    def test_a_piece_of_many_requests(self):
        for name, data, items, output in [
            ("shortest", 7_000 * SHORTEST, 7_000, 7_000 * UNKNOWN),
            ("GET", SET_A + 3_500 * GET_A, 3_501, OK + 3_500 * ONE),
            ("with a fault", 6_600 * SHORTEST + b"P", 6_601, 6_600 * UNKNOWN + worked.NO_STAR),
        ]:
            with self.case(name):
                self.assertGreater(len(data), 65_536)
                self.assert_bytes(self.serve_piece(data, items), output)


class TooLarge(common.Cases):
    """A command whose change text reaches 16,777,216 bytes (docs/replication.md, "Frames"): a put of a string takes 7 bytes
    besides its key and its value. Images of 300,032 lines have room for the 256 values, those of 4,096 lines for
    three."""

    AMPLE, SCARCE = 300_032, 4_096

    # 255 puts of 65,536 bytes at a key of one byte take 16,713,720 bytes, and a last one of so many bytes the rest
    REST = 63_488

    def mset(self, last):
        """The request that writes 255 values of 65,536 bytes, and one of `last` bytes."""
        return self.mset_of_255(last * b"w")

    def mset_of_255(self, *more):
        """The request that writes 255 values of 65,536 bytes, and these."""
        values = [*255 * [65_536 * b"v"], *more]
        return spell("MSET", *(word for number, value in enumerate(values) for word in (bytes([number]), value)))

    def check(self, last, lines, reply):
        position = int(reply == OK)
        schedule = Schedule(1)
        schedule.feed(0, spell("DBSIZE"))
        schedule.feed(0, self.mset(last))
        schedule.feed(0, spell("DBSIZE") + spell("GET", b"\xff"))
        schedule.drain(1, 4, 1)
        trace = simulate(schedule.events, "--lines", f"{lines},{lines}")
        held = [b":256\r\n", bulk(last * b"w")] if position else [b":0\r\n", b"$-1\r\n"]
        self.assert_bytes(trace.released[0], b"".join([b":0\r\n", reply, *held]))
        self.assertEqual([call.reply for call in trace.calls[:2]], [b":0\r\n", reply])
        self.assertEqual([node.position for node in trace.nodes.values()], 2 * [position])
        self.assertEqual([frame.changes for frame in trace.frames], position * [256])

    def test_at_the_limit(self):
        self.check(self.REST, self.AMPLE, OK)

    def test_one_byte_above_the_limit(self):
        self.check(self.REST + 1, self.AMPLE, TOO_LARGE)

    def test_summed_over_a_transaction(self):
        # what was refused adds nothing, and what reads is never refused; a DropKey of a key of one byte takes four bytes
        puts = [spell("SET", b"\xff", size * b"w") for size in (self.REST + 1, self.REST - 4, 0)]
        inside = [self.mset_of_255(), puts[0], spell("DBSIZE"), puts[1], puts[2], spell("DEL", b"\0"), spell("DEL", b"\1"), spell("GET", b"\2")]
        replies = [OK, TOO_LARGE, b":255\r\n", OK, TOO_LARGE, b":1\r\n", TOO_LARGE, bulk(65_536 * b"v")]
        requests = [spell("MULTI"), *inside, spell("EXEC"), puts[2]]
        schedule = Schedule(1)
        schedule.feed(0, b"".join(requests))
        schedule.drain(1, len(requests), 2)
        trace = simulate(schedule.events, "--lines", f"{self.AMPLE},{self.AMPLE}")
        wanted = [OK, *8 * [b"+QUEUED\r\n"], array(replies), OK]
        for place, (call, reply) in enumerate(zip(trace.calls, wanted)):
            with self.case("reply", place=place):
                self.assert_bytes(call.reply, reply)
        self.assert_bytes(trace.released[0], b"".join(wanted))
        self.assertEqual([node.position for node in trace.nodes.values()], [2, 2])
        self.assertEqual([frame.changes for frame in trace.frames], [257, 1])

    def test_values_of_the_greatest_length(self):
        """16 puts at keys of one byte take 16,777,344 bytes; with a last value that is 128 bytes shorter they are at the limit."""
        values = [*15 * [1_048_576 * b"v"], 1_048_448 * b"w"]
        for more, reply in [(b"", OK), (b"w", TOO_LARGE), (128 * b"w", TOO_LARGE)]:
            with self.case("more", more=len(more)):
                words = [word for number, value in enumerate([*values[:-1], values[-1] + more]) for word in (b"%x" % number, value)]
                schedule = Schedule(1)
                schedule.feed(0, spell("MSET", *words) + spell("DBSIZE"))
                schedule.drain(1, 2, 1)
                trace = simulate(schedule.events, "--lines", f"{self.AMPLE},{self.AMPLE}")
                is_taken = reply == OK
                self.assert_bytes(trace.released[0], reply + (b":16\r\n" if is_taken else b":0\r\n"))
                self.assertEqual([node.position for node in trace.nodes.values()], 2 * [int(is_taken)])

    def test_room_is_looked_at_only_up_to_the_limit(self):
        self.check(self.REST, self.SCARCE, STORE_IS_FULL)
        self.check(self.REST + 1, self.SCARCE, TOO_LARGE)
