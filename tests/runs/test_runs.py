"""Whole runs of the pair of nodes: the first path of the worked cases, the events by which a reply goes out, seats, and frames
that come in any order.

Each run is compared with the plain machine too, event by event and both images word by word (simulation.Runs)."""

import worked_cases as worked
from plain_machine import SEATS
from simulation import NODES, Runs, Schedule
from spelling import spell
from worked_cases import GET_A, OK, ONE, PING, SET_A, STORE_IS_FULL

PROGRAMS = ["simulator"]

SET_B = spell("SET", "b", "2")
A_AND_B = [((b"a",), b"1"), ((b"b",), b"2")]


def in_bytes(data):
    return [data[at:at + 1] for at in range(len(data))]


@worked.one_test_for_each(worked.FIRST_PATH, "check_row")
class FirstPath(Runs):
    """The first path of worked_cases, in one piece, byte by byte and of two connections at once."""

    def check_row(self, data, output):
        for name, pieces in [("in one piece", [data]), ("byte by byte", in_bytes(data))]:
            with self.case(name):
                schedule = Schedule(1)
                for piece in pieces:
                    schedule.feed(0, piece)
                schedule.drain(1, 4, 4)
                self.assertEqual(self.play(schedule).released, [output])
        with self.case("of two connections at once"):
            schedule = Schedule(2)
            for byte in in_bytes(data):
                schedule.feed(0, byte)
                schedule.feed(1, byte)
            schedule.drain(2, 4, 8)
            self.assertEqual(self.play(schedule).released, [output, output])

    def test_every_cut_of_the_first_set(self):
        # each of the 26 cuts for a connection of its own
        schedule = Schedule(26)
        for cut in range(1, len(SET_A)):
            schedule.feed(cut - 1, SET_A[:cut])
            schedule.feed(cut - 1, SET_A[cut:])
        schedule.drain(26, 1, 26)
        self.assertEqual(self.play(schedule).released, 26 * [OK])

    def test_the_last_entry(self):
        schedule = Schedule(1)
        for _ in range(495):
            schedule.feed(0, SET_A)
        schedule.feed(0, GET_A)
        schedule.drain(1, 496, 495)
        trace = self.play(schedule)
        self.assert_bytes(trace.released[0], 494 * OK + STORE_IS_FULL + ONE)
        self.assertEqual([node.position for node in trace.nodes.values()], [494, 494])

    def test_a_standby_that_fills_first(self):
        # it frees what a frame ended, so each SET is of another key
        schedule = Schedule(1)
        for number in range(495):
            schedule.feed(0, spell("SET", f"k{number}", "1"))
        schedule.drain(1, 495, 496)
        trace = self.play(schedule, lines=(8_192, 4_096))
        self.assertEqual(len(trace.calls), 495)
        self.assertEqual(trace.calls[-1].reply, OK)
        self.assert_bytes(trace.released[0], 494 * OK)
        self.assertEqual([node.position for node in trace.nodes.values()], [495, 494])

    def test_every_seat_once(self):
        # the numbers 0 to 1,023; with one more to enter none is free
        schedule = Schedule(1_025)
        for c in (0, 1_023, 1_024):
            schedule.feed(c, PING)
            schedule.serve(c)
            schedule.write_out(c, 32)
        trace = self.play(schedule)
        self.assertEqual(trace.done[:1_025], 1_024 * [True] + [False])
        self.assertEqual(len(trace.released), 1_024)
        self.assertEqual([call.connection for call in trace.calls], [0, 1_023])


class Events(Runs):
    """By which events a reply goes out."""

    def first_set(self):
        schedule = Schedule(1)
        schedule.feed(0, SET_A)
        schedule.serve(0)
        schedule.commit()
        schedule.replicate(0)
        schedule.read_marks(0)
        schedule.add("release 0", "write 0 5")
        return schedule

    def test_a_reply_goes_out_only_by_all_its_events(self):
        whole = self.first_set()
        self.assertEqual(len(whole.events), 18)
        self.assertEqual(self.play(whole).released, [OK])
        for place in range(18):
            with self.case("left out", event=whole.events[place]):
                schedule = self.first_set()
                del schedule.events[place]
                self.assertEqual(b"".join(self.play(schedule).released), b"")

    def test_what_one_connection_set_another_gets_once_the_standby_holds_it(self):
        for is_acknowledged, output in [(False, b""), (True, ONE)]:
            with self.case("acknowledged", is_acknowledged=is_acknowledged):
                schedule = Schedule(2)
                schedule.feed(0, SET_A)
                schedule.serve(0)
                schedule.commit()
                schedule.feed(1, GET_A)
                schedule.serve(1)
                if is_acknowledged:
                    schedule.replicate(0)
                schedule.read_marks(1)
                schedule.write_out(1)
                trace = self.play(schedule)
                self.assertEqual(len(trace.calls), 2)
                self.assertEqual(trace.released, [b"", output])

    def test_a_read_of_a_new_image_waits_for_nothing(self):
        schedule = Schedule(1)
        schedule.feed(0, GET_A)
        schedule.serve(0)
        schedule.add("release 0", "write 0 5")
        self.assertEqual(self.play(schedule).released, [b"$-1\r\n"])

    def test_both_marks_cover_a_reply(self):
        # the local mark is read before it rises: (0, 1)
        for name, reads, is_out in [
            ("neither", [], False),
            ("local", ["read 0 local"], False),
            ("remote", ["read 0 remote"], False),
            ("both", ["read 0 remote", "read 0 local"], True),
        ]:
            with self.case(name):
                schedule = self.first_set()
                del schedule.events[-4:]
                schedule.add(*reads, "release 0", "write 0 5")
                trace = self.play(schedule)
                self.assertEqual(trace.done[-2:], 2 * [is_out])
                self.assertEqual(trace.released, [OK if is_out else b""])

    def test_a_reply_is_held_released_and_written_in_parts(self):
        schedule = Schedule(1)
        schedule.feed(0, SET_A)
        schedule.add("hold 0", "offer 0", "turn 0", "hold 0", "hold 0")
        schedule.commit()
        schedule.add("read 0 local", "release 0", "write 0 1")
        schedule.replicate(0)
        schedule.add("release 0", "read 0 remote", "release 0", "release 0")
        schedule.add("write 0 6", "write 0 3", "write 0 0", "write 0 2", "write 0 1")
        trace = self.play(schedule)
        self.assertEqual(trace.done[2:7], [False, True, True, True, False])
        self.assertEqual(trace.done[11:14], [True, False, False])
        self.assertEqual(trace.done[-9:], [False, True, True, False, False, True, True, True, False])
        self.assertEqual(trace.released, [OK])

    def test_reply_in_parts(self):
        for writes, output in [([4], b"$1\r\n"), ([4, 1], b"$1\r\nx"), ([4, 1, 2], b"$1\r\nx\r\n")]:
            with self.case("written", writes=writes):
                schedule = Schedule(1)
                schedule.feed(0, spell("SET", "k", "x") + spell("GET", "k"))
                schedule.drain(1, 1, 1)
                schedule.serve(0)
                schedule.add("release 0", *(f"write 0 {count}" for count in writes))
                self.assertEqual(self.play(schedule).released, [OK + output])

    def test_replies_keep_their_order(self):
        schedule = Schedule(1)
        for request in (SET_A, spell("GET", "z"), SET_B, spell("GET", "b")):
            schedule.feed(0, request)
            schedule.serve(0)
            schedule.commit()
        schedule.replicate(0)
        schedule.read_marks(0)
        # both marks have seen the first change, and the local one the second
        schedule.add("release 0", "release 0", "write 0 11", "write 0 4")
        schedule.replicate(1)
        schedule.add("read 0 remote", "release 0", "write 0 19", "write 0 18")
        trace = self.play(schedule)
        self.assertEqual(trace.done[-13:-9], [True, False, False, True])
        self.assertEqual(trace.done[-4:], [True, True, False, True])
        self.assertEqual(trace.released, [OK + b"$-1\r\n" + OK + b"$1\r\n2\r\n"])

    def test_events_of_a_connection_that_never_entered(self):
        schedule = Schedule(1)
        for c in (1, 1_024, 2**64 - 1):
            schedule.add(f"feed {c} GET a", f"feed-bytes {c}", f"offer {c}", f"turn {c}", f"hold {c}", f"release {c}")
            schedule.add(f"read {c} local", f"read {c} remote", f"write {c} 0", f"leave {c}")
        most = 2**64 - 1
        schedule.add(f"deliver {most}", f"ack-delivered {most}", f"write 0 {most}", "deliver 0", "ack-delivered 0")
        schedule.add("write 0 0")
        self.assertEqual(self.play(schedule).done[1:], 35 * [False] + [True])

    def test_a_seat_is_given_again(self):
        # all seats are taken, the last one too; two connections leave, and two more enter
        schedule = Schedule(SEATS)
        schedule.add("enter", "leave 7", "leave 7", "enter", "enter", f"leave {SEATS - 1}", "enter", "enter")
        # those that took the seats have numbers and replies of their own
        newer = (SEATS, SEATS + 1)
        schedule.feed(7, SET_A)
        schedule.group(newer[0], SET_A)
        schedule.group(newer[1], GET_A)
        schedule.replicate(0)
        for c in newer:
            schedule.read_marks(c)
            schedule.write_out(c, 64)
        trace = self.play(schedule)
        self.assertEqual(trace.done[SEATS:SEATS + 9], [False, True, False, True, False, True, True, False, False])
        self.assertEqual(trace.released, SEATS * [b""] + [OK, ONE])

    def test_the_next_in_a_seat_finds_it_open(self):
        # a fault closes the first connection; the second takes its seat, and is served
        schedule = Schedule(1)
        schedule.feed(0, b"P")
        schedule.serve(0)
        schedule.add("leave 0", "enter")
        schedule.group(1, SET_A)
        schedule.replicate(0)
        schedule.read_marks(1)
        schedule.write_out(1, 64)
        trace = self.play(schedule)
        self.assertEqual([call.connection for call in trace.calls], [0, 1])
        self.assertEqual(trace.released, [b"", OK])

    def test_what_waits_when_a_connection_leaves_is_dropped(self):
        # of four SETs one is released in part, one is held, one has its reply made, and one was offered and never runs
        schedule = Schedule(2)
        schedule.group(0, SET_A)
        schedule.replicate(0)
        schedule.read_marks(0)
        schedule.add("release 0", "write 0 2")
        schedule.group(0, SET_B)
        schedule.feed(0, SET_A + SET_B)
        schedule.add("offer 0", "turn 0", "offer 0", "leave 0")
        schedule.add("offer 0", "turn 0", "hold 0", "read 0 local", "read 0 remote", "release 0", "write 0 0", "leave 0")
        schedule.feed(0, SET_A)
        # what it changed stays, and the other connection reads it
        schedule.commit()
        schedule.replicate(1)
        schedule.replicate(2)
        schedule.group(1, GET_A)
        schedule.read_marks(1)
        schedule.write_out(1, 64)
        trace = self.play(schedule)
        at = schedule.events.index("leave 0")
        self.assertEqual(trace.done[at:at + 9], [True] + 8 * [False])
        self.assertEqual([call.connection for call in trace.calls], [0, 0, 0, 1])
        self.assertEqual(trace.released, [OK[:2], ONE])
        for node in NODES:
            self.assertEqual((trace.nodes[node].position, trace.records[node]), (3, A_AND_B))

    def test_bounds_of_what_waits(self):
        # 256 items and 256 replies of a connection, 64 changing commands, 256 groups
        schedule = Schedule(1)
        schedule.feed(0, 600 * GET_A + 400 * SET_A)
        schedule.add(*(300 * ["offer 0"] + 300 * ["turn 0"] + 300 * ["offer 0"] + 300 * ["turn 0"]))
        for _ in range(600):
            schedule.add("hold 0", "offer 0", "turn 0")
        for _ in range(330):
            schedule.add("close-group", "hold 0", "offer 0", "turn 0")
        schedule.add(*(300 * ["commit", "raise-local", "hand"] + ["close-group", "commit"] + 300 * ["send"] + ["commit"]))
        trace = self.play(schedule)
        self.assertEqual(trace.done[2:302], 256 * [True] + 44 * [False])
        self.assertEqual(trace.done[302:602], 256 * [True] + 44 * [False])
        # of the next 600 turns the 344 GETs that are left and 64 SETs are served
        self.assertEqual(trace.done[1_204:3_002:3], 408 * [True] + 192 * [False])
        # the first group has these 64, and each of the next 255 the SET that was served since; then 64 wait once more
        self.assertEqual(trace.done[3_002:4_322:4], 256 * [True] + 74 * [False])
        self.assertEqual(trace.done[3_005:4_322:4], 319 * [True] + 11 * [False])
        # the link's pipe takes 256 groups, and as many are sent and kept before one is acknowledged
        self.assertEqual(trace.done[4_322:5_222:3], 256 * [True] + 44 * [False])
        self.assertEqual(trace.done[5_222:], [True, False] + 256 * [True] + 44 * [False] + [True])
        self.assertEqual([(frame.before, frame.after) for frame in trace.frames[:3]], [(0, 64), (64, 65), (65, 66)])
        self.assertEqual(tuple(trace.nodes["primary"])[:3], (383, 258, 383))


class Frames(Runs):
    """Frames that come to the standby twice, late, out of order or never."""

    def sent(self, count):
        """A connection sets a and b in turn. All of it is committed on the primary, and sent."""
        schedule = Schedule(1)
        for number in range(count):
            schedule.feed(0, SET_B if number % 2 else SET_A)
            schedule.serve(0)
            schedule.commit()
            schedule.add("send")
        return schedule

    def assert_stands(self, trace, position):
        for node in NODES:
            self.assertEqual(trace.nodes[node].position, position)
            self.assertEqual(trace.records[node], A_AND_B)

    def show(self, schedule, number):
        schedule.acknowledge(number)
        schedule.read_marks(0)
        schedule.write_out(0, 64)

    def test_frames_may_come_twice_late_and_out_of_order(self):
        schedule = self.sent(8)
        # 2 and 1 come before 0 and are refused, and 7 before 4
        schedule.take(2, 1, 0, 0, 2, 1, 0, 1, 2, 7, 3, 0)
        # the rest comes late: it is there before any of it is taken
        schedule.add(*(f"deliver {frame}" for frame in (6, 4, 0, 5, 6, 3, 7, 6, 8)), *(9 * ["apply"]))
        # the acknowledgements of 6 and 8 come, and older ones after them
        for number in (10, 14, 2, 0):
            self.show(schedule, number)
        trace = self.play(schedule)
        self.assert_stands(trace, 8)
        self.assertEqual(trace.released, [8 * OK])

    def test_lost_frames_are_sent_again_by_a_link_that_opens_again(self):
        schedule = self.sent(4)
        schedule.take(0)
        # frames 1 to 3 are lost; the standby tells that it stands at 1
        schedule.add("open-link")
        self.show(schedule, 1)
        for request in (SET_A, SET_B, SET_A, SET_B):
            schedule.feed(0, request)
            schedule.serve(0)
            schedule.commit()
        sends = len(schedule.events)
        schedule.add(*(8 * ["send"]))
        # the three that were lost are frames 4 to 6, and the four new ones 7 to 10
        schedule.take(7, 4, 5, 5, 8, 6, 7, 3, 8, 9, 10)
        self.show(schedule, 10)
        trace = self.play(schedule)
        self.assertEqual(trace.done[sends:sends + 8], 7 * [True] + [False])
        self.assert_stands(trace, 8)
        self.assertEqual(trace.released, [8 * OK])

    def test_repeats_are_acknowledged_and_gaps_are_not(self):
        schedule = self.sent(7)
        schedule.take(0, 1, 2, 3)
        # a standby at 4: the frame 4 to 5 three times, 6 to 7, 5 to 6
        schedule.take(4, 4, 4, 6, 5)
        first = len(schedule.events)
        for number in range(3, 9):
            schedule.acknowledge(number)
        schedule.read_marks(0)
        schedule.write_out(0, 64)
        trace = self.play(schedule)
        # 4, then 5 three times, then 6, and no more
        rises = [True, True, True, True, True, False, True, False, True, True, False, False]
        self.assertEqual(trace.done[first:first + 12], rises)
        self.assertEqual(trace.released, [6 * OK])

    def test_a_link_keeps_at_most_256_groups(self):
        schedule = self.sent(258)
        schedule.add("open-link", *(257 * ["send"]))
        schedule.take(*range(256))
        schedule.acknowledge(256)
        schedule.add("send", "send", "send")
        schedule.take(*range(512, 515))
        schedule.acknowledge(258)
        schedule.read_marks(0)
        schedule.write_out(0)
        trace = self.play(schedule)
        self.assert_stands(trace, 258)
        self.assertEqual(trace.released, [258 * OK])
