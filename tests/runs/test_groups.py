"""Groups of several changes.

Each run is compared with the plain machine too, event by event and both images word by word (simulation.Runs)."""

from simulation import Frame, Runs, Schedule
from spelling import spell
from worked_cases import GET_A, OK, ONE, PING, SET_A, STORE_IS_FULL

PROGRAMS = ["simulator"]

SET_B = spell("SET", "b", "2")
A_AND_B = [((b"a",), b"1"), ((b"b",), b"2")]


class Groups(Runs):
    """Groups of several changes: they are durable, shown, sent and taken whole."""

    SETS = [SET_A, SET_B, spell("SET", "a", "3")]

    def test_groups_of_any_length(self):
        # one stamp a change on the primary, one for the group on the standby, one record on each
        for count in (1, 2, 3, 63, 64):
            with self.case("changes", count=count):
                schedule = Schedule(1)
                schedule.group(0, *(count * [SET_A]))
                schedule.replicate(0)
                schedule.group(0, SET_B)
                schedule.replicate(1)
                trace = self.play(schedule)
                self.assertEqual(trace.frames, [Frame(1, 0, count, count), Frame(1, count, count + 1, 1)])
                self.assertEqual(trace.acknowledgements, [(1, count), (1, count + 1)])
                self.assertEqual(tuple(trace.nodes["primary"])[:4], (count + 1, 3, count + 1, count + 4_098))
                self.assertEqual(tuple(trace.nodes["standby"])[:4], (count + 1, 3, 2, 4_099))

    def test_a_group_closes_what_changed_and_nothing_else(self):
        # reads and refusals between the changes are no part of it
        schedule = Schedule(2)
        schedule.feed(1, GET_A + SET_B)
        schedule.group(0, GET_A, SET_A, PING, GET_A)
        schedule.serve(1)
        schedule.serve(1)
        schedule.commit()
        nothing_waits = len(schedule.events)
        schedule.commit()
        schedule.replicate(0)
        schedule.replicate(1)
        trace = self.play(schedule)
        self.assertEqual(trace.frames, [Frame(1, 0, 1, 1), Frame(1, 1, 2, 1)])
        self.assertEqual(trace.done[nothing_waits:nothing_waits + 4], 4 * [False])

    def test_a_group_of_several_connections(self):
        schedule = Schedule(3)
        for c, request in enumerate(self.SETS):
            schedule.feed(c, request)
            schedule.serve(c)
        schedule.commit()
        schedule.replicate(0)
        for c in range(3):
            schedule.read_marks(c)
            schedule.write_out(c, 8)
        trace = self.play(schedule)
        self.assertEqual(trace.frames, [Frame(1, 0, 3, 3)])
        self.assertEqual(trace.released, 3 * [OK])

    def test_marks_move_by_whole_groups(self):
        # replies at the positions 1, 1, 2 and 3, all of one group: none goes out before the whole group is on both nodes
        schedule = Schedule(1)
        schedule.group(0, SET_A, GET_A, SET_B, spell("SET", "a", "3"))
        start = len(schedule.events)
        schedule.add("read 0 local", "release 0", "send", "deliver 0", "apply", "read 0 remote", "release 0")
        schedule.acknowledge(0)
        schedule.add("release 0", "read 0 remote", "release 0", "release 0", "write 0 22")
        trace = self.play(schedule)
        releases = [did for event, did in zip(schedule.events[start:], trace.done[start:]) if event == "release 0"]
        self.assertEqual(releases, [False, False, False, True, False])
        self.assertEqual(trace.released, [OK + ONE + 2 * OK])

    def test_a_frame_of_three_changes_that_comes_again(self):
        # it is taken once, under one stamp, and acknowledged each time
        schedule = Schedule(1)
        schedule.group(0, *self.SETS)
        schedule.group(0, SET_A, SET_B)
        schedule.add("send", "send", "open-link", "send", "send")
        # the second comes first and is refused; frames 2 and 3 are the two groups once more
        schedule.take(1, 0, 0, 2, 3, 0, 1, 2)
        schedule.acknowledge(7)
        schedule.read_marks(0)
        schedule.write_out(0, 16)
        trace = self.play(schedule)
        self.assertEqual(trace.acknowledgements, [(1, position) for position in (0, 3, 3, 3, 5, 5, 5, 5)])
        self.assertEqual(tuple(trace.nodes["standby"])[:3], (5, 3, 2))
        self.assertEqual(trace.records["standby"], A_AND_B)
        self.assertEqual(trace.released, [5 * OK])

    def test_a_command_with_several_changes_is_one_part(self):
        # positions 1 to 5: MSET writes a twice, DEL removes two keys, FLUSHDB removes what is there; EXISTS changes nothing
        requests = ["MSET a 1 b 2 a 3", "DEL a x b", "EXISTS a", "MSETNX c 4 d 5", "FLUSHDB", "FLUSHDB", "SET e 6"]
        schedule = Schedule(1)
        schedule.group(0, *(spell(*request.split()) for request in requests))
        schedule.replicate(0)
        schedule.read_marks(0)
        schedule.write_out(0, 64)
        trace = self.play(schedule)
        self.assertEqual(trace.frames, [Frame(1, 0, 5, 3 + 2 + 2 + 1 + 1)])
        self.assertEqual(tuple(trace.nodes["primary"])[:4], (5, 2, 5, 4_102))
        self.assertEqual(tuple(trace.nodes["standby"])[:4], (5, 2, 1, 4_098))
        self.assertEqual(trace.records["standby"], [((b"e",), b"6")])
        self.assertEqual(trace.released, [OK + b":2\r\n:0\r\n:1\r\n" + 3 * OK])

    def test_64_commands_of_several_changes_are_one_group(self):
        schedule = Schedule(1)
        schedule.group(0, *(64 * [spell("MSET", *(4 * ["a", "1"]))]))
        schedule.group(0, SET_B)
        schedule.replicate(0)
        schedule.replicate(1)
        trace = self.play(schedule)
        self.assertEqual(trace.frames, [Frame(1, 0, 64, 256), Frame(1, 64, 65, 1)])
        self.assertEqual([node.position for node in trace.nodes.values()], [65, 65])

    def test_64_commands_of_every_kind_of_change_are_one_group(self):
        # a clear, strings, 18 fields of one hash, a dropped string, a dropped field, a string overwritten and one over the hash
        requests = [["SET", f"{number}", f"{number}"] for number in range(1, 65)]
        requests[20] = ["FLUSHDB"]
        requests[40:58] = [["HSET", "7", f"{number}", f"{number}"] for number in range(41, 59)]
        requests[58:63] = [["DEL", "22"], ["HDEL", "7", "41"], ["DEL", "23"], ["SET", "24", "62"], ["SET", "7", "63"]]
        schedule = Schedule(1)
        schedule.group(0, *(spell(*request) for request in requests))
        schedule.replicate(0)
        trace = self.play(schedule)
        self.assertEqual(trace.frames, [Frame(1, 0, 64, 64)])
        self.assertEqual([node.position for node in trace.nodes.values()], [64, 64])
        left = {f"{number}": f"{number}" for number in [*range(24, 41), 64]} | {"24": "62", "7": "63"}
        records = sorted(((key.encode("ascii"),), value.encode("ascii")) for key, value in left.items())
        self.assertEqual([trace.records["primary"], trace.records["standby"]], [records, records])

    def test_a_command_has_room_for_all_its_versions_or_for_none(self):
        # 493 of 494 entries are taken: of a command with two puts nothing is written, and its replies say so
        for request in (spell("MSET", "b", "2", "b", "3"), spell("MSETNX", "c", "2", "d", "3")):
            with self.case("request", request=request):
                schedule = Schedule(1)
                for number, size in enumerate(7 * [64] + [45]):
                    schedule.group(0, *(size * [SET_A]))
                    schedule.replicate(number)
                schedule.group(0, request, SET_B, spell("DEL", "a"))
                schedule.replicate(8)
                schedule.read_marks(0)
                schedule.write_out(0, 4_096)
                trace = self.play(schedule)
                self.assert_bytes(trace.released[0], 493 * OK + STORE_IS_FULL + OK + b":1\r\n")
                self.assertEqual(trace.records["standby"], [((b"b",), b"2")])

    def test_a_standby_has_room_for_a_whole_frame_or_for_none(self):
        # an image of 4,096 lines has room for 494 versions: for `left` more when three come, the first of which is freed then, and one after them
        for left, stands in [(4, 494), (3, 495), (2, 492), (1, 493), (0, 494)]:
            with self.case("left", left=left):
                schedule = Schedule(1)
                for number, size in enumerate(7 * [64] + [46 - left]):
                    schedule.group(0, *(spell("SET", f"k{64 * number + place}", "1") for place in range(size)))
                    schedule.replicate(number)
                schedule.group(0, *self.SETS)
                schedule.group(0, SET_B)
                schedule.add("send", "send")
                schedule.take(8, 8, 9, 8)
                schedule.add(*(f"ack-delivered {number}" for number in range(14)), "raise-remote")
                schedule.read_marks(0)
                schedule.write_out(0, 4_096)
                trace = self.play(schedule, lines=(8_192, 4_096))
                self.assertEqual(trace.nodes["primary"].position, 498 - left)
                self.assertEqual(trace.nodes["standby"].position, stands)
                self.assert_bytes(trace.released[0], stands * OK)
