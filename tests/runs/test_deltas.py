"""Deltas: what a standby is sent that is behind the position at which the primary was opened (docs/replication.md, "Deltas").

Each run is compared with the plain machine too, event by event and both images word by word (simulation.Runs)."""

import plain_wire
from plain_keyspace import Drop, Put
from plain_wire import Group, text
from simulation import NODES, Runs, Schedule
from spelling import spell
from worked_cases import DELTA, OK

PROGRAMS = ["simulator"]

# What each way of a record is by itself: requests that go all the way, requests that only the primary commits, and the changes of the delta.
CHANGES = {
    "from_an_empty_standby": ([], ["SET a 1", "SET b 2"], [Put((b"a",), b"1"), Put((b"b",), b"2")]),
    "a_record_that_the_standby_never_had": ([], ["SET a 1", "SET b 2", "DEL a"], [Drop((b"a",)), Put((b"b",), b"2")]),
    "what_is_as_it_was": (["SET a 1", "SET b 2"], ["SET c 3"], [Put((b"c",), b"3")]),
    "another_value": (["SET a 1"], ["SET a 2", "SET a 3"], [Put((b"a",), b"3")]),
    "the_same_value": (["SET a 1"], ["SET a 1"], [Put((b"a",), b"1")]),
    "nothing_left": (["SET a 1"], ["GETDEL a"], [Drop((b"a",))]),
    "removed_and_written_again": (["SET a 1"], ["DEL a", "SET a 2"], [Put((b"a",), b"2")]),
    "fields": (
        ["HSET h a 1 b 2 c 3"], ["HDEL h b", "HSET h c 4 d 5"],
        [Drop((b"h", b"b")), Put((b"h", b"c"), b"4"), Put((b"h", b"d"), b"5")],
    ),
    "a_last_field": (["HSET h f 1"], ["HDEL h f"], [Drop((b"h", b"f"))]),
    "a_string_that_is_a_hash_now": (["SET k 1"], ["DEL k", "HSET k f 2"], [Drop((b"k",)), Put((b"k", b"f"), b"2")]),
    "a_hash_that_is_a_string_now": (
        ["HSET k f 1 g 2"], ["SET k x"], [Drop((b"k", b"f")), Drop((b"k", b"g")), Put((b"k",), b"x")],
    ),
    "a_hash_that_was_a_string_between": (
        ["HSET k f 1 g 2"], ["SET k x", "DEL k", "HSET k g 3"], [Drop((b"k",)), Drop((b"k", b"f")), Put((b"k", b"g"), b"3")],
    ),
    "all_keys": (["MSET a 1 b 2", "HSET h f 1"], ["FLUSHDB", "SET b 3"], [Drop((b"a",)), Drop((b"h", b"f")), Put((b"b",), b"3")]),
    "an_exec": (["SET a 1"], ["MULTI", "SET b 2", "DEL a", "SET c 3", "EXEC"], [Drop((b"a",)), Put((b"b",), b"2"), Put((b"c",), b"3")]),
    "the_order_of_drops": (
        ["SET k 1"], ["DEL k", "HSET k g 1 f 1", "SET ka 1", "SET j 1", "DEL ka k j"],
        [Drop((b"j",)), Drop((b"k",)), Drop((b"k", b"f")), Drop((b"k", b"g")), Drop((b"ka",))],
    ),
    "the_order_of_puts": (
        [], ["SET z 1", "HSET k b 1 aa 1 a 1", "SET ka 1", "SET j 1"],
        [Put((b"j",), b"1"), *(Put((b"k", field), b"1") for field in (b"a", b"aa", b"b")), Put((b"ka",), b"1"), Put((b"z",), b"1")],
    ),
    "only_changes_that_are_gone": ([], ["SET a 1", "DEL a"], [Drop((b"a",))]),
}

# Of the worked delta: what the standby has, and what only the primary commits.
SETS = [f"SET k{number} v" for number in range(1, 7)]
UNSENT = ["DEL k1", "SET k2 x", "DEL k3"]


def words(request):
    return spell(*request.split())


def committed(there, unsent):
    """Of one connection: the first requests go all the way, each as a group and a frame, where it changes something; what the others change is
    committed on the primary, as a group that is handed on and never sent."""
    schedule = Schedule(1)
    for number, request in enumerate(there):
        schedule.serve_to_end(0, number, words(request))
    schedule.group(0, *map(words, unsent))
    return schedule


def reopened(there, unsent, *between):
    """The same; then these events happen, and the primary crashes and is opened again. A second connection enters."""
    schedule = committed(there, unsent)
    schedule.add(*between, "crash primary 0", "reopen primary", "enter")
    return schedule


class Deltas(Runs):
    """Runs in which a primary is opened again, and the standby is behind."""

    def assert_told(self, trace, before, after, changes):
        """The last frame is this delta, word for word."""
        self.assert_bytes(trace.texts[0][-1], text(Group(1, before, after, tuple(changes))))

    def assert_same(self, trace):
        """Both nodes hold the same."""
        self.assertEqual(trace.records["standby"], trace.records["primary"])
        self.assertEqual(trace.nodes["standby"].position, trace.nodes["primary"].position)

    def check_changes(self, there, unsent, changes):
        schedule = reopened(there, unsent)
        schedule.add("open-link", "send")
        schedule.take(len(there))
        trace = self.play(schedule)
        self.assert_told(trace, len(there), trace.nodes["primary"].position, changes)
        self.assert_same(trace)
        self.assertEqual(trace.acknowledgements[-2:], [(1, len(there)), (1, trace.nodes["primary"].position)])

    def test_changes(self):
        for name, row in CHANGES.items():
            with self.case(name):
                self.check_changes(*row)

    def test_the_worked_delta(self):
        self.assertEqual(len(DELTA), 53)
        schedule = reopened(SETS, UNSENT)
        schedule.feed(1, words("GET k2"))
        schedule.serve(1)
        # the reply is held until 9 is acknowledged and shown
        for events in (["open-link", "ack-delivered 6", "raise-remote"], ["send", "deliver 6", "apply"], ["ack-delivered 7"], ["raise-remote"]):
            schedule.add(*events)
            schedule.read_marks(1)
            schedule.write_out(1)
        trace = self.play(schedule)
        self.assertEqual([place for event, place in zip(schedule.events, trace.done) if event == "release 1"], [False, False, False, True])
        self.assertEqual(trace.released, [6 * OK, b"$1\r\nx\r\n"])
        self.assert_bytes(trace.texts[0][-1], DELTA)
        self.assertEqual(trace.acknowledgements[-2:], [(1, 6), (1, 9)])
        self.assert_same(trace)
        self.assertEqual([name for name, _ in trace.records["standby"]], [(b"k2",), (b"k4",), (b"k5",), (b"k6",)])

    def test_the_worked_delta_in_pieces(self):
        for piece in range(1, len(DELTA) + 2):
            with self.case("piece", bytes=piece):
                schedule = reopened(SETS, UNSENT)
                schedule.add("open-link", "send", f"deliver 6 {piece}", "apply")
                trace = self.play(schedule)
                self.assert_bytes(trace.texts[0][-1], DELTA)
                self.assert_same(trace)

    def test_what_was_freed_is_not_dropped(self):
        # the entry tells of a record as long as it is there
        for name, events, drops in [
            ("not listed", [], [Drop((b"a",))]),
            ("listed", ["close-group"], [Drop((b"a",))]),
            ("freed", ["close-group", "free"], []),
            ("accepted", ["close-group", "free", "accept-freed"], []),
        ]:
            with self.case(name):
                schedule = Schedule(1)
                schedule.serve_to_end(0, 0, words("SET a 1"))
                schedule.serve_to_end(0, 1, words("DEL a"))
                schedule.add(*events)
                schedule.group(0, words("SET b 2"))
                schedule.add("crash primary 0", "reopen primary", "open-link", "send")
                schedule.take(2)
                trace = self.play(schedule)
                self.assert_told(trace, 2, 3, [*drops, Put((b"b",), b"2")])
                self.assert_same(trace)

    def test_nothing_is_freed_that_the_standby_may_need(self):
        # what ended is in a list when the primary crashes, and counts as ended at the opening then: the delta has to be acknowledged
        schedule = reopened(["SET a 1"], ["DEL a"], "close-group", "free")
        schedule.add("close-group", "open-link", "ack-delivered 1", "raise-remote", "free", "send", "deliver 1", "apply", "free", "ack-delivered 2",
                     "free", "raise-remote", "free", "accept-freed")
        trace = self.play(schedule)
        freed = [did for event, did in zip(schedule.events, trace.done) if event == "free"]
        self.assertEqual(freed, [False, False, False, False, True])
        self.assert_told(trace, 1, 2, [Drop((b"a",))])

    def test_no_delta_is_due(self):
        # the standby stands at the opening, though by a frame that comes after the crash; or the primary never crashed
        for name, there, unsent, events in [
            ("formatted", [], [], []),
            ("all there", ["SET a 1"], [], ["crash primary 0", "reopen primary"]),
            ("nothing committed", ["SET a 1"], [], ["feed 0 SET b 2", "offer 0", "turn 0", "crash primary 0", "reopen primary"]),
            ("an old frame", [], ["SET a 1"], ["send", "crash primary 0", "deliver 0", "apply", "reopen primary"]),
        ]:
            with self.case(name):
                schedule = committed(there, unsent)
                schedule.add(*events, "open-link", "send")
                trace = self.play(schedule)
                self.assertEqual(trace.done[-2:], [True, False])

    def test_it_goes_before_all_groups_once(self):
        # a group of the new life waits, and another was sent in vain before the link opened: both follow the delta
        schedule = reopened(["SET a 1"], ["SET b 2"])
        schedule.group(1, words("SET c 3"))
        schedule.add("send")
        schedule.group(1, words("SET d 4"))
        schedule.take(1)
        schedule.add("open-link", *(4 * ["send"]))
        schedule.take(2, 3, 4)
        trace = self.play(schedule)
        sent = [did for event, did in zip(schedule.events, trace.done) if event == "send"]
        # (of the first life one, then the group, the delta, the same group, the other one)
        self.assertEqual(sent, [True, True, True, True, True, False])
        self.assertEqual(trace.acknowledgements, [(1, 1), (1, 1), (1, 2), (1, 3), (1, 4)])
        self.assert_same(trace)

    def test_it_is_as_of_the_opening(self):
        # what the new life changes comes by its own groups
        schedule = reopened(["SET a 1"], ["SET b 2", "SET c 3"])
        schedule.group(1, words("DEL b"), words("SET c 4"), words("SET a 5"))
        schedule.add("open-link", "send", "send")
        schedule.take(1)
        self.assertEqual(self.play(schedule).records["standby"], [((b"a",), b"1"), ((b"b",), b"2"), ((b"c",), b"3")])
        schedule.take(2)
        trace = self.play(schedule)
        self.assertEqual([(frame.before, frame.after) for frame in trace.frames], [(0, 1), (1, 3), (3, 6)])
        self.assertEqual(plain_wire.read(trace.texts[0][1]).changes, (Put((b"b",), b"2"), Put((b"c",), b"3")))
        self.assertEqual(trace.records["standby"], [((b"a",), b"5"), ((b"c",), b"4")])

    def test_a_delta_that_comes_twice(self):
        schedule = reopened(SETS, UNSENT)
        schedule.add("open-link", "send")
        schedule.take(6, 6)
        schedule.add("deliver 6 5", "apply")
        trace = self.play(schedule)
        self.assertEqual(trace.acknowledgements[-3:], 3 * [(1, 9)])
        self.assert_same(trace)

    def test_a_delta_that_comes_late(self):
        # the standby went on behind it by a group
        schedule = reopened(SETS, UNSENT)
        schedule.group(1, words("SET k1 again"))
        schedule.add("open-link", "send", "send")
        schedule.take(6, 7, 6)
        trace = self.play(schedule)
        self.assertEqual(trace.acknowledgements[-2:], 2 * [(1, 10)])
        self.assertEqual(trace.records["standby"][0], ((b"k1",), b"again"))
        self.assert_same(trace)

    def lost_frames(self):
        """Three groups that were sent as the frames 0 to 2 and did not come, and the delta from 0, sent as frame 3."""
        schedule = Schedule(1)
        for request in ("SET a 1", "DEL a", "SET b 3"):
            schedule.group(0, words(request))
            schedule.add("send")
        schedule.add("crash primary 0", "reopen primary", "enter", "open-link", "send")
        return schedule

    def test_a_delta_after_old_frames(self):
        # it joins on only where the standby stands at its beginning; a frame that ends above the standby and does not join on is refused
        for count, told in [(0, [0, 3]), (1, [0, 1]), (2, [0, 1, 2]), (3, [0, 1, 2, 3, 3])]:
            with self.case("frames", count=count):
                schedule = self.lost_frames()
                schedule.take(*range(count), 3)
                trace = self.play(schedule)
                self.assertEqual([position for _, position in trace.acknowledgements], told)

    def test_old_frames_after_a_delta(self):
        schedule = self.lost_frames()
        schedule.take(3, 0, 2, 1)
        trace = self.play(schedule)
        self.assertEqual([position for _, position in trace.acknowledgements], [0, 3, 3, 3, 3])
        self.assertEqual(trace.records["standby"], [((b"b",), b"3")])

    def test_a_link_that_opens_again_makes_it_anew(self):
        # from where the standby is then
        for count in (0, 1, 2):
            with self.case("frames", count=count):
                schedule = self.lost_frames()
                schedule.take(*range(count), *([3] if count else []))
                schedule.add("open-link", "send", "send")
                schedule.take(4)
                trace = self.play(schedule)
                self.assertEqual(trace.done[-5:-2], [True, True, False])
                self.assert_same(trace)
                self.assertEqual(trace.acknowledgements[-2:], [(1, count), (1, 3)])

    def test_a_link_that_opens_again_drops_it(self):
        # where the standby is there by then, whether it was sent or not
        for name, numbers in [("sent", [0, 1, 2]), ("taken", [3])]:
            with self.case(name):
                schedule = self.lost_frames()
                schedule.take(*numbers)
                schedule.add("open-link", "send")
                self.assertEqual(self.play(schedule).done[-2:], [True, False])
        with self.case("not sent"):
            schedule = self.lost_frames()
            schedule.add("open-link")
            schedule.take(0, 1, 2)
            schedule.add("open-link", "send")
            self.assertEqual(self.play(schedule).done[-2:], [True, False])

    def test_it_is_due_again_until_it_was_taken(self):
        schedule = reopened(SETS, UNSENT)
        for _ in range(3):
            schedule.add("open-link", "send", "send")
        schedule.take(8)
        schedule.add("open-link", "send", "ack-delivered 10", "raise-remote", "open-link", "send")
        trace = self.play(schedule)
        sent = [did for event, did in zip(schedule.events, trace.done) if event == "send"]
        self.assertEqual(sent[6:], [*(3 * [True, False]), False, False])
        self.assert_same(trace)

    def test_two_reopenings(self):
        # with a group of the life between, or with none, and with its delta sent, or not
        for name, between, before in [
            ("at once", [], 1),
            ("a delta that was not sent", ["open-link"], 1),
            ("a delta that was lost", ["open-link", "send"], 1),
            ("a delta that was taken", ["open-link", "send", "deliver 1", "apply"], 3),
            ("a delta that waits while the primary crashes", ["open-link", "send", "deliver 1", "crash primary 0", "apply"], 3),
        ]:
            for more in ([], ["SET c 4", "DEL b"]):
                with self.case(name, more=more):
                    schedule = reopened(["SET a 1"], ["SET b 2", "SET a 3"])
                    if more:
                        schedule.group(1, *map(words, more))
                    schedule.add(*between, "crash primary 0", "reopen primary", "enter", "open-link", "send")
                    schedule.take(1, 2)
                    schedule.add("open-link", "send")
                    schedule.take(3)
                    trace = self.play(schedule)
                    after = 5 if more else 3
                    self.assertEqual(trace.nodes["standby"].position, after)
                    self.assert_same(trace)
                    if more:
                        changes = [Put((b"c",), b"4")] if before == 3 else [Put((b"a",), b"3"), Put((b"c",), b"4")]
                        self.assert_told(trace, before, after, [Drop((b"b",)), *changes])

    def test_a_delta_of_an_earlier_life(self):
        # it is taken where the standby stands at its beginning, and the later one joins on at its own
        schedule = reopened(["SET a 1"], ["SET b 2"])
        schedule.add("open-link", "send")
        schedule.group(1, words("SET c 3"))
        schedule.add("crash primary 0", "reopen primary", "open-link", "send")
        schedule.take(1, 2)
        schedule.add("open-link", "send")
        schedule.take(3)
        trace = self.play(schedule)
        # (the one from 1 to 3 is refused behind the one from 1 to 2)
        self.assertEqual([position for _, position in trace.acknowledgements], [1, 1, 1, 2, 2, 3])
        self.assert_same(trace)

    def test_a_standby_that_crashes_between(self):
        # what had come and was not taken is lost; the frame can come again, and so can the delta
        for name, events in [
            ("before it is sent", ["crash standby 0", "send", "reopen standby", "deliver 6", "apply"]),
            ("before it is taken", ["send", "deliver 6", "crash standby 0 1", "reopen standby", "apply", "deliver 6", "apply"]),
            ("the link opens again", ["send", "deliver 6", "crash standby 1", "open-link", "reopen standby", "open-link", "send", "deliver 7", "apply"]),
            ("after it was taken", ["send", "deliver 6", "apply", "crash standby 0", "reopen standby", "deliver 6", "apply"]),
        ]:
            with self.case(name):
                schedule = reopened(SETS, UNSENT)
                schedule.add("open-link", *events)
                trace = self.play(schedule)
                self.assert_bytes(trace.texts[0][-1], DELTA)
                self.assertEqual([line.gaps for line in trace.nodes.values()], [1, 1])
                self.assert_same(trace)

    def test_a_delta_is_whole_or_not_there(self):
        # the first commit of the standby: formatting made three fences, and the third of a commit is that of the root
        for fence in (4, 5, 6):
            for picks in ("0", "1", "0 1", "1 0"):
                with self.case("fence", fence=fence, picks=picks):
                    schedule = reopened([], ["SET a 1", "HSET h f 2", "DEL a"])
                    schedule.add("open-link", "send", "deliver 0", "apply")
                    trace = self.play(schedule, fail=(0, fence), crash=f"standby {picks}")
                    is_there = fence == 6 and picks in ("1", "1 0")
                    self.assertEqual(trace.nodes["standby"].position, 3 if is_there else 0)
                    self.assertEqual(trace.records["standby"], [((b"h", b"f"), b"2")] if is_there else [])

    def test_a_standby_without_room(self):
        # it has fewer entries than the delta has puts: nothing is taken, and nothing is acknowledged
        sets = [" ".join(["MSET", *(f"{key}{number} v" for number in range(257))]) for key in "ab"]
        schedule = reopened([], sets)
        schedule.add("open-link", "send")
        schedule.take(0)
        trace = self.play(schedule, lines=(8_192, 4_096))
        self.assertEqual((trace.frames[-1].changes, trace.acknowledgements), (514, [(1, 0)]))
        self.assertEqual((trace.nodes["standby"].position, trace.records["standby"]), (0, []))

    def test_what_the_standby_frees_for_a_delta(self):
        # of 494 entries 290 are ended by it, and its 200 puts fit beside them; then all of those are free
        first = " ".join(["MSET", *(f"a{number} v" for number in range(290))])
        second = " ".join(["MSET", *(f"b{number} v" for number in range(200))])
        schedule = reopened([first], ["FLUSHDB", second])
        schedule.add("open-link", "send")
        schedule.take(1)
        schedule.group(1, words("SET c v"))
        schedule.add("send")
        schedule.take(2)
        trace = self.play(schedule)
        self.assertEqual(trace.frames[1].changes, 490)
        self.assert_same(trace)
        # entry 0 has the begin of the third frame's stamp
        self.assertEqual(trace.words["standby"][64], 3)

    def test_it_waits_until_both_run(self):
        schedule = committed(["SET a 1"], ["SET b 2"])
        schedule.add("crash primary 0", "open-link", "send", "crash standby 0", "reopen primary", "open-link", "send", "reopen standby", "open-link", "send")
        trace = self.play(schedule)
        self.assertEqual(trace.done[-10:], [True, False, False, True, True, False, False, True, True, True])

    def test_replies_wait_for_it(self):
        # also one to a read, of what the standby has had for long; at position 0 nothing has to be acknowledged
        for there, unsent, released in [(["SET a 1"], ["SET b 2"], b""), ([], [], b"$-1\r\n")]:
            with self.case("there", count=len(there)):
                schedule = reopened(there, unsent)
                schedule.feed(1, words("GET a"))
                schedule.serve(1)
                schedule.read_marks(1)
                schedule.write_out(1)
                self.assertEqual(self.play(schedule).released[1], released)
                schedule.add("open-link", "send")
                schedule.take(len(there))
                schedule.acknowledge(2 * len(there))
                schedule.read_marks(1)
                schedule.write_out(1)
                self.assertEqual(self.play(schedule).released[1], b"$1\r\n1\r\n" if there else released)

    def test_a_chain_of_lives(self):
        # each life commits a group that is not sent, and the next one's delta brings it; the last leaves both nodes the same
        schedule, acknowledgements = Schedule(), 0
        for life in range(12):
            schedule.add("enter")
            schedule.group(life, words(f"SET k{life % 5} {life}"), words(f"HSET h f{life % 3} {life}"), words(f"DEL k{(life + 2) % 5}"))
            schedule.add("crash primary 0", "reopen primary", "open-link", "send")
            schedule.take(life)
            schedule.acknowledge(acknowledgements + 1)
            schedule.free()
            acknowledgements += 2
        trace = self.play(schedule)
        self.assertEqual(len(trace.frames), 12)
        self.assert_same(trace)
        # from the fourth life on the DEL finds its key
        self.assertEqual([trace.nodes[node].position for node in NODES], 2 * [12 * 2 + 9])
