"""Fences that an event asks to fail. The call that meets one stops its node, and the run goes on: what a crash leaves of its image is that of the plain machine,
word for word, and it opens and serves on."""

import plain_image
import plain_keyspace
import spelling
from plain_machine import Machine
from simulation import NODES, Runs, Schedule, simulate
from test_cut_calls import CALLS, MANY, PICKS, SET_A, SET_B, drawn_picks, served, serving_on
from test_moves import LINES, two_long_values_and_a_short_one

PROGRAMS = ["simulator"]
IS_SLOW = True
QUICK = ["Requests", "Stopped.test_each_call_by_one", "Stopped.test_only_a_crash_comes_next"]

# no call makes as many fences
MOST_FENCES = 12

# By a name each call that may meet a fence: the node that makes it, the events before it, and itself. Of a reopening the fence is asked for before the crash.
MEETING = {
    **{call: (node, events, call) for call, (node, events) in CALLS.items() if call != "reopen"},
    "reopen primary": ("primary", served(), "reopen primary"),
    "reopen standby": ("standby", served(), "reopen standby"),
}

# How far a call moves the position of its node, and the position before it.
MOVES = {"commit": 1, "apply": 1}
POSITIONS = {"commit": 2, "apply": 1, "free": 2, "clear-gap": 2, "reopen primary": 2, "reopen standby": 1, "promote": 1}

FAULT = "refusal 1: device fault"


def asked(call, fence):
    """The events up to this call, before which its node is asked that this fence fail."""
    node, events, last = MEETING[call]
    crash = [f"crash {node} 0"] if call.startswith("reopen") else []
    schedule = Schedule()
    schedule.add(*events, f"fail-fence {node} {fence}", *crash, last)
    return schedule


def picks_of(call, fence):
    """Candidates of a crash, by what they are."""
    return {**PICKS, "drawn": drawn_picks(f"{call} {fence}")}


class Stopping(Runs):
    """Tests of nodes that stop."""

    def fences_of(self, call):
        """How many fences the call makes: one more does not fail in it, so that its node runs on."""
        node = MEETING[call][0]
        for fence in range(1, MOST_FENCES):
            schedule = asked(call, fence)
            schedule.add(f"fail-fence {'primary' if call == 'promote' else node} 0")
            if simulate(schedule.events).done[-1]:
                return fence - 1
        self.fail(f"{call} makes {MOST_FENCES} fences or more")

    def fences(self):
        """Each call with the number of each fence that it makes."""
        for call in MEETING:
            count = self.fences_of(call)
            self.assertGreater(count, 0)
            for fence in range(1, count + 1):
                yield call, MEETING[call][0], fence


class Stopped(Stopping):
    """Each fence of each call."""

    def test_what_a_crash_leaves(self):
        found = {}
        for call, node, fence in self.fences():
            for name, picks in picks_of(call, fence).items():
                with self.case(call, fence=fence, picks=name):
                    schedule = asked(call, fence)
                    trace = self.play(schedule, crash=f"{node} {picks}")
                    self.assertEqual(trace.ended, f"after all {len(schedule.events) + 1} events")
                    self.assertEqual(self.machine.stops, [(len(schedule.events) - 1, call.split()[0])])
                    self.assertTrue(trace.done[-1])
                    found.setdefault(call, set()).add(trace.nodes[node].position)
        for call, before in POSITIONS.items():
            # the call is undone, or done
            self.assertEqual(found[call], {before, before + MOVES.get(call, 0)})

    def test_it_goes_on(self):
        for call, node, fence in self.fences():
            for name, picks in picks_of(call, fence).items():
                with self.case(call, fence=fence, picks=name):
                    schedule = asked(call, fence)
                    schedule.add(f"crash {node} {picks}", "reopen standby", "reopen primary", "promote", "enter", *serving_on())
                    trace = self.play(schedule)
                    self.assertIn((b"b",), dict(trace.records["standby" if call == "promote" else "primary"]))
                    self.assertEqual(trace.ended, f"after all {len(schedule.events)} events")

    def test_each_call_by_one(self):
        # (`world::run` plays the same, and so do nodes with the other body of a keyspace)
        for call in MEETING:
            for option in ("--whole", "--list"):
                with self.case(call, option=option):
                    schedule = asked(call, 1)
                    schedule.add(f"crash {MEETING[call][0]} {PICKS['newest']}", "reopen standby", "reopen primary", *serving_on())
                    self.play(schedule, option)

    def test_it_stops_again(self):
        # the reopening after the crash meets a fence too, and the one after that
        for call, node, fence in self.fences():
            if call == "promote":
                continue
            for name in ("oldest", "newest first"):
                with self.case(call, fence=fence, picks=name):
                    schedule = asked(call, fence)
                    crash = f"crash {node} {PICKS[name]}"
                    for again in (1, 2):
                        schedule.add(crash, f"reopen {node}", f"fail-fence {node} {again}", crash, *2 * [f"reopen {node}"])
                    schedule.add(crash, f"reopen {node}", "enter", *serving_on())
                    self.play(schedule)
                    self.assertEqual([name for _, name in self.machine.stops], [call.split()[0], "reopen", "reopen"])

    def test_only_a_crash_comes_next(self):
        events = ["enter", "feed 0 SET a 2", "offer 0", "turn 0", "close-group", "commit", "raise-local", "hand", "free", "accept-freed", "clear-gap",
                  "open-link", "send", "ack-delivered 0", "raise-remote", "hold 0", "read 0 local", "release 0", "write 0 0", "leave 0",
                  "fail-fence primary 0", "reopen primary", "crash primary commit 1 0", "crash primary reopen 1 0"]
        schedule = asked("commit", 1)
        schedule.add(*events, "crash primary 0", "crash primary 0", "reopen primary", "reopen primary")
        trace = self.play(schedule)
        self.assertEqual(trace.done[-len(events) - 4:], len(events) * [False] + [True, False, True, False])

    def test_only_a_crash_comes_next_of_a_standby(self):
        events = ["open-link", "deliver 0", "apply", "fail-fence standby 0", "reopen standby", "promote", "crash standby apply 1 0", "crash standby reopen 1 0"]
        for fenced in ([], ["fence"]):
            with self.case("fenced", fenced=fenced):
                schedule = asked("apply", 1)
                schedule.add(*fenced, *events, "crash standby 0", "apply", "reopen standby", "deliver 1", "apply")
                trace = self.play(schedule)
                self.assertEqual(trace.done[-len(events) - 5:], len(events) * [False] + [True, False, True, True, True])
                self.assertEqual(trace.nodes["standby"].position, 2)

    def test_frames_that_waited_are_lost(self):
        # the frame that it was to take, and one behind it
        *events, apply = asked("apply", 1).events
        schedule = Schedule()
        schedule.add(*events, "deliver 0", apply, "apply", "deliver 0", "crash standby 0", "reopen standby", "apply")
        self.assertEqual(self.play(schedule).done[-6:], [True, False, False, True, True, False])

    def test_the_primary_serves_while_its_standby_has_stopped(self):
        schedule = asked("apply", 2)
        for request in (SET_A, SET_B):
            schedule.group(0, request)
        schedule.add("send", "send", f"crash standby {PICKS['newest']}", "reopen standby", "open-link", *5 * ["send"])
        schedule.take(*range(6))
        trace = self.play(schedule)
        self.assertEqual([line.position for line in trace.nodes.values()], [4, 4])

    def test_released_replies_stay(self):
        for fence in (1, 2, 3):
            for name, picks in picks_of("released", fence).items():
                with self.case("fence", fence=fence, picks=name):
                    schedule = Schedule(1)
                    schedule.serve_to_end(0, 0, SET_A)
                    schedule.add(f"fail-fence primary {fence}")
                    schedule.group(0, SET_B)
                    schedule.add("read 0 local", "release 0", "write 0 5", f"crash primary {picks}", "reopen primary", "enter")
                    schedule.feed(1, spelling.spell("GET", "a"))
                    schedule.serve(1)
                    trace = self.play(schedule)
                    self.assertEqual(trace.released, [b"+OK\r\n", b""])
                    self.assertEqual(trace.calls[-1].reply, b"$1\r\n1\r\n")
                    self.assertIn(trace.nodes["primary"].position, {1, 2})


class Rooms(Stopping):
    """A standby that makes room for a frame, and stops on the way. How it makes room the plain machine does not say word for word, so it is looked at what a crash
    leaves."""

    def frames(self, gaps):
        """Events before the standby takes a frame for which it moves a version, and clears so many gaps; and what follows that."""
        events = two_long_values_and_a_short_one().events
        at = events.index("deliver 5")
        return [*events[:at], *gaps * ["crash standby 0", "reopen standby"]], events[at:at + 2], events[at + 2:]

    def check_images(self, trace, parts):
        """Both images are whole and hold the keyspace at their position. The positions."""
        images = [plain_image.read_image(plain_image.Words(LINES, trace.words[node])) for node in NODES]
        for image in images:
            self.assertEqual(image.map, dict(plain_keyspace.keyspace_after(parts[:image.record.position]).records()))
        return [image.record.position for image in images]

    def test_each_fence(self):
        found = {}
        for gaps in (0, 2):
            before, takes, after = self.frames(gaps)
            parts = Machine().play([*before, *takes, *after]).redis.parts
            for fence in range(1, 40):
                stops = [*before, f"fail-fence standby {fence}", *takes]
                if simulate([*stops, "fail-fence standby 0"]).done[-1]:
                    break
                for name, picks in picks_of(f"rooms {gaps}", fence).items():
                    with self.case(name, gaps=gaps, fence=fence):
                        crashed = [*stops, f"crash standby {picks}"]
                        left = self.check_images(simulate(crashed, "--map", "--images"), parts)
                        self.assertEqual(left[0], 6)
                        found.setdefault(gaps, set()).add((fence, left[1]))
                        trace = simulate([*crashed, "reopen standby", *takes, *after], "--map", "--images")
                        self.assertEqual(self.check_images(trace, parts), [6, 6])
                        self.assertEqual(trace.records["standby"], trace.records["primary"])
        for fences in found.values():
            self.assertEqual({position for _, position in fences}, {5, 6})
        # what ended before is freed by one fence, a gap cleared by three, a version moved by four, and a commit makes three
        self.assertGreaterEqual(max(found[0])[0], 8)
        self.assertGreaterEqual(max(found[2])[0], 14)


class Requests(Stopping):
    """What is asked, and of whom."""

    def committing(self, *requests):
        schedule = Schedule(1)
        schedule.add(*(f"fail-fence primary {fence}" for fence in requests))
        schedule.feed(0, SET_A)
        schedule.add("offer 0", "turn 0", "close-group", "commit", "raise-local")
        return schedule

    def test_a_later_request_counts_alone(self):
        for requests, stops in [((1, 0), False), ((0, 1), True), ((3, 1), True), ((1, 4), False)]:
            with self.case("requests", requests=requests):
                trace = self.play(self.committing(*requests))
                self.assertEqual(trace.done[-2:], [True, not stops])
                self.assertEqual(bool(self.machine.stops), stops)
                self.assertTrue(trace.ended.startswith("after all"))

    def test_a_node_that_does_not_run_is_not_asked(self):
        for events, did in [(["crash primary 0", "fail-fence primary 1", "reopen primary", "fail-fence primary 0"], [True, False, True, True]),
                            (["crash standby 0", "fail-fence standby 1", "reopen standby"], [True, False, True]),
                            (["fence", "fail-fence primary 1", "fail-fence standby 0"], [True, False, True])]:
            with self.case("events", events=events):
                schedule = Schedule()
                schedule.add(*events)
                self.assertEqual(self.play(schedule).done, did)

    def test_a_fence_further_on(self):
        # the fourth from there on is the first of the second commit; the standby's frames are its own
        schedule = Schedule(1)
        schedule.add("fail-fence primary 4")
        schedule.serve_to_end(0, 0, SET_A)
        schedule.group(0, SET_B)
        trace = self.play(schedule, crash="primary 0")
        (place, _), = self.machine.stops
        self.assertEqual((schedule.events[place], place), ("commit", len(schedule.events) - 3))
        self.assertEqual(trace.released, [b"+OK\r\n"])
        self.assertEqual(trace.nodes["primary"].position, 1)

    def test_one_that_nobody_asked_for_ends_the_run(self):
        # fences 4 to 6 of the primary are those of its first commit
        for requests, fence, ends in [((), 4, True), ((0,), 4, False), ((9,), 6, False), ((2,), 4, False)]:
            with self.case("requests", requests=requests, fence=fence):
                trace = self.play(self.committing(*requests), fail=(fence, 0))
                at = 5 + len(requests)
                self.assertEqual(trace.ended, f"at event {at}, line {at + 2}: {FAULT}" if ends else f"after all {at + 2} events")

    def test_records_of_a_commit_that_meets_it(self):
        for fence, pick, at in [(1, 1, 0), (2, 0, 0), (2, 1, 0), (3, 0, 0), (3, 1, 1)]:
            with self.case("fence", fence=fence, pick=pick):
                schedule = self.committing(fence)
                schedule.add(f"crash primary {MANY * f'{pick} '}", "reopen primary")
                trace = self.play(schedule)
                self.assertEqual(trace.done[-4:], [True, False, True, True])
                record = self.machine.primary.image.record
                if at == 0:
                    self.assertEqual((record.position, record.number, record.gaps, record.cp, record.cd), (0, 2, ((1, 4_096),), 4_097, 8_194))
                else:
                    self.assertEqual((record.position, record.gaps, record.cp, record.cd), (1, ((2, 4_097),), 4_098, 8_195))
                self.assertEqual(trace.released, [b""])

    def test_32_gaps_and_one_more(self):
        schedule = Schedule()
        schedule.add(*32 * ["crash primary 0", "reopen primary"])
        self.play(schedule)
        record = self.machine.primary.image.record
        self.assertEqual((record.number, len(record.gaps), record.cp, record.cd), (33, 32, 32 * 4_097, 33 * 4_097))
        # the opening clears the oldest gap first: three fences, and then its own two
        for fence in range(1, 7):
            for pick in (0, 1):
                with self.case("fence", fence=fence, pick=pick):
                    one_more = Schedule()
                    one_more.add(*schedule.events, f"fail-fence primary {fence}", "crash primary 0", "reopen primary")
                    self.play(one_more)
                    self.assertEqual(bool(self.machine.stops), fence < 6)
                    one_more.add(f"crash primary {MANY * f'{pick} '}", "reopen primary")
                    self.play(one_more)
                    record = self.machine.primary.image.record
                    self.assertEqual(len(record.gaps), 32)
                    self.assertIn((record.number, record.gaps[0]), {(35, (4_098, 8_193)), (36, (4_098, 8_193)), (37, (8_195, 12_290))})


class Failovers(Stopping):
    """Stopped primaries that are fenced, and promotions that stop."""

    def test_a_stopped_primary_is_fenced(self):
        for call in ("commit", "free", "clear-gap", "reopen primary"):
            for fence in range(1, self.fences_of(call) + 1):
                with self.case(call, fence=fence):
                    schedule = asked(call, fence)
                    schedule.add("fence", "crash primary 0", "reopen primary", "fence", "promote", "enter")
                    fenced = len(schedule.events)
                    schedule.group(1, SET_B)
                    trace = self.play(schedule)
                    self.assertEqual(trace.done[fenced - 6:fenced], [True, False, False, False, True, True])
                    self.assertEqual((trace.nodes["standby"].epoch, trace.nodes["standby"].role), (2, "primary"))
                    self.assertEqual(dict(trace.records["standby"])[(b"b",)], 100 * b"2")
                    # what the device of the other one shows is left as it was
                    self.assertEqual(trace.nodes["primary"].epoch, 1)

    def test_a_promotion_that_stops(self):
        found = set()
        for fence in range(1, self.fences_of("promote") + 1):
            for name, picks in picks_of("promote", fence).items():
                with self.case("fence", fence=fence, picks=name):
                    schedule = asked("promote", fence)
                    schedule.add("promote", "reopen standby", "reopen primary", f"crash standby {picks}")
                    left = self.play(schedule)
                    self.assertEqual(left.done[-4:], [False, False, False, True])
                    line = left.nodes["standby"]
                    self.assertIn((line.role, line.epoch, line.position), {("standby", 1, 1), ("primary", 2, 1)})
                    found.add((fence, line.role))
                    opens = ["promote", "reopen standby", "promote"] if line.role == "standby" else ["promote", "reopen standby", "reopen primary"]
                    schedule.add(*opens, "enter", *serving_on())
                    trace = self.play(schedule)
                    did = trace.done[len(left.done):len(left.done) + 3]
                    self.assertEqual(did, [False, line.role == "standby", True])
                    self.assertEqual((trace.nodes["standby"].role, trace.nodes["standby"].epoch), ("primary", 2))
                    self.assertIn((b"b",), dict(trace.records["standby"]))
        # the root of the promotion's record is stored before its second fence
        self.assertEqual(found, {(1, "standby"), (2, "standby"), (2, "primary"), (3, "primary"), (4, "primary")})

    def test_a_promotion_that_stops_again(self):
        for first in range(1, 3):
            for second in range(1, 5):
                with self.case("fences", first=first, second=second):
                    schedule = asked("promote", first)
                    schedule.add("crash standby 0", "reopen standby", f"fail-fence standby {second}", "promote", f"crash standby {PICKS['newest']}")
                    schedule.add("reopen standby", "promote", "reopen primary", "enter", *serving_on())
                    trace = self.play(schedule)
                    self.assertEqual([name for _, name in self.machine.stops], ["promote", "promote"])
                    self.assertEqual((trace.nodes["standby"].role, trace.nodes["standby"].epoch), ("primary", 2))

    def test_the_new_primary_stops(self):
        for fence in (1, 2, 3):
            for name, picks in picks_of("new", fence).items():
                with self.case("fence", fence=fence, picks=name):
                    schedule = Schedule()
                    schedule.add(*CALLS["promote"][1], "promote", f"fail-fence primary {fence}", "enter")
                    schedule.group(1, SET_B)
                    schedule.add(f"crash primary {picks}", "reopen primary", "enter")
                    schedule.group(2, SET_B)
                    trace = self.play(schedule)
                    self.assertEqual([name for _, name in self.machine.stops], ["commit"])
                    self.assertIn(trace.nodes["standby"].position, {2, 3})

    def test_what_was_asked_of_the_standby_goes_with_its_device(self):
        # a promotion makes four fences; the fifth is the first of its first commit as a primary
        schedule = asked("promote", 5)
        schedule.add("enter")
        schedule.group(1, SET_B)
        schedule.add(f"crash primary {PICKS['newest']}", "reopen primary")
        trace = self.play(schedule)
        self.assertEqual([name for _, name in self.machine.stops], ["commit"])
        self.assertEqual(trace.nodes["standby"].position, 1)
