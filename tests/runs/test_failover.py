"""The fence of the primary, which does nothing more then, whether it ran or was crashed, and the promotion of its standby, which goes on from what it has."""

from simulation import Runs, Schedule
from spelling import spell
from worked_cases import GET_A, NULL, OK, ONE, SET_A

PROGRAMS = ["simulator"]

# what a primary could do next in `Fences.waiting_everywhere`
OF_THE_PRIMARY = [
    "enter", "feed 0 GET a", "offer 0", "turn 0", "close-group", "commit", "raise-local", "hand", "free", "accept-freed", "clear-gap", "open-link",
    "send", "ack-delivered 0", "raise-remote", "hold 0", "read 0 local", "read 0 remote", "release 0", "write 0 1", "leave 0", "crash primary 0",
    "reopen primary", "fence",
]


class Fences(Runs):
    """Runs in which the primary is fenced."""

    def waiting_everywhere(self):
        """Events after which something waits at each step of the way."""
        schedule = Schedule(1)
        schedule.serve_to_end(0, 0, SET_A)
        for _ in range(2):
            schedule.group(0, spell("SET", "a", "2"))
        schedule.add("send", "deliver 1", "send")
        for request in (SET_A, GET_A):
            schedule.feed(0, request)
            schedule.serve(0)
        schedule.add("close-group")
        schedule.feed(0, SET_A)
        schedule.feed(0, GET_A)
        schedule.add("offer 0", "turn 0")
        return schedule

    def test_nothing_happens_to_a_fenced_primary(self):
        for name, before in {"running": [], "crashed": ["crash primary 0"]}.items():
            with self.case(name):
                schedule = self.waiting_everywhere()
                schedule.add(*before, "fence")
                fenced = len(schedule.events)
                schedule.add(*OF_THE_PRIMARY)
                trace = self.play(schedule)
                self.assertTrue(trace.done[fenced - 1])
                self.assertEqual(trace.done[fenced:], len(OF_THE_PRIMARY) * [False])
                self.assertEqual(trace.released, [OK])

    def test_each_of_these_happens_without_the_fence(self):
        # all but those that come only after another one of them, or a crash
        schedule = self.waiting_everywhere()
        before = len(schedule.events)
        schedule.add(*OF_THE_PRIMARY)
        trace = self.play(schedule)
        done = {event for event, did in zip(OF_THE_PRIMARY, trace.done[before:]) if did}
        self.assertEqual(set(OF_THE_PRIMARY) - done, {"free", "accept-freed", "clear-gap", "raise-remote", "release 0", "write 0 1"})

    def test_the_standby_takes_what_was_sent(self):
        schedule = Schedule(1)
        schedule.group(0, SET_A)
        schedule.add("send", "fence")
        schedule.take(0)
        schedule.add("crash standby 0", "reopen standby", "ack-delivered 0")
        trace = self.play(schedule)
        self.assertEqual([line.position for line in trace.nodes.values()], [1, 1])
        self.assertEqual(trace.acknowledgements, [(1, 1)])
        self.assertEqual(trace.done[-4:], [True, True, True, False])
        self.assertEqual(trace.released, [b""])

    def test_a_held_read_is_not_released(self):
        # it is of a SET that is durable on the primary alone
        schedule = Schedule(2)
        schedule.group(0, SET_A)
        schedule.feed(1, GET_A)
        schedule.serve(1)
        schedule.read_marks(1)
        schedule.add("release 1", "fence", "release 1", "write 1 1")
        trace = self.play(schedule)
        self.assertEqual(trace.released, [b"", b""])
        self.assertEqual([line.position for line in trace.nodes.values()], [1, 0])
        self.assertNotEqual(trace.calls[1].reply, NULL)


class Promotions(Runs):
    """Runs in which the standby is promoted."""

    def test_only_after_the_fence(self):
        schedule = Schedule()
        schedule.add("promote", "crash primary 0", "promote", "fence", "crash standby 0", "promote", "reopen standby", "promote", "promote", "fence")
        trace = self.play(schedule)
        self.assertEqual(trace.done, [False, True, False, True, True, False, True, True, False, True])

    def test_it_serves_what_was_released(self):
        schedule = Schedule(1)
        schedule.serve_to_end(0, 0, SET_A)
        schedule.add("fence", "promote", "enter")
        schedule.feed(1, GET_A)
        schedule.serve(1)
        trace = self.play(schedule)
        self.assertEqual([call.reply for call in trace.calls], [OK, ONE])
        # the reply waits, as there is no standby to acknowledge anything
        self.assertEqual(trace.released, [OK, b""])
        self.assertEqual([(line.position, line.epoch, line.role) for line in trace.nodes.values()], [(1, 1, "primary"), (1, 2, "primary")])

    def test_a_held_read_was_of_nothing(self):
        # of a SET that is durable on the primary alone, as the standby knows nothing of it
        for name, sent in {"not sent": [], "sent": ["send"], "delivered": ["send", "deliver 0"]}.items():
            with self.case(name):
                schedule = Schedule(2)
                schedule.group(0, SET_A)
                schedule.add(*sent)
                schedule.feed(1, GET_A)
                schedule.serve(1)
                schedule.read_marks(1)
                schedule.add("release 1", "fence", "promote", "release 1", "write 1 1", "enter")
                schedule.feed(2, GET_A)
                schedule.serve(2)
                schedule.read_marks(2)
                schedule.write_out(2)
                trace = self.play(schedule)
                self.assertEqual([(call.connection, call.reply) for call in trace.calls], [(2, NULL)])
                # that reply rests on no change, so it is released
                self.assertEqual(trace.released, [b"", b"", NULL])
                self.assertEqual([(line.position, line.epoch, line.role) for line in trace.nodes.values()], [(1, 1, "primary"), (0, 2, "primary")])

    def test_connections_of_the_former_primary_are_over(self):
        schedule = Schedule(2)
        schedule.serve_to_end(0, 0, SET_A)
        schedule.feed(1, GET_A)
        schedule.add("offer 1", "fence", "promote")
        before = len(schedule.events)
        for c in range(2):
            schedule.add(f"feed {c} GET a", f"offer {c}", f"turn {c}", f"hold {c}", f"read {c} local", f"release {c}", f"write {c} 0", f"leave {c}")
        trace = self.play(schedule)
        self.assertEqual(set(trace.done[before:]), {False})

    def test_it_commits_frees_and_crashes_like_any_primary(self):
        schedule = Schedule(1)
        schedule.serve_to_end(0, 0, SET_A)
        schedule.add("fence", "promote", "enter")
        schedule.group(1, spell("SET", "b", "2"), spell("SET", "a", "3"))
        schedule.add("send", "deliver 1", "open-link", "apply", "ack-delivered 0", "raise-remote", "free")
        schedule.add("crash primary 0 1", "reopen primary", "clear-gap", "accept-freed", "enter", "fence", "promote")
        trace = self.play(schedule)
        self.assertEqual([(frame.epoch, frame.before, frame.after) for frame in trace.frames], [(1, 0, 1), (2, 1, 3)])
        self.assertEqual(trace.records["standby"], [((b"a",), b"3"), ((b"b",), b"2")])
        self.assertEqual(trace.records["primary"], [((b"a",), b"1")])
        self.assertEqual([(line.position, line.epoch) for line in trace.nodes.values()], [(1, 1), (3, 2)])

    def test_by_one_call(self):
        schedule = Schedule(1)
        schedule.serve_to_end(0, 0, SET_A)
        schedule.add("fence", "promote", "enter")
        schedule.group(1, SET_A)
        self.play(schedule, "--whole")

    def test_a_fence_of_its_device_fails(self):
        # of the record of a primary (fences 4 and 5 of the standby, after those of formatting), and of its opening
        for fence in range(4, 8):
            with self.case("fences", fence=fence):
                schedule = Schedule()
                schedule.add("fence", "promote")
                trace = self.play(schedule, fail=(0, fence))
                self.assertEqual(trace.ended, "at event 1, line 3: refusal 1: device fault")
