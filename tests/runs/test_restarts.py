"""Nodes that crash between two events and go on from their images: what is lost of the list, of the connections and of what was on
its way, and what is kept."""

from simulation import NODES, Runs, Schedule
from spelling import spell
from worked_cases import GET_A, NULL, OK, ONE, SET_A

PROGRAMS = ["simulator"]

SET_B = spell("SET", "b", "2")


class Restarts(Runs):
    """Runs with crashes and reopenings."""

    def asked_after(self, before, request):
        """The trace of a run in which a connection has set a, with these events after its turn, and the primary crashed; then another
        sends a request, the link opens, what it sends comes, also what was sent before, and both marks are read."""
        schedule = Schedule(1)
        schedule.feed(0, SET_A)
        schedule.serve(0)
        schedule.add(*before, "crash primary 0", "reopen primary", "enter")
        schedule.feed(1, request)
        schedule.serve(1)
        schedule.add("open-link", "send")
        schedule.take(0, 1)
        schedule.acknowledge(1)
        schedule.read_marks(1)
        schedule.write_out(1)
        return self.play(schedule)

    def test_a_set_that_was_not_committed_is_lost(self):
        for name, before in {"alone": [], "in a group": ["close-group"]}.items():
            with self.case(name):
                trace = self.asked_after(before, GET_A)
                self.assertEqual([call.reply for call in trace.calls], [NULL])
                self.assertEqual(trace.released, [b"", NULL])
                self.assertEqual(trace.records, {node: [] for node in NODES})

    def test_a_set_that_was_committed_is_kept(self):
        way = ["close-group", "commit", "raise-local", "hand", "send"]
        for count in range(2, 6):
            with self.case("events", count=count):
                trace = self.asked_after(way[:count], GET_A)
                self.assertEqual([call.reply for call in trace.calls], [OK, ONE])
                # what was not sent before the crash comes to the standby by a delta
                self.assertEqual(trace.released, [b"", ONE])
                self.assertEqual([line.position for line in trace.nodes.values()], [1, 1])

    def test_frames_that_a_standby_lost_come_again(self):
        schedule = Schedule(1)
        schedule.serve_to_end(0, 0, SET_A)
        schedule.group(0, SET_B)
        schedule.add("send", "deliver 1", "crash standby 0", "apply", "deliver 1", "open-link", "reopen standby", "apply")
        schedule.add("open-link", "send", "deliver 2", "apply", "ack-delivered 2", "raise-remote")
        schedule.read_marks(0)
        schedule.write_out(0)
        trace = self.play(schedule)
        self.assertEqual(trace.released, [2 * OK])
        self.assertEqual(trace.records["standby"], [((b"a",), b"1"), ((b"b",), b"2")])
        self.assertEqual([(line.position, line.record, line.gaps) for line in trace.nodes.values()], [(2, 3, 0), (2, 4, 1)])

    def test_a_primary_that_is_opened_twice(self):
        schedule = Schedule(1)
        schedule.serve_to_end(0, 0, SET_A)
        schedule.add("crash primary 0", "reopen primary", "crash primary 1", "reopen primary", "offer 0", "enter")
        schedule.serve_to_end(1, 1, SET_B)
        trace = self.play(schedule)
        self.assertEqual(trace.released, [OK, OK])
        # the stamps 2 to 4097 and 4099 to 8194 are in gaps, and the second SET has the one after 8195
        self.assertEqual(tuple(trace.nodes["primary"])[:4], (2, 5, 8_196, 12_293))
        self.assertEqual([line.gaps for line in trace.nodes.values()], [2, 0])

    def test_33_reopenings_of_each_node(self):
        # a record has 32 gaps at most: the oldest goes
        schedule = Schedule(1)
        schedule.serve_to_end(0, 0, SET_A)
        for number in range(1, 34):
            for node in NODES:
                schedule.add(f"crash {node} 0 1", f"reopen {node}")
            schedule.add("enter")
            schedule.serve_to_end(number, number, spell("SET", "a", str(number)))
        trace = self.play(schedule)
        self.assertEqual(trace.released, 34 * [OK])
        self.assertEqual([line.gaps for line in trace.nodes.values()], [32, 32])
        self.assertEqual(trace.records["primary"], [((b"a",), b"33")])
