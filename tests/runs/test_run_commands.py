"""The commands and transactions of worked_cases through the simulator, and connections that QUIT. Each run is compared with the plain machine
too (simulation.Runs)."""

import worked_cases as worked
from simulation import Runs, Schedule
from spelling import spell
from worked_cases import GET_A, OK, ONE, PING, PONG, SET_A

PROGRAMS = ["simulator"]

SET_B = spell("SET", "b", "2")


@worked.one_test_for_each(worked.COMMANDS, "check_row")
class Commands(Runs):
    """In one piece and byte by byte."""

    def check_row(self, *row):
        session = worked.Session(*row)
        data = session.input()
        for name, pieces in [("in one piece", [data]), ("byte by byte", [data[at:at + 1] for at in range(len(data))])]:
            with self.case(name):
                schedule = Schedule(1)
                for piece in pieces:
                    schedule.feed(0, piece)
                schedule.drain(1, len(session.requests), session.position)
                trace = self.play(schedule)
                self.assertEqual(trace.released, [session.output()])
                self.assertEqual([node.position for node in trace.nodes.values()], 2 * [session.position])

    def test_a_closed_connection_closes_no_other(self):
        # one quits while the other goes on; a new one takes the next number
        schedule = Schedule(2)
        for c, data in [(0, SET_A + spell("QUIT")), (1, GET_A), (0, SET_B), (1, SET_B)]:
            schedule.feed(c, data)
            schedule.serve(c)
        schedule.add("enter")
        schedule.feed(2, PING + GET_A)
        schedule.drain(3, 3, 2)
        trace = self.play(schedule)
        self.assertEqual(trace.released, [OK + OK, ONE + OK, PONG + ONE])

    def test_nothing_is_fed_after_a_quit(self):
        schedule = Schedule(1)
        schedule.feed(0, spell("qUIT", "now") + PING)
        schedule.feed(0, PING)
        schedule.feed(0, b"")
        schedule.add(*(3 * ["offer 0", "turn 0", "hold 0"]), "feed 0 PING")
        schedule.write_out(0, 8)
        trace = self.play(schedule)
        self.assertEqual(trace.done[1:14], [True, False, False, *3 * [True], *6 * [False], False])
        self.assertEqual([call.words for call in trace.calls], [(b"qUIT", b"now")])
        self.assertEqual(trace.released, [OK])


@worked.one_test_for_each(worked.TRANSACTIONS, "check_row")
class Transactions(Runs):
    """The same of transactions."""

    check_row = Commands.check_row
