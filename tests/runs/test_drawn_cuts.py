"""Events in any order, drawn by a seed, with crashes in the middle of calls, failing fences after which the run goes on, and a promotion: word for word of both images as the
plain machine has them."""

import collections

import common
from plain_crashes import CUT_CALLS
from simulation import Runs
from test_cut_calls import CALLS
from test_orders import AMPLE_LINES, PICKS, Order

PROGRAMS = ["simulator"]
IS_SLOW = True

# (in the order of 11 the standby has stopped when it is to be promoted)
SEEDS = (*range(11), 12)
EVENTS = 10_000
# So many crashes, about, each with a reopening, and several of them cut.
CRASHES = 40
# So many times, about, a fence is asked to fail, of the node's next ones up to this.
FAILURES = 30
NEXT_FENCES = 4
# So many events come, at most, while it may.
EVENTS_UNTIL = 60
# A call makes seldom more calls of its device than this.
CALLS_OF_A_DEVICE = 90


class CutOrder(Order):
    """Most crashes come in the middle of a call, if the node is in one then, and many reopenings are cut, again and again. Fences fail, also in reopenings, and the nodes that
    stop are crashed. In the last quarter the primary is fenced, which may have stopped, and its standby promoted, of which a part is cut too, or stops."""

    def draw(self, events):
        for place in range(events):
            if self.draws.randrange(events) < 20:
                self.deliver_all()
            if self.draws.randrange(events) < CRASHES:
                self.crash_and_reopen(self.draws.choice(["primary", "standby"]))
            if self.draws.randrange(events) < FAILURES:
                self.stop_and_reopen(self.draws.choice(["primary", "standby"]))
            if place == events * 3 // 4:
                self.fail_over()
            self.draw_one()

    def picks(self):
        return " ".join(str(self.draws.choice(PICKS)) for _ in range(self.draws.randint(1, 30)))

    def cut(self, node, calls):
        """A crash of the node in one of these calls, if it is in that one."""
        self.schedule.add(f"crash {node} {self.draws.choice(calls)} {self.draws.randrange(CALLS_OF_A_DEVICE)} {self.picks()}")

    def crash_and_reopen(self, node):
        for _ in range(self.draws.randint(1, 4)):
            self.cut(node, [call for call, own in CUT_CALLS.items() if own == node])
            self.draw_one()
        self.schedule.add(f"crash {node} {self.picks()}")
        for _ in range(self.draws.randrange(4)):
            self.cut(node, ["reopen"])
        self.come_back(node)

    def ask_a_fence(self, node):
        """A fence of the node is to fail, and events come, in which it mostly has something to do."""
        self.schedule.add(f"fail-fence {node} {self.draws.randint(1, NEXT_FENCES)}")
        for _ in range(self.draws.randrange(EVENTS_UNTIL)):
            self.draw_one()
        if node == "primary":
            self.serve_some()
        else:
            self.schedule.add("raise-local", "hand", *4 * ["send"])
            self.frames += 4
            self.deliver_all()

    def serve_some(self):
        """A few requests of one connection are served; what they changed is committed, and what has ended is freed."""
        c = self.draws.choice(self.present)
        self.feed(c, 400)
        for _ in range(self.draws.randrange(12)):
            self.schedule.serve(c)
        self.schedule.add("raise-local", "hand")
        self.schedule.commit()
        self.schedule.free()

    def stop_and_reopen(self, node):
        """A fence of the node fails, in an event or in the reopening that follows."""
        self.ask_a_fence(node)
        for _ in range(self.draws.randint(1, 3)):
            self.schedule.add(f"crash {node} {self.picks()}", f"reopen {node}")
        self.come_back(node)

    def come_back(self, node):
        self.schedule.add(f"reopen {node}")
        if node == "primary":
            self.present = []
            for _ in range(4):
                self.enter(60)
            self.open_link()

    def fail_over(self):
        self.deliver_all()
        if self.draws.randrange(2):
            self.ask_a_fence("primary")
        self.schedule.add("fence")
        for _ in range(self.draws.randint(1, 4)):
            if self.draws.randrange(2):
                self.cut("standby", ["promote"])
            else:
                self.schedule.add(f"fail-fence standby {self.draws.randint(1, NEXT_FENCES)}", "promote", f"crash standby {self.picks()}")
            self.schedule.add("reopen standby")
        self.schedule.add("promote")
        for _ in range(self.draws.randrange(3)):
            self.cut("primary", ["reopen"])
        self.come_back("primary")


class DrawnCuts(Runs):
    def test_each_order(self):
        cuts, stops = collections.Counter(), collections.Counter()
        for seed in SEEDS:
            with self.case("seed", seed=seed):
                order = CutOrder(f"cuts {seed}")
                order.draw(EVENTS)
                trace = self.play(order.schedule, lines=(AMPLE_LINES, AMPLE_LINES))
                self.assertEqual(trace.ended, f"after all {len(order.schedule.events)} events")
                did = [event for event, did in zip(order.schedule.events, trace.done) if did]
                cuts.update(call for call in (event.split()[2] for event in did if event.startswith("crash ")) if call in CALLS)
                stops.update(name for _, name in self.machine.stops)
                self.assertEqual(self.machine.epoch, 2)
        common.tell("crashes in the middle of a call", cuts)
        common.tell("fences that failed", stops)
        # (a free is seldom due where a crash is drawn; test_cut_calls cuts that)
        self.assertLessEqual(set(CALLS) - {"free"}, set(cuts))
        self.assertLessEqual(set(CALLS) - {"free", "clear-gap"}, set(stops))
