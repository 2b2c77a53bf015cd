"""Exploration: histories that the simulator draws by itself, and looks at after each event; and a plain Redis judges what it tells."""

import re

import common
import exploring
import judge

PROGRAMS = ["simulator"]

TOLD = re.compile(r"explored: seed (\d+), events (\d+), histories (\d+), crashes (\d+), failed fences (\d+), promotions (\d+), replies (\d+), "
                  r"restores (\d+), refused (\d+), taken (\d+)")

# of each part of the suite
SHORT_EVENTS, LONG_EVENTS, SEEDS = 20_000, 1_000_000, range(1, 5)

# a history has this many events at most, with those of its end
MOST_OF_A_HISTORY = 400

# in so many seconds a million events are explored on any machine
SECONDS = 300

# A history that uses most of what is judged. In the last line but one the primary crashes, whose list has two calls then.
HISTORY = """\
enter
enter
feed 0 SET a 1
offer 0
turn 0
hold 0
close-group
commit
raise-local
hand
send
deliver 0
apply
ack-delivered 0
raise-remote
read 0 local
read 0 remote
release 0
write 0 5
feed 1 GET a
offer 1
turn 1
feed 1 APPEND a 2
offer 1
turn 1
crash primary 0
reopen primary
"""

# By its name: a fault that is planted into what is told of that history, as two texts, the first of which is replaced where it stands first by the second;
# the event, counted from 1, that is told to break the promise; and in what.
PLANTED = {
    "another reply": ('-> "+OK\\r\\n"', '-> "+KO\\r\\n"', 5, judge.REPLY),
    "an older value": ('"$1\\r\\n1\\r\\n"', '"$-1\\r\\n"', 22, judge.REPLY),
    "another request": ('"SET" "a" "1" ->', '"SET" "a" "2" ->', 5, judge.REQUEST),
    "the request of another": ('connection 1, "GET"', 'connection 0, "GET"', 22, judge.LIST),
    "no call": ('# call 1: connection 1, "GET" "a" -> "$1\\r\\n1\\r\\n"\n', "", 22, judge.LIST),
    "a call too many": ("hold 0\n# done\n", 'hold 0\n# done\n# call 1: connection 1, "PING" -> "+PONG\\r\\n"\n', 6, judge.LIST),
    "a call that is not cut": ("# calls: 2\n", "", 26, judge.LIST),
    "a call that is cut": ("# calls: 2\n", "# calls: 1\n", 26, judge.LIST),
    "other bytes released": ('released "+OK\\r\\n"', 'released "+OK\\n\\r"', 19, judge.RELEASED),
    "too many bytes released": ('released "+OK\\r\\n"', 'released "+OK\\r\\n+"', 19, judge.RELEASED),
    "another value": ('primary record: "a" = "1"', 'primary record: "a" = "0"', 8, judge.KEYSPACE),
    "a field": ('primary record: "a" = "1"', 'primary record: "a" "" = "1"', 8, judge.KEYSPACE),
    "no record": ('# standby record: "a" = "1"\n', "", 13, judge.KEYSPACE),
    "an older keyspace": ("primary: position 1,", "primary: position 0,", 8, judge.KEYSPACE),
    "more than the list": ("standby: position 1,", "standby: position 2,", 13, judge.AHEAD),
    "a standby that has not taken it": ("apply\n# done\n# standby: position 1,", "apply\n# done\n# standby: stopped\n# standby: position 1,", 19, judge.UNCOVERED),
    "a change that was not enabled": ("commit\n# done", "commit\n# not enabled", 8, judge.CHANGED),
    "what the simulator sees": ("raise-local\n# done\n", "raise-local\n# done\n# broken: a device holds no whole image\n", 9, "a device holds no whole image"),
}


def explore(*words, seconds=SECONDS):
    """What is told of so many events of a seed."""
    finished = common.run_program("simulator", ["--explore", *map(str, words)], seconds=seconds * common.BUSY)
    if (finished.status, finished.errors) != (0, b""):
        raise AssertionError(f"status {finished.status}, message {finished.errors!r}, output\n{finished.output.decode()}")
    return finished.output.decode()


def trace(history):
    """What is told of a history that is given."""
    finished = common.run_program("simulator", ["--trace"], history.encode())
    if (finished.status, finished.errors) != (0, b""):
        raise AssertionError(f"status {finished.status}, message {finished.errors!r}")
    return finished.output.decode("ascii")


class Explorations(common.Cases):
    """The promise holds after each event of each history."""

    def test_it_holds(self):
        events = (LONG_EVENTS if common.IS_LONG else SHORT_EVENTS) // len(SEEDS)
        found = []
        for seed in SEEDS:
            with self.case("seed", seed=seed):
                breach, last = exploring.explore(seed, events)
                if breach:
                    self.fail(exploring.shortened(breach).text())
                own, *counts = map(int, TOLD.fullmatch(last).groups())
                found.append(counts)
                self.assertEqual(own, seed)
                self.assertLessEqual(events, counts[0])
                self.assertLess(counts[0], events + MOST_OF_A_HISTORY)
        with self.case("the draws lead somewhere"):
            done, histories, crashes, faults, promotions, replies, restores, refused, taken = map(sum, zip(*found))
            self.assertLess(100 * histories, done)
            self.assertGreater(40 * replies, done)
            self.assertGreater(crashes, 2 * histories)
            self.assertGreater(4 * promotions, histories)
            self.assertGreater(4 * faults, histories)
            self.assertEqual(refused + taken, restores)
            self.assertGreater(8 * restores, histories)
            self.assertGreater(4 * refused, restores)
            self.assertGreater(10 * taken, restores)

    def test_the_same_seed_draws_the_same(self):
        one, other = explore(7, 2_000), explore(8, 2_000)
        self.assertEqual(explore(7, 2_000), one)
        self.assertNotEqual(one.partition(",")[2], other.partition(",")[2])

    def test_what_is_told_is_a_history(self):
        """Each history that is drawn is told so again where it is given, and played as it is printed."""
        told = explore(9, 600, "--trace").splitlines()
        self.assertEqual(told[-1], explore(9, 600).removesuffix("\n"))
        for history in exploring.histories(told):
            with self.case("history", first=history[0]):
                lines = [line for line in history if not line.startswith("#")]
                self.assertEqual(trace("\n".join(history)).splitlines(), history)
                played = common.run_program("simulator", [], "\n".join(lines).encode())
                self.assertEqual((played.status, played.errors), (0, b""))

    def test_no_events(self):
        self.assertEqual(explore(3, 0), "explored: seed 3, events 0, histories 0, crashes 0, failed fences 0, promotions 0, replies 0, "
                                        "restores 0, refused 0, taken 0\n")

    def test_the_greatest_seed(self):
        self.assertIsNotNone(TOLD.fullmatch(explore(2**64 - 1, 1).removesuffix("\n")))


class Judging(common.Cases):
    """The judge finds what is planted into a history that is well, and shortens it."""

    def test_what_is_well(self):
        self.assertIsNone(exploring.judged(trace(HISTORY).splitlines()))

    def test_planted_faults(self):
        told = trace(HISTORY)
        for name, (old, new, event, cause) in PLANTED.items():
            with self.case("fault", name=name):
                self.assertIn(old, told)
                breach = exploring.judged(told.replace(old, new, 1).splitlines())
                self.assertEqual((breach.cause, len(breach.lines)), (cause, event), breach.place)

    def test_a_released_call_that_is_lost(self):
        """The primary crashes, and its image is told to stand before the call that was released."""
        head, crash, tail = trace(HISTORY).partition("crash primary 0\n")
        planted = tail.replace("primary: position 1", "primary: position 0", 1).replace('# primary record: "a" = "1"\n', "", 1).replace("calls: 2", "calls: 0", 1)
        breach = exploring.judged((head + crash + planted).splitlines())
        self.assertEqual((breach.cause, len(breach.lines)), (judge.LOST, 26))

    def test_shortening(self):
        needed = ["feed 0 SET a 1", "turn 0", "write 0 5"]
        replay = lambda lines: exploring.Breach("some", "", lines) if set(needed) <= set(lines) else None
        lines = ["fail primary 9", "keep standby", *HISTORY.splitlines(), "restore standby"]
        self.assertEqual(exploring.shortened(exploring.Breach("some", "", lines), replay).lines, needed)
        self.assertEqual(exploring.shortened(exploring.Breach("other", "", lines), replay).lines, lines)
        needed += ["keep standby", "restore standby"]
        self.assertEqual(sorted(exploring.shortened(exploring.Breach("some", "", lines), replay).lines), sorted(needed))
