"""Clients that pipeline without pause, and one that asks one request at a time beside them. It catches a round that begins with the same connection each
time, one connection that takes a whole group while others wait, a group of long values for which all wait, and groups that pile up before a standby which is
slower than its primary.

How long one waits is told by a counter that all raise: by how many others were answered between two of its own."""

import contextlib
import statistics
import time
import unittest

import held_syncs
from pair import PairCases
from pipelines import pipelines

PROGRAMS = ["server"]
IS_SLOW = True
IS_ALONE = True

# How long the pipelines last, how often the other one asks, and how many pipelines there are.
SECONDS, ASKED, PIPELINES = 6, 15, (1, 3, 50)
# By the bytes of a value: how many others are answered at most, in the median, while one waits. A round of a few groups is some hundred of them, and of
# long values some ten; what the machine does beside it may be ten times as much. One that waits for a pipeline waits for all that is sent meanwhile, which is
# without end here.
MOST = {100: 30_000, 4_096: 10_000, 65_536: 2_000, 1_048_576: 200}
# The same where each sync of the standby takes so many milliseconds more and the primary's none, so that whatever is on its way waits there: sixteen groups'
# changes are, of long values four groups', and one more may be full; half of them are INCRs.
SLOW_MILLISECONDS, MOST_WHERE_SLOW = 2, {100: 1_000, 65_536: 320}


# How often each is counted until it is as it should be: what the machine does beside it may be more than that at times.
TRIES = 4


class Fairness(PairCases):
    @contextlib.contextmanager
    def beside(self, count, length, is_slow=False):
        """A pair with so many clients that pipeline, which have begun to be answered; its standby is slow, or not."""
        nodes = self.pair(lines=2_097_152 if length >= 65_536 else 262_144)
        if is_slow:
            file = nodes.folder / "held"
            held_syncs.hold(nodes.standby, file, SLOW_MILLISECONDS)
            held_syncs.slow(file).touch()
            nodes.restart(nodes.standby, nodes.primary)
            nodes.wait()
        with contextlib.closing(nodes), pipelines(nodes.door.number, count, length) as made:
            time.sleep(0.5)
            yield nodes, made

    def assert_waits_for_few(self, nodes, most):
        """One that asks one request at a time waits for no more others than these, in the median."""
        counted = []
        for _ in range(TRIES):
            counted.append(self.between(nodes))
            if statistics.median(counted[-1]) <= most:
                return
        self.fail(f"more than {most}: {counted}")

    def between(self, nodes):
        """How many others were answered between two answers of one that asks one request at a time."""
        client, ends, counts = nodes.client(), time.monotonic() + SECONDS, []
        while len(counts) <= ASKED and (time.monotonic() < ends or len(counts) < 2):
            counts.append(int(client.ask("INCR", "count")[1:-2]))
        return [after - before - 1 for before, after in zip(counts, counts[1:])]

    def test_one_that_asks_waits_for_no_pipeline(self):
        for length, most in MOST.items():
            for count in PIPELINES:
                with self.case("beside pipelines", length=length, count=count), self.beside(count, length) as (nodes, _):
                    self.assert_waits_for_few(nodes, most)

    @unittest.skipUnless(held_syncs.HAS_COMPILER, "there is no gcc")
    def test_a_standby_that_syncs_slowly(self):
        for length, most in MOST_WHERE_SLOW.items():
            with self.case("beside a pipeline", length=length), self.beside(1, length, is_slow=True) as (nodes, _):
                self.assert_waits_for_few(nodes, most)

    def test_pipelines_get_on_alike(self):
        with self.beside(3, 0) as (_, made):
            counted = []
            for number in range(TRIES):
                before = made.answered()
                time.sleep(2 + 2 * number)
                counted.append([after - first for first, after in zip(before, made.answered())])
                if 4 * min(counted[-1]) > max(counted[-1]):
                    return
            self.fail(f"they do not get on alike: {counted}")
