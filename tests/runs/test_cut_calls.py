"""Calls that a crash cuts after each of their stores, flushes and fences: on the plain machine, of which it is looked at what a cut may leave (docs/promises.md), the
image from before the call, or the one after it, whole; and in runs, each of which is compared with that machine, word for word of both images."""

import common
import draws
import plain_image
import plain_keyspace
import spelling
from plain_machine import Machine
from simulation import Runs, Schedule

PROGRAMS = ["simulator"]
IS_SLOW = True
QUICK = ["CutRuns.test_where_it_is_not_enabled", "CutRuns.test_a_standbys_reopening"]

SET_A, SET_A_2, SET_B = spelling.spell("SET", "a", "1"), spelling.spell("SET", "a", "2"), spelling.spell("SET", "b", 100 * "2")

# No call makes as many calls of its device.
MOST_CALLS = 300

# At a crash all words get their oldest candidate, all their newest, or the two in turn.
MANY = 200
PICKS = {"oldest": MANY * "0 ", "newest": MANY * "1 ", "oldest first": MANY * "0 1 ", "newest first": MANY * "1 0 "}


def drawn_picks(seed):
    numbers = draws.numbers(f"cut {seed}")
    return " ".join(str(numbers.randrange(3)) for _ in range(MANY))


def served():
    """Events after which a SET is everywhere, one that replaces it waits for the committer, and the frame of one between them at the standby."""
    schedule = Schedule(1)
    schedule.serve_to_end(0, 0, SET_A)
    schedule.group(0, SET_A_2)
    schedule.add("send", "deliver 1")
    schedule.feed(0, SET_B)
    schedule.add("offer 0", "turn 0", "close-group")
    return schedule.events


def freeing():
    """Events after which a version that ended may be freed, and, where that is done, a gap cleared."""
    schedule = Schedule()
    schedule.add("crash primary 0", "reopen primary", "enter")
    for number, request in enumerate([SET_A, SET_A_2]):
        schedule.group(0, request)
        schedule.replicate(number)
    schedule.add("close-group")
    return schedule.events


def serving_on():
    """Events in which a new connection's SET is committed, as far as nodes run."""
    schedule = Schedule()
    schedule.add("enter", "open-link", "send", "deliver 2", "apply")
    schedule.group(1, SET_B)
    schedule.add("send", "free", "accept-freed", "clear-gap", "accept-freed")
    return schedule.events


# By the name of each call the node that makes it, and events after which it may be made.
CALLS = {
    "commit": ("primary", served()),
    "apply": ("standby", served()),
    "free": ("primary", freeing()),
    "clear-gap": ("primary", [*freeing(), "free"]),
    "reopen": ("primary", [*served(), "crash primary 0"]),
    "promote": ("standby", [*served(), "fence"]),
}


class CutCalls(common.Cases):
    """Each call, cut after each of its device calls until it ends."""

    def check_image(self, machine, node):
        """The image is whole, and holds the keyspace of the list at its position. Returns the position."""
        given = machine.given[node]
        image = plain_image.read_image(plain_image.Words(given.image.lines, given.image.words))
        wanted = plain_keyspace.keyspace_after(machine.parts_of(node)[:image.record.position])
        self.assertEqual(image.map, dict(wanted.records()))
        return image.record.position

    def played(self, events, *more):
        machine = Machine().play(events)
        changes = list(machine.redis.parts)
        machine.play(more)
        # what a crash cut off the list is still what an image may not hold half of
        machine.redis.parts = changes
        return machine

    def cuts(self, call):
        """Of each pick the machines after cuts at 0, 1, 2 .. device calls, until the call has ended before; each with the position of the image."""
        node, events = CALLS[call]
        for name, picks in {**PICKS, "drawn": drawn_picks(call)}.items():
            count, left = 0, []
            whole = Machine().play(events)
            before = whole.given[node].device.fences
            whole.play([f"crash {node} {call} {MOST_CALLS} 0"])
            self.assertTrue(whole.done[-1])
            self.assertGreater(whole.given[node].device.fences, before)
            while count == 0 or not self.has_ended(left[-1], whole, node):
                machine = self.played(events, f"crash {node} {call} {count} {picks}")
                self.assertTrue(machine.done[-1])
                left.append(machine)
                count += 1
                self.assertLess(count, MOST_CALLS)
            yield name, left

    def has_ended(self, machine, whole, node):
        return machine.given[node].image.words == whole.given[node].image.words

    def test_each_call_is_cut_everywhere(self):
        for call, (node, events) in CALLS.items():
            before = Machine().play(events)
            at = self.check_image(before, node)
            moves = {"commit": 1, "apply": 1}.get(call, 0)
            for name, left in self.cuts(call):
                with self.case(call, picks=name):
                    positions = [self.check_image(machine, node) for machine in left]
                    self.assertEqual((positions[0], positions[-1]), (at, at + moves))
                    self.assertLessEqual(set(positions), {at, at + moves})
                    # a free makes no record
                    self.assertGreater(len(left), 1 if call == "free" else 20)

    def test_a_cut_promotion_leaves_a_standby_or_a_primary(self):
        found = set()
        for name, left in self.cuts("promote"):
            for machine in left:
                role, epoch = machine.given["standby"].image.role, machine.given["standby"].image.record.epoch
                self.assertIn((role, epoch), [(plain_image.STANDBY, 1), (plain_image.PRIMARY, 2)])
                self.assertEqual(machine.epoch, epoch)
                found.add(role)
                with self.case("goes on", picks=name):
                    events = ["reopen standby", "promote"] if role == plain_image.STANDBY else ["reopen primary"]
                    self.assertTrue(all(machine.play(events).done[-len(events):]))
                    self.assertEqual((machine.epoch, self.check_image(machine, "standby")), (2, 1))
        self.assertEqual(len(found), 2)

    def test_reopenings_are_cut_again_and_again(self):
        node, events = CALLS["commit"]
        for picks in (PICKS["newest"], PICKS["oldest first"], drawn_picks("again")):
            for count in range(0, 120, 12):
                with self.case("count", count=count, picks=picks[:3]):
                    machine = self.played(events, f"crash {node} commit {count} {picks}")
                    at = self.check_image(machine, node)
                    for again in (count % 90, (7 * count) % 90):
                        self.assertTrue(machine.play([f"crash {node} reopen {again} {picks}"]).done[-1])
                        self.assertEqual(self.check_image(machine, node), at)
                    self.assertTrue(machine.play(["reopen primary"]).done[-1])
                    self.assertEqual(self.check_image(machine, node), at)

    def test_entries_in_a_gap_come_back_once_it_is_cleared(self):
        node, events = CALLS["commit"]
        # all of the group's versions are there, and the record is not
        machine = Machine().play([*events, f"crash primary commit 40 {PICKS['newest']}", "reopen primary", "enter"])
        image = machine.primary.image
        self.assertEqual((image.record.position, len(image.record.gaps), image.gapped), (2, 1, [2]))
        self.assertNotIn(2, image.room.entries)
        machine.play(["clear-gap", "accept-freed"])
        self.assertEqual(machine.done[-2:], [True, True])
        self.assertEqual((image.gapped, image.record.gaps), ([], ()))
        self.assertIn(2, image.room.entries)


class CutRuns(Runs):
    """The same in runs: each is that of the plain machine."""

    def cut_everywhere(self, events, node, call, picks, *more):
        """Plays these events, a crash in this call after each count of its device calls, and then more."""
        last = Machine().play([*events, f"crash {node} {call} {MOST_CALLS} 0"]).given[node].image.words
        for count in range(MOST_CALLS):
            schedule = Schedule()
            schedule.add(*events, f"crash {node} {call} {count} {picks}", *more)
            trace = self.play(schedule)
            self.assertTrue(trace.done[len(events)])
            machine = Machine().play(schedule.events[:len(events) + 1])
            if machine.given[node].image.words == last:
                return count
        self.fail(f"{call} makes {MOST_CALLS} calls of its device or more")

    def test_each_call_is_cut_everywhere(self):
        for call, (node, events) in CALLS.items():
            for name, picks in {**PICKS, "drawn": drawn_picks(call)}.items():
                with self.case(call, picks=name):
                    self.cut_everywhere(events, node, call, picks)

    def test_it_goes_on(self):
        """What was cut is opened, and serves again."""
        after = ["enter", *serving_on()]
        for call, (node, events) in CALLS.items():
            opens = ["reopen standby", "promote", "reopen primary"] if call == "promote" else [f"reopen {node}"]
            for name in ("oldest", "newest", "newest first"):
                with self.case(call, picks=name):
                    self.cut_everywhere(events, node, call, PICKS[name], *opens, *after)

    def test_reopenings_are_cut_again_and_again(self):
        node, events = CALLS["commit"]
        for name, picks in {**PICKS, "drawn": drawn_picks("again")}.items():
            for count in (0, 25, 40, 90, 120):
                with self.case(name, count=count):
                    begun = [*events, f"crash primary commit {count} {picks}"]
                    self.cut_everywhere(begun, "primary", "reopen", picks, f"crash primary reopen {count} {picks}", "reopen primary", *serving_on())

    def test_a_standbys_reopening(self):
        node, events = CALLS["apply"]
        for name, picks in PICKS.items():
            with self.case(name):
                self.cut_everywhere([*events, "crash standby 0"], "standby", "reopen", picks, "reopen standby", *serving_on())

    def test_a_fence_that_fails_in_it(self):
        for call, (node, events) in CALLS.items():
            if call == "reopen":
                continue
            for fence in (1, 2, 3):
                with self.case(call, fence=fence):
                    self.cut_everywhere([*events, f"fail-fence {node} {fence}"], node, call, PICKS["newest"])

    def test_where_it_is_not_enabled(self):
        for events, more in [([], ["crash primary commit 1 0", "crash primary free 1 0", "crash primary clear-gap 1 0", "crash primary reopen 1 0",
                                   "crash standby apply 1 0", "crash standby reopen 1 0", "crash standby promote 1 0"]),
                             (served(), ["crash standby commit 1 0", "crash primary apply 1 0", "crash primary promote 1 0", "crash standby promote 1 0"]),
                             ([*served(), "fence"], ["crash primary commit 1 0", "crash primary reopen 1 0"])]:
            with self.case("events", events=len(events)):
                schedule = Schedule()
                schedule.add(*events, *more)
                self.assertEqual(self.play(schedule).done[len(events):], len(more) * [False])
