"""What has ended is freed, and its entries and lines are used again: once the standby has passed its end, the fence of the free was made
and the sequencer was told; and gaps that are cleared (docs/image.md, "Reopening, clearing, freeing").

Each run is compared with the plain machine too, event by event and both images word by word (simulation.Runs)."""

import draws
import plain_image
import plain_machine
from plain_image import MORE_LINES
from simulation import NODES, Runs, Schedule
from spelling import spell
from worked_cases import OK, SET_A, STORE_IS_FULL

PROGRAMS = ["simulator"]

LINES = 4_096
ENTRIES = plain_image.LAYOUT.entries(LINES)

SET_A_2, SET_B = spell("SET", "a", "2"), spell("SET", "b", "3")

# The events that bring what a SET ended to the heap.
FREEING = ["close-group", "free", "accept-freed"]


def overwritten():
    """SETs of a, 1 and then 2, each served to its end: the version of the first, in entry 0, has ended."""
    schedule = Schedule(1)
    schedule.serve_to_end(0, 0, SET_A)
    schedule.serve_to_end(0, 1, SET_A_2)
    return schedule


class Freeing(Runs):
    """Runs in which versions are freed."""

    def entry(self, trace, node, entry):
        return plain_image.Words(LINES, trace.words[node]).line(plain_image.DIRECTORY_LINE + entry)

    def versions(self, trace, node):
        """Each entry in use with its end, and the first entry that is free."""
        words = plain_image.Words(LINES, trace.words[node])
        return plain_image.read_versions(words, plain_image.read_image(words).record).counted, plain_image.free_entries(words)[0]

    def done_at_the_end(self, schedule, count):
        return self.play(schedule).done[-count:]

    def test_an_entry_of_a_freed_version(self):
        schedule = overwritten()
        schedule.free()
        schedule.serve_to_end(0, 2, SET_B)
        trace = self.play(schedule)
        for node in NODES:
            with self.case(node):
                self.assertEqual(self.entry(trace, node, 0), [3, 0, 3, 520, 1, 1, 1, 1])
                self.assertEqual(trace.records[node], [((b"a",), b"2"), ((b"b",), b"3")])
        self.assertEqual(trace.released, [3 * OK])

    def test_lines_of_a_freed_version(self):
        longest = 65_536 * b"v"
        schedule = Schedule(1)
        for number, (key, value) in enumerate([("a", longest[:32_127]), ("b", longest), ("c", longest)]):
            schedule.serve_to_end(0, number, spell("SET", key, value))
        schedule.group(0, spell("SET", "a", longest), spell("STRLEN", "a"))
        schedule.serve_to_end(0, 3, spell("DEL", "b"))
        schedule.free()
        schedule.serve_to_end(0, 4, spell("SET", "a", longest))
        trace = self.play(schedule)
        self.assertEqual([call.reply for call in trace.calls], [OK, OK, OK, STORE_IS_FULL, b":32127\r\n", b":1\r\n", OK])
        for node in NODES:
            with self.case(node):
                self.assertEqual(self.entry(trace, node, 1), [5, 0, 5, 1_022, 1_025, 1, 1, 65_536])
                # the line of c, and those that were never taken
                self.assertEqual(self.entry(trace, node, 2)[3:5], [2_047, 1_025])
        self.assertEqual(self.versions(trace, "primary"), ([(0, 5), (1, 0), (2, 0)], 3))
        self.assertEqual(self.versions(trace, "standby"), ([(1, 0), (2, 0)], 0))

    def test_5000_sets_of_one_key(self):
        # an event that is left out of the way each time keeps all versions
        count = 5_000
        for left_out in (None, *FREEING[1:]):
            with self.case("left out", event=left_out):
                schedule = Schedule(1)
                for number in range(count if left_out is None else ENTRIES + 1):
                    schedule.group(0, SET_A)
                    schedule.replicate(number)
                    schedule.add(*(event for event in FREEING if event != left_out))
                replies = [call.reply for call in self.play(schedule).calls]
                self.assertEqual(replies, count * [OK] if left_out is None else ENTRIES * [OK] + [STORE_IS_FULL])

    def test_an_entry_waits_until_it_is_accepted(self):
        for name, events, used in [
            ("not listed", [], 2),
            ("listed", ["close-group"], 2),
            ("freed", ["close-group", "free"], 2),
            ("accepted", FREEING, 0),
        ]:
            with self.case(name):
                schedule = overwritten()
                schedule.add(*events)
                schedule.serve_to_end(0, 2, SET_B)
                trace = self.play(schedule)
                self.assertEqual(self.entry(trace, "primary", used)[:3], [3, 0, 3])
                self.assertEqual(self.entry(trace, "primary", 0)[0], {"freed": 0, "accepted": 3}.get(name, 1))

    def test_a_free_waits_for_the_standby(self):
        # the standby holds the second SET; its acknowledgement comes, and then it is shown
        schedule = Schedule(1)
        schedule.serve_to_end(0, 0, SET_A)
        schedule.group(0, SET_A_2)
        schedule.add("close-group", "free", "send", "free", "deliver 1", "free", "apply", "free", "ack-delivered 1", "free", "raise-remote", "free", "free")
        self.assertEqual(self.done_at_the_end(schedule, 12), [False, True, False, True, False, True, False, True, False, True, True, False])

    def test_groups_go_before_lists(self):
        # the list waits behind a group, between two, and aside, while groups are committed and handed on
        schedule = overwritten()
        for request in (SET_B, SET_A):
            schedule.feed(0, request)
            schedule.serve(0)
            schedule.add("close-group", "close-group")
        start = len(schedule.events)
        for _ in range(3):
            schedule.add("free", "commit", "free", "raise-local", "free", "hand")
        schedule.add("free", "free", "accept-freed", "accept-freed")
        trace = self.play(schedule)
        self.assertEqual(trace.done[start - 9:start], [True, True, True, True, True, True, True, True, True])
        self.assertEqual(trace.done[start:start + 12], 2 * [False, True, False, True, False, True])
        # what was ended at position 2 is freed; at position 4 the standby is not yet
        self.assertEqual(trace.done[start + 12:], [True, False, False, False, False, False, False, False, True, False])

    def test_a_list_is_closed_at_its_newest_end(self):
        # two groups end a version each, and a third ends none: the standby has to have the second one
        schedule = overwritten()
        for request in (SET_A, SET_B):
            schedule.group(0, request)
        schedule.add("close-group", "send", "send", "deliver 2", "apply", "ack-delivered 2", "raise-remote", "free", "close-group", "free")
        trace = self.play(schedule)
        self.assertEqual(trace.done[-3:], [True, False, False])
        self.assertEqual(self.versions(trace, "primary"), ([(2, 0), (3, 0)], 0))

    def test_a_link_without_room(self):
        # the list of the second SET is aside when the link's pipe is full: it is freed; the one that waits behind it stays in the queue
        schedule = overwritten()
        schedule.add("close-group")
        for number in range(256):
            schedule.group(0, spell("SET", "c", str(number)))
        schedule.feed(0, SET_B)
        schedule.serve(0)
        schedule.add("close-group", "close-group", "commit", "clear-gap", "free", "free", "accept-freed", "send", "free", "commit")
        trace = self.play(schedule)
        self.assertEqual(trace.done[-10:], [True, True, False, False, True, False, True, True, False, True])

    def test_a_crash_after_a_free(self):
        # its fence was made, so no pick brings the version back
        for picks in ("0", "1", "0 1", "1 0"):
            for events, is_free in [(["close-group"], False), (["close-group", "free"], True), (FREEING, True)]:
                with self.case("picks", picks=picks, events=events):
                    schedule = overwritten()
                    schedule.add(*events, f"crash primary {picks}")
                    trace = self.play(schedule)
                    self.assertEqual(self.versions(trace, "primary"), ([(1, 0)], 0) if is_free else ([(0, 2), (1, 0)], 2))
                    # opened again, it uses what is free, and no version twice
                    schedule.add("reopen primary", "enter")
                    schedule.group(1, SET_B)
                    trace = self.play(schedule)
                    self.assertEqual(self.entry(trace, "primary", 0 if is_free else 2)[2:4], [3, 520 if is_free else 522])
                    self.assertEqual(trace.records["primary"], [((b"a",), b"2"), ((b"b",), b"3")])

    def test_a_fence_of_a_free_fails(self):
        # formatting made three fences, each commit three more, and the record with the floor two; the version is there or not, and it is not handed out
        for picks, is_free in [("0", False), ("1", True), ("0 1", False), ("1 0", True)]:
            with self.case("picks", picks=picks):
                schedule = overwritten()
                schedule.free()
                trace = self.play(schedule, fail=(12, 0), crash=f"primary {picks}")
                at = schedule.events.index("free")
                self.assertEqual(trace.ended, f"at event {at}, line {at + 2}: refusal 1: device fault")
                self.assertEqual(self.versions(trace, "primary"), ([(1, 0)], 0) if is_free else ([(0, 2), (1, 0)], 2))
                self.assertEqual((trace.records["primary"], trace.nodes["primary"].position), ([((b"a",), b"2")], 2))

    def test_a_fence_of_its_floor_fails(self):
        # nothing is freed before the record is there
        for fence in (10, 11):
            for picks in ("0", "1"):
                with self.case("fence", fence=fence, picks=picks):
                    schedule = overwritten()
                    schedule.free()
                    trace = self.play(schedule, fail=(fence, 0), crash=f"primary {picks}")
                    at = schedule.events.index("free")
                    self.assertEqual(trace.ended, f"at event {at}, line {at + 2}: refusal 1: device fault")
                    self.assertEqual(self.versions(trace, "primary"), ([(0, 2), (1, 0)], 2))

    def test_what_an_earlier_life_ended(self):
        # it counts as ended at the position of the reopening: the standby has to tell that it is there
        schedule = overwritten()
        schedule.add("crash primary 0", "reopen primary", "close-group", "close-group", "free", "open-link", "free", "ack-delivered 2", "free",
                     "raise-remote", "free", "accept-freed", "enter")
        schedule.serve_to_end(1, 2, SET_B)
        trace = self.play(schedule)
        at = schedule.events.index("reopen primary")
        self.assertEqual(trace.done[at:at + 11], [True, True, False, False, True, False, True, False, True, True, True])
        # the stamps 3 to 4098 are in a gap, and 4099 was the new `cp`
        self.assertEqual(self.entry(trace, "primary", 0)[:4], [4_100, 0, 3, 520])

    def test_a_standby_that_was_opened_again_frees(self):
        schedule = Schedule(1)
        schedule.serve_to_end(0, 0, SET_A)
        schedule.add("crash standby 0", "reopen standby")
        schedule.serve_to_end(0, 1, SET_A_2)
        schedule.serve_to_end(0, 2, SET_B)
        trace = self.play(schedule)
        self.assertEqual(self.versions(trace, "standby"), ([(0, 0), (1, 0)], 2))


# Requests of a drawn history, and the lengths of their values.
REQUESTS = 400
LENGTHS = [0, 62, 63, 64, 500, 3_000, 8_192, 20_000, 40_000, 50_000, 60_000, 65_536]


def history(drawn, lines):
    """Values of all lengths at a few keys. What is sent is acknowledged at once; what has ended may come back before the next request, or with what others
    end."""
    schedule, machine, crashes = Schedule(1), plain_machine.Machine(lines), 0
    for _ in range(REQUESTS):
        start, key = len(schedule.events), f"k{drawn.randrange(10)}"
        is_set = drawn.randrange(4) > 0
        schedule.group(crashes, spell("SET", key, drawn.choice(LENGTHS) * b"v") if is_set else spell("DEL", key))
        schedule.replicate(len(machine.frames))
        schedule.add(f"ack-delivered {len(machine.acknowledgements)}", "raise-remote", *drawn.sample(FREEING, drawn.randrange(3)))
        if drawn.randrange(3):
            schedule.free()
        machine.play(schedule.events[start:] if start > 1 else schedule.events)
        if drawn.randrange(100) == 0:
            # a delta, where the standby is behind
            crash = ["crash primary 0", "reopen primary", "enter", "open-link", "send", f"deliver {len(machine.frames)}", "apply"]
            schedule.add(*crash)
            machine.play(crash)
            crashes += 1
    return schedule


class Drawn(Runs):
    """Histories drawn by a seed, on images that they fill: runs of lines are given back in any order, joined and cut again."""

    def check(self, seed, lines):
        trace = self.play(history(draws.numbers(f"freeing {seed}"), lines), lines=lines)
        replies = [call.reply for call in trace.calls]
        full = [place for place, reply in enumerate(replies) if reply == STORE_IS_FULL]
        self.assertGreater(len(full), 10)
        self.assertGreater(replies[full[0]:].count(OK), 50)
        stands = [trace.nodes[node].position for node in NODES]
        self.assertTrue(stands[1] == stands[0] if lines[1] > lines[0] else stands[1] <= stands[0], stands)

    def test_a_standby_with_ample_room_0(self):
        self.check(0, (LINES, 2 * LINES))

    def test_a_standby_with_ample_room_1(self):
        self.check(1, (LINES, 2 * LINES))

    def test_a_standby_with_a_spare_place_0(self):
        self.check(3, (LINES, LINES + MORE_LINES))

    def test_a_standby_with_a_spare_place_1(self):
        self.check(4, (LINES, LINES + MORE_LINES))

    def test_a_standby_whose_free_lines_lie_apart(self):
        # where the primary has a run that is long enough it has none
        self.check(2, (LINES, LINES))


class Gaps(Runs):
    """Gaps of a record. In a run no stamp lies in one, since no crash comes inside a commit: the entries that one leaves are those of
    test_standing_by.Following."""

    def opened(self, times):
        schedule = Schedule()
        schedule.add(*(times * ["crash primary 0", "reopen primary"]))
        return schedule

    def test_gaps_are_cleared_one_by_one(self):
        for gaps in (0, 1, 3, 32):
            with self.case("gaps", gaps=gaps):
                schedule = self.opened(gaps)
                schedule.add(*(33 * ["clear-gap"]), *(33 * ["accept-freed"]))
                trace = self.play(schedule)
                cleared = gaps * [True] + (33 - gaps) * [False]
                self.assertEqual(trace.done[2 * gaps:], 2 * cleared)
                # each reopening wrote a record, and so did each clearing
                self.assertEqual((trace.nodes["primary"].record, trace.nodes["primary"].gaps), (1 + 2 * gaps, 0))

    def test_a_gap_waits_for_all_other_work(self):
        schedule = self.opened(2)
        schedule.add("enter")
        schedule.feed(0, SET_A + SET_A_2 + SET_B)
        for events in [
            ["offer 0", "turn 0", "clear-gap"],
            ["close-group", "clear-gap", "commit", "clear-gap", "raise-local", "clear-gap", "hand", "crash standby 0", "reopen standby"],
            ["offer 0", "turn 0", "close-group", "commit", "raise-local", "hand", "close-group", "clear-gap"],
            ["offer 0", "turn 0", "close-group", "commit", "raise-local", "hand", "clear-gap"],
            ["send", "send", "deliver 0", "apply", "deliver 1", "apply", "ack-delivered 1", "raise-remote", "free", "clear-gap", "clear-gap"],
        ]:
            schedule.add(*events)
        trace = self.play(schedule)
        cleared = [did for event, did in zip(schedule.events, trace.done) if event == "clear-gap"]
        # what waits at the sequencer alone does not matter; a group, a list, and a list aside do
        self.assertEqual(cleared, [True, False, False, False, False, False, True, False])
        self.assertEqual([line.gaps for line in trace.nodes.values()], [0, 1])

    def test_a_fence_of_a_clearing_fails(self):
        # formatting made three fences and the reopening two: the gap is there until the third fence
        for fence in (1, 2, 3):
            for picks in ("0", "1"):
                with self.case("fence", fence=fence, picks=picks):
                    schedule = self.opened(1)
                    schedule.add("clear-gap")
                    trace = self.play(schedule, fail=(5 + fence, 0), crash=f"primary {picks}")
                    self.assertEqual(trace.ended, "at event 2, line 4: refusal 1: device fault")
                    is_cleared = fence == 3 and picks == "1"
                    self.assertEqual(tuple(trace.nodes["primary"])[:4], (0, 2 + is_cleared, 4_097, 8_194))
                    self.assertEqual(trace.nodes["primary"].gaps, 1 - is_cleared)
