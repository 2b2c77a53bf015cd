"""A standby whose free lines lie apart, where the primary has them in one piece: it moves versions, and follows.

Each run is compared with the plain machine too (simulation.Runs), from then on by its versions, wherever they are."""

import pathlib
import re

import common
import draws
import plain_image
import plain_keyspace
import plain_machine
import test_freeing
from plain_image import MORE_LINES
from plain_replies import integer
from simulation import NODES, Runs, Schedule
from spelling import spell
from worked_cases import OK

PROGRAMS = ["simulator"]

LINES = 4_096
LONGEST = 65_536 * b"v"


SET_A, SET_B = spell("SET", "A", LONGEST), spell("SET", "B", LONGEST)


def two_long_values_and_a_short_one(*more):
    """A and B take 1,025 of 3,576 lines each, and s one line, behind what else is set. A and s are set again, and what they replaced is freed: on the standby
    each for itself, so that s lies then among the free lines of A; on the primary both at once, when s has its place already. Then B is set again."""
    schedule, first = Schedule(1), [SET_A, SET_B, *more, spell("SET", "s", "1")]
    for number, request in enumerate(first):
        schedule.serve_to_end(0, number, request)
    schedule.group(0, SET_A)
    schedule.group(0, spell("SET", "s", "2"))
    schedule.replicate(len(first))
    schedule.replicate(len(first) + 1)
    schedule.free()
    schedule.serve_to_end(0, len(first) + 2, SET_B)
    return schedule


def value_of(lines):
    """A value that takes so many lines at a key of one byte."""
    return (64 * lines - 1) * b"v"


def longest(letter):
    """Key, field and value of a version of 1,040 lines."""
    return 512 * letter, 512 * letter, LONGEST


def gaps_that_are_too_short():
    """What a standby leaves between long values that keeps no lines back: 960 free lines below B, which has 1,040, 961 between B and E, which has 1,025, and
    fewer behind E. Neither can move, and F finds no place, though more than twice its 1,040 lines are free. On the primary, which frees in other places,
    1,440 lines are free in one piece below B."""
    schedule, number = Schedule(1), 0
    steps = [("SET", "a", value_of(481)), ("SET", "a", value_of(479)), ("SET", "c", value_of(480)), ("HSET", *longest("B")), ("SET", "d", value_of(481)), None,
             ("SET", "a", value_of(480)), ("DEL", "d"), None, ("DEL", "c"), ("SET", "E", LONGEST), ("DEL", "a"), None, ("HSET", *longest("F"))]
    for step in steps:
        if step is None:
            schedule.free()
        else:
            schedule.serve_to_end(0, number, spell(*step))
            number += 1
    return schedule


class Moves(Runs):
    def assert_follows(self, schedule, lines):
        trace = self.play(schedule, lines=lines)
        replies = [call.reply for call in trace.calls]
        self.assertEqual([reply for reply in replies if reply not in (OK, integer(1))], [])
        self.assertEqual([trace.nodes[node].position for node in NODES], 2 * [len(replies)])
        self.assertEqual(trace.records["standby"], trace.records["primary"])
        self.assertEqual(trace.released, [b"".join(replies)])

    def test_two_long_values_and_a_short_one(self):
        self.assert_follows(two_long_values_and_a_short_one(), (LINES, LINES))

    def test_the_history_of_it(self):
        """room_is_made.events, which says of each step what lies where."""
        text = pathlib.Path(__file__).with_name("room_is_made.events").read_text(encoding="ascii")
        schedule = Schedule()
        for line in filter(lambda line: line and not line.startswith("#"), text.splitlines()):
            times, event = re.fullmatch(r"(?:repeat (\d+) )?(.+)", line).groups()
            schedule.add(*int(times or 1) * [event])
        self.assert_follows(schedule, (LINES, LINES))

    def test_a_standby_with_lines_to_spare(self):
        self.assert_follows(two_long_values_and_a_short_one(), (LINES, LINES + MORE_LINES))

    def test_gaps_that_are_too_short(self):
        self.assert_follows(gaps_that_are_too_short(), (LINES, LINES + MORE_LINES))

    def test_a_standby_that_was_opened_again(self):
        """It has a gap, in which there is no entry."""
        schedule = two_long_values_and_a_short_one()
        at = schedule.events.index("deliver 5")
        schedule.events[at:at] = 3 * ["crash standby 0", "reopen standby"]
        self.assert_follows(schedule, (LINES, LINES))

    def test_an_image_that_is_full(self):
        """D fills what is left. When B is set again the standby has 1,024 lines free in one piece and two more that lie apart: s moves to one of them."""
        self.assert_follows(two_long_values_and_a_short_one(spell("SET", "D", (499 * 64 - 1) * b"v")), (LINES, LINES))


class Plain(common.Cases):
    """The plain machine alone: what it says of an image is whole, and of one piece with what its node holds."""

    def check_standby(self, machine, lines):
        writer, parts = machine.standby.image, machine.redis.parts
        words = plain_image.Words(lines, writer.words)
        image = plain_image.read_image(words)
        self.assertEqual(image.record, writer.record)
        self.assertEqual(image.map, dict(plain_keyspace.keyspace_after(parts[:image.record.position]).records()))
        versions = plain_image.read_versions(words, image.record)
        self.assertEqual(([entry for entry, end in versions.counted if not end], versions.gapped), (writer.live, []))
        runs = [line for first, end in writer.room.runs for line in range(first, end)]
        self.assertEqual(runs, plain_image.free_lines(words, image.record))
        self.assertEqual(sorted(writer.room.entries), plain_image.free_entries(words))

    def check(self, seed, told):
        """At each sixth frame of a drawn run of which the standby makes room for all that lines are enough for, or, where that is told of it, for none.
        Whether it follows to the end, and how many frames it refused."""
        drawn, lines = draws.numbers(f"moves {seed}"), (LINES, LINES)
        machine = plain_machine.Machine(lines, told=told).play(2 * ["crash standby 0", "reopen standby"])
        for place, event in enumerate(test_freeing.history(drawn, lines).events):
            machine.play([event])
            if event == "apply" and place % 6 == 0:
                self.check_standby(machine, lines[1])
        self.assertTrue(machine.standby.image.places_may_differ)
        return machine.standby.position == machine.primary.position, machine.standby.refused

    def test_room_is_made(self):
        for seed in range(2):
            with self.case("seed", seed=seed):
                self.assertEqual(self.check(seed, None), (True, 0))

    def test_no_room_is_made(self):
        follows, refused = self.check(2, [])
        self.assertFalse(follows)
        self.assertGreater(refused, 0)
