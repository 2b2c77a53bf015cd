"""An older image that takes the place of its node's own at the end of a run. Longer histories with all that they print are in histories/."""

from common import Cases, run_program
from simulation import Schedule, Trace
from spelling import spell
from worked_cases import SET_A

PROGRAMS = ["simulator"]

KEEP, RESTORE = "keep, line ", "restore, line "
SET_B, DEL_A = spell("SET", "b", "2"), spell("DEL", "a")
A, B = ((b"a",), b"1"), ((b"b",), b"2")


def output_of(events, *options):
    """What is printed of these events."""
    finished = run_program("simulator", ["--map", *options], "".join(f"{event}\n" for event in events).encode())
    if (finished.status, finished.errors) != (0, b""):
        raise AssertionError(f"status {finished.status}, message {finished.errors!r}")
    return finished.output.decode("ascii")


def without_its_lines(output):
    """All lines but those of the words that are no events."""
    return "".join(line for line in output.splitlines(True) if not line.startswith((KEEP, RESTORE)))


def all_the_way(*requests):
    """Each request of one connection is a group that both nodes hold, and that the primary knows so."""
    schedule = Schedule(1)
    for number, request in enumerate(requests):
        schedule.group(0, request)
        schedule.replicate(number)
    return schedule


def on_the_primary(schedule, *requests):
    """More requests, which the standby never gets."""
    for request in requests:
        schedule.group(0, request)


class Restored(Cases):
    def restored(self, node, before, behind, *options):
        """What came of the link where the image of this node is put back as it was before so many events, and the images then."""
        events = [*before, f"keep {node}", *behind, f"restore {node}"]
        output = output_of(events, *options)
        told = [line for line in output.splitlines() if line.startswith(RESTORE)]
        self.assertEqual(len(told), 1)
        told, line = told[0].removeprefix(RESTORE).split(": ", 1)[::-1]
        self.assertEqual(int(line), len(events))
        return told, Trace(without_its_lines(output))

    def assert_restored(self, node, before, behind, told, *records):
        """The same under each form of the program."""
        for options in ([], ["--list"], ["--whole"]):
            with self.case("restored", node=node, options=options):
                found, trace = self.restored(node, before, behind, *options)
                self.assertEqual(found, told)
                self.assertEqual([trace.records["primary"], trace.records["standby"]], [list(held) for held in records])

    def test_a_standby_at_zero(self):
        # it has nothing: it is served whatever was freed
        schedule = all_the_way(SET_A, DEL_A, SET_B)
        schedule.free()
        self.assert_restored("standby", [], schedule.events, "taken from position 0", [B], [B])

    def test_a_standby_below_the_floor(self):
        first, schedule = all_the_way(SET_A), all_the_way(SET_A, DEL_A, SET_B)
        schedule.free()
        behind = schedule.events[len(first.events):]
        self.assert_restored("standby", first.events, behind, "refused by the primary: refusal 12: position gap", [B], [A])

    def test_a_standby_of_which_nothing_was_freed(self):
        # the last record's floor is at what the standby had acknowledged before its commit, and nothing raised it since
        first, schedule = all_the_way(SET_A), all_the_way(SET_A, DEL_A)
        behind = schedule.events[len(first.events):]
        self.assert_restored("standby", first.events, behind, "taken from position 1", [], [])

    def test_a_standby_that_is_up_to_date(self):
        schedule = all_the_way(SET_A)
        self.assert_restored("standby", schedule.events, [], "taken from position 1", [A], [A])

    def test_a_primary_below_its_standby(self):
        first, schedule = all_the_way(SET_A), all_the_way(SET_A, SET_B)
        behind = schedule.events[len(first.events):]
        self.assert_restored("primary", first.events, behind, "refused by the primary: refusal 13: standby ahead", [A], [A, B])

    def test_a_primary_whose_standby_is_not_ahead(self):
        # what it has committed since, nobody else had; and it leads a standby that lags to where it stands
        for before, committed, told in [([SET_A], [SET_B], "taken from position 1"), ([], [SET_A], "taken from position 0")]:
            with self.case("committed", count=len(before)):
                schedule = all_the_way(*before)
                if not before:
                    on_the_primary(schedule, *committed)
                kept = len(schedule.events)
                on_the_primary(schedule, SET_B)
                self.assert_restored("primary", schedule.events[:kept], schedule.events[kept:], told, [A], [A])

    def test_a_standby_that_was_promoted(self):
        schedule = all_the_way(SET_A)
        self.assert_restored("primary", schedule.events, ["fence", "promote"], "refused by the standby: refusal 16: wrong role", [A], [A])

    def test_the_last_image_that_was_kept(self):
        first, schedule = all_the_way(SET_A), all_the_way(SET_A, SET_B)
        at = len(first.events)
        events = ["keep primary", *schedule.events[:at], "keep primary", *schedule.events[at:], "keep standby", "restore primary"]
        self.assertIn(f"{RESTORE}{len(events)}: refused by the primary: refusal 13: standby ahead\n", output_of(events))
        events[-2:] = ["keep primary", "restore primary"]
        self.assertIn(f"{RESTORE}{len(events)}: taken from position 2\n", output_of(events))


class Kept(Cases):
    def test_it_changes_nothing(self):
        schedule = all_the_way(SET_A, DEL_A, SET_B)
        schedule.add("fail-fence primary 2", "feed 0 SET c 3", "offer 0", "turn 0", "close-group", "commit", "crash primary 1", "reopen primary", "fence", "promote")
        events = schedule.events
        with_words = [word for event in events for word in ("keep standby", event)] + ["keep primary"]
        for options in ([], ["--list"], ["--whole"]):
            with self.case("options", options=options):
                lines = output_of(with_words, "--images", *options).splitlines(True)
                told = [line for line in lines if line.startswith(KEEP)]
                wanted = [*range(1, len(with_words), 2), len(with_words)]
                self.assertEqual(told, [f"{KEEP}{line}: done\n" for line in wanted])
                self.assertEqual(lines[:3], [f"{KEEP}1: done\n", "event 0, line 2: done\n", f"{KEEP}3: done\n"])
                # a comment in each place gives the same lines their numbers
                others = ["# nothing" if word.startswith("keep") else word for word in with_words]
                self.assertEqual(without_its_lines("".join(lines)), output_of(others, "--images", *options))

    def test_where_the_run_ends_before(self):
        for failure, told in [("fail primary 1", []), ("fail primary 5", [f"{KEEP}2: done"])]:
            for options in ([], ["--list"], ["--whole"]):
                with self.case("failing", failure=failure, options=options):
                    schedule = all_the_way(SET_A)
                    lines = output_of([failure, "keep primary", *schedule.events, "keep standby", "restore primary"], *options).splitlines()
                    self.assertEqual([line for line in lines if line.startswith((KEEP, RESTORE))], told)
                    self.assertIn("refusal 1: device fault", lines[-1])
