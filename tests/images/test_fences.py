"""Images and crashes: the worked image word for word, the records after it, fences that fail in formatting and in
commits of either node with all kinds of picks, and devices that are too small."""

import draws
import plain_image
from simulation import NODES, ROLES, Runs, Schedule, simulate
from spelling import spell
from worked_cases import OK, SET_A

PROGRAMS = ["simulator"]

FORMAT_FENCES = 3

# "Worked image" of docs/image.md after the group `SET a 1`: its words that are not zero, but for the two roles.
WORKED_IMAGE = {
    # superblock
    0: 3544411304008368727,
    1: 2,
    2: 4096,
    3: 512,
    5: 2,
    # record 2, from line 502
    4016: 2,
    4017: 1,
    4018: 1,
    4019: 4098,
    4020: 1,
    # record 1, from line 511
    4088: 1,
    4091: 4097,
    4092: 1,
    # entry 0, line 8
    64: 1,
    66: 1,
    67: 520,
    68: 1,
    69: 1,
    70: 1,
    71: 1,
    # line 520
    4160: 12641,
}

# The same after the one group `SET a 1`, `SET b 2`, `SET a 3`. On the primary each SET has its own stamp and position,
# on the standby all have the first stamp and the last position, and the version that ended is freed.
WORKED_GROUP = {
    0: 3544411304008368727,
    1: 2,
    2: 4096,
    3: 512,
    5: 2,
    # record 2 but for cp and cd, and record 1
    4016: 2,
    4017: 3,
    4020: 1,
    4088: 1,
    4091: 4097,
    4092: 1,
    # entries 0, 1 and 2 but for begin, end and position, lines 8, 9 and 10
    67: 520,
    68: 1,
    69: 1,
    70: 1,
    71: 1,
    75: 521,
    76: 1,
    77: 1,
    78: 1,
    79: 1,
    83: 522,
    84: 1,
    85: 1,
    86: 1,
    87: 1,
    # lines 520, 521 and 522: the bytes 61 31, 62 32 and 61 33
    4160: 12641,
    4168: 12898,
    4176: 13153,
}
WORKED_GROUP_OF = {
    # cp and cd; of each entry begin, end where it has ended, and position
    "primary": {4018: 3, 4019: 4100, 64: 1, 65: 3, 66: 1, 72: 2, 74: 2, 80: 3, 82: 3},
    "standby": {4018: 1, 4019: 4098, 65: 1, 66: 3, 72: 1, 74: 3, 80: 1, 82: 3},
}

# The same after the one group `HSET h f 1`: entry 0 is of a field, and line 520 has the bytes 68 66 31.
WORKED_FIELD = {**WORKED_IMAGE, 69: 2, 70: 65537, 4160: 3237480}

NEW_IMAGE = {0: 3544411304008368727, 1: 2, 2: 4096, 3: 512, 5: 1, 4088: 1, 4091: 4097, 4092: 1}

# Where record 2 and record 1 have their role.
ROLE_OF_RECORD_2, ROLE_OF_RECORD_1 = 4086, 4158

# At a crash all words get their oldest candidate, all their newest, or the two in turn.
PICKS = {"oldest": "0", "newest": "1", "oldest first": "0 1", "newest first": "1 0"}


# Images with room for 2,048 versions.
LARGE_LINES = 16_384

# What one group changes: a twice, and b.
GROUP = [SET_A, spell("SET", "b", "2"), spell("SET", "a", "3")]


def sets(count):
    """A connection sets a to 1 `count` times, each served to its end."""
    schedule = Schedule(1)
    for number in range(count):
        schedule.feed(0, SET_A)
        schedule.serve(0)
        schedule.commit()
        schedule.replicate(number)
        schedule.read_marks(0)
        schedule.add("release 0", "write 0 5")
    return schedule


def fences_of_sets(node, count):
    """What each fence after those of formatting is of, in order: how many SETs were committed before, and which fence of the next one
    it is. From the second SET on a standby makes a fourth, which frees what the frame ended."""
    extra = {"primary": 0, "standby": 1}[node]
    return [(before, number) for before in range(count) for number in range(1, 4 + extra * (before > 0))]


class Images(Runs):
    """What formatting and commits write."""

    def test_new_image(self):
        trace = self.play(Schedule())
        for node in NODES:
            with self.case(node):
                self.assertEqual(trace.words[node], {**NEW_IMAGE, ROLE_OF_RECORD_1: ROLES[node]})
                self.assertEqual(trace.records[node], [])

    def test_worked_image(self):
        trace = self.play(sets(1))
        for node in NODES:
            with self.case(node):
                roles = {ROLE_OF_RECORD_1: ROLES[node], ROLE_OF_RECORD_2: ROLES[node]}
                self.assertEqual(trace.words[node], {**WORKED_IMAGE, **roles})
                self.assertEqual(trace.records[node], [((b"a",), b"1")])
                self.assertEqual(tuple(trace.nodes[node]), (1, 2, 1, 4098, 1, node, 0))
        self.assertEqual(trace.released, [OK])

    def test_worked_image_of_a_group(self):
        schedule = Schedule(1)
        schedule.group(0, *GROUP)
        schedule.replicate(0)
        schedule.read_marks(0)
        schedule.add("release 0", "write 0 15")
        trace = self.play(schedule)
        for node, cp in [("primary", 3), ("standby", 1)]:
            with self.case(node):
                roles = {ROLE_OF_RECORD_1: ROLES[node], ROLE_OF_RECORD_2: ROLES[node]}
                self.assertEqual(trace.words[node], {**WORKED_GROUP, **WORKED_GROUP_OF[node], **roles})
                self.assertEqual(trace.records[node], [((b"a",), b"3"), ((b"b",), b"2")])
                self.assertEqual(tuple(trace.nodes[node]), (3, 2, cp, cp + 4097, 1, node, 0))
        self.assertEqual(trace.released, [3 * OK])

    def test_worked_image_of_a_field(self):
        schedule = Schedule(1)
        schedule.group(0, spell("HSET", "h", "f", "1"))
        schedule.replicate(0)
        schedule.read_marks(0)
        schedule.add("release 0", "write 0 4")
        trace = self.play(schedule)
        for node in NODES:
            with self.case(node):
                roles = {ROLE_OF_RECORD_1: ROLES[node], ROLE_OF_RECORD_2: ROLES[node]}
                self.assertEqual(trace.words[node], {**WORKED_FIELD, **roles})
                self.assertEqual(trace.records[node], [((b"h", b"f"), b"1")])
        self.assertEqual(trace.released, [b":1\r\n"])

    def test_magic_is_its_bytes_in_a_file(self):
        for node in NODES:
            with self.case(node):
                self.assertEqual(simulate([], "--images").words[node][0].to_bytes(8, "little"), b"WBLIMG01")

    def test_each_set_leaves_the_next_record(self):
        for count in range(5):
            trace = self.play(sets(count))
            for node in NODES:
                with self.case(node, count=count):
                    self.assertEqual(tuple(trace.nodes[node]), (count, count + 1, count, count + 4097, 1, node, 0))

    def test_sizes(self):
        # an eighth of the lines, rounded down, are those of entries and of records
        for lines in [(4_096, 4_103), (4_097, 4_104), (8_191, 4_096), (16_384, 65_536)]:
            with self.case("lines", lines=lines):
                trace = self.play(sets(2), lines=lines)
                for node, size in zip(NODES, lines):
                    words = trace.words[node]
                    self.assertEqual((words[2], words[3], words[67]), (size, size // 8, 8 + size // 8))

    def test_devices_that_are_too_small(self):
        for lines in ["4095,4096", "4096,4095", "0,4096", "4096,1", "0,0"]:
            with self.case("lines", lines=lines):
                trace = simulate(sets(1).events, "--map", "--images", "--lines", lines)
                self.assertEqual(trace.ended, "at formatting: refusal 4: wrong size")
                self.assertEqual((trace.done, trace.calls, trace.released), ([], [], []))
                for node, size in zip(NODES, lines.split(",")):
                    if int(size) < 4_096:
                        self.assertEqual((trace.nodes[node], trace.words[node]), (None, {}))


class Crashes(Runs):
    """A fence of one node fails, and that node crashes. Before its root is fenced an image is the one before or the one
    after."""

    def crashed(self, node, fence, picks, count=1):
        fail = (fence, 0) if node == "primary" else (0, fence)
        return self.play(sets(count), fail=fail, crash=f"{node} {picks}")

    def assert_holds(self, trace, node, position):
        """The image is whole at this position, and has what was set until then."""
        image = plain_image.read_image(plain_image.Words(4_096, trace.words[node]))
        self.assertEqual(image.map, {(b"a",): b"1"} if position else {})
        self.assertEqual(trace.records[node], list(image.map.items()))
        self.assertEqual((image.record.position, image.record.number), (position, position + 1))
        self.assertEqual(tuple(trace.nodes[node])[:3], (position, position + 1, position))

    def check_fence(self, node, number):
        """In the commits of one SET and of the second and the third one: by the picks of the root the position before or after, and
        only at the last fence."""
        for before in range(3):
            for name, picks in PICKS.items():
                with self.case(name, before=before):
                    fence = FORMAT_FENCES + 1 + fences_of_sets(node, 4).index((before, number))
                    trace = self.crashed(node, fence, picks, 4)
                    # the events of a SET: Commit is the sixth of them, Apply the eleventh
                    event = {"primary": 6, "standby": 11}[node] + 17 * before
                    self.assertEqual(trace.ended, f"at event {event}, line {event + 2}: refusal 1: device fault")
                    self.assertEqual(len(trace.done), event)
                    self.assertEqual(trace.released, [before * OK])
                    is_new = number == 3 and picks.startswith("1")
                    self.assert_holds(trace, node, before + is_new)
                    other, behind = ("standby", 0) if node == "primary" else ("primary", 1)
                    self.assert_holds(trace, other, before + behind)

    def test_first_fence_of_a_commit_of_the_primary(self):
        self.check_fence("primary", 1)

    def test_second_fence_of_a_commit_of_the_primary(self):
        self.check_fence("primary", 2)

    def test_third_fence_of_a_commit_of_the_primary(self):
        self.check_fence("primary", 3)

    def test_first_fence_of_a_commit_of_the_standby(self):
        self.check_fence("standby", 1)

    def test_second_fence_of_a_commit_of_the_standby(self):
        self.check_fence("standby", 2)

    def test_third_fence_of_a_commit_of_the_standby(self):
        self.check_fence("standby", 3)

    def test_fence_by_which_a_standby_frees(self):
        """The frame is there then, and nothing of it is acknowledged. By the picks of its begin the version that ended is freed, or is
        not."""
        for before in (1, 2):
            for name, picks in PICKS.items():
                with self.case(name, before=before):
                    fence = FORMAT_FENCES + 1 + fences_of_sets("standby", 4).index((before, 4))
                    trace = self.crashed("standby", fence, picks, 4)
                    event = 11 + 17 * before
                    self.assertEqual(trace.ended, f"at event {event}, line {event + 2}: refusal 1: device fault")
                    self.assertEqual(trace.released, [before * OK])
                    self.assert_holds(trace, "standby", before + 1)
                    # two entries are in use by turns
                    words = plain_image.Words(4_096, trace.words["standby"])
                    live, ended = before % 2, 1 - before % 2
                    counted = [(live, 0), (ended, before + 1)] if picks.startswith("0") else [(live, 0)]
                    versions = plain_image.read_versions(words, plain_image.read_image(words).record)
                    self.assertEqual((versions.counted, versions.gapped), (sorted(counted), []))

    def test_picks_drawn_by_a_seed(self):
        numbers = draws.numbers("picks")
        for node in NODES:
            for fence, (before, number) in enumerate(fences_of_sets(node, 4)[:10], FORMAT_FENCES + 1):
                picks = " ".join(str(numbers.randrange(4)) for _ in range(numbers.randint(1, 40)))
                with self.case(node, fence=fence, picks=picks):
                    trace = self.crashed(node, fence, picks, 4)
                    position = trace.nodes[node].position
                    self.assertIn(position, {3: (before, before + 1), 4: (before + 1,)}.get(number, (before,)))
                    self.assert_holds(trace, node, position)

    def crashed_in_a_group(self, node, fence, picks):
        """A SET of c is served to its end; in the commit of the group after it this fence fails, and the node
        crashes."""
        schedule = Schedule(1)
        schedule.group(0, spell("SET", "c", "4"))
        schedule.replicate(0)
        schedule.group(0, *GROUP)
        schedule.replicate(1)
        schedule.read_marks(0)
        schedule.add("release 0", "write 0 5")
        failing = FORMAT_FENCES + 3 + fence
        return self.play(schedule, fail=(failing, 0) if node == "primary" else (0, failing), crash=f"{node} {picks}")

    def assert_holds_group(self, trace, node, is_there):
        """The image holds the SET of c, and all of the group or nothing of it."""
        image = plain_image.read_image(plain_image.Words(4_096, trace.words[node]))
        group = {(b"a",): b"3", (b"b",): b"2"} if is_there else {}
        self.assertEqual(image.map, {**group, (b"c",): b"4"})
        self.assertEqual(trace.records[node], sorted(image.map.items()))
        stamps = 3 if node == "primary" else 1
        record = (4, 3, 1 + stamps) if is_there else (1, 2, 1)
        self.assertEqual((image.record.position, image.record.number, image.record.cp), record)
        self.assertEqual(tuple(trace.nodes[node])[:3], record)

    def check_group(self, node):
        """By the picks of the root the group is there or not, and only at the last fence."""
        for fence in (1, 2, 3):
            for name, picks in PICKS.items():
                with self.case(name, fence=fence):
                    trace = self.crashed_in_a_group(node, fence, picks)
                    self.assertRegex(trace.ended, "refusal 1: device fault")
                    self.assertEqual(trace.released, [b""])
                    self.assert_holds_group(trace, node, fence == 3 and picks.startswith("1"))
                    if node == "standby":
                        self.assert_holds_group(trace, "primary", True)

    def test_a_group_of_the_primary_is_there_whole_or_not_at_all(self):
        self.check_group("primary")

    def test_a_group_of_the_standby_is_there_whole_or_not_at_all(self):
        self.check_group("standby")

    def test_picks_for_a_group_drawn_by_a_seed(self):
        numbers = draws.numbers("picks for a group")
        for node in NODES:
            for fence in (1, 2, 3, 3, 3):
                picks = " ".join(str(numbers.randrange(4)) for _ in range(numbers.randint(1, 40)))
                with self.case(node, fence=fence, picks=picks):
                    trace = self.crashed_in_a_group(node, fence, picks)
                    position = trace.nodes[node].position
                    self.assertIn(position, (1, 4) if fence == 3 else (1,))
                    self.assert_holds_group(trace, node, position == 4)

    def check_large_commit(self, before, request, held, left):
        """Requests are committed one by one; then a fence fails in the commit of one more, and its node crashes. The image holds
        what it held, or what the last request leaves: this only at the last fence, by the picks of the root."""
        schedule = Schedule(1)
        for number, each in enumerate([*before, request]):
            schedule.group(0, each)
            schedule.replicate(number)
        for node in NODES:
            for fence in (1, 2, 3):
                for name, picks in PICKS.items():
                    with self.case(name, node=node, fence=fence):
                        failing = FORMAT_FENCES * (1 + len(before)) + fence
                        fail = (failing, 0) if node == "primary" else (0, failing)
                        lines = (LARGE_LINES, LARGE_LINES)
                        trace = self.play(schedule, lines=lines, fail=fail, crash=f"{node} {picks}")
                        self.assertRegex(trace.ended, "refusal 1: device fault")
                        image = plain_image.read_image(plain_image.Words(LARGE_LINES, trace.words[node]))
                        is_new = fence == 3 and picks.startswith("1")
                        self.assertEqual(image.map, left if is_new else held)
                        self.assertEqual(image.record.position, len(before) + is_new)

    def test_set_over_a_hash_of_1000_fields(self):
        names = [b"%d" % number for number in range(1_000)]
        before = [spell("HSET", "h", *(word for name in half for word in (name, b"1"))) for half in (names[:500], names[500:])]
        held = {(b"h", name): b"1" for name in names}
        self.check_large_commit(before, spell("SET", "h", "x"), held, {(b"h",): b"x"})

    def test_flushdb_of_2000_records(self):
        names = [b"%d" % number for number in range(2_000)]
        parts = [names[at:at + 500] for at in range(0, 2_000, 500)]
        before = [spell("MSET", *(word for name in part for word in (name, b"1"))) for part in parts]
        self.check_large_commit(before, spell("FLUSHDB"), {(name,): b"1" for name in names}, {})

    def test_fences_of_formatting(self):
        for node in NODES:
            for fence in (1, 2, 3):
                for name, picks in PICKS.items():
                    with self.case(name, node=node, fence=fence):
                        trace = self.crashed(node, fence, picks)
                        self.assertEqual((trace.done, trace.calls), ([], []))
                        self.assertEqual(trace.ended, "at formatting: refusal 1: device fault")
                        # the magic is stored last, and then the rest is durable
                        if fence == 3 and picks.startswith("1"):
                            self.assertEqual(trace.words[node], {**NEW_IMAGE, ROLE_OF_RECORD_1: ROLES[node]})
                            self.assert_holds(trace, node, 0)
                        else:
                            self.assertIsNone(trace.nodes[node])
                            self.assertNotIn(0, trace.words[node])

    def test_a_crash_where_no_fence_failed_changes_nothing(self):
        for node in NODES:
            for name, picks in PICKS.items():
                with self.case(name, node=node):
                    trace = self.play(sets(3), crash=f"{node} {picks}")
                    self.assert_holds(trace, node, 3)

    def test_a_fence_that_is_never_reached(self):
        for fail in [(13, 0), (0, 15), (2**64 - 1, 2**64 - 1)]:
            with self.case("fail", fail=fail):
                trace = self.play(sets(3), fail=fail)
                self.assertEqual(trace.released, [3 * OK])

    def test_without_a_crash_the_newest_words_are_read(self):
        for node in NODES:
            for fence, position in [(4, 0), (5, 0), (6, 1)]:
                with self.case(node, fence=fence):
                    trace = self.play(sets(2), fail=(fence, 0) if node == "primary" else (0, fence))
                    self.assertEqual(trace.nodes[node].position, position)
