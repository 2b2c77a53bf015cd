"""Whether a standby finds room for each value that its primary could place, over drawn orders. Played in Python: the plans of crates/packing on their plain
model (models/packing.py), and the rule by which crates/standby uses them (spare.rt, room.rt, planning.rt), once more in plain steps. So it tells of the plans
and of the rule, and of the code only as far as it does what these say.

Both heaps are first fit. The primary gives lines back later than the standby, so the same values lie elsewhere in each. The standby keeps its last lines free
as a spare place, for as long as they are. It makes room below them: it empties a stretch by few moves, and where it cannot, one by as many as it takes, by way of
the spare place where they must, and at last lets all slide down. Only where that finds no room does it use the whole image."""

import bisect
import collections
import math
import random
import unittest

import packing
from plain_image import MORE_LINES, SPARE_LINES, extents_begin

# How many times as many lines as a run has are moved for it at most, where not all may have to.
FEW = 4
# In a load the primary gives the lines of a value back so many writes after it was overwritten.
LATE_WRITES = 8


def usable(lines):
    """The lines of extents of an image of so many lines."""
    return lines - extents_begin(lines)


class Heap:
    """Where the values lie: the lowest run of free lines that is long enough is taken."""

    def __init__(self, lines):
        self.lines = lines
        self._starts, self._extents = [], {}

    def extents(self):
        return [(line, self._extents[line]) for line in self._starts]

    def free_runs(self):
        low = 0
        for line in self._starts:
            if low < line:
                yield low, line
            low = line + self._extents[line]
        if low < self.lines:
            yield low, self.lines

    def is_free(self, line, lines):
        return any(low <= line and line + lines <= high for low, high in self.free_runs())

    def find(self, lines, end):
        return next((low for low, high in self.free_runs() if min(high, end) - low >= lines), None)

    def claim(self, line, lines):
        if not self.is_free(line, lines):
            raise AssertionError(f"{lines} lines from {line} on are not free")
        bisect.insort(self._starts, line)
        self._extents[line] = lines

    def give(self, line):
        del self._starts[bisect.bisect_left(self._starts, line)]
        return self._extents.pop(line)


class Primary:
    """A heap whose lines come back late."""

    def __init__(self, lines):
        self.heap, self.places, self._late = Heap(lines), {}, collections.deque()

    def write(self, name, lines):
        """Whether there was room."""
        line = self.heap.find(lines, self.heap.lines)
        if line is None:
            self.free()
            line = self.heap.find(lines, self.heap.lines)
        if line is None:
            return False
        self.heap.claim(line, lines)
        self.delete(name)
        self.places[name] = line
        return True

    def delete(self, name):
        if name in self.places:
            self._late.append(self.places.pop(name))

    def free(self, left=0):
        """The lines of all but so many of the values that are gone come back, the oldest first."""
        while len(self._late) > left:
            self.heap.give(self._late.popleft())


class Standby:
    """A heap that gives lines back at once, and moves extents where it must. Where `keeps_spare` it keeps its last lines free."""

    def __init__(self, lines, keeps_spare=True):
        self.heap, self.keeps_spare = Heap(lines), keeps_spare
        self._places, self._names = {}, {}
        self.counts = collections.Counter()

    def write(self, name, lines):
        """Whether there was room."""
        line = self._room(lines)
        if line is None:
            return False
        self.heap.claim(line, lines)
        self.delete(name)
        self._enter(name, line)
        return True

    def delete(self, name):
        if name in self._places:
            self._leave(self._places[name])

    def _room(self, lines):
        whole, below = self.heap.lines, self.heap.lines - SPARE_LINES
        if self.keeps_spare and self.heap.is_free(below, SPARE_LINES):
            line = self._room_below(lines, below)
            if line is not None:
                return line
            self.counts["values that found no room below"] += 1
        return self._room_below(lines, whole)

    def _room_below(self, lines, end):
        line = self.heap.find(lines, end)
        for way in (self._few, self._many, self._slide):
            line = way(lines, end) if line is None else line
        return line

    def _few(self, lines, end):
        return self._window("few", lines, end, FEW * lines)

    def _many(self, lines, end):
        return self._window("many", lines, end, math.inf)

    def _window(self, way, lines, end, most):
        return self._make(way, packing.make_window(self.heap.extents(), 0, end, self.heap.lines, lines, most), lines, end)

    def _slide(self, lines, end):
        if end == self.heap.lines:
            return None
        return self._make("slides", packing.slide_down(self.heap.extents(), 0, end, lines), lines, end)

    def _make(self, way, moves, lines, end):
        """Makes the moves, one at a time, each to lines that are free then. The room that there is afterwards."""
        if moves is None:
            return None
        extents = self.heap.extents()
        for index, to in moves:
            line, count = extents[index]
            self._move(line, count, to)
            extents[index] = (to, count)
        self.counts[way] += 1
        room = self.heap.find(lines, end)
        if room is None:
            raise AssertionError(f"the moves leave no {lines} lines free below {end}")
        return room

    def _move(self, line, lines, to):
        self.heap.claim(to, lines)
        name = self._names[line]
        self._leave(line)
        self._enter(name, to)

    def _enter(self, name, line):
        self._places[name], self._names[line] = line, name

    def _leave(self, line):
        self.heap.give(line)
        del self._places[self._names.pop(line)]


# ---- loads: values of one kind come and go, and the primary is nearly full

def session(draw):
    """Session data: a lognormal length with a median of some 665 bytes."""
    return max(1, min(16_385, int(draw.lognormvariate(6.5, 1.0) / 64) + 1))


def page(draw):
    return draw.choice([17, 65, 257])


def blob(draw):
    """One of ten is of the greatest length, the others are short."""
    return SPARE_LINES if draw.random() < 0.1 else draw.randint(1, 16)


def wide(draw):
    return draw.randint(1, 500)


def any_length(draw):
    return draw.randint(1, SPARE_LINES)


def fill(draw, length, primary, standby, share):
    """Values until that share of the primary's lines is in use: their lengths. Nothing where the standby found no room."""
    values, limit = [], share * primary.heap.lines
    while True:
        lines = length(draw)
        if sum(values) + lines > limit or not primary.write(len(values), lines):
            return values
        if not standby.write(len(values), lines):
            return None
        values.append(lines)


def overwrite(draw, length, primary, standby, share, writes):
    """Fills both and overwrites values at that share. The write at which the standby found no room."""
    values = fill(draw, length, primary, standby, share)
    if values is None:
        return 0
    limit = share * primary.heap.lines
    for at in range(writes):
        name, lines = draw.randrange(len(values)), length(draw)
        if sum(values) - values[name] + lines > limit:
            lines = min(lines, values[name])
        if primary.write(name, lines):
            values[name] = lines
            if not standby.write(name, lines):
                return at + 1
        primary.free(LATE_WRITES)
    return None


# ---- the worst that is known: long values, and values about as long as the gaps that are left between them

STEPS, LINES = 60, 64_512


def contrive(seed, standby):
    """Some steps on a pair whose primary has 64,512 lines. The step at which the standby found no room."""
    draw, primary, made = random.Random(f"contrived {seed}"), Primary(usable(LINES)), 0
    gap = draw.randint(4_700, 8_200)
    lengths = [16_385, 16_385, SPARE_LINES, gap, gap + 1, gap + 2, draw.randint(1, 1_600), draw.randint(1_600, 8_200)]
    for step in range(STEPS):
        kind, names = draw.random(), list(primary.places)
        if kind < 0.55:
            name, lines = made if draw.random() < 0.7 or not names else draw.choice(names), draw.choice(lengths)
            if primary.write(name, lines):
                made += name == made
                if not standby.write(name, lines):
                    return step
        elif kind < 0.85 and names:
            name = draw.choice(names)
            primary.delete(name)
            standby.delete(name)
        else:
            primary.free()
    return None


class Packing(unittest.TestCase):
    # What is drawn, how many lines the primary's image has, and how many writes.
    DRAWN = [(any_length, 108_256, 1_500), (session, 4_096, 800), (blob, 129_024, 800), (page, 8_192, 800), (wide, 4_096, 1_500)]
    SHARES = [0.8, 0.95, 1.0]
    CONTRIVED = 1_500
    # A history in which each gap that is left is too short for a value, and each value is too long for a gap.
    STUCK = 771

    def test_a_standby_with_a_spare_place_more_always_finds_room(self):
        moved = collections.Counter()
        for length, lines, writes in self.DRAWN:
            for share in self.SHARES:
                with self.subTest(values=length.__name__, share=share):
                    draw, standby = random.Random(f"{length.__name__} {share}"), Standby(usable(lines + MORE_LINES))
                    self.assertIsNone(overwrite(draw, length, Primary(usable(lines)), standby, share, writes))
                    self.assertEqual(standby.counts["values that found no room below"], 0)
                    moved += standby.counts
        self.assertGreater(moved["few"], 0)

    def test_gaps_that_are_too_short(self):
        moved = collections.Counter()
        for seed in range(self.CONTRIVED):
            with self.subTest(seed=seed):
                standby = Standby(usable(LINES + MORE_LINES))
                self.assertIsNone(contrive(seed, standby))
                self.assertEqual(standby.counts["values that found no room below"], 0)
                moved += standby.counts
        self.assertGreater(moved["many"], 0)

    def test_slides(self):
        """All extents slide down wherever so many lines are free at all, in each order in which they are given."""
        for seed in range(self.CONTRIVED):
            draw, heap = random.Random(f"slides {seed}"), Heap(usable(LINES + MORE_LINES))
            end, line = heap.lines - SPARE_LINES, 0
            while line < end:
                line += draw.choice([0, 0, 1, 30, 400, 6_300])
                lines = min(draw.choice([1, 30, 400, 6_300, SPARE_LINES]), end - line)
                if lines > 0:
                    heap.claim(line, lines)
                    line += lines
            extents = heap.extents()
            draw.shuffle(extents)
            for need in {1, SPARE_LINES, free := end - sum(lines for _, lines in extents), free + 1}:
                moves = packing.slide_down(extents, 0, end, need)
                with self.subTest(seed=seed, need=need):
                    self.assertEqual(moves is not None, need <= free)
                    left = Heap(heap.lines)
                    for first_line, lines in extents:
                        left.claim(first_line, lines)
                    places = list(extents)
                    for index, to in moves or []:
                        first_line, lines = places[index]
                        left.claim(to, lines)
                        left.give(first_line)
                        places[index] = (to, lines)
                    self.assertTrue(moves is None or left.find(need, end) is not None and left.is_free(end, SPARE_LINES))

    def test_no_spare_place(self):
        """A standby of so many lines that keeps none of them free finds no room."""
        self.assertIsNotNone(contrive(self.STUCK, Standby(usable(LINES + MORE_LINES), keeps_spare=False)))
