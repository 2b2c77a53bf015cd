"""The room of an image, from docs/image.md and docs/replication.md ("The way of a group"), and in which entry each record is."""

import copy
import heapq
import itertools
import typing

from plain_image import LAYOUT, SPARE_LINES, extents_begin, lines_of_puts
from plain_keyspace import Clear, Drop, DropKey, Put


class Place(typing.NamedTuple):
    """Where a version is: its entry, and the first line and the number of lines of its extent."""

    entry: int
    line: int
    lines: int


class Part(typing.NamedTuple):
    """The changes of a call or of a frame: with the places of their puts, in order, and the entries of the versions that they end."""

    changes: tuple
    places: tuple
    ended: tuple


class Room:
    """What is free of an image of so many lines, beside these places and entries: entries, the lowest first, and runs of lines, each as its first line
    and the line after its last. `given` has the places that were taken since it was emptied last."""

    def __init__(self, lines, places=(), entries=(), layout=LAYOUT):
        taken = {place.entry for place in places} | set(entries)
        self.lines = lines
        self.entries = [entry for entry in range(layout.entries(lines)) if entry not in taken]
        self.runs = [(extents_begin(lines), lines)]
        for place in sorted(places, key=lambda place: place.line):
            first, end = self.runs.pop()
            self.runs += [run for run in [(first, place.line), (place.line + place.lines, end)] if run[0] < run[1]]
        self.given = []

    def take(self, changes):
        """Whether there is room for all puts among these changes: each takes the lowest free entry, and the lowest free run that is
        long enough. Otherwise nothing is taken."""
        counts = lines_of_puts(changes)
        runs, lines = list(self.runs), []
        for count in counts:
            at = next((at for at, (first, end) in enumerate(runs) if end - first >= count), None)
            if at is None:
                return False
            first, end = runs[at]
            runs[at:at + 1] = [(first + count, end)] if first + count < end else []
            lines.append((first, count))
        if len(counts) > len(self.entries):
            return False
        self.runs = runs
        self.given += [Place(heapq.heappop(self.entries), *each) for each in lines]
        return True

    def take_at_once(self, changes):
        """The same on a standby that moves nothing: it takes them below the spare place while that is free. Where it is in use, or where fewer lines are free
        below it than the longest put takes, it takes them anywhere."""
        end, counts = self.lines - SPARE_LINES, lines_of_puts(changes)
        below = [(first, min(last, end)) for first, last in self.runs if first < end]
        keeps_spare = (end, self.lines) in [(max(first, end), last) for first, last in self.runs]
        if keeps_spare and sum(last - first for first, last in below) >= max(counts, default=0):
            before = copy.copy(self.runs), copy.copy(self.entries), len(self.given)
            if not self.take(changes):
                return False
            if all(place.line + place.lines <= end for place in self.given[before[2]:]):
                return True
            self.runs, self.entries, self.given = before[0], before[1], self.given[:before[2]]
            return False
        return self.take(changes)

    def surely_takes_below(self, changes):
        """Whether the spare place is free, and below it as many extents of the longest of these puts can be cut as there are puts, and as many entries are free."""
        end, counts = self.lines - SPARE_LINES, lines_of_puts(changes)
        keeps_spare = any(first <= end and self.lines <= last for first, last in self.runs)
        extents = sum((min(last, end) - first) // max(counts, default=1) for first, last in self.runs if first < end)
        return keeps_spare and len(counts) <= min(extents, len(self.entries))

    def is_enough_for(self, changes):
        """Whether as many entries and lines are free as these changes take, wherever they lie."""
        counts = lines_of_puts(changes)
        return len(counts) <= len(self.entries) and sum(counts) <= sum(end - first for first, end in self.runs)

    def give(self, places):
        """These places are free again. One without lines is an entry alone."""
        for place in places:
            heapq.heappush(self.entries, place.entry)
        joined = []
        for first, end in sorted([*self.runs, *((place.line, place.line + place.lines) for place in places if place.lines)]):
            if joined and joined[-1][1] == first:
                first = joined.pop()[0]
            joined.append((first, end))
        self.runs = joined


class Table:
    """In which entry the version of each record is, by keys."""

    def __init__(self):
        self._keys = {}

    def put(self, name, entry):
        self._keys.setdefault(name[0], {})[name] = entry

    def play(self, changes, places):
        """Plays changes, the puts among them with these places, and gives the entries whose versions they end."""
        ended, rest = [], iter(places)
        for change in changes:
            ended += self._end(change)
            if isinstance(change, Put):
                self.put(change.name, next(rest).entry)
        return tuple(ended)

    def _end(self, change):
        """Takes out what a change replaces or removes."""
        match change:
            case Clear():
                keys, self._keys = self._keys, {}
                return [entry for held in keys.values() for entry in held.values()]
            case DropKey(key):
                return list(self._keys.pop(key, {}).values())
            case Drop(name):
                return self._take(name)
            case Put(name, _):
                held = self._keys.get(name[0], {})
                is_other_kind = any(len(own) != len(name) for own in itertools.islice(held, 1))
                return self._end(DropKey(name[0])) if is_other_kind else self._take(name)

    def _take(self, name):
        held = self._keys.get(name[0], {})
        return [held.pop(name)] if name in held else []
