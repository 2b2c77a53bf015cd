"""What a device with a journal asks of its file, over a page cache that forgets: the process is killed or a sync fails between any two calls, the file is
opened again, the device goes on, and after each call the power is cut. No program runs: the calls are those of the model plain_journal."""

import random

import common
import plain_journal
from page_cache import PageCache
from plain_journal import Device, Opening, Shape, opened, put, records_in

PROGRAMS = []

# A part has room for three records of a line, or one of three. A fence of four is put in place at once.
SHAPE = Shape(8, 5)

# Each list is what is fenced before a sync: how many lines each fence has.
FIRST = [[1], [1, 2], [1], [4], [1, 1], [6, 1]]
LATER = [[2, 1], [1], [5], [1, 2]]


def picks_of(seed):
    drawn = random.Random(f"picks {seed}")
    chosen = {}
    return [lambda place: False, lambda place: True, lambda place: place % 2 == 0, lambda place: chosen.setdefault(place, drawn.random() < 0.5)]


def lines_of(drawn, count):
    """So many of the first lines, so that fences meet, each with eight words, of which some are zero."""
    numbers = sorted(drawn.sample(range(count + 1), count))
    return [(number, [drawn.choice((0, drawn.randrange(1, 2 ** 64))) for _ in range(8)]) for number in numbers]


def new_file():
    return PageCache({place: word for place, word in enumerate(SHAPE.head(0), SHAPE.head_at) if word})


class Stop(Exception):
    """A call was the last one."""


class Life:
    """A device over a file from its opening on, and what a cut at each call may leave."""

    def __init__(self, file, images, seed, ended=lambda kind: False, reads=opened):
        self.file, self.seed, self.ended, self.reads = file, seed, ended, reads
        # the images at the last sync and at each fence since; and that of a fence on its way
        self.images, self.next = [dict(image) for image in images], None
        self.wrong = []

    def ask(self, calls):
        for call in calls:
            kind = "write" if call else "sync"
            if self.ended(kind):
                raise Stop
            if call:
                self.file.write(*call)
            else:
                self.file.sync()
            self.look()

    def play(self, device, fences, drawn):
        """Fences of so many lines, and a sync."""
        for count in fences:
            lines = lines_of(drawn, count)
            self.next = dict(self.images[-1])
            put(self.next, lines)
            self.ask(device.fence(lines))
            self.images.append(self.next)
            self.next = None
        self.ask(device.sync())
        del self.images[:-1]
        self.look()

    def look(self):
        """Cuts the power here, in each way."""
        for picks in (*picks_of(self.seed), *self.halves()) if self.file.dirty else picks_of(self.seed)[:1]:
            left = self.reads(self.file.after_a_cut(picks), SHAPE)
            if not self.may_be(left):
                self.wrong.append(left)

    def halves(self):
        """What waits came to the disk from its first word on, up to the middle, or from there on."""
        waiting = self.file.waiting
        middle = waiting[len(waiting) // 2] if waiting else 0
        return [lambda place: place < middle, lambda place: place >= middle]

    def may_be(self, left):
        """What is stored for a fence may come to the disk before it, word by word; so what is left may be between two images that follow one another."""
        following = [*self.images, self.next or self.images[-1]]
        return any(is_between(left, *pair) for pair in zip(following, following[1:]))


def is_between(left, old, new):
    """Whether each word is that of one of them."""
    return all(left.get(place, 0) in (old.get(place, 0), new.get(place, 0)) for place in {*left, *old, *new})


def first_life(make, last, brings, reads=opened):
    """Until its call with this number: before it the process is killed, or, where `brings` is given, it is a sync that fails and brings those words. Gives the
    life, or None where it has no such call, or one that does not fail."""
    drawn, file = random.Random("first"), new_file()
    asked = 0

    def ended(kind):
        nonlocal asked
        asked += 1
        if asked == last and kind == "sync" and brings:
            life.file.fail_sync(brings)
        return asked == last and (kind == "sync" or not brings)

    life = Life(file, [{}], last, ended, reads)
    device = make(SHAPE, {}, 0)
    try:
        for fences in FIRST:
            life.play(device, fences, drawn)
    except Stop:
        return life
    return None


def second_life(first, make, opening, forgets, reads=opened):
    """What is found wrong where the file is opened again, and a device goes on from what was read."""
    file = first.file.copy()
    file.forget(forgets)
    read = reads(file.cached, SHAPE)
    if not first.may_be(read):
        return [*first.wrong, read]
    life = Life(file, [*first.images, read], first.seed, reads=reads)
    life.next = first.next
    opened_again = opening(SHAPE, file.cached, make)
    opened_again.device.image = dict(read)
    life.ask(opened_again.calls())
    life.images, life.next = [read], None
    life.look()
    drawn = random.Random("later")
    for fences in LATER:
        life.play(opened_again.device, fences, drawn)
    return first.wrong + life.wrong


def wrong_of(make=Device, opening=Opening, reads=opened):
    """Of each end of the first life, what is found wrong by then and after it."""
    number, ends = 1, 0
    while first := first_life(make, number, None, reads):
        for brings in (None, *picks_of(number)):
            first = first_life(make, number, brings, reads)
            if first:
                ends += 1
                for forgets in (picks_of(number)[0], picks_of(number)[3]):
                    yield from second_life(first, make, opening, forgets, reads)
        number += 1
    assert ends > 80, ends


class TellsTooEarly(Device):
    """A sync is answered before what was sealed is there."""

    def sync(self):
        yield from list(super().sync())[:1]


class PlacesTooEarly(Device):
    """Lines are put in place before their records are durable."""

    def fence(self, lines):
        put(self.image, lines)
        if self.has_room(plain_journal.sealed(lines)):
            yield from self.lines_in_place(number for number, _ in lines)
        yield from super().fence(lines)


class BeginsWithoutASync(Device):
    """The records of a generation are written before its head is synced."""

    def begin_next(self):
        yield from list(super().begin_next())[:1]


class BeginsTooEarly(Device):
    """A generation begins before the lines of the old one are in place."""

    def checkpoint(self):
        yield from [call for call in super().checkpoint() if call is None or call[0] >= SHAPE.head_at]


class WritesOverRecords(Device):
    """The part that was in use is not filled with zeros."""

    def checkpoint(self):
        yield from list(super().checkpoint())[:-1]


def to_the_end(words, shape):
    """Records are taken behind one that does not pass, too."""
    def all_records(part, most):
        records, at = [], 0
        while at < len(part):
            found = plain_journal.first_record(part[at:], most)
            if found:
                records.append(found[0])
            at += found[1] if found else 1
        return records, at
    return opened(words, shape, all_records)


def the_last_first(words, shape):
    """Records are replayed in another order."""
    def turned(part, most):
        records, used = records_in(part, most)
        return records[::-1], used
    return opened(words, shape, turned)


class OpensByReading(Opening):
    """Nothing is written back before lines are put in place."""

    def write_back(self):
        yield None


class LeavesTheOtherPart(Opening):
    """The other part gets no zeros before the next generation begins in it."""

    def calls(self):
        other = self.shape.part_at(self.device.generation + 1)
        yield from (call for call in super().calls() if call is None or call[0] != other or any(call[1]))


class Journals(common.Cases):
    """A device whose journal is cut at any call."""

    def test_records(self):
        """A record passes whole, and not where any words of it are lost."""
        drawn = random.Random("records")
        for count in (1, 2, 5):
            lines = lines_of(drawn, count)
            words = plain_journal.sealed(lines)
            with self.case("record", lines=count):
                self.assertEqual(records_in([*words, *words, *(7 * [0])], SHAPE.lines), ([lines, lines], 2 * len(words)))
                for _ in range(200):
                    left = [word if drawn.random() < 0.8 else 0 for word in words]
                    self.assertEqual(records_in(left, SHAPE.lines)[0], [lines] if left == words else [])

    def test_each_call(self):
        """After each cut an opening finds all that was synced, and of what was fenced since some first fences, whole; and so after a kill or a failed sync, and
        an opening of what was cached."""
        self.assertEqual(sum(1 for _ in wrong_of()), 0)

    def test_openings_cut_short(self):
        """An opening that ends at any of its calls, by a kill or a power cut, is followed by one that finds what it found."""
        number, wrong, ends = 1, [], 0
        while first := first_life(Device, number, None):
            read, calls = opened(first.file.cached, SHAPE), list(Opening(SHAPE, first.file.cached).calls())
            for last in range(len(calls) + 1):
                file = first.file.copy()
                life = Life(file, [*first.images, read], number)
                life.next = first.next
                life.ask(calls[:last])
                for again in (file, *(PageCache(file.after_a_cut(picks)) for picks in (*picks_of(number), *life.halves()))):
                    ends += 1
                    found = opened(again.cached, SHAPE)
                    wrong += [] if life.may_be(found) else [found]
                    # (after a kill the disk may still hold an earlier one)
                    second = Life(again, [*first.images, read, found] if again is file else [found], number)
                    second.next = first.next if again is file else None
                    second.ask(Opening(SHAPE, again.cached).calls())
                    wrong += second.wrong if found == opened(again.cached, SHAPE) else [found]
                wrong += life.wrong
            number += 5
        self.assertEqual(wrong, [])
        self.assertGreater(ends, 1_000)

    def test_wrong_orders(self):
        """Each other order of the steps is found out by some cut."""
        for make in (TellsTooEarly, PlacesTooEarly, BeginsWithoutASync, BeginsTooEarly, WritesOverRecords):
            with self.case(make.__name__):
                self.assertTrue(any(True for _ in wrong_of(make)))
        for opening in (OpensByReading, LeavesTheOtherPart):
            with self.case(opening.__name__):
                self.assertTrue(any(True for _ in wrong_of(opening=opening)))
        for reads in (to_the_end, the_last_first):
            with self.case(reads.__name__):
                self.assertTrue(any(True for _ in wrong_of(reads=reads)))
