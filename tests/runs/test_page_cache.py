"""What a node's calls on its file leave where the page cache forgets: a sync fails or the process is killed between any two calls, the node opens the
file again, goes on, and then the power is cut. The calls are those of the plain writer of images: of a commit its bodies, the record and the root, each
with a sync behind it. No program runs: what `FilePmem` asks of a file is proved, and what a system makes of that is the model page_cache."""

import copy
import functools
import random

import common
from page_cache import PageCache
from plain_image import LAYOUT, PRIMARY, WORDS_OF_LINE, BadImage, Words, read_image
from plain_keyspace import Drop, Put
from plain_writer import Writer

PROGRAMS = []

LINES, BLOCK_WORDS = 4_096, 8 * 1_024
SLOTS = {LAYOUT.slot_word(LINES, number) for number in (0, 1)}

FIRST = [[Put((b"a",), b"1")], [Put((b"b",), 100 * b"2")], [Put((b"a",), b"3"), Put((b"h", b"f"), b"4")]]
LATER = [[Put((b"a",), b"5"), Put((b"c",), 200 * b"6")], [Drop((b"b",)), Put((b"h", b"g"), b"7")]]


class Recorded(Writer):
    """A writer that keeps what it stores, in order."""

    def __init__(self):
        self.stored = []
        super().__init__(LINES, PRIMARY)

    def _put(self, at, words):
        words = list(words)
        self.stored.append((at, words))
        super()._put(at, words)

    def stages(self, does):
        """What the writer stores where it does this, as the lists of writes between syncs."""
        self.stored = []
        does()
        bodies, stages = [], []
        for at, words in self.stored:
            if at in SLOTS and len(words) == LAYOUT.record_words or at == LAYOUT.root_word:
                stages += [bodies] if bodies else []
                stages, bodies = [*stages, [(at, words)]], []
            else:
                bodies.append((at, words))
        return stages

    @property
    def state(self):
        return state_of(self.words)


def state_of(words):
    """The position and the map of an image, or why there is none."""
    return _state_of(frozenset(words.items()))


@functools.cache
def _state_of(words):
    try:
        image = read_image(Words(LINES, dict(words)))
    except BadImage as why:
        return str(why)
    return image.record.position, tuple(sorted(image.map.items()))


def picks_of(seed):
    drawn = random.Random(f"picks {seed}")
    chosen = {}
    return [lambda place: False, lambda place: True, lambda place: place % 2 == 0, lambda place: chosen.setdefault(place, drawn.random() < 0.5)]


class Life:
    """A node over a file, from an image that is all there: it plays groups, and what a cut at each call may leave is looked at."""

    def __init__(self, file, writer, seed):
        self.file, self.writer, self.seed = file, writer, seed
        # what may be found after a cut: what was answered last, and what is on its way
        self.answered, self.allowed = writer.state, {writer.state}
        self.found = []

    def play(self, does, ended=lambda kind: False):
        """A commit or a reopening, until `ended` says of a call that it is the last one, which may have been a sync that failed. Gives whether it
        ended before."""
        stages = self.writer.stages(does)
        self.allowed = {self.answered, self.writer.state}
        for writes in stages:
            if ended("write"):
                return True
            for at, words in writes:
                self.file.write(at, words)
            self.look()
            if ended("sync"):
                return True
            self.file.sync()
        self.answered, self.allowed = self.writer.state, {self.writer.state}
        self.look()
        return False

    def look(self):
        """Cuts the power here, in each way."""
        for picks in picks_of(self.seed) if self.file.dirty else picks_of(self.seed)[:1]:
            state = state_of(self.file.after_a_cut(picks))
            if state not in self.allowed:
                self.found.append(state)


def write_all_back(life):
    for at in range(0, WORDS_OF_LINE * LINES, BLOCK_WORDS):
        life.file.write_back(at, BLOCK_WORDS)
        life.look()


def wholly(life):
    """Each block is written back as it was read, and then the file is synced."""
    write_all_back(life)
    life.file.sync()


def after_a_failure(life):
    """The same, where the sync fails at first: the node is refused, and opens the file once more."""
    write_all_back(life)
    life.file.fail_sync(picks_of(life.seed)[3])
    wholly(life)


def by_reading(life):
    """What must not do."""


def by_a_sync(life):
    """What must not do: a sync brings nothing that is marked as brought."""
    life.file.sync()


def by_writing(life):
    """What must not do: nothing that was written back is sure."""
    write_all_back(life)


def first_life(last, brings):
    """Until its call with this number: before it the process is killed, or, where `brings` is given, it is a sync that fails and brings those words. Gives
    the life and the writer as it was before and after what was on its way, or None where it has no such call, or one that does not fail."""
    writer = Recorded()
    life, asked = Life(PageCache(writer.words), writer, last), 0

    def ended(kind):
        nonlocal asked
        asked += 1
        if asked == last and kind == "sync" and brings:
            life.file.fail_sync(brings)
        return asked == last and (kind == "sync" or not brings)

    for changes in FIRST:
        before = copy.deepcopy(writer)
        if life.play(lambda: writer.commit([changes]), ended):
            return life, [before, writer]
    return None


def second_life(first, writers, reopening, forgets):
    """What is found wrong where the file is opened again, and a node goes on from what was read."""
    file = first.file.copy()
    file.forget(forgets)
    read = state_of(file.cached)
    writer = next((copy.deepcopy(writer) for writer in writers if writer.state == read), None)
    if writer is None:
        return [read]
    life = Life(file, writer, first.seed)
    life.allowed = {writer.state for writer in writers}
    reopening(life)
    writer.crash()
    life.play(writer.reopen)
    for changes in LATER:
        life.play(lambda: writer.commit([changes]))
    return first.found + life.found


class PageCaches(common.Cases):
    """A node that is opened again over a file whose cache and disk differ."""

    def faults(self):
        """Each end of the first life."""
        number = 1
        while ended := first_life(number, None):
            yield f"killed at call {number}", number, *ended
            for name, brings in zip(("none", "all", "every other", "drawn"), picks_of(number)):
                failed = first_life(number, brings)
                if failed:
                    yield f"the sync at call {number} fails, and brings: {name}", number, *failed
            number += 1

    def wrong(self, reopening):
        """Of each end of the first life, what is found wrong after it."""
        for name, number, first, writers in self.faults():
            yield name, [state for forgets in (picks_of(number)[0], picks_of(number)[3]) for state in second_life(first, writers, reopening, forgets)]

    def test_what_is_written_back(self):
        """After each cut the image is whole: what was answered, or that with what was on its way."""
        for reopening in (wholly, after_a_failure):
            found = dict(self.wrong(reopening))
            # three commits of three stages, each a write and a sync; a sync fails in four ways
            self.assertEqual(len(found), 18 + 4 * 9)
            for name, states in found.items():
                with self.case(reopening.__name__, end=name):
                    self.assertEqual(states, [])

    def test_what_is_not_written_back(self):
        """Without the writing back, or the sync behind it, the image is damaged, or an answered commit is lost."""
        for reopening in (by_reading, by_a_sync, by_writing):
            with self.case(reopening.__name__):
                states = [state for _, found in self.wrong(reopening) for state in found]
                # (which rule is broken depends on the draws)
                self.assertTrue(any(isinstance(state, str) and state.startswith("refusal 7: ") for state in states))
                self.assertTrue(any(not isinstance(state, str) for state in states))
