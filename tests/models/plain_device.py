"""A device of words with candidates, from docs/image.md: what a store, a flush and a fence leave of them, a fence that fails, and a crash, also one that comes
back to the candidates as they were in the middle of a call."""

import copy
import itertools

from plain_image import WORDS_OF_LINE


class Fault(Exception):
    """A fence failed."""


class Device:
    """`words` has the newest value of each word that is not zero."""

    def __init__(self):
        self.words = {}
        self.fences = 0
        # which fence fails, counted from the next one; 0: none
        self.fail_in = 0
        # what was asked since a fence left one candidate of each word: stores, each with the values before it, and flushes
        self._asked = []
        self._calls_to_keep, self._kept = None, None

    def store(self, at, words):
        """Stores these words, one after another."""
        if self._calls_to_keep is not None and len(words) > 1:
            for place, word in enumerate(words, at):
                self.store(place, [word])
            return
        places = range(at, at + len(words))
        self._asked.append(("store", places, [self.words.get(place, 0) for place in places]))
        for place, word in zip(places, words):
            if word:
                self.words[place] = word
            else:
                self.words.pop(place, None)
        self._called()

    def flush(self, line):
        self._asked.append(("flush", line, None))
        self._called()

    def fence(self):
        self.fences += 1
        fails = self.fail_in == 1
        self.fail_in = max(self.fail_in - 1, 0)
        if not fails:
            older = {} if self._is_all_flushed() else self.older()
            left = ((word, [value for value, is_noted in held if not is_noted]) for word, held in older.items())
            self._asked = [("store", range(word, word + 1), [value]) for word, values in left for value in values]
        self._called()
        if fails:
            raise Fault

    def older(self):
        """Of each word the candidates before its newest value, oldest first, each with whether a flush noted a newer one since."""
        older = {}
        for kind, place, values in self._asked:
            if kind == "store":
                for word, value in zip(place, values):
                    older.setdefault(word, []).append([value, False])
            else:
                for word in range(place * WORDS_OF_LINE, (place + 1) * WORDS_OF_LINE):
                    for candidate in older.get(word, ()):
                        candidate[1] = True
        return older

    def keep(self, calls):
        """The next crash picks from the candidates as they are after so many more stores, flushes and fences, if so many are made."""
        self._calls_to_keep, self._kept = calls, None
        self._keep_if_due()

    def crash(self, picks):
        """The i-th word that has several candidates, in rising order, keeps the one that the i-th pick names, and the oldest past the last pick."""
        if self._kept is not None:
            words, self._asked = self._kept
            self.words.clear()
            self.words.update(words)
        older = self.older()
        for word, pick in zip(sorted(older), itertools.chain(picks, itertools.repeat(0))):
            candidates = [*(value for value, _ in older[word]), self.words.pop(word, 0)]
            if value := candidates[pick % len(candidates)]:
                self.words[word] = value
        self.settle()

    def settle(self):
        """Each word has its newest value alone."""
        self._asked = []
        self._calls_to_keep, self._kept = None, None

    def _is_all_flushed(self):
        """Whether each line was flushed behind the last store to it."""
        waiting = set()
        for kind, place, _ in self._asked:
            if kind == "store":
                waiting.update(range(place[0] // WORDS_OF_LINE, place[-1] // WORDS_OF_LINE + 1) if place else ())
            else:
                waiting.discard(place)
        return not waiting

    def _called(self):
        if self._calls_to_keep is not None:
            self._calls_to_keep -= 1
            self._keep_if_due()

    def _keep_if_due(self):
        if self._calls_to_keep == 0:
            self._kept = dict(self.words), copy.copy(self._asked)
