"""A file with a page cache that forgets, word by word, as crates/pmem_file/specs/PageCache.antt has it: what the disk holds, what a read gives, and
which words wait to be brought to the disk. A sync that fails marks them as brought and keeps what was written (Linux); a process that ends changes
nothing; a power cut leaves what the disk holds, and of each word that waits the old value or the new one, by a pick."""


class PageCache:
    """Words that are zero are not kept."""

    def __init__(self, words):
        self.disk, self.cached, self.dirty = dict(words), dict(words), set()

    def copy(self):
        other = PageCache({})
        other.disk, other.cached, other.dirty = dict(self.disk), dict(self.cached), set(self.dirty)
        return other

    def write(self, at, words):
        for place, word in enumerate(words, at):
            _set(self.cached, place, word)
            self.dirty.add(place)

    def write_back(self, at, count):
        """Writes what is cached of so many words. (One that is zero in the cache and on the disk stays so, and need not wait.)"""
        self.dirty.update(place for place in self.disk.keys() | self.cached.keys() if at <= place < at + count)

    def sync(self):
        self._bring(lambda place: True)
        self.dirty.clear()

    def fail_sync(self, brings):
        """Brings the words that are picked, and marks all as brought."""
        self._bring(brings)
        self.dirty.clear()

    def forget(self, picks):
        """Some of the words that do not wait are read from the disk when they are asked for next."""
        for place in (self.disk.keys() | self.cached.keys()) - self.dirty:
            if picks(place):
                _set(self.cached, place, self.disk.get(place, 0))

    def after_a_cut(self, brings):
        """The words that a power cut leaves: of those that wait the ones that are picked were brought."""
        left = self.copy()
        left._bring(brings)
        return left.disk

    @property
    def waiting(self):
        """The words that wait with another value than the disk has, in rising order."""
        return sorted(place for place in self.dirty if self.disk.get(place, 0) != self.cached.get(place, 0))

    def _bring(self, picks):
        for place in self.dirty:
            if picks(place):
                _set(self.disk, place, self.cached.get(place, 0))


def _set(words, place, word):
    if word:
        words[place] = word
    else:
        words.pop(place, None)
