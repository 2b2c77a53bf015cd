"""Images that are drawn by seed, with gaps, ended and half-made entries and hashes, and ways to damage them: bits, words and lines that are others
(docs/image.md)."""

from plain_image import DIRECTORY_LINE, LAYOUT, MOST_VALUE_BYTES, PRIMARY, STANDBY, WORDS_OF_LINE, extents_begin, reopened
from plain_writer import Writer
from standby_node import crashed, drawn_change, with_record

LINES = 4_096
# The words of the superblock and of line 1, and those of the records.
HEAD = [*range(2 * WORDS_OF_LINE), *range(LAYOUT.slot_word(LINES, 0), LAYOUT.slot_word(LINES, 1) + LAYOUT.record_words)]
ONES = 2**64 - 1


def drawn_image(draws):
    """The words of an image after some groups and reopenings. Some of what has ended was freed, and perhaps a crash left a group in part."""
    writer = Writer(LINES, draws.choice([PRIMARY, STANDBY]))
    for _ in range(draws.randint(1, 6)):
        writer.commit([[drawn_change(draws) for _ in range(draws.randint(1, 5))] for _ in range(draws.randint(1, 3))])
        if draws.random() < 0.5:
            writer.room.give(writer.free(draws.sample(writer.ended, draws.randint(0, len(writer.ended)))))
        if draws.random() < 0.4:
            writer.reopen()
    words = dict(writer.words)
    if draws.random() < 0.5:
        words = crashed(writer, [drawn_change(draws) for _ in range(4)], draws)
    return with_record(words, reopened(writer.record)[-1]) if draws.random() < 0.5 else words


def drawn_place(draws, words):
    """A word of the superblock or of a record, of an entry, mostly one that was begun, or of an extent, mostly one that holds bytes."""
    first, end = DIRECTORY_LINE * WORDS_OF_LINE, extents_begin(LINES) * WORDS_OF_LINE
    share = draws.random()
    if share < 0.35:
        return draws.choice(HEAD)
    held = [at for at in words if (first <= at < end) == (share < 0.85) and at >= first]
    if held and draws.random() < 0.9:
        return draws.choice(held) // WORDS_OF_LINE * WORDS_OF_LINE + draws.randrange(WORDS_OF_LINE)
    return draws.randrange(first, end) if share < 0.85 else draws.randrange(end, LINES * WORDS_OF_LINE)


def drawn_value(draws, words, before):
    """A word in the place of another."""
    near = lambda value: (value + draws.choice([-1, 1])) % 2**64
    return draws.choice([
        lambda: draws.choice([0, 1, 2, 3, 7, 8, 9, 64, 512, 513, 65_536, MOST_VALUE_BYTES, MOST_VALUE_BYTES + 1, 2**62 - 1, 2**62, 2**63, ONES]),
        lambda: near(before),
        lambda: draws.choice(list(words.values())),
        lambda: near(draws.choice(list(words.values()))),
        lambda: draws.randrange(5_000),
        lambda: draws.getrandbits(64),
    ])()


def bit(draws, words):
    """Another bit."""
    at = drawn_place(draws, words)
    return {at: words.get(at, 0) ^ 1 << draws.randrange(64)}


def word(draws, words):
    """Another word."""
    at = drawn_place(draws, words)
    return {at: drawn_value(draws, words, words.get(at, 0))}


def two_words(draws, words):
    """Two words that changed places."""
    first, second = drawn_place(draws, words), drawn_place(draws, words)
    return {first: words.get(second, 0), second: words.get(first, 0)}


def line(draws, words):
    """A line of another, or one of one value."""
    to, source = (drawn_place(draws, words) // WORDS_OF_LINE * WORDS_OF_LINE for _ in range(2))
    value = draws.choice([None, None, 0, 1, ONES])
    return {to + at: words.get(source + at, 0) if value is None else value for at in range(WORDS_OF_LINE)}


DAMAGE = [bit, word, word, two_words, line]


def drawn_damage(draws, words):
    """The names of one damage to these words, or of some, and the words that are others."""
    names, changed = [], {}
    for _ in range(draws.choice([1, 1, 1, 2, 3])):
        damage = draws.choice(DAMAGE)
        names.append(damage.__name__)
        changed |= damage(draws, words | changed)
    return " and ".join(names), changed
