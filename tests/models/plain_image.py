"""Images as words, from docs/image.md: their layout, and a reader that checks each rule of a whole image."""

import dataclasses
import typing

from plain_keyspace import Put

# What each part is in both versions, in words of 64 bits and lines of 8 words.
WORDS_OF_LINE = 8
LEAST_LINES, MOST_LINES = 4_096, 2**31
MAGIC = int.from_bytes(b"WBLIMG01", "little")
DIRECTORY_LINE = 8
# Of the superblock: the number of the pair, 0 if there is none yet.
PAIR_WORD = 6
GAPS_WORD = 6
STAMPS_BETWEEN_RECORDS = 4_097
BOUND = 2**62
PRIMARY, STANDBY, NEWCOMER = 1, 2, 3
STRING, FIELD = 1, 2
MOST_KEY_BYTES, MOST_VALUE_BYTES = 512, 1_048_576
LENGTH_SHIFT = 65_536


class Layout(typing.NamedTuple):
    """What is other in each version: the word of the superblock that names the current record, how many lines a record slot has, whether the slots are behind
    the directory, how many gaps a record holds, and how many of the last entries it has not."""

    version: int
    root_word: int
    slot_lines: int
    slots_are_behind: bool
    most_gaps: int
    lacks: int

    def entries(self, lines):
        """How many entries an image of so many lines has."""
        return lines // 8 - self.lacks

    def slot_line(self, lines, number):
        """The first line of the slot of the record of this number."""
        return (DIRECTORY_LINE + self.entries(lines) if self.slots_are_behind else 1) + self.slot_lines * (number % 2)

    def slot_word(self, lines, number):
        return self.slot_line(lines, number) * WORDS_OF_LINE

    @property
    def role_word(self):
        """The word of a record that has its role, behind the gaps. That of its floor follows, and no other."""
        return GAPS_WORD + 2 * self.most_gaps

    @property
    def record_words(self):
        return self.role_word + 2


VERSION_1 = Layout(version=1, root_word=4, slot_lines=3, slots_are_behind=False, most_gaps=8, lacks=0)
VERSION_2 = Layout(version=2, root_word=5, slot_lines=9, slots_are_behind=True, most_gaps=32, lacks=18)
# An image that a crash left between the two.
HALFWAY = VERSION_1._replace(version=3, lacks=VERSION_2.lacks)
LAYOUTS = {layout.version: layout for layout in (VERSION_1, VERSION_2, HALFWAY)}
# That of new images, and of those that are served.
LAYOUT = VERSION_2

# "The way of a group" of docs/replication.md: a standby keeps its last lines free, as many as the longest version has. With so many lines more than its primary
# it always makes room: seven of eight of them are lines of extents, and at least as many as the spare place has.
SPARE_LINES = (2 * MOST_KEY_BYTES + MOST_VALUE_BYTES) // 64
MORE_LINES = 18_744

# docs/refusals.md: those of an image that is read.
WRONG_SIZE, BAD_MAGIC, BAD_VERSION, DAMAGED = 4, 2, 3, 7


class BadImage(Exception):
    """No whole image: the number of the refusal, and the rule that is broken."""

    def __init__(self, number, rule):
        super().__init__(f"refusal {number}: {rule}")
        self.number = number


class Record(typing.NamedTuple):
    """The record that counts."""

    number: int
    position: int
    cp: int
    cd: int
    epoch: int
    gaps: tuple
    role: int
    layout: Layout = LAYOUT
    floor: int = 0

    def told(self):
        """What of it does not depend on how room was made."""
        return self.position, self.epoch, self.role

    def counts(self, stamp):
        return 1 <= stamp <= self.cp and not any(first <= stamp <= last for first, last in self.gaps)


class Version(typing.NamedTuple):
    """A version whose begin counts: of which record, with which value, the position at which it was put, and whether its end counts."""

    name: tuple
    value: bytes
    position: int
    has_ended: bool


class Versions(typing.NamedTuple):
    """The entries of an image: those whose begin counts, each with its end, or 0 where that does not count; and the others that were
    begun."""

    counted: list
    gapped: list


class Entry(typing.NamedTuple):
    """The entry of one version, in the order of its words."""

    begin: int
    end: int
    position: int
    line: int
    lines: int
    kind: int
    key_lengths: int
    value_length: int


@dataclasses.dataclass
class Image:
    """A whole image: its record, its map from (key,) or (key, field) to values, and the number of its pair."""

    record: Record
    map: dict
    pair: int = 0


class Words:
    """The words of a device of `lines` lines, by their indices. Those that are not given are zero."""

    def __init__(self, lines, words):
        self.lines = lines
        self.words = words

    def slice(self, at, count):
        return [self.words.get(place, 0) for place in range(at, at + count)]

    def line(self, line):
        return self.slice(line * WORDS_OF_LINE, WORDS_OF_LINE)

    def bytes(self, line, count):
        words = self.slice(line * WORDS_OF_LINE, -(-count // 8))
        return b"".join(word.to_bytes(8, "little") for word in words)[:count]


def read_image(device, layout=LAYOUT):
    """The image of this layout on a device. BadImage where there is none, with the first refusal that docs/image.md names."""
    if not LEAST_LINES <= device.lines <= MOST_LINES:
        raise BadImage(WRONG_SIZE, "number of lines")
    magic, version, lines, room = device.slice(0, 4)
    if magic != MAGIC:
        raise BadImage(BAD_MAGIC, "magic")
    if version != layout.version:
        raise BadImage(BAD_VERSION, "version")
    if lines != device.lines:
        raise BadImage(WRONG_SIZE, "lines in the superblock")
    _whole(room == device.lines // 8, "word 3 of the superblock")
    record = _read_record(device, layout)
    return Image(record, _read_map(device, record, _read_entries(device, layout)), *device.slice(PAIR_WORD, 1))


def read_versions(device, record):
    """The entries of a whole image under its record."""
    counted, gapped = [], []
    for number, entry in enumerate(_read_entries(device, record.layout)):
        if record.counts(entry.begin):
            counted.append((number, entry.end if record.counts(entry.end) else 0))
        elif entry.begin:
            gapped.append(number)
    return Versions(counted, gapped)


def placed(device, number):
    """The name of the version in this entry, and the first line and the number of lines of its extent."""
    entry = Entry(*device.line(DIRECTORY_LINE + number))
    key_length, field_length = entry.key_lengths % LENGTH_SHIFT, entry.key_lengths // LENGTH_SHIFT
    data = device.bytes(entry.line, key_length + field_length)
    name = (data,) if entry.kind == STRING else (data[:key_length], data[key_length:])
    return name, (entry.line, entry.lines)


def versions_on(device, layout=LAYOUT):
    """What the versions of a whole image are."""
    record = read_image(device, layout).record
    counted = [entry for entry in _read_entries(device, layout) if record.counts(entry.begin)]
    return [Version(*_read_version(device, record, entry), entry.position, record.counts(entry.end)) for entry in counted]


def free_lines(device, record):
    """The lines of extents that no version has, also none that has ended."""
    taken = set()
    for entry in _read_entries(device, record.layout):
        if record.counts(entry.begin):
            taken.update(range(entry.line, entry.line + entry.lines))
    return [line for line in range(extents_begin(device.lines), device.lines) if line not in taken]


def free_entries(device, layout=LAYOUT):
    return [number for number, entry in enumerate(_read_entries(device, layout)) if entry.begin == 0]


def _read_entries(device, layout):
    return [Entry(*device.line(DIRECTORY_LINE + entry)) for entry in range(layout.entries(device.lines))]


def record_words(record):
    """The words of a record in its slot."""
    flat = [bound for gap in record.gaps for bound in gap]
    head = [record.number, record.position, record.cp, record.cd, record.epoch, len(record.gaps)]
    return [*head, *flat, *[0] * (2 * record.layout.most_gaps - len(flat)), record.role, record.floor]


def record_in_place(lines, record):
    """The words of a record in its slot, and the root, by their indices."""
    slot = record.layout.slot_word(lines, record.number)
    return {record.layout.root_word: record.number} | dict(enumerate(record_words(record), slot))


def copied(record, position):
    """The record by which a newcomer's copy counts: all of it has the one stamp above the newcomer's last."""
    cp = record.cp + 1
    return record._replace(number=record.number + 1, position=position, cp=cp, cd=cp + STAMPS_BETWEEN_RECORDS, role=STANDBY)


def without_oldest_gap(record):
    """The record that clearing a gap writes."""
    return record._replace(number=record.number + 1, gaps=record.gaps[1:])


def reopened(record):
    """The records that a reopening writes, one after another."""
    written = [without_oldest_gap(record)] if len(record.gaps) == record.layout.most_gaps else []
    last = written[-1] if written else record
    gaps = (*last.gaps, (last.cp + 1, last.cd - 1))
    cd = last.cd + STAMPS_BETWEEN_RECORDS
    return [*written, last._replace(number=last.number + 1, cp=last.cd, cd=cd, gaps=gaps)]


def _whole(holds, rule):
    if not holds:
        raise BadImage(DAMAGED, rule)


def _read_record(device, layout):
    root = device.slice(layout.root_word, 1)[0]
    words = device.slice(layout.slot_word(device.lines, root), layout.record_words)
    number, position, cp, cd, epoch, count = words[:GAPS_WORD]
    bounds, (role, floor) = words[GAPS_WORD:layout.role_word], words[layout.role_word:]
    pairs = list(zip(bounds[::2], bounds[1::2]))
    _whole(number == root and 1 <= number < BOUND, "number of the record")
    _whole(position < BOUND, "position")
    _whole(cd == cp + STAMPS_BETWEEN_RECORDS and cd < BOUND, "cp and cd")
    _whole(1 <= epoch < BOUND, "epoch")
    _whole(count <= layout.most_gaps and not any(map(any, pairs[count:])), "number of gaps")
    _whole(role in (PRIMARY, STANDBY, NEWCOMER), "role")
    _whole(role != NEWCOMER or position == 0, "position of a newcomer")
    before = 0
    for first, last in pairs[:count]:
        _whole(before < first <= last < cp, "gap")
        before = last
    return Record(number, position, cp, cd, epoch, tuple(pairs[:count]), role, layout, floor)


def _read_map(device, record, versions):
    """The versions whose begin counts and whose end does not."""
    found, taken = {}, []
    for entry in versions:
        _whole(max(entry.begin, entry.end) < record.cd, "stamp at cd or above")
        if record.counts(entry.begin):
            _whole(record.role != NEWCOMER, "version of a newcomer")
            name, value = _read_version(device, record, entry)
            taken.append((entry.line, entry.line + entry.lines))
            if not record.counts(entry.end):
                _whole(name not in found, "two live versions of one record")
                found[name] = value
    taken.sort()
    _whole(all(end <= start for (_, end), (start, _) in zip(taken, taken[1:])), "extents that overlap")
    hashes = {name[0] for name in found if len(name) == 2}
    _whole(not any(name == (name[0],) and name[0] in hashes for name in found), "a string and a field of one key")
    return found


def _read_version(device, record, entry):
    key_length, field_length = entry.key_lengths % LENGTH_SHIFT, entry.key_lengths // LENGTH_SHIFT
    length = key_length + field_length + entry.value_length
    _whole(entry.kind in (STRING, FIELD) and (entry.kind == FIELD or field_length == 0), "kind")
    _whole(max(key_length, field_length) <= MOST_KEY_BYTES and entry.value_length <= MOST_VALUE_BYTES, "lengths")
    _whole(entry.lines == lines_of(length), "number of lines of an extent")
    _whole(extents_begin(device.lines) <= entry.line and entry.line + entry.lines <= device.lines, "place of an extent")
    _whole(entry.position <= record.position, "position of a version")
    data = device.bytes(entry.line, length)
    key, field, value = data[:key_length], data[key_length:key_length + field_length], data[key_length + field_length:]
    return ((key,) if entry.kind == STRING else (key, field)), value


def lines_of(length):
    """How many lines `length` bytes take: at least one."""
    return max(1, -(-length // 64))


def lines_of_puts(changes):
    """How many lines each put among these changes takes."""
    return [lines_of(len(b"".join(change.name)) + len(change.value)) for change in changes if isinstance(change, Put)]


def extents_begin(lines):
    """The first line of extents, in both versions."""
    return DIRECTORY_LINE + lines // 8
