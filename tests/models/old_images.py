"""Images of version 1, as an older release left them, also with versions in the last entries, which version 2 has not; and what of an image is to stay where it
comes to version 2 (docs/server.md, "From version 1 of the format to version 2")."""

import typing

from plain_image import LAYOUTS, PRIMARY, STANDBY, VERSION_1, VERSION_2, Words, read_image, versions_on
from plain_keyspace import Drop, DropKey, Put
from plain_writer import Writer

LINES = 4_096
# The entries that version 2 keeps, and those that it does not.
KEPT = VERSION_2.entries(LINES)
LAST = VERSION_1.entries(LINES) - KEPT
# As many changing commands as a group has.
GROUP = 64


class OldWriter(Writer):
    """A writer of an image of version 1."""

    def __init__(self, role=PRIMARY, lines=LINES):
        super().__init__(lines, role, layout=VERSION_1)

    @property
    def kept(self):
        return VERSION_2.entries(self.lines)

    def commit_last(self, calls):
        """A group whose versions take the last entries."""
        kept = [entry for entry in self.room.entries if entry < self.kept]
        self.room.entries = sorted(set(self.room.entries) - set(kept))
        self.commit(calls)
        self.room.entries = sorted(kept + self.room.entries)

    def fill(self, count, value=b"v", name="k"):
        """So many keys that are new."""
        for first in range(0, count, GROUP):
            self.commit([[Put((f"{name}{number}".encode(),), value)] for number in range(first, min(first + GROUP, count))])

    def commit_in_part(self, calls, last=False):
        """A group that a crash cuts before its record: all of its versions are in the image, and none counts. The image is opened again then."""
        record = self.record
        (self.commit_last if last else self.commit)(calls)
        self.record = record
        self._put_record()
        self.device.settle()
        self.read()
        self.reopen()

    def last_entries(self):
        """Of the last entries, how many have a version that is live, that has ended, and that lies in a gap."""
        return [sum(entry >= self.kept for entry in held) for held in (self.live, self.ended, self.gapped)]


class Held(typing.NamedTuple):
    """What an image holds and keeps: of its record the position, the epoch and the role; the map; and each version once, as what was put and at which position.
    (One that has ended is in no map, and a standby that is behind is told of it.)"""

    record: tuple
    map: dict
    versions: set


def held(lines, words):
    """The version of an image, its record, and what it holds."""
    device, layout = Words(lines, words), LAYOUTS[words.get(1, 0)]
    image = read_image(device, layout)
    versions = {(version.name, version.value, version.position) for version in versions_on(device, layout)}
    return layout, image.record, Held(image.record.told(), image.map, versions)


def with_gaps():
    """Two gaps, with what a commit left in each that was cut: versions and ends, some of them in the last entries; and of three versions in the last entries
    one has ended."""
    writer = OldWriter()
    writer.commit([[Put((b"a",), b"1")], [Put((b"b",), b"2")]])
    writer.commit_last([[Put((b"c",), b"3")], [Put((b"d",), b"4")], [Put((b"e",), 100 * b"5")]])
    writer.commit([[Put((b"d",), b"6")]])
    writer.commit_in_part([[Put((b"a",), b"7")], [DropKey(b"c")], [Put((b"f",), b"8")]], last=True)
    writer.commit_in_part([[Put((b"b",), b"9")], [DropKey(b"e")]])
    return writer


def with_all_last_entries(lines=LINES):
    """As many gaps as a record of version 1 holds, and something in each of the last entries, of a standby."""
    writer = OldWriter(STANDBY, lines)
    writer.fill(20)
    writer.commit_last([[Put((f"l{number}".encode(),), 70 * b"1") for number in range(LAST - 4)]])
    writer.commit([[DropKey(f"l{number}".encode()) for number in range(0, LAST - 4, 2)], [DropKey(b"k3")]])
    writer.commit_in_part([[Put((f"g{number}".encode(),), b"2") for number in range(4)]], last=True)
    while len(writer.record.gaps) < VERSION_1.most_gaps:
        writer.reopen()
    return writer


def with_hashes():
    """Fields of two hashes in the last entries and elsewhere, of which some have ended, and a string that was a hash."""
    writer = OldWriter()
    fields = [Put((key, b"f%d" % number), b"%d" % number) for number in range(3) for key in (b"h", b"i", b"j")]
    writer.commit([fields])
    writer.commit_last([[Put((b"h", b""), b"")], [Put((b"", b"f"), b"1")], [Put((b"h", b"g"), b"2"), Put((b"i", b"g"), b"3")], [Put((b"i", b"f1"), b"4")]])
    writer.commit_last([[Drop((b"h", b"f1"))], [DropKey(b"j"), Put((b"j",), b"5")], [Put((b"i", b"g"), b"6")]])
    writer.reopen()
    return writer


def with_long_values():
    """Values of many lines in the last entries, of which one has ended, with free runs between them that are too short for some."""
    writer = OldWriter()
    writer.commit([[Put((b"first",), 20_000 * b"1")], [Put((b"second",), 10_000 * b"2")]])
    writer.commit_last([[Put((b"third",), 30_000 * b"3")], [Put((b"fourth",), 5_000 * b"4")], [Put((b"fifth",), 19_000 * b"5")]])
    writer.commit([[DropKey(b"first")], [Put((b"fourth",), b"6")]])
    writer.room.give(writer.free([entry for entry in writer.ended if entry < writer.kept]))
    writer.reopen()
    return writer


def with_nothing_last():
    """Nothing is in the last entries."""
    writer = OldWriter()
    writer.commit([[Put((b"a",), b"1")], [Put((b"b",), b"2")], [DropKey(b"a")]])
    return writer


def promoted():
    """A primary's of the second epoch, which was a standby's."""
    writer = OldWriter(STANDBY)
    writer.commit([[Put((b"a",), b"1")], [Put((b"b",), b"2")]])
    writer.commit_last([[Put((b"a",), b"3"), Put((b"c",), b"4")], [Put((b"d",), b"5")]])
    writer.commit_last([[DropKey(b"d")]])
    writer.reopen()
    writer.promote()
    writer.reopen()
    return writer


def without_entries():
    """No entry is free of those that are kept, and there is one version in the last."""
    writer = OldWriter()
    writer.fill(KEPT)
    writer.commit_last([[Put((b"last",), b"1")]])
    return writer


def without_lines():
    """Of the versions in the last entries some find a place, and then a long one does not."""
    writer = OldWriter()
    for number in range(5):
        writer.commit([[Put((b"k%d" % number,), 32_000 * b"v")]])
    writer.commit_last([[Put((b"short",), b"1")], [Put((b"ended",), b"2")], [Put((b"long",), 60_000 * b"3")], [Put((b"other",), b"4")]])
    writer.commit([[DropKey(b"ended")]])
    return writer


def with_one_entry():
    """As many entries are free of those that are kept as there are versions in the last."""
    writer = OldWriter()
    writer.fill(KEPT - 1)
    writer.commit_last([[Put((b"last",), b"1")]])
    return writer


def with_lines_for_one():
    """A run of lines is free that is as long as the version in the last entries, and no more than half as long again."""
    writer = OldWriter()
    for number in range(5):
        writer.commit([[Put((b"k%d" % number,), 32_000 * b"v")]])
    writer.commit_last([[Put((b"long",), 30_000 * b"1")]])
    return writer


# By their names: those that come to version 2; those that have no room for it; and those that have none for a version more.
IMAGES = {
    "empty": OldWriter, "nothing in the last entries": with_nothing_last, "gaps": with_gaps, "each of the last entries": with_all_last_entries,
    "hashes": with_hashes, "long values": with_long_values, "promoted": promoted,
}
WITHOUT_ROOM = {"no entry is free": without_entries, "no run of lines is long enough": without_lines}
JUST_ENOUGH = {"one entry is free": with_one_entry, "lines for one are free": with_lines_for_one}
