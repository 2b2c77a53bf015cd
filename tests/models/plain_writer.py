"""A writer of formatting, of commits of groups, of what is freed and cleared, and of reopenings, from docs/image.md, over a device of words with
candidates."""

import plain_image
from plain_device import Device
from plain_image import (DIRECTORY_LINE, FIELD, LAYOUT, LENGTH_SHIFT, MAGIC, PAIR_WORD, PRIMARY, STAMPS_BETWEEN_RECORDS, STRING, WORDS_OF_LINE, Entry, Record,
                         Words, copied, extents_begin, record_words, reopened, without_oldest_gap)
from plain_keyspace import Put
from plain_room import Part, Place, Room, Table

__all__ = ["Part", "Place", "Room", "Table", "Writer"]


class Writer:
    """A new image of this layout and of the pair of this number, to which groups are committed one after another, from which what has ended is freed, and which
    is opened again. Beside it is what its node holds in memory: the free room, and the entry of each record. A primary's is ahead of the image by what waits
    for a commit. `places_may_differ` once a standby may have moved versions or cleared gaps to make room: the places of versions, their stamps, and the
    record's number, stamps and gaps are one way then of many. A fence that fails raises Fault: the image is to crash then."""

    def __init__(self, lines, role, device=None, layout=LAYOUT, pair=0, epoch=1):
        self.lines, self.layout, self.pair = lines, layout, pair
        self.device = device or Device()
        self.record = Record(1, 0, 0, STAMPS_BETWEEN_RECORDS, epoch, (), role, layout)
        # by its entry each version that is not freed: its name and its place
        self._versions = {}
        # the entries of those that have ended, in the order in which they did; of those that an image tells, in rising order
        self._ended = {}
        # entries whose begin lies in a gap, which are in use until that is cleared
        self._gapped = set()
        # by its entry each version of a newcomer's copy, none of which counts yet
        self._staged = {}
        self.places_may_differ = False
        self._format()
        self._fill_memory()

    @property
    def role(self):
        return self.record.role

    @property
    def words(self):
        """The newest value of each word that is not zero."""
        return self.device.words

    @words.setter
    def words(self, words):
        self.device.words = words

    def _format(self):
        """No magic until all else is durable. (Zeros are not stored over zeros.)"""
        self._put(0, [0])
        self._fence([0])
        self._put(1, [self.layout.version, self.lines, self.lines // 8])
        self._put(self.layout.slot_word(self.lines, self.record.number), record_words(self.record))
        self._put(self.layout.root_word, [self.record.number])
        self._fence([*range(DIRECTORY_LINE), *self._slot(self.record)])
        self._put(0, [MAGIC])
        self._fence([0])
        if self.pair:
            self._number(self.pair)

    def crash(self, picks=()):
        """What is in memory is gone. The image is what the picks leave of it, and what is in memory is made anew from that."""
        self.device.crash(picks)
        self.read()

    def read(self):
        """What is in memory is made anew from the image."""
        device = Words(self.lines, self.words)
        image = plain_image.read_image(device, self.layout)
        self.record, self.pair = image.record, image.pair
        self._versions, self._ended, self._staged = {}, {}, {}
        versions = plain_image.read_versions(device, self.record)
        for entry, end in versions.counted:
            name, place = plain_image.placed(device, entry)
            self._versions[entry] = name, Place(entry, *place)
            self._ended |= {entry: None} if end else {}
        self._gapped = set(versions.gapped)
        self._fill_memory()

    def _fill_memory(self):
        self.room = Room(self.lines, [place for _, place in self._versions.values()], self._gapped, self.layout)
        self.table = Table()
        for entry, (name, _) in self._versions.items():
            if entry not in self._ended:
                self.table.put(name, entry)

    @property
    def live(self):
        """The entries of versions that have not ended."""
        return sorted(self._versions.keys() - self._ended.keys())

    @property
    def ended(self):
        """The entries of versions that have ended and are not freed."""
        return sorted(self._ended)

    @property
    def gapped(self):
        """The entries whose begin lies in a gap."""
        return sorted(self._gapped)

    def part(self, changes):
        """These changes as a part, with the places that the room gave since it was asked last."""
        places, self.room.given = tuple(self.room.given), []
        return Part(tuple(changes), places, self.table.play(changes, places))

    def commit(self, calls):
        """One group of these changes, of which there is room for all."""
        parts = []
        for changes in calls:
            if not self.room.take(changes):
                raise ValueError("no room")
            parts.append(self.part(changes))
        self.commit_parts(parts, len(parts))

    def commit_parts(self, parts, positions, freed=(), floor=0):
        """One group of parts that together move the image by so many positions; then the next record and the root. On a primary each part has its own
        stamp and position; on a standby all have one stamp and the position after the group. By the first fence these entries are freed, whose versions have
        ended; gives their places, as `free` does. The record has this floor, if its own is lower."""
        self._erase(freed, 0)
        position, cp = self.record.position, self.record.cp
        stamps = len(parts) if self.role == PRIMARY else 1
        stored = []
        for number, part in enumerate(parts, 1):
            if self.role == PRIMARY:
                stored += self._make(part, cp + number, position + number)
            else:
                stored += self._make(part, cp + 1, position + positions)
        self._fence([*map(line_of_entry, freed), *stored])
        number, position, cp = self.record.number + 1, position + positions, cp + stamps
        floor = max(self.record.floor, floor)
        self._put_record(self.record._replace(number=number, position=position, cp=cp, cd=cp + STAMPS_BETWEEN_RECORDS, floor=floor))
        return self._forget(freed)

    def free(self, entries, floor=0):
        """Frees entries whose versions have ended, and gives their places, which the room does not have yet. If the record has a lower floor, one that has
        this comes before."""
        if self.record.floor < floor:
            self._put_record(self.record._replace(number=self.record.number + 1, floor=floor))
        self._erase(entries, 0)
        self._fence(map(line_of_entry, entries))
        return self._forget(entries)

    def _forget(self, entries):
        """These entries are free. Gives their places."""
        for entry in entries:
            self._ended.pop(entry, None)
        return [self._versions.pop(entry)[1] for entry in entries]

    def free_ended(self):
        """Frees all that has ended, and gives its places to the room, as a standby does."""
        self.room.give(self.free(list(self._ended)))

    def take_beside(self, changes, positions):
        """A standby takes changes that have room beside what had ended, which is freed by the same fences. Whether they have room so."""
        earlier = list(self._ended)
        if not earlier or not self.room.surely_takes_below(changes) or not self.room.take_at_once(changes):
            return False
        self.room.give(self.commit_parts([self.part(changes)], positions, earlier))
        return True

    def stage(self, puts, position):
        """A newcomer takes a part of a copy at this position, of which there is room for all: nothing of it counts yet."""
        if not self.room.take(puts):
            raise ValueError("no room")
        places, self.room.given = self.room.given, []
        lines = []
        for put, place in zip(puts, places):
            self._write(put, place, self.record.cp + 1, position)
            self._staged[place.entry] = self._versions.pop(place.entry)
            lines += [*range(place.line, place.line + place.lines), line_of_entry(place.entry)]
        self._fence(lines)

    def commit_staged(self, position):
        """All that is staged counts, and the newcomer is a standby at this position."""
        self._put_record(copied(self.record, position))
        for entry, (name, _) in self._staged.items():
            self.table.put(name, entry)
        self._versions, self._staged = self._versions | self._staged, {}

    def drop_staged(self):
        """Nothing is staged any more. Gives the places, which the room does not have yet."""
        self._erase(self._staged, 0)
        self._fence(map(line_of_entry, self._staged))
        dropped, self._staged = self._staged, {}
        return [place for _, place in dropped.values()]

    def make_room(self, changes):
        """A standby of which no run is long enough for these changes clears its gaps and, where lines and entries are enough, moves versions. Whether it may do
        so."""
        may_move = self.room.is_enough_for(changes)
        self.places_may_differ = self.places_may_differ or may_move or bool(self.record.gaps)
        while self.record.gaps:
            self.room.give(self.clear_gap())
        return may_move

    def pack(self):
        """All versions lie one after another, in the order of their lines: as far as moves may bring them."""
        line, data = extents_begin(self.lines), Words(self.lines, dict(self.words))
        for entry, (name, place) in sorted(self._versions.items(), key=lambda version: version[1][1].line):
            words = data.slice(place.line * WORDS_OF_LINE, place.lines * WORDS_OF_LINE)
            self._put(place.line * WORDS_OF_LINE, [0] * len(words))
            self._put(line * WORDS_OF_LINE, words)
            self._put(line_of_entry(entry) * WORDS_OF_LINE + 3, [line])
            self._versions[entry] = name, place._replace(line=line)
            line += place.lines
        self.device.settle()
        self.room = Room(self.lines, [place for _, place in self._versions.values()], self._gapped, self.layout)

    def clear_gap(self):
        """Clears the oldest gap: each stamp that lies in it, and then the gap. Gives the entries of which it cleared the begin, as places without lines."""
        first, last = self.record.gaps[0]
        stamps = {entry: self._stamps(entry) for entry in range(self.layout.entries(self.lines))}
        begins = [entry for entry, (begin, _) in stamps.items() if first <= begin <= last]
        ends = [entry for entry, (_, end) in stamps.items() if first <= end <= last]
        self._erase(begins, 0)
        self._erase(ends, 1)
        self._fence(map(line_of_entry, [*begins, *ends]))
        self._put_record(without_oldest_gap(self.record))
        self._gapped -= set(begins)
        return [Place(entry, 0, 0) for entry in begins]

    def reopen(self):
        """A reopening: where the record has as many gaps as it can, the oldest is cleared first."""
        if len(self.record.gaps) == self.layout.most_gaps:
            self.room.give(self.clear_gap())
        self._put_record(reopened(self.record)[-1])

    def take_over(self, pair):
        """A standby takes over the number of its primary's pair, and is opened again."""
        self._number(pair)
        self.reopen()

    def _number(self, pair):
        """It has this number of a pair."""
        self._put(PAIR_WORD, [pair])
        self._fence([0])
        self.pair = pair

    def promote(self):
        """It is a primary's, of the next epoch. All that has ended may have been freed."""
        record = self.record
        self._put_record(record._replace(number=record.number + 1, epoch=record.epoch + 1, role=PRIMARY, floor=record.position))

    def _make(self, part, stamp, position):
        """The versions that a part writes, and the ends of those that it replaces or removes. Gives the lines that it stored to."""
        puts = [change for change in part.changes if isinstance(change, Put)]
        lines = []
        for put, place in zip(puts, part.places):
            self._write(put, place, stamp, position)
            lines += [*range(place.line, place.line + place.lines), line_of_entry(place.entry)]
        for entry in part.ended:
            self._put(line_of_entry(entry) * WORDS_OF_LINE + 1, [stamp])
            self._ended[entry] = None
        return lines + list(map(line_of_entry, part.ended))

    def _write(self, put, place, stamp, position):
        """A version in its extent and entry."""
        name, data = put.name, b"".join(put.name) + put.value
        kind, lengths = (STRING, len(name[0])) if len(name) == 1 else (FIELD, len(name[0]) + LENGTH_SHIFT * len(name[1]))
        entry = Entry(stamp, 0, position, place.line, place.lines, kind, lengths, len(put.value))
        padded = data.ljust(place.lines * 64, b"\0")
        self._put(place.line * WORDS_OF_LINE, [int.from_bytes(padded[at:at + 8], "little") for at in range(0, len(padded), 8)])
        self._put(line_of_entry(place.entry) * WORDS_OF_LINE, entry)
        self._versions[place.entry] = name, place

    def _stamps(self, entry):
        """The begin and the end of an entry."""
        at = line_of_entry(entry) * WORDS_OF_LINE
        return self.words.get(at, 0), self.words.get(at + 1, 0)

    def _erase(self, entries, word):
        """Zero in this word of these entries."""
        for entry in entries:
            self._put(line_of_entry(entry) * WORDS_OF_LINE + word, [0])

    def _put_record(self, record=None):
        """A record in its slot, and then its number as the root."""
        record = record or self.record
        self._put(self.layout.slot_word(self.lines, record.number), record_words(record))
        self._fence(self._slot(record))
        self._put(self.layout.root_word, [record.number])
        self._fence([0])
        self.record = record

    def _slot(self, record):
        """The lines of the slot of a record."""
        line = self.layout.slot_line(self.lines, record.number)
        return range(line, line + self.layout.slot_lines)

    def _fence(self, lines):
        """Flushes these lines, and fences."""
        for line in lines:
            self.device.flush(line)
        self.device.fence()

    def _put(self, at, words):
        """Stores these words."""
        self.device.store(at, words)


def line_of_entry(entry):
    return DIRECTORY_LINE + entry
