"""What passes between the two nodes as bytes, written and read from docs/replication.md, "The greeting" and "Frames"."""

import typing

from plain_keyspace import Clear, Drop, DropKey, Put

GROUP, ACKNOWLEDGEMENT, COPY_WANTED, COPY_PART, COPY_END, GREETING = 1, 2, 3, 4, 5, 8
# what this release says of the link
LINK_VERSION = 1
# how many bytes a greeting has, and an acknowledgement
GREETING_BYTES = ACK_BYTES = 17
# the first byte of a change: of a put with one name or two, a drop with one or two, and of the two others
PUTS, DROPS, DROP_KEY, CLEAR = {1: 1, 2: 2}, {3: 1, 4: 2}, 5, 6
# the fewest bytes that a put has, the most that a value has, and the most that the puts of a part have
LEAST_PUT, MOST_VALUE, MOST_PART = 7, 1_048_576, 2_097_152


class Greeting(typing.NamedTuple):
    """What each side says first on a link: by which version of it, and of which pair it is; 0 if it does not know."""

    pair: int = 0
    version: int = LINK_VERSION


class Group(typing.NamedTuple):
    """The changes of the list between two positions."""

    epoch: int
    before: int
    after: int
    changes: tuple


class Acknowledgement(typing.NamedTuple):
    """What a standby of this epoch holds durably."""

    epoch: int
    position: int


class CopyWanted(typing.NamedTuple):
    """A newcomer wants a copy from the primary of this epoch."""

    epoch: int


class CopyPart(typing.NamedTuple):
    """A part of a copy at a position, by its number: puts alone."""

    epoch: int
    position: int
    number: int
    puts: tuple


class CopyEnd(typing.NamedTuple):
    """The end of a copy at a position that has so many parts."""

    epoch: int
    position: int
    parts: int


def number(value):
    return value.to_bytes(8, "big")


def short(data):
    return len(data).to_bytes(2, "big") + data


def change_text(change):
    if isinstance(change, Put):
        names = bytes([len(change.name)]) + b"".join(map(short, change.name))
        return names + len(change.value).to_bytes(4, "big") + change.value
    if isinstance(change, Drop):
        return bytes([2 + len(change.name)]) + b"".join(map(short, change.name))
    return bytes([DROP_KEY]) + short(change.key) if isinstance(change, DropKey) else bytes([CLEAR])


def text(message):
    """The bytes of a greeting, a frame or an acknowledgement."""
    if isinstance(message, Greeting):
        return bytes([GREETING]) + number(message.version) + number(message.pair)
    if isinstance(message, Acknowledgement):
        return bytes([ACKNOWLEDGEMENT]) + number(message.epoch) + number(message.position)
    if isinstance(message, (CopyWanted, CopyEnd)):
        return bytes([COPY_WANTED if isinstance(message, CopyWanted) else COPY_END]) + b"".join(map(number, message))
    body = b"".join(map(change_text, message[3]))
    numbers = (*message[:3], len(body))
    return bytes([GROUP if isinstance(message, Group) else COPY_PART]) + b"".join(map(number, numbers)) + body


class Reader:
    """Reads bytes from their front. It fails where there are too few."""

    def __init__(self, data):
        self.data = data

    def take(self, count):
        if len(self.data) < count:
            raise ValueError("the bytes end too early")
        taken, self.data = self.data[:count], self.data[count:]
        return taken

    def number(self, size=8):
        return int.from_bytes(self.take(size), "big")


def read_greeting(data):
    """The greeting whose bytes these are, with none left over."""
    reader = Reader(data)
    if reader.number(1) != GREETING:
        raise ValueError("no greeting")
    message = Greeting(version=reader.number(), pair=reader.number())
    if reader.data:
        raise ValueError("bytes are left over")
    return message


def read_change(reader):
    kind = reader.number(1)
    names = tuple(reader.take(reader.number(2)) for _ in range((PUTS | DROPS | {DROP_KEY: 1, CLEAR: 0})[kind]))
    if kind in PUTS:
        return Put(names, reader.take(reader.number(4)))
    if kind in DROPS:
        return Drop(names)
    return DropKey(*names) if kind == DROP_KEY else Clear()


def read(data):
    """The frame or the acknowledgement whose bytes these are, with none left over."""
    reader = Reader(data)
    kind = reader.number(1)
    if kind == ACKNOWLEDGEMENT:
        message = Acknowledgement(reader.number(), reader.number())
    elif kind == COPY_WANTED:
        message = CopyWanted(reader.number())
    elif kind == COPY_END:
        message = CopyEnd(reader.number(), reader.number(), reader.number())
    elif kind in (GROUP, COPY_PART):
        numbers = reader.number(), reader.number(), reader.number()
        body = Reader(reader.take(reader.number()))
        changes = []
        while body.data:
            changes.append(read_change(body))
        message = (Group if kind == GROUP else CopyPart)(*numbers, tuple(changes))
    else:
        raise ValueError(f"no frame begins with {kind}")
    if reader.data:
        raise ValueError("bytes are left over")
    return message


class Cut(Exception):
    """The bytes end, and more of them may make a frame."""


class Fault(Exception):
    """No frame begins with these bytes."""


class Front:
    """Reads the front of a frame, of which each number has bounds: where it is cut, some number within them begins with what is there."""

    def __init__(self, data):
        self.data = data

    def take(self, count):
        if len(self.data) < count:
            raise Cut
        taken, self.data = self.data[:count], self.data[count:]
        return taken

    def number(self, size, *bounds):
        """A number within some of these bounds."""
        begun = self.data[:size]
        lowest, highest = (int.from_bytes(begun.ljust(size, rest), "big") for rest in (b"\0", b"\xff"))
        if all(highest < least or most < max(lowest, least) for least, most in bounds):
            raise Fault
        return int.from_bytes(self.take(size), "big")

    def change(self, left, kinds):
        """Passes a change of one of these kinds, of at most `left` bytes. What it leaves of them can be clears, each of one byte; where only puts
        are allowed it is nothing, or enough for another put."""
        kind = self.number(1, (1, kinds))
        names, values = (PUTS | DROPS | {DROP_KEY: 1, CLEAR: 0})[kind], int(kind in PUTS)
        spare = left - (1 + 2 * names + 4 * values)
        if spare < 0:
            raise Fault
        for size, limit in names * [(2, 512)] + values * [(4, MOST_VALUE)]:
            bounds = [(0, min(limit, spare))]
            if kinds == 2 and size == 4:
                bounds = [(0, min(limit, spare - LEAST_PUT))] + [(spare, spare)] * (spare <= limit)
            length = self.number(size, *bounds)
            self.take(length)
            spare -= length

    def body(self, left, kinds):
        while left:
            there = len(self.data)
            self.change(left, kinds)
            left -= there - len(self.data)

    def frame(self):
        """Passes a frame."""
        kind = self.number(1, (1, 5))
        if kind in (ACKNOWLEDGEMENT, COPY_WANTED, COPY_END):
            self.take({ACKNOWLEDGEMENT: 16, COPY_WANTED: 8, COPY_END: 24}[kind])
        elif kind == COPY_PART:
            self.take(24)
            self.body(self.number(8, (LEAST_PUT, MOST_PART)), 2)
        else:
            self.take(8)
            before = self.number(8, (0, 2**64 - 2))
            self.number(8, (before + 1, 2**64 - 1))
            self.body(self.number(8, (0, 2**40)), 6)


def read_stream(data):
    """The frames of these bytes, each with how many bytes there are up to its end; and how many there are up to the first one after which
    none continues them, or None."""
    frames, start = [], 0
    for end in range(1, len(data) + 1):
        try:
            Front(data[start:end]).frame()
        except Cut:
            continue
        except Fault:
            return frames, end
        frames.append((end, read(data[start:end])))
        start = end
    return frames, None
