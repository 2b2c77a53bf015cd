"""A connection of the plain machine, and what waits for its committer and its link."""

import typing

import plain_redis
import spelling


class Connection:
    """One connection: what it sent, and its replies on their way through its gate. A reply is beside its
    position."""

    def __init__(self):
        self.is_open = True
        self.reader = spelling.Reader(plain_redis.closes)
        self.offered = 0
        self.waiting = []
        self.made = []
        self.held = []
        self.pending = b""
        self.released = b""
        self.marks = {"local": 0, "remote": 0}

    def covered(self):
        """How many of the held replies, from the first on, both marks cover."""
        least = min(self.marks.values())
        return next((place for place, (_, position) in enumerate(self.held) if position > least), len(self.held))


class Group(typing.NamedTuple):
    """Waits for the committer: all changes between two positions."""

    before: int
    after: int


class Frame(typing.NamedTuple):
    """What is sent: the changes that lead from the position before to the one after, by the primary of this epoch."""

    before: int
    after: int
    changes: tuple
    epoch: int


class FreeList(typing.NamedTuple):
    """Waits for the committer: entries of versions that have ended, and the position at which the newest of them did."""

    position: int
    entries: tuple
