"""A plain keyspace, from docs/commands.md ("Rules for all commands") and docs/replication.md ("Frames"): what its keys hold, and the changes that are played on
it."""

import dataclasses

from plain_replies import WRONG_TYPE, CommandError


@dataclasses.dataclass(frozen=True)
class Put:
    """A write of a record: of a string, (key,), or of a field, (key, field)."""

    name: tuple
    value: bytes

    def text_bytes(self):
        """The bytes of its change text: what it is, each part of the name behind its length, the value behind its own
        (docs/replication.md)."""
        return 1 + sum(2 + len(part) for part in self.name) + 4 + len(self.value)


@dataclasses.dataclass(frozen=True)
class Drop:
    """A record is removed, and its key with its last field."""

    name: tuple

    def text_bytes(self):
        return 1 + sum(2 + len(part) for part in self.name)


@dataclasses.dataclass(frozen=True)
class DropKey:
    """A key is removed with all that it holds."""

    key: bytes

    def text_bytes(self):
        return 1 + 2 + len(self.key)


@dataclasses.dataclass(frozen=True)
class Clear:
    """Everything is removed."""

    def text_bytes(self):
        return 1


class Keyspace:
    """A finite map. A key holds a string, as bytes, or a hash, as a map of its fields."""

    def __init__(self):
        self.keys = {}

    def string(self, key):
        """The string of a string command: None where the key is absent."""
        held = self.keys.get(key)
        if isinstance(held, dict):
            raise CommandError(WRONG_TYPE)
        return held

    def hash(self, key):
        """The fields of a hash command: none where the key is absent."""
        held = self.keys.get(key, {})
        if not isinstance(held, dict):
            raise CommandError(WRONG_TYPE)
        return held

    def records(self):
        """Each record with its value, in the order of records."""
        names = {}
        for key, held in self.keys.items():
            names |= {(key, field): value for field, value in held.items()} if isinstance(held, dict) else {(key,): held}
        return sorted(names.items())

    def modified_by(self, change):
        """The keys that a change of a command modifies, whatever it writes."""
        match change:
            case Put(name) | Drop(name):
                return [name[0]]
            case DropKey(key):
                return [key]
            case Clear():
                return list(self.keys)

    def play(self, change):
        match change:
            case Put((key,), value):
                self.keys[key] = value
            case Put((key, field), value):
                if not isinstance(self.keys.get(key), dict):
                    self.keys[key] = {}
                self.keys[key][field] = value
            case Drop((key,)):
                if isinstance(self.keys.get(key), bytes):
                    del self.keys[key]
            case Drop((key, field)):
                fields = self.keys.get(key)
                if isinstance(fields, dict):
                    fields.pop(field, None)
                    if not fields:
                        del self.keys[key]
            case DropKey(key):
                self.keys.pop(key, None)
            case Clear():
                self.keys.clear()


def keyspace_after(parts):
    """The keyspace that the changes of these calls make of an empty one."""
    keyspace = Keyspace()
    for change in (change for part in parts for change in part):
        keyspace.play(change)
    return keyspace
