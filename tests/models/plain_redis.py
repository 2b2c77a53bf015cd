"""A plain Redis, from docs/commands.md alone: it takes requests one after another, each of a connection with its session (the
section "Transactions"). Memory runs out only where `refuse` says so."""

import plain_commands
import spelling
from plain_keyspace import Keyspace, keyspace_after
from plain_replies import (
    ABORTED, DISCARD_OUTSIDE, EXEC_OUTSIDE, LONG_TRANSACTION, NESTED_MULTI, NO_ROOM, NULL_ARRAY, OK, QUEUED, TOO_LARGE, WATCH_INSIDE,
    CommandError, array, error,
)

MOST_CHANGE_TEXT_BYTES = 16_777_216
MOST_QUEUED_REQUESTS = 256

# What acts at once in a transaction too.
AT_ONCE = {b"quit", b"multi", b"exec", b"discard", b"watch"}


def closes(item):
    """Whether nothing more is taken from a connection after this item: a fault, or a request to quit."""
    return isinstance(item, spelling.Fault) or item[0].lower() == b"quit"


class Session:
    """What a connection has begun. `queue` has the requests that wait in its transaction, and is None where none is open;
    `watched` says of each watched key, in the order of first naming, whether a call has modified it since."""

    def __init__(self):
        self.end()

    def end(self):
        """No transaction is open, and no key is watched."""
        self.queue = None
        self.is_spoiled = False
        self.watched = {}

    @property
    def is_open(self):
        return self.queue is not None

    def spoil(self):
        """The transaction, if one is open, will not run."""
        self.is_spoiled = self.is_open

    def wait(self, words):
        """A request waits for EXEC."""
        if len(self.queue) >= MOST_QUEUED_REQUESTS:
            self.spoil()
            raise CommandError(LONG_TRANSACTION)
        self.queue.append(words)
        return QUEUED

    def multi(self):
        if self.is_open:
            raise CommandError(NESTED_MULTI)
        self.queue = []
        return OK

    def discard(self):
        if not self.is_open:
            raise CommandError(DISCARD_OUTSIDE)
        self.end()
        return OK

    def watch(self, *keys):
        if self.is_open:
            raise CommandError(WATCH_INSIDE)
        for key in keys:
            self.watched.setdefault(key, False)
        return OK

    def close(self):
        """The transaction ends and all watches are forgotten, for EXEC: the requests that are to run, or None where a watched
        key was modified."""
        if not self.is_open:
            raise CommandError(EXEC_OUTSIDE)
        queue, is_spoiled, is_modified = self.queue, self.is_spoiled, any(self.watched.values())
        self.end()
        if is_spoiled:
            raise CommandError(ABORTED)
        return None if is_modified else queue


class Redis:
    """One Redis that takes requests and faults one after another. `room` is what its store has room for: its `take`
    says whether these changes find room, and keeps it for them. None is room for any."""

    def __init__(self, room=None):
        self.keyspace = Keyspace()
        # of each changing call, in order, its changes
        self.parts = []
        self._room = room
        self._sessions = {}

    @property
    def position(self):
        return len(self.parts)

    def leave(self, connection):
        """A connection is over: what it had begun is gone."""
        self._sessions.pop(connection, None)

    def crash(self, position, room):
        """It goes on from its first changing calls, up to this position, with the room that is left beside them, and without
        connections."""
        self.parts = self.parts[:position]
        self.keyspace = keyspace_after(self.parts)
        self._sessions = {}
        self._room = room

    def call(self, connection, item):
        """The bytes of the reply to an item of a connection: the words of a request, or a fault. All that it changes is one
        part."""
        if isinstance(item, spelling.Fault):
            return item.reply()
        session, part = self._sessions.setdefault(connection, Session()), []
        try:
            reply = self._answer(session, item, part)
        except CommandError as refused:
            reply = error(str(refused))
        if part:
            self.parts.append(tuple(part))
        if closes(item):
            self.leave(connection)
        return reply

    def refuse(self, connection, words):
        """A request is refused memory before anything of it is run: one that would have been queued spoils its transaction, and any
        other leaves all as it was."""
        session = self._sessions.setdefault(connection, Session())
        if plain_commands.is_good(words) and words[0].lower() not in AT_ONCE:
            session.spoil()

    def serve(self, words):
        """What a request is answered and changes that is of no session; its changes are played, and are one part."""
        part = []
        effect = self._run(words, part)
        if part:
            self.parts.append(tuple(part))
        return effect

    def _answer(self, session, words, part):
        """The reply to a request. What it changes goes behind `part`."""
        try:
            plain_commands.check(words)
        except CommandError:
            session.spoil()
            raise
        name, *arguments = words
        name = name.lower()
        if session.is_open and name not in AT_ONCE:
            return session.wait(words)
        if name == b"exec":
            requests = session.close()
            return NULL_ARRAY if requests is None else array([self._run(each, part).reply for each in requests])
        if name == b"unwatch":
            session.watched.clear()
        if name in (b"multi", b"discard", b"watch"):
            return getattr(session, name.decode())(*arguments)
        return self._run(words, part).reply

    def _run(self, words, part):
        """Runs a request, of which those before it in the same call have changed `part`."""
        effect = plain_commands.effect(self.keyspace, words)
        if effect.changes and sum(change.text_bytes() for change in (*part, *effect.changes)) > MOST_CHANGE_TEXT_BYTES:
            return plain_commands.Effect(error(TOO_LARGE))
        if self._room is not None and not self._room.take(effect.changes):
            return plain_commands.Effect(error(NO_ROOM))
        for change in effect.changes:
            self._play(change)
        part += effect.changes
        return effect

    def _play(self, change):
        """Plays a change, and marks each key that it modifies where it is watched."""
        for key in self.keyspace.modified_by(change):
            for session in self._sessions.values():
                if key in session.watched:
                    session.watched[key] = True
        self.keyspace.play(change)


def served(data, room=None):
    """All that a Redis answers to one connection that sends these bytes."""
    redis = Redis(room)
    return b"".join(redis.call(0, item) for item in spelling.up_to(closes, spelling.read(data).items))
