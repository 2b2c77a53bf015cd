"""Requests that the simulator runs, each over the same records: their replies, and what they change in both images."""

import plain_commands
import plain_writer
from plain_commands import Effect
from plain_keyspace import Clear, Keyspace, Put
from simulation import NODES, Runs, Schedule
from spelling import spell

# The lines of both images of a run, and how many cases one has at most.
LINES = 16_384
MOST_CASES = 500

PING, PONG = spell("PING"), b"+PONG\r\n"
# How many words, pairs of a key or a field and a value, one request has that writes records.
MOST_WORDS = 1_000


def words_of(asked):
    """The words of a request, which may be a text with spaces between them."""
    return asked if isinstance(asked, tuple) else tuple(asked.encode().split(b" "))


def write(key, value):
    """The change that writes a string."""
    return Put((key.encode(),), value.encode())


def write_field(key, field, value):
    """The change that writes a field of a hash."""
    return Put((key.encode(), field.encode()), value.encode())


CLEAR, CLOSE = Clear(), "close"


def effect_of(reply, *changes):
    """What a row of a table says: a reply, the changes, and `CLOSE` where the connection is over then."""
    closes = CLOSE in changes
    return Effect(reply, tuple(change for change in changes if change != CLOSE), closes)


def keyspace_of(kept):
    keyspace = Keyspace()
    for change in kept:
        keyspace.play(change)
    return keyspace


def requests_of(kept):
    """Requests that write these records over an empty keyspace, one change for each record."""
    strings = [word for change in kept if len(change.name) == 1 for word in (*change.name, change.value)]
    rows = [("MSET", *strings[at:at + MOST_WORDS]) for at in range(0, len(strings), MOST_WORDS)]
    for key in dict.fromkeys(change.name[0] for change in kept if len(change.name) == 2):
        fields = [word for change in kept if len(change.name) == 2 and change.name[0] == key for word in (change.name[1], change.value)]
        rows += [("HSET", key, *fields[at:at + MOST_WORDS]) for at in range(0, len(fields), MOST_WORDS)]
    return [spell(*row) for row in rows]


class Commands(Runs):
    """Tests that are tables of a request, its reply and its changes, each over the same records. What one would change, the next does
    not see."""

    # The strings s, n and e, and the hash h.
    KEPT = (
        Put((b"s",), b"value"), Put((b"n",), b"10"), Put((b"e",), b""),
        Put((b"h", b"f"), b"1"), Put((b"h", b"g"), b"2"), Put((b"h", b"t"), b"text"), Put((b"h", b""), b""),
    )

    def show_requests(self, table, kept=KEPT, lines=LINES):
        """Each request is one case: its reply, its changes in order, and `CLOSE` where it closes its connection."""
        self.show_effects([(asked, effect_of(*wanted)) for asked, *wanted in table], kept, lines)

    def show_effects(self, table, kept=(), lines=LINES):
        """As `show_requests`, with each effect whole. The plain commands have it over these records too, and what one run of many cases
        leaves is, word for word, what the plain machine finds for them (simulation.Runs)."""
        keyspace, run, room = keyspace_of(kept), [], plain_writer.Room(lines)
        for asked, wanted in table:
            words = words_of(asked)
            self.assertEqual(plain_commands.effect(keyspace, words), wanted)
            if len(run) == MOST_CASES or not room.take((*kept, *wanted.changes)):
                self.show_run(run, kept, lines)
                run, room = [], plain_writer.Room(lines)
                self.assertTrue(room.take((*kept, *wanted.changes)))
            run.append((words, wanted))
        self.show_run(run, kept, lines)

    def show_run(self, run, kept, lines=LINES):
        """Runs requests one after another, each over these records alone and in a connection of its own, which asks for one more reply
        then."""
        schedule, frames, is_empty = Schedule(len(run)), 0, True
        for c, (words, wanted) in enumerate(run):
            schedule.group(c, spell("FLUSHDB"), *requests_of(kept))
            frames = self.replicate(schedule, frames, kept or not is_empty)
            schedule.feed(c, spell(*words) + PING)
            schedule.serve(c)
            schedule.commit()
            frames = self.replicate(schedule, frames, wanted.changes)
            schedule.serve(c)
            schedule.read_marks(c)
            schedule.write_out(c)
            is_empty = not keyspace_of((*kept, *wanted.changes)).keys
        trace = self.play(schedule, lines=(lines, lines))
        for c, (words, wanted) in enumerate(run):
            last = [(words, wanted.reply)] if wanted.closes else [(words, wanted.reply), ((b"PING",), PONG)]
            with self.case(b" ".join(words)[:200]):
                told = [(call.words, call.reply) for call in trace.calls if call.connection == c]
                self.assertEqual(told[-len(last):], last)
                self.assertEqual(trace.released[c], b"".join(reply for _, reply in told))

    def replicate(self, schedule, frames, changes):
        """The group of these changes, if there are any, is taken by the standby: how many were, with it."""
        if changes:
            schedule.replicate(frames)
        return frames + bool(changes)

    def show_session(self, rows, records):
        """Requests of one connection, one after another: each with its reply and its changes, and the records that both nodes hold in
        the end. Together they are one case."""
        keyspace, schedule, frames = Keyspace(), Schedule(1), 0
        wanted = [(words_of(asked), effect_of(*told)) for asked, *told in rows]
        for words, effect in wanted:
            self.assertEqual(plain_commands.effect(keyspace, words), effect)
            for change in effect.changes:
                keyspace.play(change)
            schedule.group(0, spell(*words))
            frames = self.replicate(schedule, frames, effect.changes)
        with self.case(b" ".join(wanted[0][0])):
            trace = self.play(schedule)
            self.assertEqual([(call.words, call.reply) for call in trace.calls], [(words, effect.reply) for words, effect in wanted])
            self.assertEqual(trace.records, {node: records for node in NODES})
