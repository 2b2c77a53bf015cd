"""Runs of the simulator: lists of events, what it prints as a Trace, and tests that compare a run with the plain
machine."""

import re
import typing

import common
import plain_image
import plain_keyspace
import plain_machine
import plain_wire
import spelling
from plain_image import MORE_LINES

NODES = ("primary", "standby")
ROLES = {"primary": plain_image.PRIMARY, "standby": plain_image.STANDBY}

STRING = r'"[^"\\]*(?:\\.[^"\\]*)*"'
EVENT = re.compile(r"event (\d+), line (\d+): (done|not enabled)")
CALL = re.compile(rf"call (\d+): connection (\d+), (fault|{STRING}(?: {STRING})*) -> ({STRING})")
RELEASED = re.compile(rf"connection (\d+): released ({STRING})")
FRAME = re.compile(r"frame (\d+): epoch (\d+), from (\d+) to (\d+), changes (\d+), bytes ([0-9a-f]+)")
ACKNOWLEDGEMENT = re.compile(r"acknowledgement (\d+): epoch (\d+), position (\d+), bytes ([0-9a-f]+)")
POSITION = re.compile(
    r"(primary|standby): position (\d+), record (\d+), cp (\d+), cd (\d+), epoch (\d+), "
    r"role (primary|standby), gaps (\d+)"
)
NO_IMAGE = re.compile(r"(primary|standby): no whole image")
RECORD = re.compile(rf"(primary|standby) record: ({STRING}(?: {STRING})?) = ({STRING})")
WORD = re.compile(r"(primary|standby) word (\d+): (\d+)")
ENDED = re.compile(r"ended: (.*)")


class Schedule:
    """Events to play, one after another."""

    def __init__(self, connections=0):
        self.events = ["enter"] * connections

    def add(self, *events):
        self.events += events

    def feed(self, c, data):
        """A connection's bytes in one piece."""
        self.add(f"feed-bytes {c} {data.hex()}" if data else f"feed-bytes {c}")

    def serve(self, c):
        """A connection's next item is handed over and run, and its gate takes the reply."""
        self.add(f"offer {c}", f"turn {c}", f"hold {c}")

    def commit(self):
        """All changes that wait are one group, and the next group is committed on the primary, shown and handed on."""
        self.add("close-group", "commit", "raise-local", "hand")

    def group(self, c, *requests):
        """A connection's requests are served, and what they changed is committed as one group."""
        for request in requests:
            self.feed(c, request)
            self.serve(c)
        self.commit()

    def free(self):
        """What has ended is listed and, where the standby has passed it, freed; its places may be used again."""
        self.add("close-group", "free", "accept-freed")

    def take(self, *frames):
        """The frames of these numbers come to the standby, each of which is taken or refused."""
        for frame in frames:
            self.add(f"deliver {frame}", "apply")

    def acknowledge(self, number):
        """The acknowledgement of this number comes back and is shown."""
        self.add(f"ack-delivered {number}", "raise-remote")

    def replicate(self, number):
        """A frame is sent; the one of this number is taken, and the acknowledgement of the same number comes back."""
        self.add("send")
        self.take(number)
        self.acknowledge(number)

    def read_marks(self, c):
        self.add(f"read {c} local", f"read {c} remote")

    def serve_to_end(self, c, number, request):
        """A connection's request is served to its end, as the group and the frame of this number."""
        self.group(c, request)
        self.replicate(number)
        self.read_marks(c)
        self.write_out(c)

    def write_out(self, c, most=2**20):
        """What the marks cover is released and written, if it is less than twice `most` bytes: in powers of two, each where
        that many bytes are left."""
        self.add(f"release {c}")
        while most:
            self.add(f"write {c} {most}")
            most //= 2

    def drain(self, connections, items, frames):
        """All that was fed is served to its end: at most `items` items of each connection, and `frames` frames in
        all. Connections are told by their numbers, or by how many there are."""
        connections = range(connections) if isinstance(connections, int) else connections
        for _ in range(items):
            for c in connections:
                self.serve(c)
                self.commit()
                self.add("send")
        for number in range(frames):
            self.commit()
            self.replicate(number)
        for c in connections:
            self.read_marks(c)
            self.write_out(c)


class Call(typing.NamedTuple):
    """A call of the list: the words of its request, or None for a fault, and the bytes of its reply."""

    connection: int
    words: typing.Optional[tuple]
    reply: bytes


class Frame(typing.NamedTuple):
    """What the line of a frame tells: its epoch, the positions before and after it, and its number of changes."""

    epoch: int
    before: int
    after: int
    changes: int


class NodeLine(typing.NamedTuple):
    """What the line of a node tells."""

    position: int
    record: int
    cp: int
    cd: int
    epoch: int
    role: str
    gaps: int


class Trace:
    """All that the simulator printed of a run. A node without a whole image is None in `nodes`."""

    def __init__(self, text):
        self.lines = text.split("\n")
        self._at = 0
        events = self._all(EVENT)
        self.done = [outcome == "done" for _, _, outcome in events]
        self.event_lines = [int(line) for _, line, _ in events]
        calls = self._all(CALL)
        self.calls = [Call(int(c), words_of(words), common.unquoted(reply)) for _, c, words, reply in calls]
        released = self._all(RELEASED)
        self.released = [common.unquoted(data) for _, data in released]
        frames, acknowledgements = self._all(FRAME), self._all(ACKNOWLEDGEMENT)
        self.frames = [Frame(*map(int, fields)) for _, *fields, _ in frames]
        self.acknowledgements = [(int(epoch), int(position)) for _, epoch, position, _ in acknowledgements]
        self.texts = [bytes.fromhex(row[-1]) for row in frames], [bytes.fromhex(row[-1]) for row in acknowledgements]
        numbered = {"event": events, "call": calls, "connection": released}
        numbered |= {"frame": frames, "acknowledgement": acknowledgements}
        for name, rows in numbered.items():
            if [row[0] for row in rows] != [str(number) for number in range(len(rows))]:
                raise AssertionError(f"the {name} lines are not numbered from 0 on")
        self.nodes = {node: self._node(node) for node in NODES}
        self.records, self.words = self._records(), self._words()
        (self.ended,) = self._one(ENDED)
        if self.lines[self._at:] != [""]:
            raise AssertionError(f"line {self._at + 1} is out of place: {self.lines[self._at:][:1]}")

    def _all(self, pattern):
        """The match groups of the next lines, as many as there are of this kind."""
        rows = []
        while found := pattern.fullmatch(self.lines[self._at]):
            rows.append(found.groups())
            self._at += 1
        return rows

    def _one(self, pattern):
        found = pattern.fullmatch(self.lines[self._at])
        if not found:
            raise AssertionError(f"line {self._at + 1} is not {pattern.pattern}: {self.lines[self._at]}")
        self._at += 1
        return found.groups()

    def _node(self, node):
        if NO_IMAGE.fullmatch(self.lines[self._at]):
            (name,), line = self._one(NO_IMAGE), None
        else:
            name, *fields = self._one(POSITION)
            line = NodeLine(*map(int, fields[:5]), fields[5], int(fields[6]))
        if name != node:
            raise AssertionError(f"the {name}'s line stands where the {node}'s should")
        return line

    def _records(self):
        """Of each node the pairs of name and value, in the order of the lines."""
        rows = self._all(RECORD)
        in_order(rows)
        records = {node: [] for node in NODES}
        for node, name, value in rows:
            records[node].append((words_of(name), common.unquoted(value)))
        return records

    def _words(self):
        rows = self._all(WORD)
        in_order(rows)
        words = {node: {int(place): int(word) for at, place, word in rows if at == node} for node in NODES}
        for places in map(list, words.values()):
            if places != sorted(places):
                raise AssertionError("the words do not rise")
        if len(rows) != sum(map(len, words.values())) or any(0 in found.values() for found in words.values()):
            raise AssertionError("a word is named twice, or is zero")
        return words


def in_order(rows):
    """The primary's lines come before the standby's."""
    names = [row[0] for row in rows]
    if names != sorted(names):
        raise AssertionError("a line of the primary stands after one of the standby")


def told_frames(machine):
    """The frames of a run of the plain machine of which a line tells: each that ends above all that were sent before it. So a group has one,
    however often it was sent."""
    told, last = [], 0
    for frame in machine.frames:
        if frame.after > last:
            told.append(frame)
            last = frame.after
    return told


def told_between(machine):
    """The frames and acknowledgements of a run of the plain machine, with the number of changes of each frame; a standby acknowledges in epoch 1 alone
    (docs/replication.md)."""
    frames = [Frame(epoch, before, after, len(changes)) for before, after, changes, epoch in told_frames(machine)]
    return frames, [(1, position) for position in machine.acknowledgements]


def texts_between(machine):
    """The same as bytes."""
    groups = [plain_wire.Group(epoch, *frame) for *frame, epoch in told_frames(machine)]
    acknowledgements = [plain_wire.Acknowledgement(1, position) for position in machine.acknowledgements]
    return [plain_wire.text(group) for group in groups], [plain_wire.text(ack) for ack in acknowledgements]


def told_positions(trace):
    """The positions that the standby acknowledged."""
    return [position for _, position in trace.acknowledgements]


def words_of(text):
    """The words of a request as they are printed, or None for a fault."""
    return None if text == "fault" else tuple(map(common.unquoted, re.findall(STRING, text)))


def simulate(events, *options):
    """Plays these events. The program has to end with status 0 and no message."""
    finished = common.run_program("simulator", options, "".join(f"{event}\n" for event in events).encode())
    if (finished.status, finished.errors) != (0, b""):
        raise AssertionError(f"status {finished.status}, message {finished.errors!r}")
    return Trace(finished.output.decode("ascii"))


class Runs(common.Cases):
    """Tests of whole runs. What the plain machine tells of a run beforehand has to be so, word for word."""

    def play(self, schedule, *options, lines=plain_machine.DEFAULT_LINES, fail=(0, 0), crash=None):
        """The trace of a run, with both images, after it was compared with the plain machine. `crash` is a last event."""
        head = [f"fail {node} {fence}" for node, fence in zip(NODES, fail) if fence]
        events = [*schedule.events, f"crash {crash}"] if crash else schedule.events
        sizes = ["--lines", "%d,%d" % lines] if lines != plain_machine.DEFAULT_LINES else []
        trace = simulate(head + events, "--map", "--images", *sizes, *options)
        machine = plain_machine.Machine(lines, fail, told_positions(trace)).play(events)
        self.assert_played(trace, machine, len(events), len(head))
        if lines[1] >= lines[0] + MORE_LINES:
            self.assertEqual(machine.given["standby"].refused, 0, "frames that the standby has no room for, though it has lines to spare")
        for place, node in enumerate(NODES):
            if machine.ended is not None:
                self.assert_left(trace, machine, node)
            elif machine.given[node].has_stopped:
                self.assert_words(trace, machine, node)
                self.assert_reads(trace, machine, node, lines[place])
            else:
                self.assert_image(trace, machine, node, lines[place])
        self.machine = machine
        return trace

    def assert_played(self, trace, machine, events, skipped_lines):
        """Events, calls, released bytes and the end are those of the plain machine."""
        self.assert_events(trace, machine, skipped_lines)
        at = f"at event {machine.ended}, line {machine.ended_line(skipped_lines)}: refusal 1: device fault"
        whole = {None: f"after all {events} events", "formatting": "at formatting: refusal 1: device fault"}
        self.assertEqual(trace.ended, whole.get(machine.ended, at))

    def assert_events(self, trace, machine, skipped_lines):
        """The same but for the end."""
        wrong = [place for place, (did, should) in enumerate(zip(trace.done, machine.done)) if did != should]
        self.assertEqual(wrong[:5], [], "events that did their step where they should not, or the other way round")
        self.assertEqual(len(trace.done), len(machine.done))
        self.assertEqual(trace.event_lines, [place + 1 + skipped_lines for place in range(len(trace.done))])
        found = [(call.connection, call.words, call.reply) for call in trace.calls]
        wanted = [(c, None if isinstance(item, spelling.Fault) else item, reply) for c, item, reply, _ in machine.calls]
        self.assertEqual(found, wanted)
        released = [connection.released for connection in machine.connections]
        self.assertEqual(len(trace.released), len(released))
        for c, wanted in enumerate(released):
            self.assert_bytes(trace.released[c], wanted)
        self.assertEqual((trace.frames, trace.acknowledgements), told_between(machine))
        self.assertEqual(trace.texts, texts_between(machine))

    def assert_left(self, trace, machine, node):
        """Where a fence failed unasked, the device has the words that crashes left of what the node did to it."""
        if machine.ended != "formatting":
            self.assert_words(trace, machine, node)

    def assert_words(self, trace, machine, node):
        """The device has the words that the node stored and crashes left, also where a fence failed."""
        writer = machine.given[node].image
        if not writer.places_may_differ:
            wrong = sorted(set(trace.words[node].items()) ^ set(writer.words.items()))
            self.assertEqual(wrong[:5], [], f"words of the {node} that are not as they should be, or should be and are not")

    def assert_image(self, trace, machine, node, lines):
        """The image is, word for word, that of what the node did to it, and it reads so: just these entries are in use. Where places may differ it has
        the same versions, wherever they are."""
        writer, words = machine.given[node].image, plain_image.Words(lines, trace.words[node])
        record = self.assert_reads(trace, machine, node, lines)
        versions = plain_image.read_versions(words, record)
        # (a call that was cut may have begun versions, which no record has made count)
        wanted = plain_image.read_versions(plain_image.Words(lines, writer.words), writer.record)
        self.assertEqual(len(versions.gapped), len(wanted.gapped))
        if writer.places_may_differ:
            self.assertEqual(record.told(), writer.record.told())
            self.assertEqual(sorted(plain_image.versions_on(words)), sorted(plain_image.versions_on(plain_image.Words(lines, writer.words))))
        else:
            wrong = sorted(set(words.words.items()) ^ set(writer.words.items()))
            self.assertEqual(wrong[:5], [], f"words of the {node} that are not as they should be, or should be and are not")
            self.assertEqual(record, writer.record)
            self.assertEqual([entry for entry, end in versions.counted if not end], writer.live)
            self.assertEqual([entry for entry, end in versions.counted if end], writer.ended)

    def assert_reads(self, trace, machine, node, lines):
        """The image is whole, and holds the keyspace of the list at its position; so it is printed. Gives its record."""
        image = plain_image.read_image(plain_image.Words(lines, trace.words[node]))
        record, parts = image.record, machine.parts_of(node)
        self.assertEqual(image.map, dict(plain_keyspace.keyspace_after(parts[:record.position]).records()))
        self.assertEqual(trace.records[node], sorted(image.map.items()))
        role = next(name for name, role in ROLES.items() if role == record.role)
        told = NodeLine(record.position, record.number, record.cp, record.cd, record.epoch, role, len(record.gaps))
        self.assertEqual(trace.nodes[node], told)
        return record
