"""The pair of nodes and their connections, played plainly, from docs/promises.md ("The events") and
docs/replication.md: which events do their step, the list of calls, what is released, where both nodes stand, which nodes
stop where a fence fails that was asked to, and at which event one that fails unasked ends the run."""

import plain_delta
import plain_image
import plain_redis
import spelling
from plain_connection import Connection, Frame, FreeList, Group
from plain_crashes import CUT_CALLS, Crashes
from plain_device import Fault
from plain_node import Node

SEATS = 1_024
PIPE_ITEMS = 256
KEPT_GROUPS = 256
OPEN_CHANGES = 64

# The nodes that have to run for an event: for most the primary. Those that crash, open again or are fenced need not run.
NODES_OF = {"open_link": ("primary", "standby"), "deliver": ("standby",), "apply": ("standby",), "crash": (), "reopen": (), "fence": (),
            "promote": ("standby",), "fail_fence": ()}

DEFAULT_LINES = (4_096, 4_096)


class Machine(Crashes):
    """A run. `done` says of each event whether it did its step, `calls` has each call as (connection, item, reply,
    position), `stops` the place and the name of each event at which a node stopped, and `ended` names the event at which a fence failed unasked, "formatting",
    or None. `told` has the positions that the standby acknowledged in the run that this one is compared with: a standby that has to make room takes a frame
    where that one did. Where there is none it takes it where lines and entries are enough."""

    def __init__(self, lines=DEFAULT_LINES, fail=(0, 0), told=None):
        self.told = told
        self.connections = []
        self.calls = []
        # of each changing call its part
        self.parts = []
        self.done = []
        self.stops = []
        self.ended = None
        self.epoch = 1
        self._begin(plain_delta.FORMATTED)
        self.frames = []
        self.arrived = []
        self.acknowledgements = []
        try:
            self.primary = Node(lines[0], plain_image.PRIMARY, fail[0])
            self.standby = Node(lines[1], plain_image.STANDBY, fail[1])
            # the nodes by the device that each was given, whatever becomes of them, and the parts that the image of one has which was succeeded
            self.given = {"primary": self.primary, "standby": self.standby}
            self.former_parts = None
            self.redis = plain_redis.Redis(self.primary.image.room)
        except Fault:
            self.redis = plain_redis.Redis()
            self.ended = "formatting"

    def _begin(self, opening, unlisted=()):
        """What a primary holds that begins with this opening and these entries of versions that have ended: nothing waits for the committer or
        the link."""
        self.opening = opening
        self.closed = self.local = self.newest = opening.position
        self.unlisted = list(unlisted)
        self.work = []
        self.aside = []
        self.notices = []
        self.stage = ("ready", None)
        # what is sent before all groups, if anything is
        self.delta = None
        self.sending = []
        self.kept = []
        self.again = []
        self.known = self.remote = 0

    def play(self, events):
        """Plays events as the simulator spells them, without `repeat`."""
        if self.ended is not None:
            return self
        for place, event in enumerate(events):
            name, *words = event.split()
            try:
                self.done.append(self._does(name, words))
            except Fault:
                node = CUT_CALLS.get(name) or words[0]
                if not getattr(self, node).is_asked:
                    self.ended = place
                    self._crash_devices(events[place + 1:])
                    break
                self._stop(node)
                self.stops.append((place, name))
                self.done.append(True)
        return self

    def _does(self, name, words):
        """Whether an event does its step."""
        name = name.replace("-", "_")
        is_awake = all(getattr(self, node).runs for node in NODES_OF.get(name, ("primary",)))
        return is_awake and bool(getattr(self, name)(*words))

    def ended_line(self, lines_before):
        """The line of the event that ended the run, where the events are one on each line."""
        return self.ended + 1 + lines_before if isinstance(self.ended, int) else None

    def _connection(self, c):
        """Connection c, where it is open."""
        connection = self.connections[int(c)] if int(c) < len(self.connections) else None
        return connection if connection and connection.is_open else None

    # ---- the connections and the list of calls

    def enter(self):
        if sum(connection.is_open for connection in self.connections) < SEATS:
            self.connections.append(Connection())
            return True

    def feed(self, c, *words):
        return self._fed(c, spelling.spell(*words))

    def feed_bytes(self, c, digits=""):
        return self._fed(c, bytes.fromhex(digits))

    def _fed(self, c, piece):
        connection = self._connection(c)
        if connection and not connection.reader.is_over:
            connection.reader.feed(piece)
            return True

    def offer(self, c):
        connection = self._connection(c)
        if connection and connection.offered < len(connection.reader.items) and len(connection.waiting) < PIPE_ITEMS:
            connection.waiting.append(connection.reader.items[connection.offered])
            connection.offered += 1
            return True

    def turn(self, c):
        connection = self._connection(c)
        if not connection or not connection.waiting:
            return False
        if len(connection.made) >= PIPE_ITEMS or self.redis.position - self.closed >= OPEN_CHANGES:
            return False
        item = connection.waiting.pop(0)
        reply = self.redis.call(int(c), item)
        if self.redis.position > len(self.parts):
            self.parts.append(self.primary.image.part(self.redis.parts[-1]))
        connection.made.append((reply, self.redis.position))
        self.calls.append((int(c), item, reply, self.redis.position))
        return True

    # ---- the committer: its work is groups, and free lists between them

    def close_group(self):
        if len(self.work) == PIPE_ITEMS:
            return False
        if self.closed < self.redis.position:
            self._close_changes()
        elif self.unlisted:
            self.work.append(FreeList(self.newest, tuple(self.unlisted)))
            self.unlisted = []
        else:
            return False
        return True

    def _close_changes(self):
        """All changes that wait become a group. What they ended is to be listed."""
        group = Group(self.closed, self.redis.position)
        for position in range(group.before, group.after):
            ended = self.parts[position].ended
            self.unlisted += ended
            self.newest = position + 1 if ended else self.newest
        self.work.append(group)
        self.closed = group.after

    def _has_room(self):
        return len(self.sending) < PIPE_ITEMS

    def _next_group(self):
        """The place in the queue of the group that may be committed, or None."""
        groups = (at for at, item in enumerate(self.work) if isinstance(item, Group))
        return next(groups, None) if self.stage[0] == "ready" and self._has_room() else None

    def commit(self):
        at = self._next_group()
        if at is None:
            return False
        *lists, group = self.work[:at + 1]
        self._commit_group(group)
        self.aside += lists
        self.stage = ("durable", group)
        del self.work[:at + 1]
        return True

    def _commit_group(self, group):
        self.primary.image.commit_parts(self.parts[group.before:group.after], group.after - group.before, floor=self.remote)

    def _reached(self):
        """The free lists that were reached, where nothing else is to be done and the standby has passed the first of them; otherwise none."""
        if self.stage[0] != "ready" or self._next_group() is not None:
            return []
        reached = self.aside + (self.work if self._has_room() else [])
        return reached if reached and self.remote >= reached[0].position else []

    def free(self):
        """The first list that was reached is freed; all others are aside then."""
        reached = self._reached()
        if not reached:
            return False
        self.notices.append(self.primary.image.free(reached[0].entries, reached[0].position))
        self.aside = reached[1:]
        if self._has_room():
            self.work = []
        return True

    def accept_freed(self):
        if self.notices:
            self.primary.image.room.give(self.notices.pop(0))
            return True

    def _may_clear(self):
        return self.stage[0] == "ready" and self._has_room() and not self.work and not self.aside and self.primary.gaps > 0

    def clear_gap(self):
        if self._may_clear():
            self.notices.append(self.primary.image.clear_gap())
            return True

    def raise_local(self):
        if self.stage[0] == "durable":
            self.stage = ("shown", self.stage[1])
            self.local = self.primary.position
            return True

    def hand(self):
        if self.stage[0] == "shown":
            self.sending.append(self.stage[1])
            self.stage = ("ready", None)
            return True

    # ---- the link and the standby

    def frame_of(self, group):
        """All changes of the calls between the positions of a group."""
        return Frame(*group, tuple(change for part in self.redis.parts[group.before:group.after] for change in part), self.epoch)

    def due_delta(self):
        """The frame that a standby is due which is behind the position at which the primary was opened, or None."""
        before, after = self.standby.position, self.opening.position
        return Frame(before, after, plain_delta.changes_since(before, self.opening), self.epoch) if before < after else None

    def open_link(self):
        self.delta = self.due_delta()
        self.again = list(self.kept)
        self.acknowledgements.append(self.standby.position)
        return True

    def send(self):
        if self.delta is not None:
            self.frames.append(self.delta)
            self.delta = None
        elif self.again:
            self.frames.append(self.again.pop(0))
        elif self.sending and len(self.kept) < KEPT_GROUPS:
            self.frames.append(self.frame_of(self.sending.pop(0)))
            self.kept.append(self.frames[-1])
        else:
            return False
        return True

    def deliver(self, frame, piece=0):
        if int(frame) < len(self.frames):
            self.arrived.append(self.frames[int(frame)])
            return True

    def apply(self):
        if not self.arrived:
            return False
        frame = self.arrived.pop(0)
        self._take(frame)
        if frame.after <= self.standby.position:
            self.acknowledgements.append(self.standby.position)
        return True

    def _take(self, frame):
        """The standby takes a frame that joins on."""
        if frame.before == self.standby.position:
            self.standby.take(frame.changes, frame.after - frame.before, self._is_told(frame.after))

    def _is_told(self, position):
        """Whether the next acknowledgement may be of this position."""
        return self.told is None or self.told[len(self.acknowledgements):][:1] == [position]

    def ack_delivered(self, number):
        if int(number) < len(self.acknowledgements):
            position = self.acknowledgements[int(number)]
            # one that the standby of an earlier epoch made tells nothing
            if self.epoch == 1:
                self.kept = [frame for frame in self.kept if frame.after > position]
                self.again = [frame for frame in self.again if frame.after > position]
                self.known = max(self.known, position)
            return True

    def raise_remote(self):
        if self.remote < self.known:
            self.remote = self.known
            return True

    # ---- the gates

    def hold(self, c):
        connection = self._connection(c)
        if connection and connection.made:
            connection.held.append(connection.made.pop(0))
            return True

    def read(self, c, mark):
        connection = self._connection(c)
        if connection:
            connection.marks[mark] = self.local if mark == "local" else self.remote
            return True

    def release(self, c):
        connection = self._connection(c)
        count = connection.covered() if connection else 0
        if count:
            connection.pending += b"".join(reply for reply, _ in connection.held[:count])
            del connection.held[:count]
            return True

    def write(self, c, count):
        connection = self._connection(c)
        if connection and int(count) <= len(connection.pending):
            connection.released += connection.pending[:int(count)]
            connection.pending = connection.pending[int(count):]
            return True

    def leave(self, c):
        connection = self._connection(c)
        if connection:
            connection.is_open = False
            self.redis.leave(int(c))
            return True

    def parts_of(self, node):
        """The parts of the list that the image of this node is of."""
        is_former = self.former_parts is not None and self.given[node] is self.standby
        return self.former_parts if is_former else self.redis.parts
