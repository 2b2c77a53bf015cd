"""Judges histories that the simulator plays and tells (`wbl-sim --trace`, docs/simulator.md): whether one sequential plain Redis answers the calls of the list, what
was released to each connection begins its replies and is in the images, and each image holds the keyspace of the list at its position."""

import bisect
import functools
import re

import common
import plain_redis
import simulation
import spelling

CHANGED = "an event that is not enabled changed something"
LIST = "the list has other calls than it should have"
REQUEST = "a call is not of the next request of its connection"
REPLY = "a call is not answered as a plain Redis answers it"
RELEASED = "the bytes released to a connection do not begin its replies"
LOST = "a released call is not in the list any more"
UNCOVERED = "a released call is not in the image of each node"
AHEAD = "an image holds more than the list"
KEYSPACE = "an image does not hold the keyspace of the list at its position"

CUT = re.compile(r"calls: (\d+)")
STOPPED = re.compile(r"(primary|standby): stopped")
BROKEN = re.compile(r"broken: (.*)")


class Broken(Exception):
    """What of the promise does not hold, as the first argument; the second says where it shows, if there is more to say."""


@functools.lru_cache(4_096)
def unquoted(text):
    return common.unquoted(text)


@functools.lru_cache(4_096)
def record_of(name, value):
    """A record of an image: its name and its value."""
    return simulation.words_of(name), unquoted(value)


class Client:
    """A connection: what it sent, and the replies to its calls in the list."""

    def __init__(self):
        self.reader = spelling.Reader(plain_redis.closes)
        # how many of its items were called
        self.called = 0
        self.replies = b""
        # of each of its calls in the list: its number there, its position, and where its reply begins among all of the connection
        self.calls, self.positions, self.starts = [], [], []
        self.released = 0

    def next_item(self):
        if self.called == len(self.reader.items):
            raise Broken(REQUEST)
        self.called += 1
        return self.reader.items[self.called - 1]

    def answer(self, call, position, reply):
        self.calls.append(call)
        self.positions.append(position)
        self.starts.append(len(self.replies))
        self.replies += reply

    def release(self, data):
        """These bytes more were released. Gives the position of the last call of which one was."""
        if not self.replies.startswith(data, self.released):
            raise Broken(RELEASED, f"{common.quoted(data)} for {common.quoted(self.replies[self.released:][:60])}")
        self.released += len(data)
        return self.positions[bisect.bisect_left(self.starts, self.released) - 1]

    def cut(self, calls):
        """The list was cut before the call of this number."""
        kept = bisect.bisect_left(self.calls, calls)
        if kept < len(self.calls):
            self.replies = self.replies[:self.starts[kept]]
            self.calls, self.positions, self.starts = self.calls[:kept], self.positions[:kept], self.starts[:kept]
        if len(self.replies) < self.released:
            raise Broken(LOST)


class Told:
    """What was told of one line."""

    def __init__(self, lines):
        self.outcome = lines[0]
        self.calls, self.released, self.left, self.broken = [], [], None, None
        # of each image that was read: its node, its line, its records, and whether a fence of it had failed
        self.images = []
        stopped = set()
        for line in lines:
            if found := simulation.RECORD.fullmatch(line):
                name, value = record_of(found[2], found[3])
                self.images[-1][2][name] = value
            elif found := simulation.POSITION.fullmatch(line):
                self.images.append((found[1], found, {}, found[1] in stopped))
            elif found := simulation.CALL.fullmatch(line):
                self.calls.append((int(found[1]), int(found[2]), simulation.words_of(found[3]), unquoted(found[4])))
            elif found := simulation.RELEASED.fullmatch(line):
                self.released.append((int(found[1]), unquoted(found[2])))
            elif found := STOPPED.fullmatch(line):
                stopped.add(found[1])
            elif found := CUT.fullmatch(line):
                self.left = int(found[1])
            elif found := BROKEN.fullmatch(line):
                self.broken = found[1]


class Judge:
    """Looks at one history, line by line. `lines` are those that the simulator reads, without what came of them."""

    def __init__(self):
        self.lines = []
        self._told = []
        self._redis = plain_redis.Redis()
        # the keyspace at each position, and the position of each call of the list
        self._keyspaces, self._positions = [{}], []
        self._clients = []
        # the position of the last call of which a byte was released to anyone
        self._covered = 0
        # where the images stand that no failed fence left, by their nodes at the beginning
        self._standing = {node: 0 for node in simulation.NODES}
        self._is_promoted = False

    def take(self, line):
        """The next line. Raises `Broken` where what was told of the last one breaks the promise."""
        if line.startswith('# "'):
            return
        if line.startswith("# "):
            self._told.append(line[2:])
            return
        self.close()
        self.lines.append(line)

    def close(self):
        """All was told of the last line."""
        told, self._told = self._told, []
        if told:
            self._see(self.lines[-1].split() if self.lines else [""], Told(told))

    def _see(self, words, told):
        """What was told of the line of these words."""
        if words[0] == "restore":
            self._see_restored(told)
        else:
            was_promoted = self._is_promoted
            for image in told.images:
                self._read(*image)
            if told.outcome == "not enabled" and (told.images or told.calls or told.released or told.left is not None):
                raise Broken(CHANGED)
            if told.outcome == "done":
                self._follow(*words)
                self._see_list(words, told, was_promoted)
            self._check_covered()
        if told.broken:
            raise Broken(told.broken)

    def _read(self, node, line, records, has_stopped):
        """An image of this list."""
        self._check_image(node, int(line[2]), records)
        if not has_stopped:
            self._standing[node] = int(line[2])
            self._is_promoted |= (node, line[7]) == ("standby", "primary")

    def _check_image(self, node, position, records):
        if position >= len(self._keyspaces):
            raise Broken(AHEAD, f"the {node} at {position}")
        if records != self._keyspaces[position]:
            raise Broken(KEYSPACE, f"the {node} at {position}")

    def _see_restored(self, told):
        """An image that is put back need not be of this list, unless the link was taken."""
        if told.outcome.startswith("taken"):
            for node, line, records, _ in told.images:
                self._check_image(node, int(line[2]), records)

    def _follow(self, name, *words):
        """What an event did that no call tells."""
        if name == "enter":
            self._clients.append(Client())
        elif name in ("feed", "feed-bytes"):
            connection, *rest = words
            self._clients[int(connection)].reader.feed(spelling.spell(*rest) if name == "feed" else bytes.fromhex("".join(rest)))
        elif name == "leave":
            self._redis.leave(int(words[0]))

    def _see_list(self, words, told, was_promoted):
        """The list is cut where a primary crashes or is another one, a turn makes one call of its connection, and nothing else changes it."""
        is_cut = words[:2] == ["crash", "primary"] or self._is_promoted != was_promoted
        makers = [int(words[1])] if words[0] == "turn" else []
        if told.left != (self._cut() if is_cut else None) or [call[1] for call in told.calls] != makers:
            raise Broken(LIST)
        for call in told.calls:
            self._call(*call)
        for connection, data in told.released:
            self._covered = max(self._covered, self._clients[connection].release(data))

    def _cut(self):
        """The list is cut at the position of the image that serves, and goes on from there without connections. Gives how many calls are left, if some were
        cut."""
        position = self._standing["standby" if self._is_promoted else "primary"]
        calls, before = bisect.bisect_right(self._positions, position), len(self._positions)
        self._positions, self._keyspaces = self._positions[:calls], self._keyspaces[:position + 1]
        self._redis.crash(position, None)
        for client in self._clients:
            client.cut(calls)
        return calls if calls < before else None

    def _call(self, number, connection, words, reply):
        """The list has this call more."""
        if number != len(self._positions):
            raise Broken(LIST)
        item = self._clients[connection].next_item()
        if words != (None if isinstance(item, spelling.Fault) else item):
            raise Broken(REQUEST, f"call {number}")
        wanted = self._redis.call(connection, item)
        if reply != wanted:
            raise Broken(REPLY, f"call {number}: {common.quoted(reply)} for {common.quoted(wanted)}")
        if self._redis.position == len(self._keyspaces):
            self._keyspaces.append(dict(self._redis.keyspace.records()))
        self._positions.append(self._redis.position)
        self._clients[connection].answer(number, self._redis.position, reply)

    def _check_covered(self):
        """Each call of which a byte was released is in the images of all nodes that may still serve."""
        serving = ["standby"] if self._is_promoted else simulation.NODES
        if min(self._standing[node] for node in serving) < self._covered:
            raise Broken(UNCOVERED)
