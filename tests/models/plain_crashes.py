"""What stops the nodes of the plain machine: fences that fail, crashes between two events and in the middle of a call, the fence of the primary, and the promotion
of its standby."""

import itertools

import plain_delta
import plain_image

# The events that a crash may cut, but for a reopening, by the node that makes them.
CUT_CALLS = {"commit": "primary", "free": "primary", "clear-gap": "primary", "apply": "standby", "promote": "standby"}


class Crashes:
    """The part of a machine that has these events."""

    def _crash_devices(self, events):
        """The crashes among these events happen to the devices of a run that has ended; their picks begin again where they end."""
        for name, node, *picks in (event.split() for event in events if event.startswith("crash ")):
            # what a call would be cut by is a crash then, as none is made any more
            picks = picks[2:] if picks[0] in (*CUT_CALLS, "reopen") else picks
            self.given[node].device.crash(itertools.cycle(map(int, picks)))

    # ---- fences that fail, and crashes: between two events no word of the image of a node that runs has several candidates, so the picks choose nothing

    def fail_fence(self, node, number):
        """The fence of this number, counted from the node's next one, fails; 0: none."""
        if getattr(self, node).runs:
            getattr(self, node).fail(int(number))
            return True

    def _stop(self, node):
        """A fence of the node failed as it was asked to. What was delivered to a standby is lost."""
        getattr(self, node).stop()
        if node == "standby":
            self.arrived = []

    def crash(self, node, *words):
        if words[0] in CUT_CALLS or words[0] == "reopen":
            return self._crash_in(node, *words)
        if not getattr(self, node).crash(map(int, words)):
            return False
        self._after_crash(node)
        return True

    def _crash_in(self, node, call, count, *picks):
        """It crashes in the middle of this call, after so many stores, flushes and fences, where it may make the call."""
        does = self._call_of(node, call)
        if does is None:
            return False
        getattr(self, node).crash_in(does, int(count), map(int, picks))
        self._after_crash(node)
        return True

    def _call_of(self, node, call):
        """What this call does to the image of the node, or None where it may not make it."""
        own = getattr(self, node)
        if call == "reopen":
            return own.image.reopen if own.has_crashed else None
        if not own.runs or CUT_CALLS[call] != node:
            return None
        return getattr(self, f"_cut_{call.replace('-', '_')}")()

    def _cut_commit(self):
        at = self._next_group()
        return None if at is None else lambda: self._commit_group(self.work[at])

    def _cut_free(self):
        reached = self._reached()
        return (lambda: self.primary.image.free(reached[0].entries, reached[0].position)) if reached else None

    def _cut_clear_gap(self):
        return self.primary.image.clear_gap if self._may_clear() else None

    def _cut_apply(self):
        return (lambda: self._take(self.arrived[0])) if self.arrived else None

    def _cut_promote(self):
        """The opening that follows the promotion of the image is cut as a reopening."""
        return self.standby.image.promote if self.primary.is_over else None

    def _after_crash(self, node):
        """A standby that crashed in its promotion may have become the primary, which is to be opened."""
        if node == "primary":
            self._crash_primary(self.primary.position)
            return
        self.arrived = []
        if self.standby.image.role == plain_image.PRIMARY:
            self._succeed()

    def _succeed(self):
        """The node that stood by takes the place of the one that was the primary, to which nothing happens."""
        self.primary, self.standby = self.standby, self.primary
        self.arrived = []
        self.former_parts = self.redis.parts
        self.epoch += 1
        self._crash_primary(self.primary.position)

    def _crash_primary(self, position):
        """All connections are over, and the calls after this position, that of the image, are gone. What the image tells of the list
        that is left is what a standby may be told that is behind."""
        for connection in self.connections:
            connection.is_open = False
        self.calls = [call for call in self.calls if call[3] <= position]
        self.parts = self.parts[:position]
        self.redis.crash(position, self.primary.image.room)
        self._begin(plain_delta.opening_of(self.primary.image), self.primary.image.ended)

    def reopen(self, node):
        return getattr(self, node).reopen()

    # ---- failover

    def fence(self):
        return self.primary.end()

    def promote(self):
        """The standby goes on as the primary of the next epoch, from its image."""
        if not self.primary.is_over:
            return False
        self.standby.promote()
        self._succeed()
        return True
