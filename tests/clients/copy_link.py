"""What stands between a primary and its standby and knows their frames: it holds a copy at a stage of it, where nodes are killed or the link is cut, and
counts what passes."""

import contextlib
import threading

from between import Between
from pair import wait_until
from plain_wire import ACK_BYTES, ACKNOWLEDGEMENT, COPY_END, COPY_PART, COPY_WANTED, GREETING, GREETING_BYTES, GROUP

# How many bytes the frames have that are of one length, by their first byte.
LENGTHS = {GREETING: GREETING_BYTES, ACKNOWLEDGEMENT: ACK_BYTES, COPY_WANTED: 9, COPY_END: 25}
# How many the others have in front of their body, with the length of that in the last eight.
HEAD_BYTES, LENGTH_BYTES = 33, 8
# Where a copy is held: its newcomer has asked for none yet; it was asked for, and nothing of it has come; its first part has; all but its end has; its newcomer
# has taken the end, and that is not acknowledged.
STAGES = ("asking", "awaiting", "parts", "before the end", "end taken")


class Frames:
    """The frames that come on a connection, one by one."""

    def __init__(self, connection):
        self.connection, self.come = connection, bytearray()

    def __iter__(self):
        with contextlib.suppress(OSError):
            while first := self._front(1):
                if first[0] in (GROUP, COPY_PART):
                    head = self._front(HEAD_BYTES)
                    length = HEAD_BYTES + int.from_bytes(head[-LENGTH_BYTES:], "big") if head else 0
                else:
                    length = LENGTHS[first[0]]
                if not self._front(length):
                    return
                data = bytes(self.come[:length])
                del self.come[:length]
                yield data

    def _front(self, length):
        """So many bytes of what comes next, which stay there; none where the connection ends before."""
        while len(self.come) < length:
            piece = self.connection.recv(1 << 18)
            if not piece:
                return b""
            self.come += piece
        return self.come[:length]


class CopyLink(Between):
    """While it is deaf it takes no new connection. Of the last connection on which a copy was asked for, `parts` has the bodies of the parts that came, and `ends`
    the ends; `wanted` counts such connections."""

    def __init__(self, standby):
        self.stage, self.is_deaf = None, False
        self.parts, self.ends, self.wanted = [], [], 0
        self.is_held, self.goes_on = threading.Event(), threading.Event()
        super().__init__(standby)

    def close(self):
        self.release()
        super().close()

    def hold(self, stage):
        """Holds the next copy at this stage."""
        self.is_held.clear()
        self.goes_on.clear()
        self.stage = stage

    def wait(self):
        """Waits until a copy is held."""
        wait_until(self.is_held.is_set, f"a copy that is held: {self.stage}")

    def release(self):
        """Passes on what was held, and all that comes."""
        self.stage = None
        self.goes_on.set()

    def _connect(self):
        if self.is_deaf:
            raise OSError
        return super()._connect()

    def _pass_on(self, one, other, is_primary):
        for data in Frames(one):
            self._note(data)
            if self._is_stage(data, is_primary):
                self.is_held.set()
                self.goes_on.wait()
            other.sendall(data)

    def _note(self, data):
        if data[0] == COPY_WANTED:
            self.parts, self.ends, self.wanted = [], [], self.wanted + 1
        if data[0] == COPY_PART:
            self.parts.append(data[HEAD_BYTES:])
        if data[0] == COPY_END:
            self.ends.append(data)

    def _is_stage(self, data, is_primary):
        """Whether this is what comes next at the stage at which a copy is held."""
        if not is_primary:
            return (self.stage, data[0]) in (("asking", COPY_WANTED), ("end taken", ACKNOWLEDGEMENT)) and (data[0] == COPY_WANTED or bool(self.ends))
        if self.stage == "awaiting":
            return data[0] in (COPY_PART, COPY_END)
        if self.stage == "parts":
            return data[0] in (COPY_PART, COPY_END) and len(self.parts) > int(data[0] == COPY_PART)
        return self.stage == "before the end" and data[0] == COPY_END
