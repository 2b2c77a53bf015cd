"""Writers that keep a pair nearly full, over values of lengths that come and go, with kills of either node beside: each request is answered while both
nodes run, and at last both images hold the same, with all that was answered.

An image whose versions come and go in another order than the other's has its free lines in other places, though as many."""

import collections
import contextlib
import math
import random
import select
import threading
import time
import typing

from pair import PATIENCE, Client, Ended, Pair, TakesTooLong, wait_until
from plain_image import LAYOUT, MORE_LINES, MOST_VALUE_BYTES, extents_begin, lines_of
from plain_replies import NO_ROOM, OK, error, integer
from spelling import spell

CLIENTS = 4
# What a writer sends before it reads, at most.
PIPELINE = 3
STORE_IS_FULL = error(NO_ROOM)
# What a standby tells that can make no room: never one of MORE_LINES more than its primary.
NAMED = b"refusal 5: full"
# For how long a request waits at most before a standby that has said so is taken for stuck.
STUCK_SECONDS = 20
PAGES = (1_024, 4_096, 16_384)
LONGEST = 65_536


def session(draws):
    """Bytes of a session: half of them are below 665."""
    return min(LONGEST, int(draws.lognormvariate(math.log(665), 1)))


# How many bytes a value has, by the kind of load.
KINDS = {
    "sessions": session,
    "pages": lambda draws: draws.choice(PAGES),
    "blobs": lambda draws: LONGEST if draws.randrange(10) == 0 else draws.randrange(400),
    "any": lambda draws: int(2 ** draws.uniform(0, 16)),
    "mebibytes": lambda draws: MOST_VALUE_BYTES if draws.randrange(4) == 0 else draws.randrange(400_000),
}


class Waited(Exception):
    """A request was not answered in time. The text says which, and how both nodes stand."""


class Outcome(typing.NamedTuple):
    """How many requests were answered, how many of them that the store is full, the longest that one waited while both nodes ran, in seconds, how
    often a node was killed, and whether the standby told that it can make no room."""

    answered: int
    full: int
    longest: float
    kills: int
    is_named: bool


class RunningClock:
    """Counts the seconds in which both nodes run."""

    def __init__(self):
        self.lock = threading.Lock()
        self.counted, self.since = 0, time.monotonic()

    def now(self):
        with self.lock:
            return self.counted + (time.monotonic() - self.since if self.since else 0)

    @contextlib.contextmanager
    def stopped(self):
        with self.lock:
            self.counted, self.since = self.counted + time.monotonic() - self.since, None
        yield
        with self.lock:
            self.since = time.monotonic()


class PatientClient(Client):
    """A connection that waits for a reply no longer than its writer does."""

    def __init__(self, port, check):
        super().__init__(port)
        self.check = check

    def _receive(self):
        while not select.select([self.socket], [], [], 0.1)[0]:
            self.check()
        super()._receive()


class Store:
    """What the writers share: how many lines and keys their values may take together, and the clock."""

    def __init__(self, pair, fill, most_wait, has_spare):
        self.pair, self.most_wait, self.has_spare, self.clock = pair, most_wait, has_spare, RunningClock()
        self.most_lines = (pair.lines - extents_begin(pair.lines)) * fill // 100
        self.most_keys = LAYOUT.entries(pair.lines) * fill // 100
        self.lock = threading.Lock()
        self.lines = self.keys = 0
        self.is_ending = threading.Event()
        self.wrong = []

    def take(self, lines, keys):
        """These may be taken beside all others; else nothing is."""
        with self.lock:
            may = self.lines + lines <= self.most_lines and self.keys + keys <= self.most_keys
            if may:
                self.lines, self.keys = self.lines + lines, self.keys + keys
            return may

    def give(self, lines, keys):
        with self.lock:
            self.lines, self.keys = self.lines - lines, self.keys - keys

    def end(self, wrong):
        """All end, since something is wrong."""
        self.wrong.append(wrong)
        self.is_ending.set()

    def check(self, since, what):
        """What was asked then does not wait longer than it may."""
        waited = self.clock.now() - since
        if waited > self.most_wait or waited > STUCK_SECONDS and not self.has_spare and self.is_named():
            standby, primary = (node.errors.read_bytes()[-200:] for node in (self.pair.standby, self.pair.primary))
            raise Waited(f"{what}: no reply in {waited:.1f} s in which both nodes ran; {self.lines} of {self.most_lines} lines are asked for; "
                         f"the standby tells {standby!r}, the primary {primary!r}")

    def catch_up(self):
        """All that the primary has comes to the standby, as a reply waits for that."""
        since = self.clock.now()
        with PatientClient(self.pair.door.number, lambda: self.check(since, "DBSIZE, after all writers")) as client:
            client.ask("DBSIZE")

    def is_named(self):
        return NAMED in self.pair.standby.errors.read_bytes()


class Writer:
    """Sets keys of its own to values of drawn lengths, and deletes some where there are too many. `known` has by key the lengths that its value may have:
    one that was answered, or more where a reply was lost; 0 where there may be none. `since` is when the last reply came, or the first request that has
    waited since then was sent, over as many connections as that took."""

    def __init__(self, store, kind, seed, number):
        self.store, self.number = store, number
        self.length, self.draws = KINDS[kind], random.Random(f"{kind} {seed} {number}")
        self.known, self.taken = {}, {}
        self.waiting, self.since = collections.deque(), None
        self.made = self.answered = self.full = 0
        self.longest = 0

    def run(self):
        """Writes until all end."""
        try:
            while not self.store.is_ending.is_set():
                with contextlib.suppress(OSError, Ended), PatientClient(self.store.pair.door.number, self.check) as client:
                    self.waiting.clear()
                    while not self.store.is_ending.is_set():
                        self.turn(client)
                time.sleep(0.02)
        except Exception as wrong:  # (of a thread, to be told by the test)
            self.store.end(wrong)

    def turn(self, client):
        """A few requests in one piece, and their replies."""
        requests = [self.request() for _ in range(self.draws.randint(1, PIPELINE))]
        self.waiting.extend(requests)
        self.since = self.since or self.store.clock.now()
        client.send(b"".join(spell("SET", key, self.value(key, length)) if length else spell("DEL", key) for key, length in requests))
        while self.waiting:
            self.hear(client.reply())

    def value(self, key, length):
        """So many bytes that no other key has, and this one does not have again soon."""
        piece = f"{key} {self.answered};".encode()
        return (piece * (length // len(piece) + 1))[:length]

    def request(self):
        """A key and the length that it is to have, or 0 where it is to go."""
        if len(self.known) > 2 and self.draws.randrange(20) == 0:
            return self.removal()
        length = max(1, self.length(self.draws))
        is_new = not self.known or self.draws.randrange(3) == 0
        key = f"k{self.number}.{self.made}" if is_new else self.draws.choice(list(self.known))
        lines = lines_of(len(key) + length)
        before = self.taken.get(key, 0)
        if not self.store.take(lines - before, int(is_new)):
            return self.removal() if self.known else (f"k{self.number}.none", 0)
        self.made += is_new
        self.known.setdefault(key, {0}).add(length)
        self.taken[key] = lines
        return key, length

    def removal(self):
        key = self.draws.choice(list(self.known))
        self.known[key].add(0)
        return key, 0

    def hear(self, reply):
        """The reply to the request that waits longest. One that was refused room is as if it had not been made, and one of its own goes."""
        key, length = self.waiting.popleft()
        now = self.store.clock.now()
        self.longest, self.since = max(self.longest, now - self.since), now if self.waiting else None
        self.answered += 1
        if reply == STORE_IS_FULL:
            self.full += 1
            self.known.get(key, set()).add(0)
        elif reply not in ((OK,) if length else (integer(0), integer(1))):
            raise AssertionError(f"{key}: {reply!r}")
        self.settle(key, length, reply)

    def settle(self, key, length, reply):
        """What is known of a key once nothing of it is on its way any more."""
        if any(other == key for other, _ in self.waiting):
            return
        if reply == OK:
            self.known[key] = {length}
        elif reply != STORE_IS_FULL and key in self.known:
            del self.known[key]
            self.store.give(self.taken.pop(key), 1)

    def check(self):
        """The request that waits longest does so no longer than it may."""
        key, length = self.waiting[0]
        what = f"SET {key} to {length} bytes" if length else f"DEL {key}"
        self.store.check(self.since, f"writer {self.number}, after {self.answered} replies: {what}")


def kill_now_and_then(store, draws, seconds):
    """For so many seconds, or until all end, kills one of the nodes after a while and starts it again. How often it did. (A node ends with the thread that
    started it, so this is the test's.)"""
    count, end = 0, time.monotonic() + seconds
    while not store.is_ending.wait(draws.uniform(0.3, 1.5)) and time.monotonic() < end:
        node = draws.choice([store.pair.primary, store.pair.standby])
        with store.clock.stopped():
            store.pair.restart(node)
            wait_until(node.is_listening, f"a {node.role} that listens")
        count += 1
    return count


def check_images(pair, writers):
    """Both images hold the same, and each key has a value of a length that it may have."""
    pair.end()
    primary, standby = pair.primary.read_image(), pair.standby.read_image()
    if (primary.record.position, primary.map) != (standby.record.position, standby.map):
        raise AssertionError(f"the images differ: positions {primary.record.position} and {standby.record.position}")
    found = {name[0].decode(): len(value) for name, value in primary.map.items()}
    for writer in writers:
        for key, lengths in writer.known.items():
            if found.pop(key, 0) not in lengths:
                raise AssertionError(f"{key}: not one of {lengths}")
    if found:
        raise AssertionError(f"keys that were deleted are there: {sorted(found)[:5]}")


@contextlib.contextmanager
def running(writers, store):
    """Beside what is done here all these write, unless something is wrong; they have ended then."""
    threads = [threading.Thread(target=writer.run, daemon=True) for writer in writers]
    for thread in threads:
        thread.start()
    try:
        yield
    finally:
        store.is_ending.set()
        for thread in threads:
            thread.join(2 * PATIENCE)
            if thread.is_alive():
                raise TakesTooLong("a writer that ends")
    if store.wrong:
        raise store.wrong[0]


def load(kind, lines, fill, seconds, standby_lines=None, kills=False, seed=0, most_wait=PATIENCE, folder=None):
    """So many seconds of writers over a pair of images of so many lines, of which their values take `fill` per cent at most. Waited where a request is not
    answered while both nodes run, but where the standby, being no larger, tells that it has no room."""
    with Pair(lines=lines, standby_lines=standby_lines, folder=folder) as pair:
        has_spare = (standby_lines or lines) >= lines + MORE_LINES
        store = Store(pair, fill, most_wait, has_spare)
        writers = [Writer(store, kind, seed, number) for number in range(CLIENTS)]
        count = 0
        try:
            with running(writers, store):
                if kills:
                    count = kill_now_and_then(store, random.Random(f"kills {seed}"), seconds)
                else:
                    store.is_ending.wait(seconds)
            store.catch_up()
            check_images(pair, writers)
        except Waited:
            if not store.is_named() or has_spare:
                raise
        answered, full = (sum(getattr(writer, name) for writer in writers) for name in ("answered", "full"))
        return Outcome(answered, full, max(writer.longest for writer in writers), count, store.is_named())
