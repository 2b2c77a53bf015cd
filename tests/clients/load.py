"""Writers side by side on a pair, each on keys of its own, and a reader of them all. Each notes what it was answered and what it asked, so
that after a crash every key has a bound from below and one from above."""

import contextlib
import threading
import time

import plain_replies
from pair import PATIENCE, Client, Ended, TakesTooLong
from plain_replies import NULL_BULK, OK, QUEUED, array, bulk
from spelling import spell

WRITERS = 20
# How many requests a writer sends before it reads.
PIPELINE = 4


def number_of(reply):
    """The number in a reply, or 0 where there is nothing."""
    return 0 if reply == NULL_BULK else int(reply.split(b"\r\n")[1] if reply.startswith(b"$") else reply[1:])


class Writer:
    """Makes its key, or both of its keys, the numbers 1, 2, 3 and on. `answered` is the last one that it was told of, `asked` the last one
    that it asked for."""

    def __init__(self, number):
        self.number, self.answered, self.asked = number, 0, 0

    def keys(self):
        return [f"{type(self).__name__}{self.number}"]

    def turn(self, client):
        """Asks for the next few numbers, and reads the replies."""
        first, self.asked = self.asked + 1, self.asked + PIPELINE
        client.send(b"".join(self.requests(number) for number in range(first, self.asked + 1)))
        for number in range(first, self.asked + 1):
            for wanted in self.replies(number):
                found = client.reply()
                if found != wanted:
                    raise AssertionError(f"{self.keys()}: {found!r} for {wanted!r}")
            self.answered = number

    def check(self, found, told):
        """The number that its keys have: at least the last one that it was answered, at most the last one that it asked for."""
        if not self.answered <= found <= self.asked:
            raise AssertionError(f"{self.keys()}: {found} {told}, where {self.answered} was answered and {self.asked} asked for")


class Counter(Writer):
    """Counts by INCR."""

    def requests(self, number):
        return spell("INCR", *self.keys())

    def replies(self, number):
        return [plain_replies.integer(number)]


class Session(Writer):
    """Sets its key and gets it."""

    def requests(self, number):
        return spell("SET", *self.keys(), f"{number}") + spell("GET", *self.keys())

    def replies(self, number):
        return [OK, bulk(b"%d" % number)]


class Transfer(Writer):
    """Sets two keys to one value by a transaction: they are never seen to differ."""

    def keys(self):
        return [f"{name}{self.number}" for name in ("from", "to")]

    def requests(self, number):
        sets = b"".join(spell("SET", key, f"{number}") for key in self.keys())
        return spell("MULTI") + sets + spell("EXEC")

    def replies(self, number):
        return [OK, QUEUED, QUEUED, array([OK, OK])]


class Load:
    """Twenty writers on a pair, and a reader of all their keys, while it runs; and what they know of it after a crash. `pause` is how many seconds each of them
    rests between two turns at least."""

    def __init__(self, pair):
        self.pair, self.pause = pair, 0
        kinds = (Counter, Session, Transfer)
        self.writers = [kinds[number % len(kinds)](number) for number in range(WRITERS)]
        self.seen = [0] * WRITERS
        self.wrong = []
        self.is_ending = threading.Event()
        self.threads = []

    def start(self):
        self.is_ending.clear()
        works = [*((writer.turn, 0) for writer in self.writers), (self.look, 0.01)]
        self.threads = [threading.Thread(target=self._run, args=work, daemon=True) for work in works]
        for thread in self.threads:
            thread.start()

    def _run(self, turn, pause):
        """Takes turns on a connection, until this ends or the connection does."""
        try:
            with contextlib.suppress(OSError, Ended), Client(self.pair.door.number) as client:
                while not self.is_ending.is_set():
                    turn(client)
                    time.sleep(max(pause, self.pause))
        except Exception as error:  # (of a thread, to be told by the test)
            self.wrong.append(error)

    def end(self):
        """Ends the writers: each has read its replies, or has lost its connection."""
        self.is_ending.set()
        for thread in self.threads:
            thread.join(PATIENCE)
            if thread.is_alive():
                raise TakesTooLong("a writer that ends")
        if self.wrong:
            raise self.wrong[0]

    def answered(self):
        """How many changing calls were answered."""
        return sum(writer.answered for writer in self.writers)

    def asked(self):
        return sum(writer.asked for writer in self.writers)

    def wait_for(self, count):
        """Waits until so many more are answered, or something is wrong."""
        end, wanted = time.monotonic() + PATIENCE, self.answered() + count
        while self.answered() < wanted and not self.wrong:
            if time.monotonic() > end:
                raise TakesTooLong(f"{count} more answers")
            time.sleep(0.002)

    def wait_for_silence(self):
        """Waits until no answer comes for a while."""
        end, last = time.monotonic() + PATIENCE, -1
        while last != (last := self.answered()):
            if time.monotonic() > end:
                raise TakesTooLong("an end of the answers")
            time.sleep(0.3)

    def look(self, client):
        """Reads all keys at once: what two keys of a transaction hold is the same, and no number is less than one that was read before."""
        keys = [key for writer in self.writers for key in writer.keys()]
        found = iter(map(number_of, plain_replies.elements(client.ask("MGET", *keys))))
        for at, writer in enumerate(self.writers):
            numbers = [next(found) for _ in writer.keys()]
            if len(set(numbers)) > 1:
                raise AssertionError(f"{writer.keys()} are {numbers}: a transaction in part")
            if numbers[0] < self.seen[at]:
                raise AssertionError(f"{writer.keys()} is {numbers[0]}, after {self.seen[at]} was read")
            self.seen[at] = numbers[0]

    def check(self, told):
        """Reads all keys after a crash: nothing that was answered is lost, nothing is there that was not asked for. The writers go on from
        what is there."""
        with Client(self.pair.door.number) as client:
            self.look(client)
        for writer, found in zip(self.writers, self.seen):
            writer.check(found, told)
            writer.answered = writer.asked = found
