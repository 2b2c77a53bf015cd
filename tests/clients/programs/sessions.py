"""Sessions that end, where nothing expires by itself: sessions.py PORT. A session is a hash, and a second hash for each hour, its bucket, lists the sessions
that end in it: so a sweeper finds them without a scan. Both are written in one transaction, so no session is there that no bucket lists, whatever crash
comes. As a test it takes tenths of a second for hours, and prints how much it checked."""

import os
import sys
import threading
import time

import redis

# Keys of one DEL: a request has 1,024 words.
KEYS_AT_ONCE = 1_000


class Sessions:
    """Sessions that live for so many seconds, in buckets of so many seconds."""

    def __init__(self, client, life, bucket):
        self.client, self.life, self.bucket = client, life, bucket

    def _bucket(self, end):
        return f"sessions:{int(end // self.bucket)}"

    def begin(self, user):
        """Makes a session, and returns its name."""
        name, end = os.urandom(16).hex(), time.time() + self.life
        with self.client.pipeline() as batch:
            batch.hset(f"s:{name}", mapping={"user": user, "ends": repr(end)})
            batch.hset(self._bucket(end), name, "")
            batch.execute()
        return name

    def load(self, name):
        """The fields of a session that has not ended, or nothing."""
        found = self.client.hgetall(f"s:{name}")
        return found if found and float(found[b"ends"]) > time.time() else None

    def extend(self, name):
        """Moves the end of a session; whether it was there. It is watched, or one that was ended meanwhile would come back in part."""
        end = time.time() + self.life
        while True:
            with self.client.pipeline() as batch:
                batch.watch(f"s:{name}")
                old = batch.hget(f"s:{name}", "ends")
                if old is None:
                    return False
                batch.multi()
                batch.hset(f"s:{name}", "ends", repr(end))
                batch.hset(self._bucket(end), name, "")
                if self._bucket(float(old)) != self._bucket(end):
                    batch.hdel(self._bucket(float(old)), name)
                try:
                    batch.execute()
                    return True
                except redis.WatchError:
                    # (to do it again does no harm)
                    continue

    def sweep(self, first):
        """Removes what ended in the buckets from this one on that are over. Returns the next one: to be kept by whoever sweeps."""
        over = int(time.time() // self.bucket)
        for number in range(first, over):
            names = self.client.hkeys(f"sessions:{number}")
            for at in range(0, len(names), KEYS_AT_ONCE):
                some = names[at:at + KEYS_AT_ONCE]
                self.client.delete(*(b"s:" + name for name in some))
                self.client.hdel(f"sessions:{number}", *some)
        return over


checked = 0


def check(holds, what):
    global checked
    if not holds:
        sys.exit(what)
    checked += 1


def main():
    client = redis.Redis(port=int(sys.argv[1]), socket_timeout=60)
    begun = first = int(time.time() / 0.1)
    short, long, names = Sessions(client, 0.3, 0.1), Sessions(client, 10_000, 0.1), []

    def use(number):
        names.extend([*((short, short.begin(f"user {number}")) for _ in range(4)), (long, long.begin(f"user {number}"))])

    threads = [threading.Thread(target=use, args=(number,)) for number in range(10)]
    for thread in threads:
        thread.start()
    for thread in threads:
        thread.join()
    ending, kept = [name for whose, name in names if whose is short], [name for whose, name in names if whose is long]
    check([len(ending), len(kept)] == [40, 10], "sessions that were begun")
    for name in kept:
        check(long.load(name)[b"user"].startswith(b"user ") and long.extend(name), "a session that goes on")
    gone = long.begin("a user who leaves")
    client.delete(f"s:{gone}")
    check([long.extend(gone), long.load(gone), client.exists(f"s:{gone}")] == [False, None, 0], "a session that was ended")
    while client.exists(*(f"s:{name}" for name in ending)):
        first = short.sweep(first)
        time.sleep(0.05)
    check(client.exists(*(f"s:{name}" for name in kept)) == len(kept), "what has not ended")
    first = short.sweep(first)
    check(client.exists(*(f"sessions:{number}" for number in range(max(begun, first - 1_000), first))) == 0, "buckets that are over")
    print(f"redis-py {redis.__version__}, sessions: {checked} checked")


main()
