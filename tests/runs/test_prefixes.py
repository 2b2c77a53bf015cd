"""Both images after each single event of a history full of transactions, and after a crash in a commit of it: each holds whole calls, in
order from the first on, where an EXEC of several writes is one call."""

import draws
import plain_image
import plain_keyspace
import plain_machine
import plain_redis
import plain_writer
from simulation import NODES, Runs, Schedule, simulate
from spelling import spell

PROGRAMS = ["simulator"]
IS_SLOW = True

LINES = 4_096
CONNECTIONS = 3
REQUESTS = 80
# How much of what each sends is offered before anything else happens, and how many events come then.
OFFERS = 120
EVENTS = 300
CRASHES = 40

# What is written: short values at few keys, so that what a transaction wrote first is often gone when it ends.
WRITES = ["SET a", "SET b", "APPEND a", "HSET h f", "HSET h g", "SETNX b", "INCRBY n", "DECRBY m", "DEL a h", "DEL b n", "GETDEL a", "HDEL h f",
          "MSET a 1 c", "MSET b 2 d", "FLUSHDB"]
# Those that take no more words.
WHOLE = {"DEL a h", "DEL b n", "GETDEL a", "HDEL h f", "FLUSHDB"}
READS = ["GET a", "MGET a b c d", "HGETALL h", "DBSIZE"]


def write(drawn, number):
    words = drawn.choice(WRITES)
    return words if words in WHOLE else f"{words} {number}"


def requests(drawn):
    """What a connection sends: transactions of several writes, a few of which a watched key may stop, and single requests."""
    found = []
    for number in range(REQUESTS):
        kind = drawn.randrange(4)
        if kind == 0:
            found.append(write(drawn, number))
        elif kind == 1:
            found.append(drawn.choice(READS))
        else:
            inside = [write(drawn, 10 * number + place) for place in range(drawn.randint(2, 5))]
            watches = [f"WATCH {drawn.choice('abh')}"] if drawn.randrange(4) == 0 else []
            found += [*watches, "MULTI", *inside, "EXEC"]
    return b"".join(spell(*each.split()) for each in found)


def history(seed):
    """Events: what all connections send is offered, and then come turns and the way of what they change, in any order. Of those that
    would change nothing a few are kept."""
    drawn = draws.numbers(f"prefixes {seed}")
    schedule, machine = Schedule(CONNECTIONS), plain_machine.Machine()
    for c in range(CONNECTIONS):
        schedule.feed(c, requests(drawn))
        schedule.add(*OFFERS * [f"offer {c}"])
    machine.play(schedule.events)
    first = len(schedule.events)
    while len(schedule.events) < first + EVENTS:
        frames = range(len(machine.frames) + 1)
        joining = [frame for frame in frames[:-1] if machine.frames[frame][0] == machine.standby.position]
        frame = drawn.choice([*joining, *joining, drawn.choice(frames)])
        turn = f"turn {drawn.randrange(CONNECTIONS)}"
        names = [turn, "close-group", "commit", "raise-local", "hand", "send", f"deliver {frame}", "apply"]
        (name,) = drawn.choices(names, [9, 2, 4, 4, 4, 3, 3, 3])
        machine.play([name])
        if machine.done[-1] or drawn.randrange(8) == 0:
            schedule.add(name)
    return schedule.events, first


def keyspaces(calls):
    """The keyspace after each number of changing calls; how many there are after each number of calls; and the changes of
    each."""
    redis = plain_redis.Redis(plain_writer.Room(LINES))
    found, positions = [{}], [0]
    for call in calls:
        redis.call(call.connection, call.words)
        positions.append(redis.position)
        if redis.position == len(found):
            found.append(dict(redis.keyspace.records()))
    return found, positions, redis.parts


def in_part(whole, parts):
    """How many calls have, after some of their changes, left a keyspace that is that of no list of whole calls."""
    count = 0
    for position, part in enumerate(parts):
        between = (plain_keyspace.keyspace_after([*parts[:position], part[:made]]) for made in range(1, len(part)))
        count += any(dict(keyspace.records()) not in whole for keyspace in between)
    return count


class Prefixes(Runs):
    """One test a seed."""

    def check(self, seed):
        events, first = history(seed)
        calls = simulate(events).calls
        whole, positions, parts = keyspaces(calls)
        # one that was there in part would be seen, on either node
        self.assertGreater(in_part(whole, parts), 10)
        stands = {node: 0 for node in NODES}
        for count in range(first, len(events) + 1):
            with self.case("events", count=count):
                trace = simulate(events[:count], "--images")
                self.assertEqual(trace.calls, calls[:len(trace.calls)])
                for node, before in stands.items():
                    image = plain_image.read_image(plain_image.Words(LINES, trace.words[node]))
                    stands[node] = image.record.position
                    self.assertEqual(image.map, whole[stands[node]])
                    self.assertTrue(before <= stands[node] <= positions[len(trace.calls)])
                self.assertLessEqual(stands["standby"], stands["primary"])
        self.assertGreater(stands["standby"], 10)
        schedule = Schedule()
        schedule.add(*events)
        self.play(schedule)

    def check_crashes(self, seed):
        """A fence of a node fails, drawn with what the crash leaves of it then."""
        events, _ = history(seed)
        calls = simulate(events).calls
        whole, positions, _ = keyspaces(calls)
        drawn, failed = draws.numbers(f"crashes {seed}"), 0
        for _ in range(CRASHES):
            # formatting makes the first three fences, and each commit three more
            node, fence = drawn.choice(NODES), drawn.randint(4, 30)
            picks = " ".join(str(drawn.randrange(3)) for _ in range(drawn.randint(1, 6)))
            with self.case("crash", node=node, fence=fence, picks=picks):
                trace = simulate([f"fail {node} {fence}", *events, f"crash {node} {picks}"], "--images")
                made, failed = positions[len(trace.calls)], failed + trace.ended.endswith("device fault")
                for each in NODES:
                    image = plain_image.read_image(plain_image.Words(LINES, trace.words[each]))
                    self.assertEqual(image.map, whole[image.record.position])
                    self.assertLessEqual(image.record.position, made)
                self.assertEqual(trace.calls, calls[:len(trace.calls)])
        self.assertGreater(failed, CRASHES // 2)

    def test_seed_0(self):
        self.check(0)

    def test_seed_1(self):
        self.check(1)

    def test_crashes_of_seed_2(self):
        self.check_crashes(2)

    def test_crashes_of_seed_3(self):
        self.check_crashes(3)
