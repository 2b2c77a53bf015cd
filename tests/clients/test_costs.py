"""What a request costs beside 500 records, or 1,000 watched keys, and beside ten times as many, as instructions of the primary's process. It
catches a look-up, a count or a change that walks over all of them. Instructions are counted by valgrind's callgrind; where there is none each test
is skipped, and says so.

A new key is left out: it moves the rows behind it, as README.md says."""

import re
import shutil
import subprocess

from pair import PATIENCE, PairCases
from plain_replies import NULL_BULK, OK, array, bulk, integer

PROGRAMS = ["server"]
IS_SLOW = True

FEW, MANY = 500, 5_000
# What is walked over costs more than this, one instruction a record at the least; what is looked up by halving, or in groups of another size, less.
MOST_RATIO = 2
LINES = 262_144
AT_A_TIME = 500
# How often each cost is counted before there is more, and how often at most after that, while it seems to have risen.
TIMES, MOST_TIMES = 6, 96
# Connections that watch keys, and how many keys they do together.
WATCHING, FEW_WATCHED, MANY_WATCHED = 10, 1_000, 10_000


class Costs(PairCases):
    # (a program under valgrind takes some fifty times as long)
    MOST_SECONDS = 8 * PairCases.MOST_SECONDS

    def setUp(self):
        super().setUp()
        self.can_count = all(map(shutil.which, ("valgrind", "callgrind_control")))
        if not self.can_count:
            print(f"{self.id()}: skipped, since there is no valgrind", flush=True)
            return
        self.nodes = self.pair(lines=LINES)
        primary, self.counts = self.nodes.primary, self.nodes.folder / "counts"
        primary.end()
        primary.before = [shutil.which("valgrind"), "-q", "--tool=callgrind", f"--callgrind-out-file={self.counts}"]
        primary.start()
        self.nodes.wait()
        self.client = self.nodes.client()

    def control(self, option):
        words = ["callgrind_control", option, str(self.nodes.primary.process.pid)]
        subprocess.run(words, stdout=subprocess.DEVNULL, stderr=subprocess.DEVNULL, timeout=PATIENCE, check=True)

    def cost(self, rows, replies):
        """The instructions of each of these requests, at the least: a thread that waits gives way again and again, which counts too."""
        return min(self.count(rows, replies) for _ in range(TIMES))

    def count(self, rows, replies):
        """The instructions of each of these requests, all of which are sent in one piece."""
        self.control("--zero")
        found = self.client.ask_all(rows)
        self.control("--dump")
        self.assertEqual(found, replies)
        files = list(self.counts.parent.glob("counts.*"))
        total = int(re.search(r"(?m)^(?:totals|summary): (\d+)$", files[0].read_text(encoding="utf-8"))[1])
        for file in files:
            file.unlink()
        return total / len(rows)

    def costs(self, kinds):
        return {name: self.cost(rows, replies) for name, (rows, replies) in kinds.items()}

    def cost_within(self, most, rows, replies):
        """The same, counted until it is less than this, or often enough: a busy machine has threads wait for longer."""
        least = self.count(rows, replies)
        for _ in range(1, MOST_TIMES):
            if least < most:
                break
            least = min(least, self.count(rows, replies))
        return least

    def assert_alike(self, before, kinds):
        """None of these costs has risen by more than may be."""
        for name, cost in before.items():
            after = self.cost_within(MOST_RATIO * cost, *kinds[name])
            with self.case(name, few=round(cost), many=round(after)):
                self.assertGreater(cost, 100)
                self.assertLess(after / cost, MOST_RATIO)

    def fill(self, first, last):
        """Makes strings and the fields of a hash up to this number, in the order of the rows."""
        for words, reply in [(["MSET"], OK), (["HSET", "z"], integer(AT_A_TIME))]:
            for at in range(first, last, AT_A_TIME):
                pairs = [word for number in range(at, at + AT_A_TIME) for word in (f"k{number:05}", f"{number}")]
                self.assertEqual(self.client.ask(*words, *pairs), reply)

    def kinds_beside(self, count):
        """Each kind of request, over records drawn from all that there are, and the replies."""
        numbers = [at * 7_919 % count for at in range(200)]
        keys = [f"k{number:05}" for number in numbers]
        values, rows = [bulk(b"%d" % number) for number in numbers], range(len(numbers))
        return {
            "DBSIZE": ([("DBSIZE",) for _ in rows], [integer(count + 1) for _ in rows]),
            "GET": ([("GET", key) for key in keys], values),
            "GET of no key": ([("GET", f"{key}x") for key in keys], [NULL_BULK for _ in rows]),
            "EXISTS": ([("EXISTS", key) for key in keys], [integer(1) for _ in rows]),
            "HGET": ([("HGET", "z", key) for key in keys], values),
            "HLEN": ([("HLEN", "z") for _ in rows], [integer(count) for _ in rows]),
            "SET of a key that is there": ([("SET", key, str(number)) for key, number in zip(keys, numbers)], [OK for _ in rows]),
            "HSET of a field that is there": ([("HSET", "z", key, str(at)) for key, at in zip(keys, numbers)], [integer(0) for _ in rows]),
        }

    def test_beside_records(self):
        if self.can_count:
            self.fill(0, FEW)
            before = self.costs(self.kinds_beside(FEW))
            self.fill(FEW, MANY)
            self.assert_alike(before, self.kinds_beside(MANY))

    def watch(self, clients, first, last):
        """Each of these connections watches a part of these keys."""
        part = (last - first) // len(clients)
        for at, client in enumerate(clients):
            keys = [f"w{number:05}" for number in range(first + at * part, first + (at + 1) * part)]
            self.assertEqual(client.ask("WATCH", *keys), OK)

    def kinds_of_changes(self):
        rows = range(200)
        return {
            "SET": ([("SET", "a", "1") for _ in rows], [OK for _ in rows]),
            "HSET": ([("HSET", "h", "f", "1") for _ in rows], [integer(0) for _ in rows]),
            "GET": ([("GET", "a") for _ in rows], [bulk(b"1") for _ in rows]),
        }

    def test_beside_watched_keys(self):
        if not self.can_count:
            return
        clients = [self.nodes.client() for _ in range(WATCHING)]
        self.assertEqual(self.client.ask_all([("SET", "a", "1"), ("HSET", "h", "f", "1")]), [OK, integer(1)])
        self.watch(clients, 0, FEW_WATCHED)
        kinds = self.kinds_of_changes()
        self.costs(kinds)
        before = self.costs(kinds)
        self.watch(clients, FEW_WATCHED, MANY_WATCHED)
        self.assert_alike(before, kinds)
        with self.case("they are watched"):
            self.assertEqual(self.client.ask("SET", f"w{MANY_WATCHED - 1:05}", "1"), OK)
            found = [client.ask_all([("MULTI",), ("GET", "a"), ("EXEC",)])[-1] for client in clients]
            self.assertEqual(found, [*(WATCHING - 1) * [array([bulk(b"1")])], b"*-1\r\n"])
