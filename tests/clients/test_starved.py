"""A node that is refused memory while it runs, and has it again a little later. It catches an answer to what was not taken, a counter
that goes back, and a thread that waits for ever once memory is back."""

import contextlib
import pathlib
import re
import resource
import threading
import time

from common import BUSY
from pair import LINES, PATIENCE, Client, Ended, PairCases
from plain_replies import OK, bulk, error

PROGRAMS = ["server"]
IS_SLOW = True

CLIENTS, TURNS = 8, 25
# How long memory is refused, and of how many bytes above what the node had each case is.
SECONDS, ABOVE = 0.8, (0, 1_000_000, 10_000_000)
NO_MEMORY = error("ERR out of memory")
LONG = 60_000 * b"v"


def limit_memory(process, above):
    """Refuses a process more memory than it has and these bytes; None ends that."""
    text = pathlib.Path("/proc", str(process.pid), "status").read_text(encoding="ascii")
    now = 1_024 * int(re.search(r"(?m)^VmSize:\s+(\d+) kB$", text)[1])
    resource.prlimit(process.pid, resource.RLIMIT_AS, (resource.RLIM_INFINITY if above is None else now + above, resource.RLIM_INFINITY))


class Talker:
    """Counts on its connection, beside long values and transactions. `least` and `most` bound its counter."""

    def __init__(self, number, client):
        self.key, self.client = f"n{number}", client
        self.least = self.most = 0
        self.wrong, self.is_closed = [], False

    def run(self):
        try:
            for turn in range(TURNS):
                self.count()
                self.check(self.client.ask("SET", f"{self.key}.{turn % 3}", LONG), [OK])
                self.check(self.client.ask("MGET", *(f"{self.key}.{at}" for at in range(3))), None)
                self.transfer(turn)
        except (Ended, OSError) as ended:
            self.is_closed = True
            if isinstance(ended, TimeoutError):
                self.wrong.append(f"{self.key}: no reply within {PATIENCE} s")
        except Exception as error_of_a_thread:  # (to be told by the test)
            self.wrong.append(f"{self.key}: {error_of_a_thread!r}")

    def check(self, found, wanted):
        if found != NO_MEMORY and wanted is not None and found not in wanted:
            self.wrong.append(f"{self.key}: {found[:60]!r}")

    def count(self):
        self.most += 1
        found = self.client.ask("INCR", self.key)
        if found != NO_MEMORY:
            self.least = int(found[1:])
            if not 0 < self.least <= self.most:
                self.wrong.append(f"{self.key}: {self.least} where it is at most {self.most}")

    def transfer(self, turn):
        """Two keys get one value, by a transaction. A request that is refused memory spoils it, or is not in it."""
        rows = [("MULTI",), *((("SET", f"{self.key}.{side}", f"{turn}")) for side in ("from", "to")), ("EXEC",)]
        found = self.client.ask_all(rows)
        if found[0] == OK and found[-1] == NO_MEMORY:
            # (it is still there, and is ended)
            self.check(self.client.ask("DISCARD"), [OK])


class Starved(PairCases):
    def check_node(self, role):
        for above in ABOVE:
            with self.case("memory", role=role, above=above):
                self.starve(role, above)

    def starve(self, role, above):
        nodes = self.pair(lines=2 * LINES)
        node = getattr(nodes, role)
        talkers = [Talker(number, nodes.client()) for number in range(CLIENTS)]
        for talker in talkers:
            talker.count()
        threads = [threading.Thread(target=talker.run, daemon=True) for talker in talkers]
        limit_memory(node.process, above)
        for thread in threads:
            thread.start()
        time.sleep(SECONDS)
        self.assertTrue(node.is_running(), node.errors.read_bytes())
        limit_memory(node.process, None)
        for thread in threads:
            thread.join(PATIENCE)
        self.assertEqual([line for talker in talkers for line in talker.wrong], [])
        if role == "standby":
            # it is the other's, so no client is refused anything
            self.assertEqual([(talker.least, talker.is_closed) for talker in talkers], CLIENTS * [(TURNS + 1, False)])
        with Client(nodes.door.number) as client:
            for talker in talkers:
                found = int(client.ask("GET", talker.key).split(b"\r\n")[1])
                self.assertIn(found, range(talker.least, talker.most + 1))
            self.assertEqual(client.ask_all([("SET", "a", "1"), ("GET", "a")]), [OK, bulk(b"1")])
        first, second = self.assert_positions(nodes)
        self.assertEqual(first, second)
        nodes.close()

    def test_the_primary(self):
        self.check_node("primary")

    def test_the_standby(self):
        """The primary waits, and all is answered once the standby has memory again."""
        self.check_node("standby")


class Hoarded(PairCases):
    """A node that may have 300 MB more than it takes at rest."""

    MOST, MEGABYTES = 300_000_000, 2_000

    def test_a_transaction_that_is_never_ended(self):
        """One connection queues more than that. It is refused, the other is served within some seconds each time, and what was held is free with its end."""
        nodes = self.pair()
        limit_memory(nodes.primary.process, self.MOST)
        request = [word for number in range(500) for word in (f"k{number}", LONG)]
        other, queued = nodes.client(), 0
        with nodes.client() as client:
            self.assertEqual(client.ask("MULTI"), OK)
            with contextlib.suppress(Ended, ConnectionError):
                while queued < self.MEGABYTES:
                    if (found := client.ask("MSET", *request)) == NO_MEMORY:
                        break
                    self.assertEqual(found, b"+QUEUED\r\n")
                    queued += 30
                    self.assert_served(other, queued)
            self.assert_served(other, queued + 1)
        self.assertLess(queued, self.MEGABYTES)
        with nodes.client() as client:
            self.assertEqual(client.ask("MULTI"), OK)
            self.assertEqual(client.ask("MSET", *request), b"+QUEUED\r\n")
            self.assertEqual(client.ask("DISCARD"), OK)
        self.assertTrue(nodes.primary.is_running())

    def assert_served(self, client, value):
        began = time.monotonic()
        self.assertEqual(client.ask("SET", "other", f"{value}"), OK)
        self.assert_in_time(time.monotonic() - began, 15 * BUSY)
