"""A sync that does not come back: what the nodes do meanwhile. A reply that leaves before its fence has come back fails here, and so does a primary that
serves nobody while the standby's or its own is held."""

import pathlib
import random
import re

import common
import held_syncs
import simulation
from pair import LINES, PairCases, wait_until
from spelling import spell

KEY = "k" * 500
# What a reader takes in at most of a connection that is not served: a ring of items, one more, and a block of bytes.
RING_ITEMS, BLOCK_BYTES = 256, 16 * 1_024
REQUESTS = 700
# How many changes the two threads make of a primary's image, which has room for a twelfth of the versions.
CHANGES, GROUP = 100_000, 64


def changes():
    """Requests that each change something, over keys and fields that all come again and again."""
    draws = random.Random(1)
    for number in range(CHANGES):
        key = f"k{draws.randrange(500)}"
        yield draws.choice([("SET", key, f"{number}"), ("SET", key, f"{number}"), ("APPEND", key, "x"), ("HSET", f"h{number % 100}", f"f{number % 13}", f"{number}")])


def called_in_world(requests):
    """The run of the simulator in which one connection makes these requests, and what ended is freed as it goes."""
    schedule = simulation.Schedule(1)
    for frame, at in enumerate(range(0, len(requests), GROUP)):
        schedule.group(0, *requests[at:at + GROUP])
        schedule.replicate(frame)
        schedule.free()
    return simulation.simulate(schedule.events, "--map", "--lines", f"{LINES},{LINES}")


def untaken(port, client):
    """How many bytes that came from this client the process at this port has not read."""
    ours = client.socket.getsockname()[1]
    table = pathlib.Path("/proc/net/tcp").read_text(encoding="ascii")
    row = re.search(rf":{port:04X} \w+:{ours:04X} 01 (\w+):(\w+) ", table)
    # (what the other end has not got yet stands in that end's row)
    other = re.search(rf":{ours:04X} \w+:{port:04X} 01 (\w+):(\w+) ", table)
    return int(row[2], 16) + int(other[1], 16)


@common.unittest.skipUnless(held_syncs.HAS_COMPILER, "there is no gcc")
class Held(PairCases):
    def held(self, role, is_slow=False):
        """A pair of which one node's syncs are held while the file is there that this returns beside it. If that is said, each takes long anyway."""
        nodes = self.pair()
        node, file = getattr(nodes, role), nodes.folder / "held"
        if is_slow:
            held_syncs.slow(file).touch()
        node.end()
        held_syncs.hold(node, file)
        node.start()
        nodes.wait()
        return nodes, file

    def serves_while_held(self, role, is_slow=False):
        nodes, file = self.held(role, is_slow)
        with nodes.client() as first, nodes.client() as second:
            self.assertEqual(second.ask("GET", KEY), b"$-1\r\n")
            file.touch()
            first.send(spell("SET", "k", "1"))
            wait_until(held_syncs.begun(file).exists, "a sync that is held")
            request = spell("GET", KEY)
            second.send(request * REQUESTS)
            most = (RING_ITEMS + 1) * len(request) + BLOCK_BYTES
            wait_until(lambda: REQUESTS * len(request) - untaken(nodes.door.number, second) > most, "more taken than one that is not served takes")
            self.assertTrue(second.is_silent() and first.is_silent())
            file.unlink()
            self.assertEqual(first.reply(), b"+OK\r\n")
            self.assertEqual([second.reply() for _ in range(REQUESTS)], [b"$-1\r\n"] * REQUESTS)

    def test_a_primary_serves_while_the_standby_s_sync_is_held(self):
        """The second connection's requests are executed while the standby's sync for the first one's change has not come back, and answered after it has."""
        self.serves_while_held("standby")

    def test_a_primary_serves_while_its_own_sync_is_held(self):
        """And while the primary's own has not, where syncs take long: another thread has the committer then."""
        self.serves_while_held("primary", is_slow=True)

    def test_two_threads_leave_the_image_that_world_leaves(self):
        """Another thread has the committer, as syncs take long, and what it frees comes back to the one that serves: a hundred thousand changes leave the
        map and the position on both images, and were answered, as in the run of `world` in which the same requests are made."""
        nodes, _ = self.held("primary", is_slow=True)
        requests = [spell(*words) for words in changes()]
        with nodes.client() as client:
            replies = [reply for at in range(0, CHANGES, 1_000) for reply in client.ask_all_spelled(requests[at:at + 1_000])]
        nodes.end()
        run = called_in_world(requests)
        self.assertEqual(replies, [call.reply for call in run.calls])
        for node in (nodes.primary, nodes.standby):
            image = node.read_image()
            self.assertEqual(image.record.position, CHANGES)
            self.assertEqual(image.map, dict(run.records["primary"]))

    def test_nothing_leaves_while_the_primary_s_sync_is_held(self):
        nodes, file = self.held("primary")
        with nodes.client() as first, nodes.client() as second:
            self.assertEqual(second.ask("GET", "k"), b"$-1\r\n")
            file.touch()
            first.send(spell("SET", "k", "1"))
            wait_until(held_syncs.begun(file).exists, "a sync that is held")
            second.send(spell("GET", "k"))
            self.assertTrue(second.is_silent() and first.is_silent())
            file.unlink()
            self.assertEqual(first.reply(), b"+OK\r\n")
            self.assertEqual(second.reply(), b"$1\r\n1\r\n")


if __name__ == "__main__":
    common.main()
