"""Versions that have ended are freed in lists of many. What is caught is a request that waits for room which nobody gives back, one that is told that the
store is full beside what has ended, and a node that keeps more of what has ended than its last commit left."""

import contextlib
import time

import common
import plain_image
import plain_journal
from pair import PairCases, wait_until
from plain_replies import OK, QUEUED, array, integer
from spelling import spell

PROGRAMS = ["server"]
IS_SLOW = True

# 57,336 lines of extents: 55 values of the greatest length at keys of three bytes, which take 1,025 each.
LINES = 65_536
LONGEST = 65_536 * b"v"
LIVE, REPLACED, MORE = 40, 5, 12
REST = 0.05 * common.BUSY


class Kept(PairCases):
    """Fewer versions have ended than make a list, and there is room for many small ones."""

    def ended(self, node):
        """How many versions that have ended a node's image holds; `None` where it was read while the node wrote it."""
        with contextlib.suppress(plain_image.BadImage):
            words = memoryview(plain_journal.read_file(node.image)).cast("Q")
            device = plain_image.Words(len(words) // 8, {place: word for place, word in enumerate(words) if word})
            return sum(version.has_ended for version in plain_image.versions_on(device))
        return None

    def test_an_exec_that_needs_what_has_ended(self):
        """There is room for ten of its twelve values; what five others had ended gives the rest."""
        with self.pair(lines=LINES).client() as client:
            keys = [f"k{number:02}" for number in range(LIVE + MORE)]
            for key in keys[:LIVE] + keys[:REPLACED]:
                self.assertEqual(client.ask("SET", key, LONGEST), OK)
            rows = [("MULTI",), *(("SET", key, LONGEST) for key in keys[LIVE:]), ("EXEC",)]
            self.assertEqual(client.ask_all(rows), [OK, *MORE * [QUEUED], array(MORE * [OK])])
            self.assertEqual(client.ask("DBSIZE"), integer(LIVE + MORE))

    def test_an_idle_node_keeps_what_its_last_commit_ended(self):
        """That waits for the next commit, whose record bears the floor for it."""
        nodes = self.pair(lines=LINES)
        with nodes.client() as client:
            self.assertEqual(client.ask_all(100 * [("SET", "a", "1")]), 100 * [OK])
            wait_until(lambda: client.ask("SET", "a", "2") == OK and self.left_at_rest(nodes.primary) == 1, "an image with one ended version")

    def left_at_rest(self, node):
        """The same, once the node has had nothing to do for a moment."""
        time.sleep(REST)
        return self.ended(node)

    def test_a_standby_that_is_away_until_there_is_no_room(self):
        """3,000 SETs of one key into 2,048 entries, of which none is free again before the standby is back."""
        nodes = self.pair(lines=16_384)
        with nodes.client() as client:
            self.assertEqual(client.ask("SET", "a", "0"), OK)
            nodes.standby.freeze()
            client.send(b"".join(spell("SET", "a", str(number)) for number in range(3_000)))
            self.assertTrue(client.is_silent())
            nodes.standby.thaw()
            self.assertEqual([client.reply() for _ in range(3_000)], 3_000 * [OK])
            self.assertEqual(client.ask("DBSIZE"), integer(1))


if __name__ == "__main__":
    common.main()
