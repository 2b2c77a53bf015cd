"""What comes while the committer waits for its disk. It catches a front that closes no group meanwhile, or that takes no more than one group of requests, and a
committer that syncs after each group."""

import contextlib
import time
import unittest

import held_syncs
from pair import PATIENCE, PairCases, wait_until
from plain_replies import OK

PROGRAMS = ["server"]
IS_SLOW = True
IS_ALONE = True

# How long each sync of the primary takes once the held one is over, and how many changes are sent while it is held: three groups, as one connection has no more
# than 256 replies that wait.
SLOW_MILLISECONDS, CHANGES = 400, 3 * 64
# For how many seconds it is held, one try after another: on a busy machine the primary may not have taken in all of them before.
HELD_SECONDS = (0.5, 1, 2, 4, 8, 16)
# How many syncs there are until the last reply at most: one is of all that came meanwhile, and another may have begun. Each group by itself would take three.
MOST_SYNCS = 2


class Batches(PairCases):
    @unittest.skipUnless(held_syncs.HAS_COMPILER, "there is no gcc")
    def test_one_sync_for_what_came_while_one_was_held(self):
        nodes = self.pair()
        file = nodes.folder / "held"
        held_syncs.hold(nodes.primary, file, SLOW_MILLISECONDS)
        nodes.restart(nodes.primary)
        nodes.wait()
        with contextlib.closing(nodes):
            found = []
            for seconds in HELD_SECONDS:
                found.append(self.syncs_behind(nodes, file, seconds))
                if found[-1] <= MOST_SYNCS:
                    return
            self.fail(f"syncs behind one that was held: {found}")

    def syncs_behind(self, nodes, file, seconds):
        """How often the primary syncs behind one sync that is held for so long, until all is answered that came meanwhile."""
        with nodes.client() as first, nodes.client() as others:
            self.assertEqual(first.ask("SET", "a", "1"), OK)
            for it in (held_syncs.begun(file), held_syncs.slow(file)):
                it.unlink(missing_ok=True)
            file.touch()
            first.send(b"*3\r\n$3\r\nSET\r\n$1\r\na\r\n$1\r\n2\r\n")
            wait_until(held_syncs.begun(file).exists, "a sync that is held", PATIENCE)
            others.send(b"*3\r\n$3\r\nSET\r\n$1\r\nb\r\n$1\r\n1\r\n" * CHANGES)
            time.sleep(seconds)
            held_syncs.slow(file).touch()
            file.unlink()
            self.assertEqual(first.reply(), OK)
            self.assertEqual([others.reply() for _ in range(CHANGES)], [OK] * CHANGES)
            return held_syncs.slow(file).stat().st_size
