"""A link that is cut again and again, at any byte of what goes either way, under writers. It catches a frame that is taken in part, or twice, a
position that is told before it is held, and a link that is not opened again."""

import os
import random
import time

from between import Between, put_between
from load import WRITERS, Load
from pair import PairCases, wait_until
from plain_replies import OK

PROGRAMS = ["server"]
IS_SLOW = True

# How often the link is cut in each round, and how many rounds there are.
CUTS, ROUNDS = 15, int(os.environ.get("WBL_ROUNDS", "1"))
# An acknowledgement, and what the standby says first, has so many bytes; a frame of one SET some 40.
SHORT, LONG = 60, 4_000
PIECES = (1, 7, 50, 65_536)


class CuttingLink(Between):
    """Passes on what comes in pieces of these lengths. While it cuts, each connection lets through some bytes either way, a number that is drawn; the rest is lost
    and both sides see the end."""

    def __init__(self, standby, draws, pieces=PIECES):
        self.draws, self.pieces, self.cuts, self.is_cutting = draws, pieces, 0, False
        # how many bytes were passed on
        self.passed = 0
        super().__init__(standby)

    def cut(self):
        """Begins to cut, the connections that there are first."""
        self.is_cutting = True
        super().cut()

    def _drawn_length(self):
        """Mostly with some frames in it: a primary waits longer each time that nothing came of a link."""
        return self.draws.randint(0, SHORT if self.draws.random() < 0.1 else LONG)

    def _pass_on(self, one, other, _):
        most = self._drawn_length() if self.is_cutting else None
        while data := one.recv(self.draws.choice(self.pieces)):
            other.sendall(data if most is None else data[:most])
            self.passed += len(data)
            most = None if most is None else most - len(data)
            if most is not None and most <= 0:
                self.cuts += 1
                break


class CutLinks(PairCases):
    # (more rounds take longer)
    MOST_SECONDS = max(PairCases.MOST_SECONDS, 60 * ROUNDS)

    def setUp(self):
        super().setUp()
        self.nodes = self.pair()
        self.between = CuttingLink(self.nodes.link.number, random.Random(f"cuts {time.time()}"))
        self.addCleanup(self.between.close)
        put_between(self.nodes, self.between)
        with self.nodes.client() as client:
            self.assertEqual(client.ask("FLUSHDB"), OK)

    def test_under_writers(self):
        load = Load(self.nodes)
        for number in range(ROUNDS):
            with self.case("round", number=number):
                self.between.cuts = 0
                load.start()
                load.wait_for(WRITERS)
                self.between.cut()
                wait_until(lambda: self.between.cuts >= CUTS, f"{CUTS} cuts")
                self.between.is_cutting = False
                load.wait_for(10 * WRITERS)
                load.end()
                load.check(f"after round {number}")
                self.assertEqual(load.answered(), load.asked())
        self.assertEqual(self.assert_positions(self.nodes), (load.answered(), load.answered()))
