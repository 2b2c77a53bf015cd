"""What was removed while the standby was away stays away: the primary is started again, tells the standby what it missed, and is lost; the standby's image
is promoted, and has none of it."""

from pair import Client, PairCases, run, wait_until
from plain_replies import OK, bulk, integer
from spelling import spell
from worked_cases import NULL

PROGRAMS = ["server"]
IS_SLOW = True
QUICK = ["RemovedKeys.test_a_key_and_a_field"]

# A primary lists what has ended once it is so much.
LISTED_AT_ONCE = 1_024


class RemovedKeys(PairCases):
    """Requests that the standby has not seen when its primary is killed."""

    def lose_a_primary(self, before, missed, after):
        """A pair is asked `before`. While the standby is away `missed` is asked, and the primary is killed once it holds that. Both come back, answer `after`, and
        the primary is lost. Returns the map of the promoted image, and the position at which both stood."""
        nodes = self.pair()
        nodes.client().ask_all(before)
        nodes.standby.end()
        position = nodes.primary.read_image().record.position
        client = nodes.client()
        client.send(b"".join(spell(*row) for row in missed))
        wait_until(lambda: nodes.primary.read_image().record.position == position + len(missed), "a primary that holds it")
        # (and a moment in which it could free what no standby needs)
        self.assertTrue(client.is_silent(1))
        nodes.restart(nodes.primary)
        nodes.standby.start()
        nodes.wait()
        with Client(nodes.door.number) as other:
            for row, reply in after:
                self.assertEqual(other.ask(*row), reply)
        primary, standby = self.assert_positions(nodes)
        self.assertEqual((primary, standby), (position + len(missed), position + len(missed)))
        self.assertEqual(nodes.standby.read_image().map, nodes.primary.read_image().map)
        run("promote", "--image", str(nodes.standby.image), "--old-primary-stopped")
        return nodes.standby.read_image().map

    def test_a_key_and_a_field(self):
        before = [("SET", "k", "1"), ("SET", "kept", "1"), ("HSET", "h", "f", "1", "g", "1"), ("SET", "s", "1")]
        missed = [("DEL", "k"), ("HDEL", "h", "f"), ("DEL", "s"), ("HSET", "s", "f", "2")]
        after = [(("GET", "k"), NULL), (("HGET", "h", "f"), NULL), (("HGET", "s", "f"), bulk(b"2")), (("DBSIZE",), integer(3))]
        found = self.lose_a_primary(before, missed, after)
        self.assertEqual(found, {(b"kept",): b"1", (b"h", b"g"): b"1", (b"s", b"f"): b"2"})

    def test_so_many_that_the_primary_lists_them(self):
        """What it lists it may not free before the standby has passed it, or a standby that comes back would never hear of it."""
        keys = [f"k{at}" for at in range(2 * LISTED_AT_ONCE)]
        before = [("SET", key, "1") for key in [*keys, "kept"]]
        # (in few requests: while its standby is away, a primary commits those of some three hundred at most)
        missed = [("DEL", *keys[first:first + 512]) for first in range(0, len(keys), 512)]
        after = [(("DBSIZE",), integer(1)), (("GET", keys[0]), NULL), (("GET", keys[-1]), NULL)]
        found = self.lose_a_primary(before, missed, after)
        self.assertEqual(found, {(b"kept",): b"1"})

    def test_all_of_it(self):
        before = [("SET", f"k{at}", "1") for at in range(100)] + [("HSET", "h", "f", "1")]
        found = self.lose_a_primary(before, [("FLUSHDB",)], [(("DBSIZE",), integer(0))])
        self.assertEqual(found, {})


class RoomForTransactions(PairCases):
    """Transactions that need more room than is free, while enough of it is on its way: 494 entries, of which each takes 200."""

    KEYS, ROUNDS, OTHERS = 200, 10, 8

    def transaction(self, turn):
        return [("MULTI",), *(("SET", f"k{at}", f"{turn}") for at in range(self.KEYS)), ("EXEC",)]

    def run_rounds(self, client):
        for turn in range(self.ROUNDS):
            with self.case("transaction", number=turn):
                self.assertEqual(client.ask_all(self.transaction(turn))[-1], b"*200\r\n" + self.KEYS * OK)

    def test_alone(self):
        """An EXEC waits for the room of all that it runs, and is not told that the store is full."""
        self.run_rounds(self.pair(lines=4_096).client())

    def test_beside_others_that_need_little(self):
        """Who has waited longest gets what comes: small requests that find room do not take it from the transaction before them."""
        nodes = self.pair(lines=4_096)
        others = [nodes.client() for _ in range(self.OTHERS)]
        client = nodes.client()
        for turn in range(self.ROUNDS):
            with self.case("transaction", number=turn):
                for at, other in enumerate(others):
                    other.send(b"".join(spell("SET", f"other{at}", f"{turn}.{row}") for row in range(16)))
                self.assertEqual(client.ask_all(self.transaction(turn))[-1], b"*200\r\n" + self.KEYS * OK)
                for other in others:
                    self.assertEqual([other.reply() for _ in range(16)], 16 * [OK])
