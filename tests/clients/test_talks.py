"""The talks of several connections in test_transactions once more, over sockets and a pair of processes: each request whole, and in single bytes.
They catch a session that is mixed up with another's, or begun anew, where a request comes in pieces."""

import contextlib

import test_transactions as transactions
from pair import Client, PairCases, allow_descriptors, wait_until
from plain_machine import SEATS
from plain_replies import NULL_ARRAY, OK, QUEUED, array, bulk, error, integer
from spelling import spell
from test_transactions import ASKING, request
from worked_cases import NO_STAR, PONG, SET_A

PROGRAMS = ["server"]
IS_SLOW = True

WAYS = {"whole": lambda data: [data], "in single bytes": lambda data: [data[at:at + 1] for at in range(len(data))]}


class Talking(PairCases):
    """Tests over one pair, which is emptied after each talk."""

    def setUp(self):
        super().setUp()
        self.nodes = self.pair()
        self.position = 0

    def tearDown(self):
        """Both images stand where the talks ended."""
        self.assertEqual(self.assert_positions(self.nodes), (self.position, self.position))

    def ask(self, client, pieces_of, asked):
        for piece in pieces_of(request(asked)):
            client.send(piece)
        return client.reply()

    def empty(self):
        with Client(self.nodes.door.number) as client:
            self.position += client.ask("DBSIZE") != integer(0)
            self.assertEqual(client.ask("FLUSHDB"), OK)

    def talk(self, told, position):
        """Each request is answered before the next one is sent, by whichever connection."""
        for way, pieces_of in WAYS.items():
            with self.case(way), contextlib.ExitStack() as parts:
                clients = {}
                for name, asked, reply in told:
                    if name not in clients:
                        clients[name] = parts.enter_context(Client(self.nodes.door.number))
                    self.assert_bytes(self.ask(clients[name], pieces_of, asked), reply.encode() + b"\r\n")
                self.position += position
                self.empty()


class Rules(Talking, transactions.Rules):
    def test_a_fault_in_a_transaction(self):
        for way, pieces_of in WAYS.items():
            with self.case(way), Client(self.nodes.door.number) as one, Client(self.nodes.door.number) as other:
                for piece in pieces_of(spell("MULTI") + SET_A + b"P"):
                    one.send(piece)
                self.assert_bytes(one.read_all(), OK + QUEUED + NO_STAR)
                self.assertEqual(other.ask("EXISTS", "a"), integer(0))


class Watches(Talking, transactions.Watches):
    def test_what_modifies_a_key(self):
        for held, asked, is_modified in self.MODIFYING:
            for way, pieces_of in WAYS.items():
                with self.case("request", held=held, asked=asked, way=way):
                    with Client(self.nodes.door.number) as one, Client(self.nodes.door.number) as other:
                        if held:
                            self.ask(other, pieces_of, held)
                        self.assertEqual(one.ask("WATCH", "k"), OK)
                        self.ask(other, pieces_of, asked)
                        found = [self.ask(one, pieces_of, row) for row in ASKING]
                        self.assertEqual(found, [OK, QUEUED, NULL_ARRAY if is_modified else array([PONG])])
                    self.empty()
        self.position = self.assert_positions(self.nodes)[0]

    def test_the_next_in_a_seat_has_no_transaction_and_no_watch(self):
        """All seats are taken, so the next connection has that of the one that left."""
        self.assertTrue(allow_descriptors(SEATS + 200), "this process may not have so many descriptors")
        clients = [wait_until(self.nodes.seated_client, "a seat") for _ in range(SEATS)]
        found = [clients[7].ask(*asked.split()) for asked in ["WATCH k", "MULTI", "SET k 1", "NOSUCH"]]
        self.assertEqual(found, [OK, OK, QUEUED, error("ERR unknown command")])
        self.assertEqual(clients[8].ask("SET", "k", "2"), OK)
        clients[7].close()
        client = wait_until(self.nodes.seated_client, "the seat that was given back")
        found = [client.ask(*asked.split()) for asked in ["EXEC", "SET k 3", "MULTI", "GET k", "EXEC"]]
        self.assertEqual(found, [error("ERR EXEC without MULTI"), OK, OK, QUEUED, array([bulk(b"3")])])
        self.position = 2
