"""What bin/bench-pair measures with values of each length and beside pipelines, and the tables that it prints. Its client program (programs/load.c) is
tried over a pair, and over servers made up here that read and answer as they like. Where there is no gcc each test of the program is skipped, and says so."""

import contextlib
import io
import select
import shutil
import socket
import subprocess
import tempfile
import threading
import time

import common
from pair import HOST, PATIENCE, PairCases
from plain_replies import OK, array, bulk, integer
from spelling import spell

PROGRAMS = ["server"]
IS_SLOW = True
IS_ALONE = True
QUICK = ["Tables"]

SAID = common.script("bench-pair")
VALUES = SAID.options_of(["--values", "--seconds", "0.05"])
KEY = f"key:{0:012}"


class LoadCases(PairCases):
    """Tests of the client program, which is made for each."""

    def setUp(self):
        super().setUp()
        folder = tempfile.TemporaryDirectory(prefix="wbl-load-")
        self.addCleanup(folder.cleanup)
        self.load = SAID.made(folder.name, "load", "-Wall", "-Wextra", "-Werror") if shutil.which("gcc") else None
        if self.load is None:
            print(f"{self.id()}: skipped, since there is no gcc", flush=True)

    def run_load(self, port, command, value_bytes, clients=1, pipeline=1, seconds=0.05):
        words = [self.load, port, clients, pipeline, seconds, command, 1, SAID.NO_WAIT, value_bytes]
        return subprocess.run(list(map(str, words)), capture_output=True, timeout=PATIENCE)


class Pairs(LoadCases):
    """Over a pair with images as large as they are measured."""

    def test_values_of_each_length(self):
        """What is measured by --values is answered without an error, and a key has a value of that length then."""
        if not self.load:
            return
        nodes = self.pair(lines=SAID.VALUE_LINES)
        client = nodes.client()
        for cell in SAID.cells_of(VALUES):
            with self.case("cell", **cell._asdict()):
                if cell.command == "set":
                    self.assertEqual(client.ask("SET", KEY, "short"), OK)
                found = SAID.measure(self.load, (nodes.door.number, SAID.NO_WAIT), cell, VALUES)
                self.assertGreater(found.rate, 0)
                self.assertLessEqual(found.median, found.most)
                self.assertEqual(client.ask("STRLEN", KEY), integer(cell.value_bytes))

    def test_a_value_of_another_length(self):
        """It ends the program, as an error does, and a value that is not there: what would be measured is something else."""
        if not self.load:
            return
        nodes = self.pair()
        client = nodes.client()
        for command in ("get", "mget"):
            for is_there, asked, told in [(False, 1_024, "-1"), (True, 1_023, "1024"), (True, 1_025, "1024")]:
                with self.case("reply", command=command, is_there=is_there, asked=asked):
                    self.assertEqual(client.ask("SET", KEY, 1_024 * "x") if is_there else client.ask("FLUSHDB"), OK)
                    ran = self.run_load(nodes.door.number, command, asked)
                    self.assertEqual((ran.returncode, ran.stdout, ran.stderr), (1, b"", f"load: answered a value of {told} bytes\n".encode()))
        self.assertEqual((client.ask("FLUSHDB"), client.ask("HSET", KEY, "f", "v")), (OK, integer(1)))
        ran = self.run_load(nodes.door.number, "get", 1_024)
        self.assertEqual((ran.returncode, ran.stdout, ran.stderr[:25]), (1, b"", b"load: answered -WRONGTYPE"))


class Slow(PairCases):
    def test_syncs_that_take_longer(self):
        """Each does, of a node that is started by these words: a SET waits for one of each node at least, and without journals for three."""
        if not shutil.which("gcc"):
            print(f"{self.id()}: skipped, since there is no gcc", flush=True)
            return
        microseconds = 20_000
        with tempfile.TemporaryDirectory(prefix="wbl-slow-") as folder:
            before = SAID.held_syncs.slowed(folder, microseconds)
            for has_journal, syncs in [(True, 2), (False, 6)]:
                with self.case("pair", has_journal=has_journal):
                    nodes = self.pair(has_journal=has_journal, before=before)
                    with nodes.client() as client:
                        took = []
                        for number in range(10):
                            begun = time.monotonic()
                            self.assertEqual(client.ask("SET", f"key{number}", "x"), OK)
                            took.append(time.monotonic() - begun)
                    self.assertGreaterEqual(min(took), syncs * microseconds / 1e6)
                    print(f"a SET took {1_000 * min(took):.0f} ms, {'with' if has_journal else 'without'} journals", flush=True)


class Waits(PairCases):
    def test_one_that_asks_beside_pipelines(self):
        """What is measured by --waits: how long it waits, and how many INCRs of the pipelines are answered meanwhile, with values and without."""
        nodes = self.pair(lines=SAID.VALUE_LINES)
        for length in (0, 65_536):
            with self.case("pipelines", length=length):
                most, median, rate = SAID.waits_beside(nodes.door.number, 2, length, 0.5)
                self.assertLessEqual(median, most)
                self.assertGreater(rate, 0)


class Door:
    """Takes connections, and does as it is told with all of them, in a thread that ends with the last."""

    def __init__(self, count, serve):
        self.listener = socket.create_server((HOST, 0))
        self.port = self.listener.getsockname()[1]
        self.failure = None
        self.thread = threading.Thread(target=self._run, args=(count, serve), daemon=True)
        self.thread.start()

    def _run(self, count, serve):
        with contextlib.ExitStack() as parts:
            parts.enter_context(self.listener)
            self.listener.settimeout(PATIENCE)
            taken = [parts.enter_context(self.listener.accept()[0]) for _ in range(count)]
            for it in taken:
                it.settimeout(PATIENCE)
            try:
                serve(*taken)
            except Exception as failure:
                self.failure = failure

    def join(self):
        self.thread.join()
        if self.failure is not None:
            raise self.failure


def read_request(connection, count):
    """Reads a request of so many bytes. Answers whether there was one before the end."""
    left = count
    while left > 0:
        came = connection.recv(min(left, 1 << 20))
        if not came:
            return False
        left -= len(came)
    return True


class MadeUp(LoadCases):
    """Over servers that are made up."""

    GET = spell("GET", KEY)
    MGET = spell("MGET", *SAID.MGET_KEYS * [KEY])

    def check_pieces(self, command, request, reply, value_bytes):
        """Each reply comes in pieces. The next request comes once the last of them has, and not before."""
        cuts = [0, 1, 3, 6, 9, len(reply) // 2, len(reply) - 2, len(reply) - 1, len(reply)]
        served, early = [], []

        def serve(connection):
            while read_request(connection, len(request)):
                for first, after in zip(cuts, cuts[1:]):
                    early.extend(select.select([connection], [], [], 0)[0])
                    connection.sendall(reply[first:after])
                    time.sleep(0.002)
                served.append(1)

        door = Door(1, serve)
        ran = self.run_load(door.port, command, value_bytes)
        self.assertEqual((ran.returncode, ran.stderr), (0, b""))
        door.join()
        self.assertEqual(early, [])
        self.assertEqual(int(ran.stdout.split()[0]), len(served))

    def test_a_reply_in_pieces(self):
        if not self.load:
            return
        for value_bytes in SAID.LONG:
            value = bulk(value_bytes * b"\r")
            with self.case("length", command="get", value_bytes=value_bytes):
                self.check_pieces("get", self.GET, value, value_bytes)
            with self.case("length", command="mget", value_bytes=value_bytes):
                self.check_pieces("mget", self.MGET, array(SAID.MGET_KEYS * [value]), value_bytes)

    def test_one_that_is_not_read(self):
        """Whose request the server does not read keeps no other client waiting: a system takes no ten mebibytes ahead. A client that is through may be closed
        while others still wait."""
        if not self.load:
            return
        value_bytes, seconds = SAID.LONG[-1], 0.4
        request = len(spell("MSET", *10 * [KEY, value_bytes * "x"]))

        def serve(unread, read):
            self.assertTrue(read_request(read, request))
            read.sendall(OK)
            # (then the time is over: neither sends another)
            time.sleep(2 * seconds)
            for it in (unread, read):
                with it:
                    if read_request(it, request):
                        it.sendall(OK)

        door = Door(2, serve)
        ran = self.run_load(door.port, "mset", value_bytes, clients=2, seconds=seconds)
        self.assertEqual((ran.returncode, ran.stderr), (0, b""))
        door.join()
        self.assertIn(int(ran.stdout.split()[0]), (2, 3))


class Tables(common.Cases):
    """What is measured, and what is printed of it."""

    def test_room(self):
        """An image has room for the value that is there and for two that each client writes before one of them is freed: with less they wait."""
        lines = -(-(len(KEY) + max(SAID.LONG)) // SAID.LINE_BYTES)
        self.assertGreaterEqual(SAID.VALUE_LINES - SAID.VALUE_LINES // 8, lines * (1 + 2 * max(SAID.VALUE_CLIENTS)))

    def test_what_is_measured(self):
        cells = SAID.cells_of(VALUES)
        self.assertEqual({cell.value_bytes for cell in cells}, {1_024, 65_536, 1_048_576})
        self.assertEqual([cell.value_bytes for cell in cells], sorted(cell.value_bytes for cell in cells))
        self.assertEqual({cell[:3] for cell in cells}, {(command, clients, 1) for command in ("set", "get", "mget") for clients in (1, 8)})
        self.assertEqual(len(set(cells)), len(cells))
        self.assertEqual({cell.value_bytes for cell in SAID.cells_of(SAID.options_of([]))}, {3})

    def test_what_it_does_not_go_with(self):
        for words in (["--quick"], ["--keys", "2"], ["--new-keys"], ["--reopen"]):
            with self.case("option", words=words), contextlib.redirect_stderr(io.StringIO()), self.assertRaises(SystemExit):
                SAID.options_of(["--values", *words])
        for words in (["0"], ["-1"], ["x"], ["1000", "--values"], ["1000", "--reopen"], ["1000", "--waits"]):
            with self.case("sync", words=words), contextlib.redirect_stderr(io.StringIO()), self.assertRaises(SystemExit):
                SAID.options_of(["--sync", *words])

    def shown(self, found):
        """The tables of these figures, by their titles: of each row its cells."""
        systems, cells = list(dict.fromkeys(system for system, _ in found)), list(dict.fromkeys(cell for _, cell in found))
        output = io.StringIO()
        with contextlib.redirect_stdout(output):
            SAID.show(systems, found, cells)
        blocks = output.getvalue().strip().split("\n\n")
        rows = [[[word.strip() for word in line.strip("|").split("|")] for line in block.splitlines()] for block in blocks[1::2]]
        return {title.partition(" [")[0]: [head, *later] for title, (head, _, *later) in zip(blocks[::2], rows)}

    def test_long_values(self):
        """An MGET reads ten values, and a SET writes one."""
        of = lambda *rates: [SAID.Measured(rate, 10, 20) for rate in rates]
        found = {}
        for system, times in [(SAID.PAIR_DISK, 1), (SAID.REDIS_DISK, 4)]:
            found[system, SAID.Cell("set", 8, 1, 1_048_576)] = of(1 * times, 3 * times, 2 * times)
            found[system, SAID.Cell("mget", 1, 1, 1_024)] = of(512 * times, 512 * times, 512 * times)
        tables = self.shown(found)
        names = ["command", "clients", "at a time", "bytes"]
        self.assertEqual(tables["Requests a second"], [
            [*names, SAID.PAIR_DISK, SAID.REDIS_DISK],
            ["SET", "8", "1", "1,048,576", "2 [1 .. 3]", "8 [4 .. 12]"],
            ["MGET", "1", "1", "1,024", "512 [512 .. 512]", "2,048 [2,048 .. 2,048]"],
        ])
        self.assertEqual(tables["MiB of values a second"], [
            [*names, SAID.PAIR_DISK, SAID.REDIS_DISK],
            ["SET", "8", "1", "1,048,576", "2.0 [1.0 .. 3.0]", "8.0 [4.0 .. 12.0]"],
            ["MGET", "1", "1", "1,024", "5.0 [5.0 .. 5.0]", "20.0 [20.0 .. 20.0]"],
        ])
        self.assertEqual(tables["Ratios of each round"], [
            [*names, f"{SAID.PAIR_DISK} : {SAID.REDIS_DISK}"],
            ["SET", "8", "1", "1,048,576", "0.250 [0.250 .. 0.250]"],
            ["MGET", "1", "1", "1,024", "0.250 [0.250 .. 0.250]"],
        ])

    def test_short_values(self):
        """They stand without their bytes, as the tables of docs/performance.md do."""
        tables = self.shown({(system, SAID.LONE): [SAID.Measured(rate, 10, 20)] for system, rate in [(SAID.PAIR_DISK, 3), (SAID.REDIS_DISK, 2)]})
        self.assertEqual(tables["Ratios of each round"], [
            ["command", "clients", "at a time", f"{SAID.PAIR_DISK} : {SAID.REDIS_DISK}"],
            ["SET", "1", "1", "1.50 [1.50 .. 1.50]"],
        ])
        self.assertNotIn("MiB of values a second", tables)
