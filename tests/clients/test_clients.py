"""Clients as Debian has them, each on a pair of its own: what docs/clients.md says of them. Each program of tests/clients/programs checks what it is
answered, and prints how much it checked."""

import pathlib
import re
import subprocess
import tempfile

from common import BUSY
from pair import PairCases
from plain_replies import OK, bulk, integer
from spelling import spell

PROGRAMS = ["server"]
IS_SLOW = True

CLIENTS = pathlib.Path(__file__).resolve().parent / "programs"
# A client that takes longer has failed; so has an installation.
SECONDS, INSTALLING_SECONDS = 600 * BUSY, 600
# What redis-benchmark asks for with 50 connections of 16 requests at a time: MSET of ten keys lets 8,000 versions wait.
BENCHMARK_LINES = 262_144
BENCHMARK_REQUESTS = 20_000
# Requests of `redis-cli --pipe`, and lines of an image that has an entry for each.
PIPE_REQUESTS, PIPE_LINES = 100_000, 1_048_576


class OverClients(PairCases):
    """Tests over clients' packages. Each says that it is skipped where one cannot be had."""

    @classmethod
    def setUpClass(cls):
        ran = subprocess.run([CLIENTS / "install"], stdout=subprocess.PIPE, text=True, check=True, timeout=INSTALLING_SECONDS)
        cls.lacking = ran.stdout.split()

    def have(self, *packages):
        """Whether these packages are there; else says that the test is skipped."""
        lacking = [it for it in packages if it in self.lacking]
        if lacking:
            print(f"{self.id()}: skipped, since {', '.join(lacking)} cannot be had", flush=True)
        return not lacking

    def run_words(self, words, stdin=b""):
        """What a program prints, once it has ended well."""
        ran = subprocess.run(words, input=stdin, capture_output=True, timeout=SECONDS)
        self.assertEqual((ran.returncode, ran.stderr), (0, b""), ran.stdout[-300:])
        return ran.stdout


class Libraries(OverClients):
    """Programs over clients' libraries."""

    def check(self, words, name):
        """A client's program checks what it is answered, and afterwards both images open."""
        nodes = self.pair()
        output = self.run_words([*words, str(nodes.door.number)]).decode()
        found = re.fullmatch(rf"{re.escape(name)} [\d.]+(?:, \w+)?: (\d+) checked\n", output)
        self.assertTrue(found, output)
        self.assertGreater(int(found[1]), 10)
        first, second = self.assert_positions(nodes)
        self.assertEqual(first, second)

    def test_redis_py(self):
        if self.have("python3-redis"):
            self.check(["/usr/bin/python3", CLIENTS / "sync.py"], "redis-py")

    def test_redis_py_asyncio(self):
        if self.have("python3-redis"):
            self.check(["/usr/bin/python3", CLIENTS / "asynchronous.py"], "redis-py")

    def test_hiredis(self):
        if self.have("libhiredis-dev", "gcc", "libc6-dev"):
            with tempfile.TemporaryDirectory() as folder:
                program = pathlib.Path(folder, "client")
                self.run_words(["gcc", "-O1", "-Wall", "-Wextra", "-Werror", "-o", program, CLIENTS / "client.c", "-lhiredis"])
                self.check([program], "hiredis")

    def test_ruby_redis(self):
        if self.have("ruby-redis"):
            self.check(["/usr/bin/ruby", CLIENTS / "client.rb"], "ruby-redis")

    def test_php_redis(self):
        if self.have("php-cli", "php-redis"):
            self.check(["/usr/bin/php", CLIENTS / "client.php"], "php-redis")

    def test_perl_redis(self):
        if self.have("libredis-perl"):
            self.check(["/usr/bin/perl", CLIENTS / "client.pl"], "Perl's Redis")


class RedisTools(OverClients):
    """redis-cli and redis-benchmark."""

    def cli(self, nodes, *words, stdin=b""):
        return self.run_words(["redis-cli", "-p", str(nodes.door.number), *words], stdin)

    def test_redis_cli(self):
        if not self.have("redis-tools"):
            return
        nodes, longest = self.pair(), bytes(range(256)) * 256
        for name, words, stdin, wanted in [
            ("set", ["set", "a", "1"], b"", b"OK\n"),
            ("get", ["get", "a"], b"", b"1\n"),
            ("an absent key", ["--no-raw", "get", "none"], b"", b"(nil)\n"),
            ("a hash", ["hset", "h", "b", "1", "a", "2"], b"", b"2\n"),
            ("its fields", ["--no-raw", "hgetall", "h"], b"", b'1) "a"\n2) "2"\n3) "b"\n4) "1"\n'),
            ("a long value", ["-x", "set", "long"], longest, b"OK\n"),
            ("its length", ["--no-raw", "strlen", "long"], b"", b"(integer) 65536\n"),
            ("its bytes", ["get", "long"], b"", longest + b"\n"),
            ("lines", [], b'set "\\x00\\r\\n" "\\xff"\nget "\\x00\\r\\n"\n', b"OK\n\xff\n"),
            ("a transaction", [], b"multi\nset a 5\nincr a\nexec\n", b"OK\nQUEUED\nQUEUED\nOK\n6\n"),
            ("an error", ["--no-raw", "incr", "long"], b"", b"(error) ERR value is not an integer or out of range\n"),
            ("a command that is not there", ["--no-raw", "keys", "*"], b"", b"(error) ERR unknown command\n"),
        ]:
            with self.case(name):
                # (a blank line or two follow an error)
                self.assert_bytes(self.cli(nodes, *words, stdin=stdin).rstrip(b"\n") + b"\n", wanted)
        with self.case("a status for a script"):
            ran = subprocess.run(["redis-cli", "-e", "-p", str(nodes.door.number), "nosuch"], capture_output=True, timeout=SECONDS)
            self.assertEqual(ran.returncode, 1)

    def test_redis_cli_and_a_conflict(self):
        if not self.have("redis-tools"):
            return
        nodes = self.pair()
        words = ["redis-cli", "--no-raw", "-p", str(nodes.door.number)]
        with subprocess.Popen(words, stdin=subprocess.PIPE, stdout=subprocess.PIPE) as child:
            self.addCleanup(child.kill)
            child.stdin.write(b"watch a\n")
            child.stdin.flush()
            self.assertEqual(child.stdout.readline(), b"OK\n")
            self.assertEqual(nodes.client().ask("SET", "a", "of another"), OK)
            output, _ = child.communicate(b"multi\nset a lost\nexec\nget a\n", SECONDS)
        self.assertEqual(output, b'OK\nQUEUED\n(nil)\n"of another"\n')

    def test_redis_cli_pipe(self):
        """100,000 SETs are executed, and then it ends with the fault that docs/clients.md tells of: its empty line is no request here. It catches a
        pipeline that loses what stands before a fault."""
        if not self.have("redis-tools"):
            return
        nodes = self.pair(lines=PIPE_LINES)
        data = b"".join(spell("SET", f"k{at:06}", f"{at}") for at in range(PIPE_REQUESTS))
        ran = subprocess.run(["redis-cli", "-p", str(nodes.door.number), "--pipe"], input=data, capture_output=True, timeout=SECONDS)
        self.assertEqual((ran.returncode, ran.stderr), (1, b"ERR Protocol error: expected '*'\n"))
        with nodes.client() as client:
            self.assertEqual(client.ask("DBSIZE"), integer(PIPE_REQUESTS))
            for at in (0, PIPE_REQUESTS // 2, PIPE_REQUESTS - 1):
                self.assertEqual(client.ask("GET", f"k{at:06}"), bulk(b"%d" % at))
        self.assertEqual(self.assert_positions(nodes), (PIPE_REQUESTS, PIPE_REQUESTS))

    def test_redis_benchmark(self):
        if not self.have("redis-tools"):
            return
        nodes = self.pair(lines=BENCHMARK_LINES)
        options = ["-t", "set,get,incr,hset,mset", "-c", "50", "-P", "16", "-n", str(BENCHMARK_REQUESTS), "-q"]
        ran = subprocess.run(["redis-benchmark", "-p", str(nodes.door.number), *options], capture_output=True, timeout=SECONDS)
        self.assertEqual(ran.returncode, 0, ran.stderr)
        # (it asks for the configuration, and goes on without)
        self.assertLessEqual(set(ran.stderr.splitlines()), {b"WARNING: Could not fetch server CONFIG"})
        found = re.findall(r"\r([A-Z]+)(?: \(10 keys\))?: [\d.]+ requests per second", ran.stdout.decode())
        self.assertEqual(found, ["SET", "GET", "INCR", "HSET", "MSET"])
        with nodes.client() as client:
            self.assertEqual(client.ask("GET", "counter:__rand_int__"), bulk(b"%d" % BENCHMARK_REQUESTS))
            self.assertEqual(client.ask("DBSIZE"), integer(3))
        first, second = self.assert_positions(nodes)
        self.assertEqual((first, second), (4 * BENCHMARK_REQUESTS, 4 * BENCHMARK_REQUESTS))
