"""What clients make of a reply that is lost, of one that comes too late, and of a value that is too large: what docs/clients.md says of them."""

import subprocess

import common
import pages
from losing_front import LosingFront
from pair import Client
from plain_replies import OK, bulk
from spelling import spell
from test_clients import CLIENTS, SECONDS, OverClients

PROGRAMS = ["server", "client"]
IS_SLOW = True

PAGE = common.ROOT / "docs" / "clients.md"
# Longer than all takes that is answered, and shorter than a test may take.
TIME_OUTS = (2 + common.BUSY, 15 * common.BUSY)
PYTHON, RUBY, PHP, PERL = "/usr/bin/python3", "/usr/bin/ruby", "/usr/bin/php", "/usr/bin/perl"
PYTHON_FIRST = "import redis, sys\nclient = redis.Redis(port=int(sys.argv[1]), socket_timeout=float(sys.argv[2]))\n"
ASYNCHRONOUS = """
import asyncio, redis.asyncio, sys
async def main():
    client = redis.asyncio.Redis(port=int(sys.argv[1]), socket_timeout=float(sys.argv[2]))
    try:
        await client.incr("n")
    finally:
        await client.close()
asyncio.run(main())
"""
TRANSACTION = """
def add(batch):
    number = int(batch.get("n") or 0)
    batch.multi()
    batch.set("n", number + 1)
client.transaction(add, "n")
"""
WATCH_LOOP = """
while True:
    with client.pipeline() as batch:
        try:
            batch.watch("n")
            number = int(batch.get("n") or 0)
            batch.multi()
            batch.set("n", number + 1)
            batch.execute()
            break
        except redis.WatchError:
            continue
"""
RUBY_FIRST = "require 'redis'; client = Redis.new(port: ARGV[0].to_i, timeout: ARGV[1].to_f{more}); "
PHP_FIRST = "$client = new Redis(); $client->connect('127.0.0.1', (int) $argv[1], (float) $argv[2], null, 0, (float) $argv[2]); "
PERL_FIRST = "my $client = Redis->new(server => \"127.0.0.1:$ARGV[0]\", read_timeout => $ARGV[1]{more}); "


def python(text):
    return [PYTHON, "-c", PYTHON_FIRST + text]


def ruby(text, more=""):
    return [RUBY, "-e", RUBY_FIRST.format(more=more) + text]


def perl(text, more=""):
    return [PERL, "-MRedis", "-e", PERL_FIRST.format(more=more) + text]


# As the page has them: what is asked, what it needs, what the request has whose reply is lost, and the program, which gets a port and a time-out.
ASKED = {
    "redis-py, `incr`": (["python3-redis"], b"INCR", python("client.incr('n')")),
    "redis-py's asyncio, `incr`": (["python3-redis"], b"INCR", [PYTHON, "-c", ASYNCHRONOUS]),
    "redis-py, a pipeline with `incr`": (["python3-redis"], b"EXEC", python("client.pipeline().incr('n').execute()")),
    "redis-py, `transaction()`": (["python3-redis"], b"EXEC", python(TRANSACTION)),
    "redis-py, WATCH, EXEC and `except WatchError` in a loop": (["python3-redis"], b"EXEC", python(WATCH_LOOP)),
    "redis-py, with a token": (["python3-redis"], b"EXEC", [PYTHON, str(CLIENTS / "exactly_once.py")]),
    "ruby-redis, `incr`": (["ruby-redis"], b"INCR", ruby("client.incr('n')")),
    "ruby-redis, `multi` with `incr`": (["ruby-redis"], b"EXEC", ruby("client.multi { |batch| batch.incr('n') }")),
    "ruby-redis with `reconnect_attempts: 0`, `incr`": (["ruby-redis"], b"INCR", ruby("client.incr('n')", ", reconnect_attempts: 0")),
    "php-redis, `incr`": (["php-cli", "php-redis"], b"INCR", [PHP, "-r", PHP_FIRST + "$client->incr('n');"]),
    "php-redis, `multi` with `incr`": (["php-cli", "php-redis"], b"EXEC", [PHP, "-r", PHP_FIRST + "$client->multi(); $client->incr('n'); $client->exec();"]),
    "Perl's Redis, `incr`": (["libredis-perl"], b"INCR", perl("$client->incr('n')")),
    "Perl's Redis with `reconnect => 60`, `incr`": (["libredis-perl"], b"INCR", perl("$client->incr('n')", ", reconnect => 60")),
    "redis-cli, `INCR n`": (["redis-tools"], b"INCR", ["/bin/sh", "-c", "exec redis-cli -p $0 INCR n"]),
    "wbl-cli, `INCR n`": ([], b"INCR", ["/bin/sh", "-c", "exec $WBL_CLI --connect 127.0.0.1:$0 INCR n"]),
}
# Those that have no timeout.
NEVER_LATE = ["redis-cli, `INCR n`", "wbl-cli, `INCR n`"]
# A client of a language that asks for a value of so many bytes, and then for another; and what it prints.
LARGE = {
    "redis-py": (["python3-redis"], python("""
for size in (int(sys.argv[3]), 1, 1):
    try:
        print(client.set("v", size * "v"))
    except redis.RedisError as error:
        print(error)
"""), ["Protocol error: invalid bulk length", "*", "True"]),
    "ruby-redis": (["ruby-redis"], ruby("""[ARGV[2].to_i, 1, 1].each do |size|
    begin
        puts client.set("v", "v" * size)
    rescue Redis::BaseError => error
        puts error
    end
end"""), ["ERR Protocol error: invalid bulk length", "*", "OK"]),
    "php-redis": (["php-cli", "php-redis"], [PHP, "-r", PHP_FIRST + """foreach ([(int) $argv[3], 1, 1] as $size) {
    $client->clearLastError();
    try { echo $client->set("v", str_repeat("v", $size)) ? "OK" : rtrim($client->getLastError(), "\\0"), "\\n"; }
    catch (RedisException $error) { echo $error->getMessage(), "\\n"; }
}"""], ["ERR Protocol error: invalid bulk length", "*", "OK"]),
}


class Repeats(OverClients):
    """Each row of the page's table: what `n` is afterwards that was 0, and whether the caller was told of an error."""

    def setUp(self):
        super().setUp()
        self.nodes = self.pair()

    def rows(self):
        *rows, (others, *same) = pages.rows(PAGE, "A reply that does not come")
        self.assertEqual(others, "all others")
        told = {name: cells for name, *cells in rows}
        self.assertEqual([name for name in ASKED if name in told], list(told))
        for name, (needed, word, words) in ASKED.items():
            lost, late = told.get(name, same)
            if self.have(*needed):
                yield name, lost, "" if name in NEVER_LATE else late, word, words

    def ended(self, words, port, seconds):
        """What a program left: whether it was told of an error, and the number there."""
        variables = {"WBL_CLI": common.program("client"), "PATH": "/usr/bin:/bin"}
        ran = subprocess.run([*words, str(port), str(seconds)], env=variables, capture_output=True, timeout=SECONDS, check=False)
        return "an error" if ran.returncode or ran.stderr else "no error"

    def is_number(self, cell, told):
        """Whether the cell of the page is right: the number that is there, and what the caller was told."""
        with self.nodes.client() as client:
            found = client.ask("GET", "n")
            client.ask("SET", "n", "0")
        numbers, wanted = cell.replace("*", "").split(", ")
        return found.split()[1].decode() in numbers.split(" or ") and told == wanted

    def test_lost_replies(self):
        self.nodes.client().ask("SET", "n", "0")
        for name, lost, _, word, words in self.rows():
            with self.case("asked", how=name):
                front = LosingFront(self.nodes.door.number, word)
                self.addCleanup(front.close)
                told = self.ended(words, front.number, SECONDS)
                self.assertTrue(front.lost, "no reply was lost")
                self.assertTrue(self.is_number(lost, told), (lost, told))

    def ended_late(self, words, seconds):
        """The same, of a program whose requests wait for a frozen standby for so long."""
        self.nodes.standby.freeze()
        told = self.ended(words, self.nodes.door.number, seconds)
        self.nodes.standby.thaw()
        return told

    def test_late_replies(self):
        """The standby is frozen until the client has ended, or for a while where it has no time-out."""
        self.nodes.client().ask("SET", "n", "0")
        for name, _, late, _, words in self.rows():
            if late:
                with self.case("asked", how=name):
                    # (on a busy machine what is answered at once may take longer than the first of them)
                    self.assertTrue(any(self.is_number(late, self.ended_late(words, seconds)) for seconds in TIME_OUTS), late)

    def test_sessions(self):
        if self.have("python3-redis"):
            output = self.run_words([PYTHON, CLIENTS / "sessions.py", str(self.nodes.door.number)]).decode()
            self.assertRegex(output, r"\Aredis-py [\d.]+, sessions: 14 checked\n\Z")

    def test_sizes(self):
        """A value above 1,048,576 bytes ends the connection, and the client is served again on another."""
        for name, (needed, words, wanted) in LARGE.items():
            if not self.have(*needed):
                continue
            with self.case("client", name=name):
                ran = subprocess.run([*words, str(self.nodes.door.number), "60", "1048577"], capture_output=True, text=True, timeout=SECONDS, check=False)
                found = ran.stdout.splitlines()
                self.assertEqual(len(found), 3, ran)
                self.assertEqual([it for it, of in zip(found, wanted) if of != "*"], [of for of in wanted if of != "*"])
        # (its own answer may not be read any more)
        for name in ("redis-py", "ruby-redis"):
            needed, words, (*_, wanted) = LARGE[name]
            if self.have(*needed):
                with self.case("megabytes", name=name):
                    ran = subprocess.run([*words, str(self.nodes.door.number), "60", "30000000"], capture_output=True, text=True, timeout=SECONDS, check=False)
                    first, *_, last = ran.stdout.splitlines()
                    self.assertEqual((first == wanted, last), (False, wanted))

    def test_what_stands_around_a_value_that_is_too_large(self):
        """What was asked before it on the connection is done and answered; what was asked behind it is not done."""
        rows = [("SET", "a", "1"), ("SET", "large", 1_048_577 * "v"), ("SET", "b", "1")]
        with Client(self.nodes.door.number) as client:
            client.send(b"".join(spell(*row) for row in rows))
            self.assertEqual(client.read_all(), OK + b"-ERR Protocol error: invalid bulk length\r\n")
        with Client(self.nodes.door.number) as client:
            self.assertEqual([client.ask("GET", "a"), client.ask("EXISTS", "b", "large")], [bulk(b"1"), b":0\r\n"])
            longest = 513 * "k"
            self.assertEqual([client.ask("SET", longest, "1"), client.ask("PING")], [b"-ERR key or field is longer than 512 bytes\r\n", b"+PONG\r\n"])
