"""What docs/operating.md says of a supervisor and of proxies in front of a pair: the files of docs/examples/ as they stand."""

import contextlib
import shutil
import subprocess

import common
from load import Load
from operated import FIRST, PAGE, Operated, Page
from page_shell import PageShell, blocks_below
from pair import PATIENCE, Client, Ended, wait_until
from plain_replies import OK, bulk, integer

PROGRAMS = ["server", "client"]
IS_SLOW = True

EXAMPLES = common.ROOT / "docs" / "examples"


def example(name):
    """The lines of a file that the page names."""
    return (EXAMPLES / name).read_text(encoding="ascii").splitlines()


class Supervised(common.Cases):
    """The unit file."""

    def test_the_unit(self):
        lines = example("wbl-primary@.service")
        if not shutil.which("systemd-analyze"):
            print(f"{self.id()}: skipped, since there is no systemd-analyze", flush=True)
            return
        shell = PageShell()
        self.addCleanup(shell.close)
        path = shell.write("wbl-primary@a.service", [line.replace("/usr/local/bin/", f"{shell.folder}/bin/") for line in lines])
        ran = subprocess.run(["systemd-analyze", "verify", "--man=no", path], capture_output=True, text=True, timeout=PATIENCE, check=False)
        # (what it says of the unit alone: of a machine without systemd it may say more)
        self.assertEqual([line for line in ran.stderr.splitlines() if path.name in line], [])


class Proxied(Operated):
    """HAProxy and twemproxy as the page has them. Skipped with a word where they are not there and cannot be had."""

    def have(self, name):
        if not shutil.which(name):
            print(f"{self.id()}: skipped, since there is no {name}", flush=True)
            return False
        return True

    def setUp(self):
        super().setUp()
        self.configuration = example("haproxy.cfg")

    def proxy(self, shell, port):
        """HAProxy in front of the pair of this shell, once it passes a write on."""
        path = shell.write("haproxy.cfg", self.configuration)
        shell.launch(shutil.which("haproxy"), "-db", "-f", str(path))
        self.wait_to_serve(shell, port)

    def wait_to_serve(self, shell, port):
        def serves():
            with contextlib.suppress(OSError, Ended), Client(shell.port(port), PATIENCE / 4) as client:
                return client.ask("SET", "health", "1") == OK

        wait_until(serves, f"an answer at {port} of the page")

    def check_behind(self, load, told):
        """What the writers were answered is there, behind a proxy that on a busy machine may think for a while that its node is down."""
        def is_checked():
            self.wait_to_serve(self.shell, 7000)
            with contextlib.suppress(OSError, Ended):
                load.check(told)
                return True

        wait_until(is_checked, f"all keys, {told}")

    def test_haproxy(self):
        """A fail over behind it changes nothing for clients, and an old primary that comes back serves nobody."""
        if not self.have("haproxy"):
            return
        self.proxy(self.shell, 7000)
        load = Load(Page(self.shell, 7000))
        self.started(load)
        self.kill("a.img")
        self.shell.run("cp a.img old.img")
        load.end()
        self.do("A lost primary")
        self.check_behind(load, "behind HAProxy")
        start = next(line for line in blocks_below(PAGE, "The process of the primary")[0] if " primary " in line)
        self.shell.run(start.replace("a.img", "old.img").replace("7102", "7105").replace("a.log", "old.log"))
        wait_until(lambda: b"listening on" in self.log("old"), "the old primary")
        self.started(load)
        # (checks of it come meanwhile, which it does not answer)
        for _ in range(3):
            with Client(self.shell.port(FIRST), 1) as client, self.assertRaises(TimeoutError):
                client.ask("SET", "health", "1")
        load.end()
        self.check_behind(load, "with an old primary")
        self.cut_off_while_a_standby_is_away()

    def cut_off_while_a_standby_is_away(self):
        """Clients of a primary that lost its standby are turned away, and served again once that is back."""
        def is_turned_away():
            with Client(self.shell.port(7000)) as client:
                try:
                    client.ask("PING")
                except (ConnectionError, Ended):
                    return True

        self.kill("a.img")
        wait_until(is_turned_away, "a node that counts as down")
        self.shell.run(next(line for line in blocks_below(PAGE, "A lost primary")[0] if " standby " in line and line.endswith(" &")))
        self.wait_to_serve(self.shell, 7000)

    def test_twemproxy(self):
        """Over two pairs: what passes, what is cut, and what ends the connection."""
        if not self.have("haproxy") or not self.have("nutcracker"):
            return
        other = self.new_shell()
        other.run(*blocks_below(PAGE, "A pair")[0])
        self.proxy(self.shell, 7000)
        self.proxy(other, 7000)
        self.shell.ports[7010] = other.ports[7000]
        path = self.shell.write("nutcracker.yml", example("nutcracker.yml"))
        self.addCleanup(self.shell.ports.pop, 7010)
        self.shell.launch(shutil.which("nutcracker"), "-c", str(path), "-s", str(self.shell.port(7201)))
        self.wait_to_serve(self.shell, 7200)
        client = self.client(7200)
        keys = [f"k{at}" for at in range(100)]
        with self.case("spread"):
            self.assertEqual([client.ask("SET", key, key) for key in keys], 100 * [OK])
            counts = [Client(shell.port(FIRST)).ask("EXISTS", *keys) for shell in (self.shell, other)]
            self.assertEqual(sum(int(it[1:]) for it in counts), 100)
            self.assertNotIn(integer(0), counts)
        with self.case("cut"):
            self.assertEqual(client.ask("MGET", *keys), b"*100\r\n" + b"".join(bulk(key.encode()) for key in keys))
            self.assertEqual([client.ask("DEL", *keys), client.ask("MSET", "a", "1", "b", "2"), client.ask("MGET", "a", "b")], [integer(100), OK, b"*2\r\n" + bulk(b"1") + bulk(b"2")])
        with self.case("of its own"):
            self.assertEqual(client.ask("PING"), b"+PONG\r\n")
        for words in (["MULTI"], ["EXEC"], ["WATCH", "a"], ["DBSIZE"], ["FLUSHDB"], ["MSETNX", "a", "1"], ["ECHO", "a"], ["QUIT"]):
            with self.case("ends the connection", words=words), Client(self.shell.port(7200)) as asked:
                with self.assertRaises((Ended, ConnectionError)):
                    asked.ask(*words)
        with self.case("a value that is too large"), Client(self.shell.port(7200)) as asked:
            with contextlib.suppress(Ended, ConnectionError):
                self.assertRegex(asked.ask("SET", "large", 1_048_577 * "v"), rb"\A-")
            self.wait_to_serve(self.shell, 7200)
