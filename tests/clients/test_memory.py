"""What a node holds in memory once a burst of values is over (docs/operating.md): its image and what is live, and little else. The nodes are started as
bin/wbl-server does, which tells the C library what to give back."""

import os
import pathlib
import random
import shutil
import subprocess
import tempfile
import threading
import time

import common
from pair import ServingCases, wait_until
from plain_image import MORE_LINES
from plain_replies import OK
from spelling import spell

PROGRAMS = ["server"]
IS_SLOW = True

STARTER = common.ROOT / "bin" / "wbl-server"
NAMES = ["MALLOC_MMAP_THRESHOLD_", "MALLOC_TRIM_THRESHOLD_", "GLIBC_TUNABLES"]
SET = ["262144", "1048576", "glibc.malloc.tcache_count=0:glibc.malloc.mxfast=0"]
MEBIBYTE = 2**20
# Of either node's image, in lines of 64 bytes, the standby's with what it needs besides.
LINES = 2**19
KEYS, CLIENTS, DEPTH = 16, 20, 10
# What the C library keeps free at the end of its memory, for the node's thread and for each of those that read what clients send.
KEPT = 3 * 4 * MEBIBYTE
# Values that are too short to be given back one by one: how long they are, how many bytes those of all keys have, how many clients there are, and how many bytes
# each sends: more than is read ahead of it.
SHORT, SHORT_LIVE, SHORT_CLIENTS, SHORT_SENT = (4_096, 16_384, 65_536), 16 * MEBIBYTE, 60, 3 * MEBIBYTE
# For how long a primary that holds all that it will holds no more.
STEADY = 3


def starter(folder, runs):
    """The starter over a script that stands for bin/run-program."""
    starter = folder / "wbl-server"
    shutil.copy(STARTER, starter)
    (folder / "run-program").write_text(f"#!/bin/sh\n{runs}\n", encoding="ascii")
    (folder / "run-program").chmod(0o755)
    return starter


def held(node):
    """How many bytes of memory the node's process holds that are of no file."""
    (own,) = (line for line in pathlib.Path(f"/proc/{node.process.pid}/status").read_text(encoding="ascii").splitlines() if line.startswith("RssAnon:"))
    return int(own.split()[1]) * 1_024


class Starter(common.Cases):
    def test_what_the_user_has_set_stays(self):
        with tempfile.TemporaryDirectory() as folder:
            it = starter(pathlib.Path(folder), 'printf "%s %s %s" ' + " ".join(f'"${name}"' for name in NAMES))
            others = {name: value for name, value in os.environ.items() if name not in NAMES}
            for given in ([], ["65536"], ["", "", ""], ["1", "2", "glibc.malloc.arena_max=1"]):
                with self.case("given", given=given):
                    ran = subprocess.run([it, "a"], env={**others, **dict(zip(NAMES, given))}, capture_output=True, check=True, text=True)
                    self.assertEqual(ran.stdout, " ".join([*given, *SET[len(given):]]))


class Bursts(ServingCases):
    def started(self):
        """A pair whose nodes were started as bin/wbl-server does."""
        nodes = self.pair(lines=LINES, standby_lines=LINES + MORE_LINES)
        folder = nodes.folder / "starter"
        folder.mkdir()
        for node in (nodes.primary, nodes.standby):
            node.before = [starter(folder, 'shift 2\nexec "$@"')]
        nodes.restart(nodes.standby, nodes.primary)
        nodes.wait()
        return nodes

    def burst(self, nodes, length, keys, clients, depth, comes):
        """Clients that send so many values each while the standby takes nothing, and read all replies once it does. It is thawed once all that is to come while
        it is frozen has come: `comes` is given what the primary held before, and waits for that."""
        nodes.standby.freeze()
        before, clients = held(nodes.primary), [nodes.client() for _ in range(clients)]
        requests = [b"".join(spell("SET", f"k{random.randrange(keys)}", random.randbytes(length)) for _ in range(depth)) for _ in clients]
        senders = [threading.Thread(target=it.send, args=[sent], daemon=True) for it, sent in zip(clients, requests)]
        for it in senders:
            it.start()
        comes(before)
        nodes.standby.thaw()
        for client in clients:
            for _ in range(depth):
                self.assertEqual(client.reply(), OK)
            client.close()
        for it in senders:
            it.join()

    def assert_holds(self, nodes, empty, live):
        """Each node comes to hold no more than its image, half as much again as is live, and what the C library keeps."""
        for node, lines in ((nodes.primary, LINES), (nodes.standby, LINES + MORE_LINES)):
            with self.case("node", role=node.role, live=live):
                most = empty[node.role] + lines * 64 + 3 * live // 2 + KEPT
                wait_until(lambda: held(node) <= most, f"a {node.role} that holds no more than {most} bytes: {held(node)}")

    def test_long_values(self):
        nodes = self.started()
        empty = {node.role: held(node) for node in (nodes.primary, nodes.standby)}

        def holds_a_third(before):
            wait_until(lambda: held(nodes.primary) - before > CLIENTS * DEPTH * MEBIBYTE // 3, "a primary that holds what came")

        for _ in range(2):
            self.burst(nodes, MEBIBYTE, KEYS, CLIENTS, DEPTH, holds_a_third)
            self.assert_holds(nodes, empty, KEYS * MEBIBYTE)
        self.assertEqual(nodes.client().ask("FLUSHDB"), OK)
        self.assert_holds(nodes, empty, 0)

    def test_shorter_values(self):
        """It catches pieces that the C library keeps at hand, behind which all of a burst stays."""
        def stays(_):
            most, since = 0, time.monotonic()
            while time.monotonic() - since < STEADY:
                now = held(nodes.primary)
                if now > most:
                    most, since = now, time.monotonic()
                time.sleep(0.1)

        for length in SHORT:
            with self.case("length", length=length):
                nodes = self.started()
                empty = {node.role: held(node) for node in (nodes.primary, nodes.standby)}
                self.burst(nodes, length, SHORT_LIVE // length, SHORT_CLIENTS, SHORT_SENT // length, stays)
                self.assert_holds(nodes, empty, SHORT_LIVE)
                nodes.close()
