"""SIGTERM and SIGINT at a node (docs/server.md, "How a node is ended"): they end one that is an ordinary process at once, and one in a container under a
first process that passes them on; one that is itself the first process does nothing, and only SIGKILL ends it. What was answered is there in each case."""

import pathlib
import shutil
import signal
import subprocess
import sys
import time
import unittest

import common
from pair import PATIENCE, PairCases, wait_until
from plain_replies import OK, bulk

PROGRAMS = ["server"]
IS_SLOW = True
IS_ALONE = True
QUICK = ["Signals.test_an_ordinary_process", "Signals.test_under_a_first_process"]

# A first process of a few lines, as `docker run --init` and tini are one: it starts the program, and passes signals on.
INIT = """
import os, signal, sys
child = os.fork()
if child == 0:
    os.execv(sys.argv[1], sys.argv[1:])
for number in (signal.SIGTERM, signal.SIGINT):
    signal.signal(number, lambda number, frame: os.kill(child, number))
while True:
    ended, status = os.wait()
    if ended == child:
        sys.exit(128 + os.WTERMSIG(status) if os.WIFSIGNALED(status) else os.WEXITSTATUS(status))
"""
# What starts its words as the first process of a container, whose other processes end with it.
APART = [shutil.which("unshare") or "unshare", "--user", "--map-root-user", "--pid", "--fork", "--kill-child", "--mount-proc"]
# A node that does nothing on a signal is watched for so long, and one that ends at once has ended within this time on a busy machine.
STILL_SECONDS, SOON = 1, 10 * common.BUSY


def can_be_apart():
    return shutil.which("unshare") and subprocess.run([*APART, "true"], stderr=subprocess.DEVNULL, check=False).returncode == 0


def children_of(process):
    path = pathlib.Path("/proc", str(process), "task", str(process), "children")
    return [int(word) for word in path.read_text(encoding="ascii").split()]


class Signals(PairCases):
    def served(self, *before):
        """A pair whose nodes are started behind these words, and that has answered a write."""
        nodes = self.pair()
        nodes.end()
        for node in (nodes.standby, nodes.primary):
            node.before = list(before)
            node.start()
        nodes.wait()
        with nodes.client() as client:
            self.assertEqual(client.ask("SET", "a", "1"), OK)
        return nodes

    def assert_kept(self, nodes):
        """Started again as they are without what was before them, they still have it."""
        for node in (nodes.standby, nodes.primary):
            node.before = []
            node.start()
        nodes.wait()
        with nodes.client() as client:
            self.assertEqual(client.ask("GET", "a"), bulk(b"1"))

    def assert_ends_at_once(self, process, number, status):
        began = time.monotonic()
        process.send_signal(number)
        self.assertEqual(process.wait(PATIENCE), status)
        self.assert_in_time(time.monotonic() - began, SOON)

    def test_an_ordinary_process(self):
        for number in (signal.SIGTERM, signal.SIGINT):
            with self.case("signal", number=number):
                nodes = self.served()
                for node in (nodes.primary, nodes.standby):
                    self.assert_ends_at_once(node.process, number, -number)
                self.assert_kept(nodes)

    def first_of(self, node):
        """The first process of the container that a node was started in."""
        return wait_until(lambda: children_of(node.process.pid), "a container")[0]

    @unittest.skipUnless(can_be_apart(), "no container can be made here")
    def test_under_a_first_process(self):
        for number in (signal.SIGTERM, signal.SIGINT):
            with self.case("signal", number=number):
                nodes = self.served(*APART, sys.executable, "-ISc", INIT)
                for node in (nodes.primary, nodes.standby):
                    first, began = self.first_of(node), time.monotonic()
                    subprocess.run(["kill", f"-{number.value}", str(first)], check=True)
                    self.assertEqual(node.process.wait(PATIENCE), 128 + number)
                    self.assert_in_time(time.monotonic() - began, SOON)
                self.assert_kept(nodes)

    @unittest.skipUnless(can_be_apart(), "no container can be made here")
    def test_as_the_first_process(self):
        """The system passes over a signal that would end it. Who ends such a node does so by SIGKILL, and nothing that was answered is lost."""
        nodes = self.served(*APART)
        for node in (nodes.primary, nodes.standby):
            first = self.first_of(node)
            for number in (signal.SIGTERM, signal.SIGINT):
                subprocess.run(["kill", f"-{number.value}", str(first)], check=True)
            time.sleep(STILL_SECONDS)
            self.assertTrue(node.is_running())
        with nodes.client() as client:
            self.assertEqual(client.ask("SET", "a", "1"), OK)
        for node in (nodes.primary, nodes.standby):
            subprocess.run(["kill", "-9", str(self.first_of(node))], check=True)
            self.assertNotEqual(node.process.wait(PATIENCE), 0)
        self.assert_kept(nodes)
