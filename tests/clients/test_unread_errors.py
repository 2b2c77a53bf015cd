"""Nodes whose standard error is a pipe that nobody reads, and one that is read again: telling holds nobody up, what is dropped is counted, and the count is
told (docs/server.md, "What a node tells")."""

import fcntl
import os
import re
import socket
import subprocess
import tempfile
import time

import common
from pair import DESCRIPTORS, HOST, LINES, PATIENCE, PairCases, greet, launch, wait_until
from plain_replies import OK
from plain_wire import Acknowledgement, text
from spelling import spell

PROGRAMS = ["server"]
IS_SLOW = True
QUICK = ["Unread.test_a_standby_that_was_away_is_dialed_again"]

# A pipe of one page is full after some fifty lines.
PIPE_BYTES = 4_096
# How many lines a node keeps to be written.
KEPT_LINES = 128
DROPPED = re.compile(rb"(\d+) lines before this one were dropped: nobody took them")


class Unread(PairCases):
    def pipe(self):
        """The two ends of a small pipe that is full."""
        source, sink = os.pipe()
        self.addCleanup(os.close, source)
        fcntl.fcntl(sink, fcntl.F_SETPIPE_SZ, PIPE_BYTES)
        os.set_blocking(sink, False)
        try:
            while True:
                os.write(sink, b".")
        except BlockingIOError:
            pass
        # (the node's end is one of its own: what is said of it here would be said of that as well)
        os.set_blocking(sink, True)
        return source, sink

    def start(self, node, sink):
        """Starts a node that tells there."""
        with open(node.output, "ab") as output:
            node.process = launch([common.program("server"), *node.words], DESCRIPTORS, stdout=output, stderr=sink)
        os.close(sink)

    def unread(self, *roles):
        """A pair whose nodes of these roles tell where nobody reads, and the ends where one could."""
        nodes, sources = self.pair(has_number=True), []
        nodes.end()
        for node in (nodes.standby, nodes.primary):
            if node.role in roles:
                source, sink = self.pipe()
                sources.append(source)
                self.start(node, sink)
            else:
                node.start()
        nodes.wait()
        return nodes, sources

    def assert_answered(self, nodes, value):
        def is_answered():
            with nodes.client(5) as client:
                try:
                    return client.ask("SET", "a", value) == OK
                except (TimeoutError, ConnectionError):
                    return False

        wait_until(is_answered, "an answer")

    def test_a_standby_that_was_away_is_dialed_again(self):
        nodes, _ = self.unread("primary", "standby")
        for turn in range(3):
            with self.case("turn", turn=turn):
                self.assert_answered(nodes, f"{turn}")
                nodes.standby.end()
                time.sleep(0.5)
                source, sink = self.pipe()
                self.start(nodes.standby, sink)
                wait_until(nodes.standby.is_listening, "a standby")
        self.assert_answered(nodes, "last")

    def read_until(self, source, is_there):
        """What is told there, without times, until this holds of it. First comes what had filled the pipe."""
        told, end = b"", time.monotonic() + PATIENCE
        os.set_blocking(source, False)
        while not is_there(told) and time.monotonic() < end:
            try:
                told += os.read(source, 65_536)
            except BlockingIOError:
                time.sleep(0.01)
        return common.without_times(told.lstrip(b".")).splitlines()

    def test_what_waited_is_told(self):
        """Fewer lines than are kept come out in their order once they are read, and none was dropped."""
        nodes, (source,) = self.unread("primary")
        for _ in range(5):
            nodes.standby.end()
            nodes.standby.start()
            wait_until(nodes.standby.is_listening, "a standby")
            self.assert_answered(nodes, "1")
        lines = self.read_until(source, lambda told: told.count(b"link open to ") == 6)
        begins = [sum(line.startswith(word) for line in lines) for word in (b"wbl-server ", b"listening on ", b"link open to ")]
        self.assertEqual((begins, [line for line in lines if DROPPED.fullmatch(line)]), ([1, 1, 6], []), lines)

    def test_what_was_dropped_is_counted(self):
        """More lines than are kept: those that came first are told, then how many were dropped, then what comes next. The test is the standby, which takes
        a write on each link and leaves."""
        nodes = self.pair()
        nodes.end()
        nodes.primary.format(LINES)
        source, sink = self.pipe()
        listener = socket.create_server((HOST, nodes.link.number))
        self.addCleanup(listener.close)
        listener.settimeout(PATIENCE)
        self.start(nodes.primary, sink)
        link = self.accepted(listener)
        link.sendall(text(Acknowledgement(1, 0)))
        wait_until(nodes.primary.is_listening, "a primary that listens")
        client = nodes.client()
        # (a link is told of twice, as it opens and as it is lost; on each the standby is one further, so that the next is dialed soon)
        links = KEPT_LINES // 2 + 20
        for at in range(1, links + 1):
            client.send(spell("SET", "a", f"{at}"))
            self.assertTrue(link.recv(65_536))
            link.sendall(text(Acknowledgement(1, at)))
            self.assertEqual(client.read(len(OK)), OK)
            link.close()
            link = self.accepted(listener)
            link.sendall(text(Acknowledgement(1, at)))
        # (from here on there is room: the next line tells how many had none)
        link.close()
        lines = self.read_until(source, lambda told: b"were dropped" in told)
        (at,) = (place for place, line in enumerate(lines) if DROPPED.fullmatch(line))
        dropped = int(DROPPED.fullmatch(lines[at])[1])
        told = sum(line.startswith((b"link open to ", b"link to ")) for line in lines[:at])
        self.assertEqual(lines[3], b"link open to %s at position 0" % nodes.link.address().encode())
        self.assertEqual(lines[4].split(b": ")[-1], b"the connection ended")
        # each link of this test was told of twice; that replies wait for a standby may be told as well
        self.assertGreaterEqual(told + dropped, 2 * links)
        self.assertLessEqual(at + dropped, 2 * links + 1 + 3 + links)

    def accepted(self, listener):
        """The primary's next link, greeted."""
        link, _ = listener.accept()
        self.addCleanup(link.close)
        link.settimeout(PATIENCE)
        greet(link)
        return link

    def test_a_process_that_ends_does_so_soon(self):
        """Nobody reads why, and it ends with its status all the same; where somebody reads, its last line is told."""
        with tempfile.TemporaryDirectory() as folder:
            words = ["standby", "--image", f"{folder}/none.img", "--listen", "127.0.0.1:0"]
            source, sink = self.pipe()
            with subprocess.Popen([common.program("server"), *words], stdin=subprocess.DEVNULL, stderr=sink) as process:
                os.close(sink)
                self.assertEqual(process.wait(PATIENCE), 1)
            self.assertEqual(self.read_until(source, lambda told: True), [])
            ran = subprocess.run([common.program("server"), *words], stdin=subprocess.DEVNULL, stderr=subprocess.PIPE, check=False)
            self.assertEqual((ran.returncode, common.without_times(ran.stderr).splitlines()[-1]), (1, b"refusal 1: device fault"))
