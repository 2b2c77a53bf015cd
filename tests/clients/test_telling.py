"""What a node tells while it runs: which program it is, how long replies wait for the standby, and now and then how far it is (docs/server.md,
"What a node tells"). That a line is one write."""

import contextlib
import datetime
import pathlib
import re
import socket
import subprocess
import time
import typing
import unittest

import common
import held_syncs
from pair import ServingCases, wait_until
from plain_replies import OK, bulk
from spelling import spell

PROGRAMS = ["server"]
IS_SLOW = True
QUICK = ["Waiting.test_a_frozen_standby", "Reports.test_both_nodes", "Filling.test_lines", "FirstLine"]

WAITING = re.compile(rb"waiting for the standby since (\d+) seconds")
ANSWERED = re.compile(rb"the standby has answered after (\d+) seconds")
USED = rb"(\d+) keys, (\d+) of (\d+) versions and (\d+) of (\d+) lines"
PRIMARY = re.compile(rb"at position (\d+), standby at (\d+), " + USED + rb", (\d+) of 1024 clients, (\d+) requests a second, longest wait (\d+) ms")
STANDBY = re.compile(rb"at position (\d+), " + USED + rb", (\d+) frames a second")
FILLING = re.compile(rb'(9|99) of (?:10|100) (?:(versions)|lines) are taken, (\d+) of (\d+): see "A larger image" in docs/operating\.md')
TAKING = re.compile(rb"taking a frame since (\d+) seconds: its disk is slow, or it moves versions to make room")
VERSION = re.compile(rb"wbl-server \d+ \(logic [0-9a-f]{16}\)")
# After how many seconds a wait is told.
TOLD = [1, 2, 3, 4, 5, 10, 20, 30, 60, 120]
# A look that is taken once a second is taken within this time, however busy the machine is.
SOON = 15 * common.BUSY


def found_in(node, pattern):
    """The numbers of each line of the node's run that is such a line as a whole."""
    lines = node.errors.read_bytes()[node.began :].split(b"\n")
    return [tuple(map(int, found.groups())) for line in lines if (found := pattern.fullmatch(line))]


class PrimaryReport(typing.NamedTuple):
    position: int
    standby: int
    keys: int
    versions: int
    entries: int
    lines: int
    room: int
    clients: int
    requests: int
    wait: int


class StandbyReport(typing.NamedTuple):
    position: int
    keys: int
    versions: int
    entries: int
    lines: int
    room: int
    frames: int


def times_of(node, pattern):
    """The seconds at which the node's run told each such line."""
    # (as they were written, with their times; each stands in front of its line)
    lines = pathlib.Path(node.errors).open("rb").read().split(b"\n")[-1 - node.errors.read_bytes()[node.began :].count(b"\n"):]
    moments = [line.split(b" ")[0].decode().replace("Z", "+00:00") for line in lines if pattern.fullmatch(common.without_times(line))]
    return [datetime.datetime.fromisoformat(moment).timestamp() for moment in moments]


def primary_reports(node):
    return [PrimaryReport(*found) for found in found_in(node, PRIMARY)]


def standby_reports(node):
    return [StandbyReport(*found) for found in found_in(node, STANDBY)]


class Waiting(ServingCases):
    # How many lines there were before a standby was frozen: on a busy machine a reply may have waited for one that was not.
    waits = answers = 0

    def told(self):
        return [seconds for (seconds,) in found_in(self.nodes.primary, WAITING)][self.waits:]

    def told_of_answers(self):
        return found_in(self.nodes.primary, ANSWERED)[self.answers:]

    def freeze_behind(self, client):
        """Has a write answered, waits for the looks that tell of that, and freezes the standby."""
        self.assertEqual(client.ask("SET", "a", "1"), OK)
        time.sleep(3)
        self.waits, self.answers = len(self.told()), len(self.told_of_answers())
        self.nodes.standby.freeze()

    def assert_ever_more_seldom(self, told):
        """Each was due after the one before: a look that came late may have passed over some."""
        for before, after in zip([0, *told], told):
            self.assertGreaterEqual(after, next(it for it in TOLD if it > before))

    def test_a_frozen_standby(self):
        client = self.nodes.client()
        self.freeze_behind(client)
        began = time.monotonic()
        client.send(spell("SET", "a", "2"))
        # (where looks come late some are passed over)
        wait_until(lambda: len(self.told()) >= 4 and self.told()[-1] >= 10, "a wait of ten seconds that is told, and three before it")
        waited = time.monotonic() - began
        told = self.told()
        self.assert_in_time(told[0], SOON)
        self.assertLessEqual(told[-1], waited)
        self.assert_in_time(waited, told[-1] + SOON)
        self.assert_ever_more_seldom(told)
        self.assertEqual(self.told_of_answers(), [])
        self.nodes.standby.thaw()
        self.assertEqual(client.reply(), OK)
        ((after,),) = wait_until(self.told_of_answers, "that the standby has answered")
        self.assertGreaterEqual(after, told[-1])
        # a second wait is told from its beginning
        self.nodes.standby.freeze()
        client.send(spell("SET", "a", "3"))
        again = wait_until(lambda: self.told()[len(told) :], "another wait that is told")
        self.assertLess(again[0], 10)
        self.nodes.standby.thaw()

    def test_nothing_is_told_where_no_reply_waits(self):
        """Neither of a standby that is frozen while nobody asks for anything new, nor of one that is away when the primary starts; of the first reply that
        waits then it is told."""
        client = self.nodes.client()
        self.freeze_behind(client)
        for _ in range(4):
            time.sleep(1)
            self.assertEqual(client.ask("GET", "a"), bulk(b"1"))
        self.assertEqual(self.told(), [])
        self.nodes.end()
        self.waits = self.answers = 0
        self.nodes.primary.start()
        wait_until(self.nodes.primary.is_listening, "a primary that listens")
        time.sleep(4)
        self.assertEqual(self.told(), [])
        client = self.nodes.client()
        client.send(spell("GET", "a"))
        wait_until(self.told, "a wait that is told")
        self.nodes.standby.start()
        self.assertEqual(client.reply(), bulk(b"1"))
        wait_until(self.told_of_answers, "that the standby has answered")


class Taking(ServingCases):
    def told(self):
        return [seconds for (seconds,) in found_in(self.nodes.standby, TAKING)]

    @unittest.skipUnless(held_syncs.HAS_COMPILER, "there is no gcc")
    def test_a_standby_whose_syncs_are_held(self):
        """It says for how long it has been taking a frame, ever more seldom, and no more once it has."""
        standby, file = self.nodes.standby, self.nodes.folder / "held"
        standby.end()
        held_syncs.hold(standby, file)
        standby.start()
        self.nodes.wait()
        client = self.nodes.client()
        self.assertEqual(client.ask("SET", "a", "1"), OK)
        time.sleep(2)
        before = len(self.told())
        file.touch()
        client.send(spell("SET", "a", "2"))
        told = wait_until(lambda: len(self.told()) >= before + 3 and self.told()[before:], "a frame that is told of three times")
        self.assertTrue(all(2 * before <= after for before, after in zip(told, told[1:])), told)
        file.unlink()
        self.assertEqual(client.reply(), OK)
        time.sleep(1)
        told = self.told()
        time.sleep(3)
        self.assertEqual(self.told(), told)


class Reports(ServingCases):
    def started(self, *options):
        for node in (self.nodes.primary, self.nodes.standby):
            node.words += options
        self.nodes.restart(self.nodes.standby, self.nodes.primary)
        self.nodes.wait()

    def test_both_nodes(self):
        self.started("--report", "1")
        primary, standby = self.nodes.primary, self.nodes.standby
        client, _ = self.nodes.client(), self.nodes.client()
        asked = 0
        end = time.monotonic() + 4
        while time.monotonic() < end:
            self.assertEqual(client.ask("SET", "a", f"{asked}"), OK)
            asked += 1
        reports = lambda: primary_reports(primary)
        resting = lambda: [it for it in reports()[-1:] if (it.position, it.standby, it.keys, it.clients, it.requests) == (asked, asked, 1, 2, 0)]
        (last,) = wait_until(resting, "a report of a primary that rests")
        # (what has ended since the last list is there)
        self.assertEqual(last.versions, last.lines)
        self.assertLessEqual(last.versions, 1 + 1_024)
        following = lambda: [it for it in standby_reports(standby)[-1:] if (it.position, it.keys, it.versions, it.lines, it.frames) == (asked, 1, 1, 1, 0)]
        (other,) = wait_until(following, "a report of a standby that rests")
        for node, report in ((primary, last), (standby, other)):
            told = common.run_program("server", ["status", "--image", node.image]).output.decode()
            found = dict(line.rsplit(" ", 1) for line in told.splitlines())
            self.assertEqual((report.entries, report.room), (int(found["entries"]), int(found["room"])))
        # (a report of several seconds has fewer requests a second)
        self.assertLessEqual(sum(it.requests for it in reports()), asked + 1)
        self.assertGreater(max(it.requests for it in reports()), asked // (20 * common.BUSY))
        self.assertGreater(max(it.frames for it in standby_reports(standby)), 0)
        for positions in ([it.position for it in reports()], [it.position for it in standby_reports(standby)]):
            self.assertEqual(positions, sorted(positions))

    def test_connections_that_come_and_go(self):
        """What they ask is counted, though none of them is there when the driver looks."""
        self.started("--report", "1")
        asked, end = 0, time.monotonic() + 4
        while time.monotonic() < end:
            with contextlib.closing(self.nodes.client()) as client:
                for _ in range(20):
                    client.ask("INCR", "a")
                    asked += 1
        reports = lambda: primary_reports(self.nodes.primary)
        wait_until(lambda: [it for it in reports()[-1:] if (it.position, it.clients, it.requests) == (asked, 0, 0)], "a report of a primary that rests")
        told = sum(it.requests for it in reports())
        self.assertLessEqual(told, asked + 1)
        # (a report of several seconds has fewer requests a second)
        self.assertGreater(told, asked // (20 * common.BUSY))

    def test_how_often(self):
        began = time.time()
        self.started("--report", "3")
        for node, pattern in ((self.nodes.primary, PRIMARY), (self.nodes.standby, STANDBY)):
            with self.case("node", role=node.role):
                moments = wait_until(lambda node=node, pattern=pattern: (found := times_of(node, pattern))[2:] and found, "three reports")
                pauses = [after - before for before, after in zip([began, *moments], moments)]
                # (a time is told to the millisecond, and of a look that came a little late the next may come in time)
                self.assertGreaterEqual(min(pauses), 2.5, pauses)
                self.assert_in_time(max(pauses[1:]), 3 + SOON)

    def test_a_frozen_standby(self):
        self.started("--report", "1")
        client = self.nodes.client()
        self.assertEqual(client.ask("SET", "a", "1"), OK)
        self.nodes.standby.freeze()
        client.send(spell("SET", "a", "2"))
        reports = lambda: primary_reports(self.nodes.primary)
        wait_until(lambda: (2, 1) in [found[:2] for found in reports()], "a report of both positions")
        # while it goes on a wait is told, ever longer, and once more as a whole when it has ended
        wait_until(lambda: reports()[-1].wait >= 2_000, "a wait of two seconds")
        before = reports()
        self.nodes.standby.thaw()
        self.assertEqual(client.reply(), OK)
        wait_until(lambda: [it for it in reports()[len(before) :] if it.wait >= before[-1].wait], "the whole wait")
        wait_until(lambda: reports()[-1].wait < 1_000, "a report without a wait")

    def test_none_is_asked_for(self):
        time.sleep(2.5)
        self.assertEqual(found_in(self.nodes.primary, PRIMARY) + found_in(self.nodes.standby, STANDBY), [])

    def test_numbers_of_seconds_that_are_none(self):
        for node, words in ((self.nodes.primary, ("--report", "--idle")), (self.nodes.standby, ("--report",))):
            for word in words:
                for seconds in ("0", "-1", "", "x", "1.5", f"{2**64}"):
                    with self.case("seconds", role=node.role, word=word, seconds=seconds):
                        finished = common.run_program("server", [*node.words, f"{word}={seconds}"])
                        self.assertEqual((finished.status, finished.output), (2, b""))
                        self.assertIn(word.encode(), finished.errors)


class Filling(ServingCases):
    """Of versions and of lines it is told by either node, once where they come to nine tenths and once to 99 of 100, whether reports are asked for or not."""

    ENTRIES, ROOM = 494, 3_576

    def setUp(self):
        super().setUp()
        self.small = self.pair(lines=4_096)
        self.client = self.small.client()

    def ask_for_reports(self):
        for node in (self.small.primary, self.small.standby):
            node.words += ["--report", "1"]
        self.small.restart(self.small.standby, self.small.primary)
        self.small.wait()
        self.client = self.small.client()

    def told(self, node):
        lines = node.errors.read_bytes()[node.began :].split(b"\n")
        return [(int(found[1]), bool(found[2]), int(found[3]), int(found[4])) for line in lines if (found := FILLING.fullmatch(line))]

    def keep(self, first, last):
        for at in range(first, last):
            self.assertEqual(self.client.ask("SET", f"k{at}", "1"), OK)

    def drop(self, first, last):
        self.client.ask("DEL", *(f"k{at}" for at in range(first, last)))

    def is_seen(self, least, most):
        """Whether the last look of either node was at so many versions: what it reports of them it has compared with the shares before."""
        last = [*primary_reports(self.small.primary)[-1:], *standby_reports(self.small.standby)[-1:]]
        return len(last) == 2 and all(least <= it.versions <= most for it in last)

    def change_until_seen(self, most):
        """What ended is listed once both nodes have nothing to do, and free with the next commit: one key is set now and then until no more is seen."""
        def is_seen():
            self.keep(0, 1)
            time.sleep(0.5)
            return self.is_seen(0, most)

        wait_until(is_seen, f"a look at {most} versions at most")

    def wait_for(self, *shares):
        """Both nodes have told of these shares of versions, and of no lines."""
        def are_told():
            return all([told[:2] for told in self.told(node)] == [(share, True) for share in shares] for node in (self.small.primary, self.small.standby))

        wait_until(are_told, f"that {shares} are told")
        for node in (self.small.primary, self.small.standby):
            for share, _, taken, of in self.told(node):
                self.assertEqual(of, self.ENTRIES)
                self.assertLessEqual(of - taken, of // (10 if share == 9 else 100))

    def test_versions(self):
        self.ask_for_reports()
        self.keep(0, 444)
        wait_until(lambda: self.is_seen(444, 444), "a look at what is kept")
        self.wait_for()
        self.keep(444, 454)
        self.wait_for(9)
        # (around nine tenths it is told once)
        self.drop(434, 454)
        self.change_until_seen(440)
        self.keep(434, 454)
        wait_until(lambda: self.is_seen(454, self.ENTRIES), "a look at what is kept again")
        self.wait_for(9)
        self.keep(454, 493)
        self.wait_for(9, 99)
        self.drop(300, 493)
        self.change_until_seen(310)
        self.keep(300, 454)
        self.wait_for(9, 99, 9)

    def test_lines(self):
        for at in range(3):
            self.assertEqual(self.client.ask("SET", f"large{at}", 65_000 * "v"), OK)
        self.assertEqual(self.client.ask("SET", "more", 20_000 * "v"), OK)
        for node in (self.small.primary, self.small.standby):
            found = wait_until(lambda node=node: self.told(node), "a line of lines")
            lines = 3 * -(-(65_000 + len("large0")) // 64) + -(-(20_000 + len("more")) // 64)
            self.assertEqual(found, [(9, False, lines, self.ROOM)])


class FirstLine(ServingCases):
    def test_it_says_which_program_it_is(self):
        told = common.run_program("server", ["--version"])
        self.assertEqual((told.status, told.errors), (0, b""))
        for node in (self.nodes.primary, self.nodes.standby):
            lines = lambda node=node: node.errors.read_bytes().splitlines(keepends=True)
            wait_until(lambda: len(lines()) >= 2, "two lines that are told")
            first, second, *_ = lines()
            self.assertEqual(first, told.output)
            self.assertTrue(second.startswith(b"opened at position "), second)

    def test_a_line_is_one_write(self):
        """Standard error is a socket that keeps writes apart."""
        theirs, ours = socket.socketpair(socket.AF_UNIX, socket.SOCK_DGRAM)
        with theirs, ours:
            words = ["primary", "--image", "none.img", *self.nodes.primary.words[3:]]
            with subprocess.Popen([common.program("server"), *words], stdin=subprocess.DEVNULL, stderr=theirs) as process:
                self.assertEqual(process.wait(common.SECONDS), 1)
            ours.setblocking(False)
            found = [common.without_times(ours.recv(4_096)) for _ in range(3)]
            self.assertRegex(found[0], VERSION)
            self.assertEqual(found[1:], [b"cannot listen at %s: address in use\n" % self.nodes.door.address().encode(), b"none.img is not there\n"])
            self.assertEqual(common.without_times(ours.recv(4_096)), b"refusal 1: device fault\n")
            self.assertRaises(BlockingIOError, ours.recv, 1)
