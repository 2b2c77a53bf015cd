"""The time in front of each line that a node tells (docs/server.md, "What a node tells"): by the clock as it is, and by one that is set (set_clock.c, which
gcc makes a library of)."""

import datetime
import os
import pathlib
import random
import re
import shutil
import subprocess
import tempfile
import unittest

import common
from pair import ServingCases

PROGRAMS = ["server"]

SOURCE = pathlib.Path(__file__).resolve().parent / "set_clock.c"
OPTIONS = ["-shared", "-fPIC", "-O1", "-Wall", "-Wextra", "-Werror", "-D_GNU_SOURCE"]

# What a node tells as it starts, one line after another.
FIRST_THREAD = re.compile(rb"wbl-server |room for |opened at |listening on ")

SECOND, DAY = 10**6, 86_400
YEARS = (1970, 1972, 1999, 2000, 2001, 2024, 2026, 2100, 2400, 9998)
# The first second that no line tells.
END = 253_402_207_201


def days_around(year):
    """The seconds at which days begin around the ends of February and of the year."""
    utc = datetime.timezone.utc
    return [int(datetime.datetime(year, month, day, tzinfo=utc).timestamp()) for month, day in ((1, 1), (2, 28), (3, 1), (12, 31))]


def written(microseconds):
    """The time as it is to stand in front of a line."""
    seconds, rest = divmod(microseconds, SECOND)
    moment = datetime.datetime(1970, 1, 1) + datetime.timedelta(seconds=seconds)
    return f"{moment.year:04}-{moment:%m-%dT%H:%M:%S}.{rest // 1_000:03}Z "


def told_by(environment=None):
    """The lines of a node that ends at once."""
    words = [common.program("server"), "standby", "--image", "none.img", "--listen", "127.0.0.1:0"]
    ran = subprocess.run(words, stdin=subprocess.DEVNULL, stderr=subprocess.PIPE, env=environment, check=False)
    return ran.stderr.decode().splitlines()


class Now(ServingCases):
    def test_each_line_of_a_node(self):
        """No line is without a time, each is of this run, and of those that the node's first thread tells none is before the one above it."""
        began = datetime.datetime.now(datetime.timezone.utc)
        nodes = self.pair()
        for node in (nodes.primary, nodes.standby):
            lines = pathlib.Path(node.errors).open("rb").read().splitlines(keepends=True)
            ended = datetime.datetime.now(datetime.timezone.utc)
            self.assertGreaterEqual(len(lines), 3)
            times = [common.TIME.match(line) for line in lines]
            self.assertNotIn(None, times, lines)
            moments = [datetime.datetime.fromisoformat(found[0].decode().strip().replace("Z", "+00:00")) for found in times]
            # (another thread, that of the link, may be held up between the time of its line and the line)
            first = [moment for moment, line in zip(moments, lines) if FIRST_THREAD.match(common.without_times(line))]
            self.assertGreaterEqual(len(first), 3)
            self.assertEqual(first, sorted(first))
            self.assertLessEqual(began - datetime.timedelta(milliseconds=1), min(moments))
            self.assertLessEqual(max(moments), ended)

    def test_the_last_line_too(self):
        lines = told_by()
        self.assertEqual([bool(common.TIME.match(line.encode())) for line in lines], 3 * [True], lines)
        self.assertTrue(lines[-1].endswith("Z refusal 1: device fault"), lines)


@unittest.skipUnless(shutil.which("gcc"), "there is no gcc")
class SetClock(common.Cases):
    def setUp(self):
        folder = tempfile.TemporaryDirectory()
        self.addCleanup(folder.cleanup)
        self.library = pathlib.Path(folder.name) / "set_clock.so"
        subprocess.run(["gcc", *OPTIONS, "-o", self.library, SOURCE, "-ldl"], check=True)

    def assert_told(self, microseconds, wanted):
        lines = told_by(os.environ | {"LD_PRELOAD": str(self.library), "SET_CLOCK": str(microseconds)})
        self.assertEqual([line[:len(wanted)] for line in lines], 3 * [wanted])

    def test_ends_of_months_and_years(self):
        for at in [at for year in YEARS for at in days_around(year)]:
            for microseconds in (at * SECOND, (at + DAY) * SECOND - 1, (at + DAY // 2) * SECOND + 1_234):
                with self.case("time", microseconds=microseconds):
                    self.assert_told(microseconds, written(microseconds))

    def test_drawn_times(self):
        draws = random.Random("times")
        for microseconds in [draws.randrange(END * SECOND) for _ in range(60)]:
            with self.case("time", microseconds=microseconds):
                self.assert_told(microseconds, written(microseconds))

    def test_times_that_no_line_tells(self):
        """A clock before 1970 is taken as set to it, and one at the end of the year 9999 as set to the last time that is told."""
        self.assert_told(-SECOND, "1970-01-01T00:00:00.000Z ")
        for seconds in (END, 253_402_300_800):
            with self.case("time", seconds=seconds):
                self.assert_told(seconds * SECOND, "9999-12-30T22:00:00.999Z ")
