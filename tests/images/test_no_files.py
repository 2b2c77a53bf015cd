"""What is no file is refused as such by each subcommand that takes an image, and nobody waits for it."""

import os
import pathlib
import re
import socket
import subprocess
import tempfile

import common
from common import CAUSE, run_program
from plain_image import PRIMARY
from plain_writer import Writer
from test_images import FAILED, LINES, image_bytes

PROGRAMS = ["server"]

KEPT = 3
# What is told of an image by `status`.
ROWS = 11
NOWHERE = "127.0.0.1:1"
# How long a program takes at most that waits for nobody.
SECONDS = 90 * common.BUSY
COMMANDS = [
    ["inspect"], ["status"], ["format", "--lines", "4096", "--role", "primary"], ["promote", "--old-primary-stopped", "--at-least", "1"], ["migrate"],
    ["primary", "--listen", NOWHERE, "--link", NOWHERE], ["standby", "--listen", NOWHERE],
]
# Scripts that look at an image, with what stands before its name.
SCRIPTS = [["wbl-status"], ["stop-node", "standby"]]


class NoFiles(common.Cases):
    def setUp(self):
        folder = tempfile.TemporaryDirectory()
        self.addCleanup(folder.cleanup)
        self.folder = pathlib.Path(folder.name)
        self.whole = self.folder / "whole.img"
        self.whole.write_bytes(image_bytes(LINES, Writer(LINES, PRIMARY).words))

    def test_each_command(self):
        os.mkfifo(self.folder / "fifo")
        with socket.socket(socket.AF_UNIX) as listener:
            listener.bind(str(self.folder / "socket"))
            for path in (self.folder / "fifo", self.folder / "socket", self.folder, pathlib.Path("/dev/zero")):
                for command, *options in COMMANDS:
                    with self.case("command", path=path.name, command=command, options=options):
                        self.assert_refused([command, "--image", str(path), *options])
                with self.case("status", behind=path.name):
                    self.assert_refused(["status", "--image", str(path), "--behind", str(self.whole)])
                    self.assert_refused(["status", "--image", str(self.whole), "--behind", str(path)], ROWS)
                with self.case("format --new", path=path.name):
                    finished = self.run_words(["format", "--image", str(path), "--lines", "4096", "--role", "standby", "--new"])
                    self.assertEqual(finished, (KEPT, b"", b"not formatted: the file is there\n"))
                for script, *words in SCRIPTS:
                    with self.case("script", path=path.name, script=script):
                        self.assert_told([common.ROOT / "bin" / script, *words, path])

    def assert_told(self, words):
        """A script ends with a line that names the file, and says why."""
        ran = subprocess.run(words, capture_output=True, text=True, timeout=SECONDS, check=False)
        self.assertIn(ran.returncode, (1, 2))
        self.assertRegex(ran.stderr, rf"\A[^\n]*{re.escape(str(words[-1]))}[^\n]*: it is no file\n\Z")

    def run_words(self, words):
        try:
            return run_program("server", words, seconds=SECONDS)
        except subprocess.TimeoutExpired:
            return self.fail("it waits")

    def assert_refused(self, words, printed=0):
        finished = self.run_words(words)
        found = [match for line in finished.errors.splitlines(keepends=True) for match in [CAUSE.fullmatch(line)] if match]
        self.assertEqual((finished.status, finished.output.count(b"\n"), [it["cause"] for it in found]), (FAILED, printed, [b"is no file"]))
