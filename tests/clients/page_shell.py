"""A shell that is given the blocks of a page as they stand, with other ports, over the programs under test. All that they start ends with the test."""

import contextlib
import os
import pathlib
import re
import select
import shutil
import subprocess
import sys
import tempfile
import time

import common
import pages
from pair import DESCRIPTORS, LAUNCH, PATIENCE, Port, TakesTooLong, launch

# The ports that pages show.
PORT = re.compile(r"\b7\d{3}\b")
# What starts a program of the server or the client so that it ends with the shell.
STARTER = """\
#!/bin/sh
exec {python} -IS {launch} "$PPID" {descriptors} {program} "$@"
"""


def blocks_below(page, heading):
    """The indented blocks of a page below this heading and above the next, each as its lines."""
    lines = pages.text_of(page).split("\n")
    first = next(at for at, line in enumerate(lines, 1) if re.fullmatch(rf"#+ {re.escape(heading)}", line))
    after = next((at for at, line in enumerate(lines, 1) if at > first and line.startswith("#")), len(lines) + 1)
    return [block for number, block in pages.blocks(page) if first < number < after]


class PageShell:
    """One shell in a folder of its own, with the commands that pages name in bin/ below it, or in that of another one. `ports` are by the number on the page
    those in its place."""

    def __init__(self, folder=None, beside=None):
        self.parts = contextlib.ExitStack()
        if beside:
            self.ports, self.folder = beside.ports, beside.folder
        else:
            self.ports = {}
            self.parts.callback(self._close_ports)
            self.folder = pathlib.Path(self.parts.enter_context(tempfile.TemporaryDirectory(prefix="wbl-page-", dir=folder)))
            self._make_commands()
        self.errors = common.ToldFile(self.folder / ("others.txt" if beside else "errors.txt"))
        self.come = b""
        with open(self.errors, "wb") as errors:
            words = ["/bin/sh"]
            first = [sys.executable, "-ISc", LAUNCH, str(os.getpid()), str(DESCRIPTORS)]
            how = {"stdin": subprocess.PIPE, "stdout": subprocess.PIPE, "stderr": errors, "cwd": self.folder}
            self.process = subprocess.Popen([*first, *words], **how)

    def _close_ports(self):
        for port in self.ports.values():
            port.close()

    def _make_commands(self):
        (self.folder / "bin").mkdir()
        launcher = self.folder / "launch.py"
        launcher.write_text(LAUNCH, encoding="ascii")
        for name, crate in pages.STARTERS.items():
            starter = self.folder / "bin" / name
            program = os.path.abspath(common.program(crate)) if crate in ("server", "client") else "/bin/false"
            starter.write_text(STARTER.format(python=sys.executable, launch=launcher, descriptors=DESCRIPTORS, program=program), encoding="ascii")
            starter.chmod(0o755)
        for script in ("wbl-status", "copy-image", "fail-over", "pair", "stop-node", "wait-for-write"):
            shutil.copy(common.ROOT / "bin" / script, self.folder / "bin")

    def close(self):
        # (what it started ends with it)
        self.process.kill()
        self.process.wait()
        for pipe in (self.process.stdin, self.process.stdout):
            pipe.close()
        self.parts.close()

    def port(self, number):
        """The port that stands for this one of the page."""
        if number not in self.ports:
            self.ports[number] = Port()
        return self.ports[number].number

    def text(self, lines):
        """These lines of a page, with the ports that stand for theirs."""
        return PORT.sub(lambda found: str(self.port(int(found[0]))), "".join(f"{line}\n" for line in lines))

    def write(self, name, lines):
        """Writes lines of a page to a file."""
        path = self.folder / name
        path.write_text(self.text(lines), encoding="ascii")
        return path

    def run(self, *lines, seconds=PATIENCE):
        """What these lines print, once the shell has done them."""
        self.process.stdin.write(f"{self.text(lines)}echo; echo the-end-of-it $?\n".encode())
        self.process.stdin.flush()
        end = time.monotonic() + seconds
        while not (found := re.search(rb"(?:\n|\A)the-end-of-it \d+\n", self.come)):
            if not select.select([self.process.stdout], [], [], max(0, end - time.monotonic()))[0]:
                raise TakesTooLong(f"the end of {lines}: {self.come!r}, {self.errors.read_bytes()!r}")
            piece = os.read(self.process.stdout.fileno(), 65_536)
            if not piece:
                raise AssertionError(f"the shell has ended: {self.come!r}, {self.errors.read_bytes()!r}")
            self.come += piece
        output, self.come = self.come[:found.start()], self.come[found.end():]
        return output.decode()

    def launch(self, *words):
        """Starts a program beside the shell, which ends with the test."""
        with open(self.folder / f"{pathlib.Path(words[0]).name}.txt", "ab") as told:
            process = launch(words, stdout=told, stderr=told, cwd=self.folder)
        self.parts.callback(process.wait)
        self.parts.callback(process.kill)
        return process
