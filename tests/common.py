"""The programs under test: where they are, how they are run with a time limit, the strings they print, and cases that
are counted."""

import contextlib
import fcntl
import functools
import importlib.machinery
import importlib.util
import os
import pathlib
import random
import re
import struct
import subprocess
import sys
import termios
import time
import typing
import unittest

ROOT = pathlib.Path(__file__).resolve().parent.parent

# The rooms of the suite. Their modules import one another by name alone, so no two modules have the same name.
ROOMS = [
    ROOT / "tests" / "models",  # the plain Redis, wire, image and machine that programs are compared with, and worked cases
    ROOT / "tests" / "runs",  # programs over standard input: lists of events, requests
    ROOT / "tests" / "images",  # images and devices that are formatted, damaged and opened again
    ROOT / "tests" / "clients",  # nodes over sockets: pairs, clients of Redis, load, crashes
    ROOT / "tests" / "faults",  # programs of which calls are refused, and sweeps over each call of a run
    ROOT / "tests" / "pages",  # pages, releases and wrong bodies
]
sys.path[:0] = map(str, ROOMS)

# By the name of a crate: the variable that names its program instead, the program as it is released, and what builds it.
PROGRAMS = {
    "server": ("WBL_SERVER", "wbl-server", "bin/wbl-server < /dev/null"),
    "client": ("WBL_CLI", "wbl-cli", "bin/wbl-cli < /dev/null"),
    "simulator": ("WBL_SIM", "wbl-sim", "bin/wbl-sim < /dev/null"),
}

# Each limit in seconds is that of a machine with a core for each process that runs; one that is busier has so many times as long, ten times at most.
BUSY = min(10, max(1, os.getloadavg()[0] / len(os.sched_getaffinity(0))))
# A program that takes longer has failed.
SECONDS = 600 * BUSY

# Whether the cases of a sweep are all tried (`tests/run --long`), and which share of them otherwise.
IS_LONG = False
SHORT_SHARE = 20

# What stands before each line that a node tells (docs/server.md, "What a node tells"): the time in UTC, to the millisecond.
TIME = re.compile(rb"(?m)^\d{4}-\d\d-\d\dT\d\d:\d\d:\d\d\.\d{3}Z ")
# What a node tells while it runs, behind its time.
NEWS = re.compile(
    rb"(?:wbl-server \d+ \(logic [0-9a-f]{16}\)|room for \d+ clients: [^\n]+|opened at position \d+, epoch \d+, with \d+ keys|listening on \S+|link open to \S+ at position \d+"
    rb"|(?:link to \S+ lost|no link to \S+|link ended|left the link|standby ahead|closed a connection from \S+|stopped|cannot listen at \S*): [^\n]+"
    rb"|\S+: the standby (?:lacks what this primary cannot send|belongs to another pair|is of a release that this one does not link with): [^\n]+"
    rb"|a connection was closed before it greeted: [^\n]+|took over the number of its pair, \d+"
    rb"|\S+ at position \d+ ended \d+ links in a row [^\n]+"
    rb"|waiting for the standby since \d+ seconds|the standby has answered after \d+ seconds|taking a frame since \d+ seconds: [^\n]+"
    rb"|has no copy yet: [^\n]+|copy of position \d+ begun|copy: \d+ parts so far, \d+ keys|copy of position \d+ taken in [^\n]+"
    rb"|link open to \S+: a newcomer, which wants a copy|\S+: the standby is of another epoch: [^\n]+|copy of position \d+ for \S+ begun[^\n]+"
    rb"|copy for \S+: \d+ parts of \d+ bytes in all sent so far|copy of position \d+ taken by \S+ in \d+ seconds: [^\n]+"
    rb"|the newcomer at \S+ ended \d+ links in a row [^\n]+|copy of position \d+ given up: [^\n]+"
    rb"|at position \d+, (?:standby at \d+, )?\d+ keys, \d+ of \d+ versions and \d+ of \d+ lines,"
    rb" (?:\d+ of 1024 clients, \d+ requests a second, longest wait \d+ ms|\d+ frames a second)"
    rb"|(?:9 of 10|99 of 100) (?:versions|lines) are taken, \d+ of \d+: [^\n]+)\n"
)
# What stands before a refusal on an image: the file, and why it is refused (docs/server.md, "How it ends").
CAUSE = re.compile(
    rb"(?P<file>[^\n]*?) (?P<cause>is not there|is held by another process|is no file|could not be made or used a moment ago, and can be now"
    rb"|could not be (?:made|opened|locked|read|written|synced): (?:its folder is not there|no file can have this name|this user is not permitted to"
    rb"|its file system is read-only|its file system has no room for it|no file may be as large, there or for this process|no descriptor is left"
    rb"|[^\n:]+ \(os error \d+\)|the system does not say why)"
    rb"|does not begin as an image|is what a format has left unfinished: give that again"
    rb"|is an image of another version; wbl-server migrate brings one of version 1 to version 2"
    rb"|has no place for a version that has to move|has not as many lines as an image, or as were asked for|has come to the end of a counter"
    rb"|is in use by another process, and changed while it was read|breaks a rule of an image|is an image of the other role|is a newcomer's image, which has not got its copy)\n"
)


class TakesTooLong(Exception):
    """What was waited for did not come in time."""


# What a test fails with that a busy machine may have made too late. Such a test is tried once more, alone.
LATE = (TakesTooLong, TimeoutError, subprocess.TimeoutExpired)


class MissingProgram(Exception):
    """A program that was not built. The text says how to build it."""


@functools.cache
def released(crate, name):
    """The path of a crate's program as it was released of these sources, unpacked; an empty text where there is none."""
    asked = [ROOT / "bin" / "run-program", "--where", crate, name]
    return subprocess.run(asked, stdin=subprocess.DEVNULL, stdout=subprocess.PIPE, text=True, check=False).stdout.strip()


def program(crate):
    """The path of a crate's program: the one that is named, or that was built here, or that was released."""
    variable, name, build = PROGRAMS[crate]
    named = os.environ.get(variable)
    path = pathlib.Path(named) if named else ROOT / "crates" / crate / "out" / crate
    if not named and not path.exists():
        path = pathlib.Path(released(crate, name) or path)
    if not os.access(path, os.X_OK) or path.is_dir():
        raise MissingProgram(f"no program at {path}: build it with `{build}`, or name another by {variable}")
    return str(path)


def script(name):
    """A script of `bin/` as a module."""
    loader = importlib.machinery.SourceFileLoader(name.replace("-", "_"), str(ROOT / "bin" / name))
    module = importlib.util.module_from_spec(importlib.util.spec_from_loader(loader.name, loader))
    loader.exec_module(module)
    return module


class Finished(typing.NamedTuple):
    """What a program left: its exit status (below 0 where a signal ended it) and all that it wrote."""

    status: int
    output: bytes
    errors: bytes


def run_program(crate, words=(), stdin=b"", seconds=SECONDS, **options):
    """Runs a program over these bytes, or this file. `options` are those of subprocess.run."""
    source = {"input": stdin} if isinstance(stdin, bytes) else {"stdin": stdin}
    options.setdefault("stdout", subprocess.PIPE)
    options.setdefault("stderr", subprocess.PIPE)
    ended = subprocess.run([program(crate), *words], timeout=seconds, **source, **options)
    return Finished(ended.returncode, ended.stdout or b"", without_times(ended.stderr or b""))


def without_times(told):
    """What a node told, without the time of each line."""
    return TIME.sub(b"", told)


class ToldFile(type(pathlib.Path())):
    """The file of what a node tells. It is read without the time of each line."""

    def read_bytes(self):
        return without_times(super().read_bytes())

    def read_text(self, encoding="utf-8", errors=None):
        return self.read_bytes().decode(encoding, errors or "strict")


def without_news(errors):
    """What a node wrote to standard error but for what it told while it ran: why it ended. That an image was refused is told in two lines, of which the
    first names the file."""
    lines = without_times(errors).splitlines(keepends=True)
    return without_cause(b"".join(line for line in lines if not NEWS.fullmatch(line)))


def without_cause(errors):
    """The refusal of an image, without the line before it that names the file."""
    first, *last = errors.splitlines(keepends=True) or [b""]
    return last[0] if len(last) == 1 and CAUSE.fullmatch(first) and last[0].startswith(b"refusal ") else errors


def run_in_pieces(crate, pieces, seconds=SECONDS):
    """Runs a program that is fed each piece by itself: the next one is written once the one before it was read."""
    source, sink = os.pipe()
    # (or a write of more than the pipe has room for would wait for a program that reads nothing)
    os.set_blocking(sink, False)
    child = subprocess.Popen([program(crate)], stdin=source, stdout=subprocess.PIPE, stderr=subprocess.PIPE)
    end = time.monotonic() + seconds
    is_reading = lambda: child.poll() is None and time.monotonic() < end
    try:
        for piece in pieces:
            while piece and is_reading():
                piece = piece[os.write(sink, piece):]
                while bytes_unread(source) and is_reading():
                    time.sleep(0.00005)
    finally:
        os.close(sink)
        os.close(source)
    try:
        output, errors = child.communicate(timeout=max(0, end - time.monotonic()))
    except subprocess.TimeoutExpired:
        child.kill()
        child.communicate()
        raise subprocess.TimeoutExpired(child.args, seconds) from None
    return Finished(child.returncode, output, errors)


def bytes_unread(pipe):
    """How many bytes wait in a pipe."""
    return struct.unpack("i", fcntl.ioctl(pipe, termios.FIONREAD, b"\0\0\0\0"))[0]


def drawn(sweep, cases, least=5):
    """The cases of the sweep of this name that are tried, in their order: all of them in the long part of the suite, in the short one a twentieth that is
    drawn by the name, and no fewer than `least`."""
    cases = list(cases)
    count = len(cases) if IS_LONG else min(len(cases), max(least, len(cases) // SHORT_SHARE))
    return [cases[place] for place in sorted(random.Random(sweep).sample(range(len(cases)), count))]


def tell(sweep, counted):
    """Prints how many of the cases of a sweep came out in which way."""
    print(f"swept: {sweep}: {sum(counted.values())} cases: " + ", ".join(f"{count} {what}" for what, count in sorted(counted.items())), flush=True)


SHORT_ESCAPES = {'"': '\\"', "\\": "\\\\", "\r": "\\r", "\n": "\\n", "\t": "\\t"}
LONG_ESCAPES = {chr(byte): f"\\x{byte:02x}" for byte in range(256) if not 0x20 <= byte <= 0x7E}
ESCAPES = str.maketrans(LONG_ESCAPES | SHORT_ESCAPES)
ESCAPED = {text: char for char, text in (LONG_ESCAPES | SHORT_ESCAPES).items()}
ESCAPE = re.compile(r"\\x..|\\.")


def quoted(data):
    """The bytes as the simulator prints them."""
    return '"' + data.decode("latin-1").translate(ESCAPES) + '"'


def unquoted(text):
    """The bytes that a quoted string of the simulator stands for. It has to be in the one form that stands for them."""
    data = ESCAPE.sub(lambda found: ESCAPED.get(found[0], ""), text[1:-1]).encode("latin-1")
    if quoted(data) != text:
        raise AssertionError(f"not a quoted string: {text!r}")
    return data


class Cases(unittest.TestCase):
    """Tests whose cases are counted one by one."""

    # A difference of long outputs shows only where they begin to differ.
    maxDiff = 2_000

    @contextlib.contextmanager
    def case(self, name, /, **details):
        """One case: the others go on where it fails."""
        with self.subTest(name, **details):
            yield

    def assert_in_time(self, seconds, most):
        """It took less than that."""
        if seconds >= most:
            raise TakesTooLong(f"{seconds} seconds, and {most} at most")

    def assert_bytes(self, found, wanted):
        """Both are the same bytes; else the message shows them around the first byte where they differ."""
        if found == wanted:
            return
        shared = os.path.commonprefix([found, wanted])
        at, start = len(shared), max(0, len(shared) - 30)
        self.fail(
            f"{len(found)} bytes for {len(wanted)}, parting at byte {at}:\n"
            f"  found  {found[start:at + 60]!r}\n  wanted {wanted[start:at + 60]!r}"
        )

    def assert_written(self, finished, wanted):
        """The program wrote exactly these bytes, no message, and ended with status 0."""
        self.assert_bytes(finished.output, wanted)
        self.assertEqual((finished.status, finished.errors), (0, b""))
