"""Programs of which single calls are refused, by a library that is loaded before the C library (refused_calls.c, which gcc makes)."""

import contextlib
import errno
import mmap
import pathlib
import shutil
import struct
import subprocess
import tempfile
import unittest

SOURCE = pathlib.Path(__file__).resolve().parent / "refused_calls.c"
OPTIONS = ["-shared", "-fPIC", "-O1", "-Wall", "-Wextra", "-Werror", "-D_GNU_SOURCE"]

# The kinds of calls, in the order of the library.
KINDS = [
    "memory", "acceptor_memory", "pwrite", "pread", "fdatasync", "fsync", "read", "write", "send", "recv", "taken_recv", "accept", "connect", "thread",
]
# A rule of the library: how many calls were made and refused; the first and the last that are refused, and each so manieth between; how; and two words of
# padding.
RULE = struct.Struct("=8Q")
# A call of bytes is made for half of them.
SHORT = 0
FOR_EVER = 2**63


class Faults:
    """Which calls of a program are refused. What is said here holds at once, also for a program that runs; several that are given the same count as one."""

    def __init__(self, library, path):
        self.library, self.path = library, path
        path.write_bytes(bytes(RULE.size * len(KINDS)))
        with open(path, "r+b") as file:
            self._rules = mmap.mmap(file.fileno(), 0)

    def close(self):
        self._rules.close()

    def settings(self):
        """The variables with which a program is started."""
        return {"LD_PRELOAD": str(self.library), "FAULTS": str(self.path)}

    def before(self):
        """The words before those that start a program."""
        return ["/usr/bin/env", *(f"{name}={value}" for name, value in self.settings().items())]

    def refuse(self, kind, first, last=None, every=0, how=errno.ENOMEM):
        """Of the calls of this kind from now on, counted from 1, those from the first to the last are refused, or each so manieth of them; the first alone
        where no last is said."""
        self.end(kind)
        self._write(kind, 0, 0, first, first if last is None else last, every, how)

    def end(self, kind):
        """No call of this kind is refused any more. Those that were go on being told."""
        calls, refused, *_ = self._read(kind)
        self._write(kind, calls, refused)

    def calls(self, kind):
        """How many calls of this kind were made since `refuse` was said of it, or from the beginning."""
        return self._read(kind)[0]

    def refused(self, kind):
        """How many of them were refused."""
        return self._read(kind)[1]

    def _read(self, kind):
        return RULE.unpack_from(self._rules, RULE.size * KINDS.index(kind))

    def _write(self, kind, calls, refused, first=0, last=0, every=0, how=0):
        """(the first is written last, as a rule without one refuses nothing)"""
        at = RULE.size * KINDS.index(kind)
        struct.pack_into("=Q", self._rules, at + 16, 0)
        struct.pack_into("=5Q", self._rules, at + 24, last, every, how, 0, 0)
        struct.pack_into("=2Q", self._rules, at, calls, refused)
        struct.pack_into("=Q", self._rules, at + 16, first)


@unittest.skipUnless(shutil.which("gcc"), "there is no gcc")
class FaultyCases(unittest.TestCase):
    """Tests of programs of which calls are refused."""

    def setUp(self):
        super().setUp()
        parts = contextlib.ExitStack()
        self.addCleanup(parts.close)
        self._parts, self._folder = parts, pathlib.Path(parts.enter_context(tempfile.TemporaryDirectory(prefix="wbl-faults-")))
        self._library = self._folder / "refused_calls.so"
        subprocess.run(["gcc", *OPTIONS, "-o", self._library, SOURCE, "-ldl"], check=True)

    def faults(self, name="program"):
        """Those of a program, none of whose calls is refused yet."""
        return self._parts.enter_context(contextlib.closing(Faults(self._library, self._folder / name)))
