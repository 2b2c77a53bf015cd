"""Programs of which each sync is held while a file is there, or takes longer (held_syncs.c, which gcc makes a library of)."""

import pathlib
import shutil
import subprocess

SOURCE = pathlib.Path(__file__).resolve().parent / "held_syncs.c"
OPTIONS = ["-shared", "-fPIC", "-O1", "-Wall", "-Wextra", "-Werror", "-D_GNU_SOURCE"]

# Without one no library is made.
HAS_COMPILER = shutil.which("gcc") is not None


def library(folder):
    """The library in this folder, which is made there."""
    made = pathlib.Path(folder, "held_syncs.so")
    subprocess.run(["gcc", *OPTIONS, "-o", made, SOURCE, "-ldl"], check=True)
    return made


def slowed(folder, microseconds):
    """The words that start a program so that each of its syncs takes so many microseconds more."""
    return ["/usr/bin/env", f"LD_PRELOAD={library(folder)}", f"SYNC_US={microseconds}"]


def hold(node, file, slow_milliseconds=1):
    """A node that has ended is started so, from its next start on, that its syncs are held while this file is there."""
    node.before = ["/usr/bin/env", f"LD_PRELOAD={library(file.parent)}", f"HELD_FILE={file}", f"SLOW_MS={slow_milliseconds}"]


def begun(file):
    """What is there once a sync is held."""
    return file.with_suffix(".begun")


def slow(file):
    """Where this is there each sync takes a millisecond more, or as many as were said; it gets a byte for each."""
    return file.with_suffix(".slow")
