"""The copies in which edits are checked: a room holds one crate, and what was kept of it and of those below it."""

import contextlib
import fcntl
import os
import shutil

from wrong_bodies import EDITS, ROOT, SOURCES, files_of, logic, proved_functions


def link_tree(source, to):
    """Gives a folder's files a second name, or copies them where that cannot be. The toolchain replaces a file and never writes into it."""
    for at, _, names in os.walk(source):
        there = to / os.path.relpath(at, source)
        there.mkdir(parents=True, exist_ok=True)
        for name in names:
            # (which takes part in no check, and is written in place)
            link = shutil.copy2 if name == "rattle-last-used" else os.link
            with contextlib.suppress(FileNotFoundError):
                try:
                    link(f"{at}/{name}", there / name)
                except OSError:
                    shutil.copy2(f"{at}/{name}", there / name)


def copy_crate(source, to, parts, kept):
    for part in parts:
        if (source / part).is_dir():
            shutil.copytree(source / part, to / part)
    for part in kept:
        stamp, held = source / "out" / part / "stamp", to / "out" / part / "stamp"
        before = stamp.read_text(encoding="ascii") if stamp.exists() else None
        link_tree(source / "out" / part, to / "out" / part)
        # (a library that was being built anew is copied in part: with no stamp it counts as none)
        if before is not None and (not stamp.exists() or stamp.read_text(encoding="ascii") != before):
            held.unlink(missing_ok=True)


class Base:
    """A copy of the crates to try and of those below them, with what was kept of each."""

    def __init__(self, crates, names, room):
        self.crates, self.top, self.toolchain = crates, room / "base", logic()
        self.all = [it for it in crates.rows if it in names or any(it in crates.below(name) for name in names)]
        # the names of each crate's functions, where the gate proved all of them
        found = {it: proved_functions(ROOT, crates, it, self.toolchain) for it in self.all}
        self.by_gate = None if None in found.values() else found
        (self.top / "crates").mkdir(parents=True)
        (self.top / "crates.txt").write_text("".join(f"{crates.rows[it]}\n" for it in self.all), encoding="utf-8")
        for name in self.all:
            source = ROOT / "crates" / name
            # (a library without kept work is proved again, so that its edits have it to start from)
            kept = ("incremental", "rlib") if self.has_kept(source) or name not in names else ()
            copy_crate(source, self.top / "crates" / name, (*SOURCES, *EDITS), ("rlib",) if self.by_gate else kept)
        if self.by_gate:
            self.warm = set(self.all)
            return
        # the crates that have kept work and a library that is no older than its sources, like all crates below them
        self.warm = set()
        for name in self.all:
            if self.warm.issuperset(crates.below(name)) and self.is_warm(name):
                self.warm.add(name)

    @staticmethod
    def has_kept(folder):
        return (folder / "out" / "incremental").is_dir() and any((folder / "out" / "incremental").iterdir())

    def is_warm(self, name):
        folder = self.top / "crates" / name
        if not self.has_kept(folder) or not self.is_library(name):
            return self.has_kept(folder)
        stamp = folder / "out" / "rlib" / "stamp"
        files = [it for use in [name, *self.crates.below(name)] for part in SOURCES for it in files_of(self.top / "crates" / use / part)]
        return stamp.exists() and stamp.stat().st_mtime >= max(it.stat().st_mtime for it in files)

    def is_library(self, name):
        return (self.top / "crates" / name / "src" / "lib.rt").exists()

    def above(self, name):
        """Returns how many of the crates stand on this one."""
        return sum(name in self.crates.below(it) for it in self.all)

    def keep(self, name, folder):
        """Takes over what a check in the folder kept. What the repository's own crate had not kept is given to it too, unless another rt works there."""
        own, was_warm = self.top / "crates" / name, name in self.warm
        kept = [it for it in ("incremental", "rlib") if (folder / "out" / it).is_dir() and not (self.by_gate and it == "rlib")]
        for part in kept:
            shutil.rmtree(own / "out" / part, ignore_errors=True)
        copy_crate(folder, own, (), kept)
        self.warm.add(name)
        if not was_warm:
            self.give(name, kept)

    def give(self, name, kept):
        own, folder = self.top / "crates" / name, ROOT / "crates" / name
        at = os.open(folder, os.O_RDONLY)
        with contextlib.suppress(BlockingIOError):
            fcntl.flock(at, fcntl.LOCK_EX | fcntl.LOCK_NB)
            for part in kept:
                shutil.rmtree(folder / "out" / part, ignore_errors=True)
            copy_crate(own, folder, (), kept)
        os.close(at)

    def room(self, name, to):
        """Makes a repository in which to check the crate and edits of it."""
        within = [name] if self.by_gate else [*self.crates.below(name), name]
        to.mkdir()
        (to / "crates.txt").write_text("".join(f"{self.crates.rows[it]}\n" for it in within), encoding="utf-8")
        for it in within:
            kept = "incremental" if it == name else "rlib"
            copy_crate(self.top / "crates" / it, to / "crates" / it, SOURCES, [kept])
        return to / "crates" / name

    def need(self, name):
        """Returns the most memory in bytes that a check of the crate is likely to take."""
        lines = lambda it, part: sum(file.read_bytes().count(b"\n") for file in files_of(self.top / "crates" / it / part))
        proofs = lines(name, "specs") + lines(name, "proofs")
        below = sum(lines(it, "src") for it in self.crates.below(name))
        return 1_000_000_000 + 1_000_000 * lines(name, "src") + 200_000 * proofs + 80_000 * below
