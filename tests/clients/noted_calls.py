"""Programs whose calls on files are noted: which there were, in order, which of their syncs is made to fail, and what of an image was durable at
each moment (noted_calls.c, which gcc makes a library of)."""

import pathlib
import shutil
import subprocess
import typing

SOURCE = pathlib.Path(__file__).resolve().parent / "noted_calls.c"
WORD, SECTOR, BLOCK = 8, 512, 4_096
# Without one no library is made.
HAS_COMPILER = shutil.which("gcc") is not None
OPTIONS = ["-shared", "-fPIC", "-O1", "-Wall", "-Wextra", "-Werror", "-D_GNU_SOURCE"]


class Call(typing.NamedTuple):
    """A call that has returned: its word, the path of its file as it was opened, its numbers, and whether it failed."""

    word: str
    path: str
    numbers: tuple
    failed: bool


def library(folder):
    """The library in this folder, which is made there, or None where there is no gcc."""
    made = pathlib.Path(folder, "noted_calls.so")
    if not HAS_COMPILER:
        return None
    subprocess.run(["gcc", *OPTIONS, "-o", made, SOURCE, "-ldl"], check=True)
    return made


class Noting:
    """How a program is started so that its calls are noted, and what was noted. `fails` is which of its syncs fails, with `lasts`
    each later one too, and `torn` which of its writes, 0 for none; `synced` is where what is durable of the image is kept: a copy of the image when this is
    made, or what the run before left there, where this one goes on behind it. What is written is kept where `keeps_bytes` says so."""

    def __init__(self, loaded, image, fails=0, torn=0, keeps=True, goes_on=False, keeps_bytes=False, lasts=False):
        self.image, self.log, self.synced, self.bytes = image, *map(image.with_suffix, (".calls", ".synced", ".bytes"))
        self.fails = fails
        for noted in (self.log, self.bytes):
            noted.unlink(missing_ok=True)
        settings = {"LD_PRELOAD": loaded, "NOTED_LOG": self.log, "NOTED_FAILS": fails, "NOTED_TORN": torn}
        if keeps:
            if not goes_on:
                shutil.copyfile(image, self.synced)
            settings |= {"NOTED_IMAGE": image, "NOTED_SYNCED": self.synced}
        if lasts:
            settings |= {"NOTED_LASTS": 1}
        if keeps_bytes:
            settings |= {"NOTED_BYTES": self.bytes}
        self.settings = {name: str(value) for name, value in settings.items()}
        self.words = ["/usr/bin/env", *(f"{name}={value}" for name, value in settings.items())]

    def calls(self):
        """What was noted, in order. A line that is cut short is of a program that was killed in it."""
        found, paths = [], {}
        for line in self.log.read_text(encoding="utf-8").splitlines():
            failed = line.endswith(" failed")
            word, file, *rest = line.removesuffix(" failed").split(" ", 2)
            if word in ("open", "made") and not failed:
                paths[file] = rest[0]
            path = rest[0] if word in ("open", "made") else paths.get(file, "")
            numbers = () if word in ("open", "made") else tuple(map(int, " ".join(rest).split()))
            found.append(Call(word, path, numbers, failed))
        return found

    def writes_and_syncs(self):
        """What the program asked of its image, in order: of each write its offset and its bytes, and None for each sync. None of them failed."""
        return [change for change in self.changes() if change is None or change[1] is not None]

    def changes(self):
        """The same, with each new length, which has no bytes. A call that a kill cut off is none."""
        found = []
        with self.bytes.open("rb") as written:
            for call in self.calls():
                if call.word == "write":
                    data = written.read(call.numbers[1])
                if call.path != str(self.image) or call.word in ("open", "made"):
                    continue
                found.append((call.numbers[0], data if call.word == "write" else None) if call.word in ("write", "length") else None)
        return found

    def crash(self, draws=None):
        """The system goes down with the program, which has ended: of the image there is left what was durable, and of the words that were not
        those that are drawn, or none."""
        durable = self.synced.read_bytes()
        self.image.write_bytes(mixed(self.image.read_bytes(), durable, draws) if draws else durable)


def changed(data, changes):
    """The bytes of a file that had these, behind these changes, none of which is a sync. What is written behind its end is not there."""
    found = bytearray(data)
    for at, written in changes:
        if written is None:
            found = found[:at].ljust(at, b"\0")
        else:
            found[at:at + len(written)] = written[:max(0, len(found) - at)]
    return bytes(found)


def in_sectors(changes, draws):
    """Each change that is a write in sectors, of which some are drawn, and some of the others."""
    share = draws.random()
    for at, written in changes:
        ends = [0, *range(SECTOR - at % SECTOR, len(written or b""), SECTOR), len(written or b"")]
        for first, end in zip(ends, ends[1:]) if written else ():
            if draws.random() < share:
                yield at + first, written[first:end]
        if written is None and draws.random() < share:
            yield at, None


def after_cuts(data, changes, draws):
    """What power cuts may leave of a file that had these bytes, at each of these changes, and how many of them there were: of what was asked since the last
    sync nothing, all, the older half, the newer one, or some sectors. What is left twice in a row comes once."""
    durable, waiting, last = data, [], None
    for number, change in enumerate([*changes, None]):
        middle = len(waiting) // 2
        some = [[], waiting, waiting[:middle], waiting[middle:], [*in_sectors(waiting, draws)]] if waiting else [[]]
        for kept in some:
            left = changed(durable, kept)
            if left != last:
                yield number, left
            last = left
        if change is None:
            durable, waiting = changed(durable, waiting), []
        else:
            waiting = [*waiting, change]


def mixed(left, durable, draws):
    """What was durable with some of the words that are left otherwise: a share of them that is drawn too."""
    found, share = bytearray(durable), draws.random()
    for start in range(0, len(found), BLOCK):
        if left[start:start + BLOCK] != durable[start:start + BLOCK]:
            for at in range(start, min(start + BLOCK, len(found)), WORD):
                if left[at:at + WORD] != durable[at:at + WORD] and draws.random() < share:
                    found[at:at + WORD] = left[at:at + WORD]
    return bytes(found)
