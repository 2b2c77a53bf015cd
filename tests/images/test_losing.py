"""What the server tells and asks before an image is lost (docs/server.md, "Before an image is lost"): `format` over an image that holds something, and
`promote` of one that holds nothing, by a terminal and without one; `--new` and `--at-least`. A program that changes the image first and asks then is
seen: while it asks, the image is as it was."""

import os
import pty
import select
import subprocess
import time

import common
from common import run_program
from plain_image import PRIMARY, STANDBY
from plain_keyspace import DropKey, Put
from plain_writer import Writer
from test_images import DONE, FAILED, LINES, MISUSED, ROLES, Images, format_words, image_bytes
from test_promote import STOPPED, Standby, with_groups

PROGRAMS = ["server"]

KEPT = 3
FORMATTED = b"formatted 4096 lines, 494 entries\n"
QUESTION = b"type yes to go on: "


def holding(role):
    """An image of this role at position 4 of epoch 1 with two keys: one has two fields, and another was dropped."""
    writer = Writer(LINES, role)
    writer.commit([[Put((b"a",), b"1")], [Put((b"h", b"f"), b"1"), Put((b"h", b"g"), b"1")], [Put((b"b",), b"1")], [DropKey(b"b")]])
    return image_bytes(LINES, writer.words)


def promote_words(path, *flags):
    return ["promote", "--image", str(path), STOPPED, *flags]


class AtTerminal:
    """The program with a terminal as its standard input."""

    def __init__(self, words):
        self.typing, theirs = pty.openpty()
        how = {"stdin": theirs, "stdout": subprocess.PIPE, "stderr": subprocess.PIPE}
        self.process = subprocess.Popen([common.program("server"), *words], **how)
        os.close(theirs)
        self.told = b""

    def __enter__(self):
        return self

    def __exit__(self, *_):
        self.process.kill()
        self.process.communicate()
        os.close(self.typing)

    def wait_for(self, end):
        """What was told on standard error up to this."""
        last = time.monotonic() + common.SECONDS
        while not self.told.endswith(end):
            if not select.select([self.process.stderr], [], [], max(0, last - time.monotonic()))[0]:
                raise common.TakesTooLong(f"it tells no more than {self.told!r}")
            piece = os.read(self.process.stderr.fileno(), 4_096)
            if not piece:
                raise AssertionError(f"it has ended: {self.told!r}")
            self.told += piece
        return self.told

    def type(self, text):
        """Types this. Returns the status, what was printed, and what was told since."""
        os.write(self.typing, text)
        output, errors = self.process.communicate(timeout=common.SECONDS)
        return self.process.returncode, output, errors


class Losing(Images):
    def assert_kept(self, words, path, told):
        """Status 3, one line, nothing printed and nothing changed."""
        before = path.read_bytes() if path.is_file() else None
        self.assertEqual(run_program("server", words), (KEPT, b"", told))
        self.assertEqual(path.read_bytes() if path.is_file() else None, before)


class AtATerminal(Losing):
    """It asks first, and just `yes` lets it go on."""

    def check(self, path, words, question, done):
        """Each answer to the question, which is asked before anything is changed; `done` is what comes of `yes`."""
        before = path.read_bytes()
        for typed in (b"no\n", b"\n", b"y\n", b"YES\n", b"yes please\n", b" yes\n", b"\x04"):
            with self.case("typed", typed=typed), AtTerminal(words) as terminal:
                self.assertEqual(terminal.wait_for(QUESTION), question + QUESTION)
                self.assert_bytes(path.read_bytes(), before)
                self.assertEqual(terminal.type(typed), (KEPT, b"", b"nothing was changed\n"))
                self.assert_bytes(path.read_bytes(), before)
        with self.case("typed", typed=b"yes\n"), AtTerminal(words) as terminal:
            terminal.wait_for(QUESTION)
            self.assert_bytes(path.read_bytes(), before)
            self.assertEqual(terminal.type(b"yes\n"), done)
            self.assertNotEqual(path.read_bytes(), before)

    def test_format(self):
        for role, name in ROLES.items():
            with self.folder() as folder:
                path = folder / "p.img"
                path.write_bytes(holding(role))
                held = f"a {name}'s image at position 4, epoch 1, 2 keys".encode()
                told = os.fsencode(path)
                self.check(path, format_words(path), told + b" holds " + held + b", and format makes it empty\n", (DONE, FORMATTED, told + b" held " + held + b"\n"))

    def test_format_over_a_damaged_image(self):
        with self.folder() as folder:
            path = folder / "p.img"
            data = bytearray(holding(PRIMARY))
            data[3 * 8] ^= 1
            path.write_bytes(data)
            told = os.fsencode(path)
            self.check(path, format_words(path), told + b" holds a damaged image, and format makes it empty\n", (DONE, FORMATTED, told + b" held a damaged image\n"))

    def test_promote(self):
        with self.folder() as folder:
            path = folder / "s.img"
            path.write_bytes(image_bytes(LINES, Standby().words))
            told = os.fsencode(path)
            question = told + b" is at position 0, and a primary made of it holds nothing\n"
            self.check(path, promote_words(path), question, (DONE, b"promoted to epoch 2\n", told + b" is a primary's now, at position 0, with 0 keys\n"))

    def test_nothing_to_lose(self):
        """Nobody is asked."""
        with self.folder() as folder:
            path = folder / "p.img"
            for name, data in [("no file", None), ("zeros", bytes(len(holding(PRIMARY)))), ("an empty image", image_bytes(LINES, Writer(LINES, PRIMARY).words))]:
                with self.case(name):
                    path.unlink(missing_ok=True)
                    if data is not None:
                        path.write_bytes(data)
                    with AtTerminal(format_words(path)) as terminal:
                        self.assertEqual(terminal.type(b""), (DONE, FORMATTED, b""))
            path.write_bytes(holding(STANDBY))
            with self.case("a standby's image that holds something"), AtTerminal(promote_words(path)) as terminal:
                status, output, _ = terminal.type(b"")
                self.assertEqual((status, output), (DONE, b"promoted to epoch 2\n"))

    def test_what_is_refused_anyhow(self):
        """An image of another size is refused before anybody is asked, and so is a primary's image that is to be promoted."""
        with self.folder() as folder:
            path = folder / "p.img"
            path.write_bytes(holding(PRIMARY))
            for words in (format_words(path, 5_000), promote_words(path)):
                with self.case("words", words=words), AtTerminal(words) as terminal:
                    self.assertEqual(terminal.type(b"")[0], FAILED)
                self.assert_bytes(path.read_bytes(), holding(PRIMARY))


class WithoutATerminal(Losing):
    """It goes on, and tells what was lost."""

    def test_format(self):
        with self.folder() as folder:
            path = folder / "p.img"
            for role, name in ROLES.items():
                with self.case("role", role=name):
                    path.write_bytes(holding(role))
                    told = os.fsencode(path) + f" held a {name}'s image at position 4, epoch 1, 2 keys\n".encode()
                    self.assertEqual(run_program("server", format_words(path), b"no\n"), (DONE, FORMATTED, told))
                    # (it holds nothing now)
                    self.assertEqual(run_program("server", format_words(path)), (DONE, FORMATTED, b""))

    def test_promote(self):
        with self.folder() as folder:
            path = folder / "s.img"
            for name, standby, before, after in [
                ("nothing", Standby(), b" is at position 0, and a primary made of it holds nothing\n", b" is a primary's now, at position 0, with 0 keys\n"),
                ("three frames", with_groups(), b"", b" is a primary's now, at position 5, with 2 keys\n"),
            ]:
                with self.case(name):
                    path.write_bytes(image_bytes(LINES, standby.words))
                    told = (os.fsencode(path) if before else b"") + before + os.fsencode(path) + after
                    self.assertEqual(run_program("server", promote_words(path), b"no\n"), (DONE, b"promoted to epoch 2\n", told))


class Kept(Losing):
    """What scripts ask to be kept: status 3, one line, nothing changed."""

    def test_new(self):
        with self.folder() as folder:
            path, told = folder / "p.img", b"not formatted: the file is there\n"
            words = [*format_words(path), "--new"]
            self.assertEqual(run_program("server", words), (DONE, FORMATTED, b""))
            for data in (holding(PRIMARY), b"", b"a note", b"a note".ljust(LINES * 64, b"\0"), bytes((LINES - 1) * 64)):
                with self.case("bytes", count=len(data)):
                    path.write_bytes(data)
                    self.assert_kept(words, path, told)
            with self.case("a folder"):
                self.assert_kept([*format_words(folder), "--new"], folder, told)
            with self.case("a link that leads nowhere"):
                path.unlink()
                path.symlink_to(folder / "none.img")
                self.assert_kept(words, path, told)
                self.assertEqual(os.listdir(folder), ["p.img"])

    def test_new_over_what_a_format_left(self):
        """The image that is asked for, which no node has opened, and what was left of it where it was cut are made anew; any other one is kept."""
        for role, name in ROLES.items():
            new, opened = Writer(LINES, role), Writer(LINES, role)
            opened.reopen()
            whole, other = image_bytes(LINES, new.words), image_bytes(LINES, Writer(LINES, PRIMARY + STANDBY - role).words)
            slot, extents = 64 * (8 + LINES // 8 - 18), 64 * (8 + LINES // 8)
            with self.folder() as folder:
                path = folder / "p.img"
                words = [*format_words(path, role=name), "--new"]
                for left, data in [("all", whole), ("its length", bytes(len(whole))), ("no magic yet", bytes(8) + whole[8:]), ("the record alone", bytes(64) + whole[64:])]:
                    with self.case("left", role=name, left=left):
                        path.write_bytes(data)
                        self.assertEqual(run_program("server", words), (DONE, FORMATTED, b""))
                        found = path.read_bytes()
                        number = found[48:56]
                        self.assertEqual(any(number), role == PRIMARY)
                        self.assert_bytes(found, whole[:48] + number + whole[56:])
                for there, data in [
                    ("of the other role", other), ("opened", image_bytes(LINES, opened.words)), ("longer", whole + bytes(64)), ("shorter", bytes(len(whole) - 64)),
                    *((f"a byte at {at}", bytes(at) + b"\1" + bytes(len(whole) - at - 1)) for at in (0, 7, 64 * 8, slot - 1, extents, len(whole) - 1)),
                ]:
                    with self.case("there", role=name, there=there):
                        path.write_bytes(data)
                        self.assert_kept(words, path, b"not formatted: the file is there\n")

    def test_at_least(self):
        with self.folder() as folder:
            path = folder / "s.img"
            path.write_bytes(image_bytes(LINES, with_groups().words))
            for least in (6, 7, 2**62, 2**64 - 1):
                with self.case("least", least=least):
                    self.assert_kept(promote_words(path, "--at-least", str(least)), path, b"position 5, below %d: not promoted\n" % least)
            for least in (0, 1, 5):
                with self.case("least", least=least):
                    path.write_bytes(image_bytes(LINES, with_groups().words))
                    status, output, _ = run_program("server", promote_words(path, "--at-least", str(least)))
                    self.assertEqual((status, output), (DONE, b"promoted to epoch 2\n"))
            path.write_bytes(image_bytes(LINES, Standby().words))
            with self.case("an empty one"):
                self.assert_kept(promote_words(path, "--at-least", "1"), path, b"position 0, below 1: not promoted\n")

    def test_command_lines(self):
        for words in (["format", "--new"], [*format_words("p.img"), "--new=yes"], promote_words("s.img", "--at-least"), promote_words("s.img", "--at-least", "-1")):
            with self.case("words", words=words):
                self.assertEqual(run_program("server", words)[:2], (MISUSED, b""))
