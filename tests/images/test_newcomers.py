"""The images of newcomers, standbys that have not got their copy (docs/image.md, docs/server.md): what the server makes, tells and refuses of them, and what is
left where a crash cuts a copy."""

import copy
import itertools
import os
import subprocess

import common
import plain_image
from common import run_program, without_news
from old_images import held
from plain_device import Device
from plain_image import BOUND, LAYOUT, NEWCOMER, PRIMARY, STANDBY, VERSION_1, Words, extents_begin
from plain_keyspace import Put
from plain_writer import Writer
from standby_node import CANNOT_LISTEN, NOWHERE
from test_images import DONE, FAILED, LINE_BYTES, LINES, MISUSED, Images, format_words, image_bytes, told, told_of, words_of
from test_losing import KEPT, AtTerminal, holding, promote_words
from test_migrating import MIGRATED, migrate_words, migrated_record

PROGRAMS = ["server"]

FORMATTED = b"formatted 4096 lines, 494 entries\n"
NOT_COPIED = b"is a newcomer's image, which has not got its copy"
LAST_EPOCH = BOUND - 1


def newcomer_words(path, epoch, lines=LINES):
    return [*format_words(path, lines, "newcomer"), "--epoch", str(epoch)]


def new(epoch=1, lines=LINES, **options):
    return Writer(lines, NEWCOMER, epoch=epoch, **options)


def open_again(writer):
    """As the node of a newcomer does: it leaves no gap."""
    writer.reopen()
    while writer.record.gaps:
        writer.room.give(writer.clear_gap())


class Newcomers(Images):
    def made(self, folder, words):
        path = folder / "n.img"
        path.write_bytes(image_bytes(LINES, words))
        return path

    def assert_untouched(self, words, path, number, cause=None):
        before = path.read_bytes()
        self.assert_refused(words, number, cause)
        self.assert_bytes(path.read_bytes(), before)


class Formatting(Newcomers):
    def test_a_new_image(self):
        for lines, epoch in [(4_096, 1), (4_096, 2), (4_103, 7), (40_000, LAST_EPOCH)]:
            with self.case("image", lines=lines, epoch=epoch), self.folder() as folder:
                path = folder / "n.img"
                finished = self.run_words(newcomer_words(path, epoch, lines))
                self.assert_written(finished, b"formatted %d lines, %d entries\n" % (lines, lines // 8 - 18))
                self.assert_bytes(path.read_bytes(), image_bytes(lines, new(epoch, lines).words))
                text = b"version 2\nrecord 1\nposition 0\ncp 0\ncd 4097\nepoch %d\nrole newcomer\nfloor 0\npair 0\ngaps 0\nlive 0\n" % epoch
                self.assert_written(self.inspect(path), text)

    def test_over_another_image(self):
        """All but the extents is new. What another one held is told; a newcomer holds nothing."""
        with self.folder() as folder:
            path = folder / "n.img"
            path.write_bytes(holding(STANDBY))
            finished = self.run_words(newcomer_words(path, 3))
            self.assertEqual((finished.status, finished.output), (DONE, FORMATTED))
            self.assertIn(b" held a standby's image at position 4, epoch 1, 2 keys\n", finished.errors)
            front = extents_begin(LINES) * LINE_BYTES
            self.assert_bytes(path.read_bytes()[:front], image_bytes(LINES, new(3).words)[:front])
            self.assert_written(self.run_words(format_words(path, role="standby")), FORMATTED)
            self.assert_written(self.inspect(path), told(Writer(LINES, STANDBY).record, 0))

    def test_new_over_what_a_format_left(self):
        """The same newcomer, which no node has opened, is made anew; that of another epoch is kept, and so is another role's."""
        with self.folder() as folder:
            for name, words, is_kept in [
                ("the same", new(5).words, False),
                ("no magic yet", {at: word for at, word in new(5).words.items() if at}, True),
                ("another epoch", new(6).words, True),
                ("the first epoch", new().words, True),
                ("a standby", Writer(LINES, STANDBY, epoch=5).words, True),
                ("a primary", Writer(LINES, PRIMARY, epoch=5).words, True),
            ]:
                with self.case(name):
                    path = self.made(folder, words)
                    before = path.read_bytes()
                    finished = self.run_words([*newcomer_words(path, 5), "--new"])
                    if is_kept and name != "no magic yet":
                        self.assertEqual(finished, (KEPT, b"", b"not formatted: the file is there\n"))
                        self.assert_bytes(path.read_bytes(), before)
                    else:
                        self.assert_written(finished, FORMATTED)
                        self.assert_bytes(path.read_bytes(), image_bytes(LINES, new(5).words))

    def test_command_lines(self):
        with self.folder() as folder:
            path = str(folder / "n.img")
            epochs = ["", "0", "-1", "+1", " 1", "1 ", "1_0", "0x1", "1.0", "one", str(BOUND), str(2**64), "١"]
            for name, words in [
                ("a newcomer without an epoch", format_words(path, role="newcomer")),
                ("an epoch of a primary", [*format_words(path), "--epoch", "1"]),
                ("an epoch of a standby", [*format_words(path, role="standby"), "--epoch", "1"]),
                ("no value", newcomer_words(path, "")[:-1]),
                ("an epoch twice", [*newcomer_words(path, 1), "--epoch", "1"]),
                ("a role in capitals", [*format_words(path, role="Newcomer"), "--epoch", "1"]),
                ("an epoch of another command", ["inspect", "--image", path, "--epoch", "1"]),
                *((f"the epoch {epoch!r}", newcomer_words(path, epoch)) for epoch in epochs),
                *((f"the epoch {epoch!r} behind an equals sign", [*format_words(path, role="newcomer"), f"--epoch={epoch}"]) for epoch in epochs),
            ]:
                with self.case(name):
                    finished = self.run_words(words)
                    self.assertEqual((finished.status, finished.output), (MISUSED, b""))
                    naming = {"a role in capitals": b"Newcomer", "the epoch '-1'": b"'-1'"}.get(name, b"epoch")
                    self.assertIn(naming, finished.errors)
                    self.assertEqual(os.listdir(folder), [])


class Telling(Newcomers):
    def test_status(self):
        with self.folder() as folder:
            path = self.made(folder, new(4, pair=9).words)
            rows = "role newcomer\nepoch 4\npair 9\nposition 0\nversions 0\nended 0\ncut 0\nentries 494\nlines 0\nroom 3576\ngaps 0\n"
            self.assert_written(self.run_words(["status", "--image", str(path)]), rows.encode())

    def test_the_script(self):
        with self.folder() as folder:
            path = self.made(folder, new(4).words)
            script = [common.ROOT / "bin" / "wbl-status"]
            ran = subprocess.run([*script, path], capture_output=True, text=True, check=False)
            shares = "versions 0 of 494 (0 %, 0 ended), lines 0 of 3576 (0 %), gaps 0"
            self.assertEqual((ran.returncode, ran.stdout), (0, f"{path}: newcomer, epoch 4, position 0, {shares}\n"))
            for role, status in (("newcomer", 0), ("standby", 1), ("primary", 1)):
                ran = subprocess.run([*script, "--role", role, path], capture_output=True, check=False)
                self.assertEqual(ran.returncode, status)


class Opening(Newcomers):
    def test_a_standby(self):
        """It is opened as any image is, and then its gaps are cleared, in which what it had of a copy lies."""
        with self.folder() as folder:
            for name, writer in [("new", new(2)), ("with half a copy", half()), ("with half a copy in a gap", reopened_half())]:
                with self.case(name):
                    path = self.made(folder, writer.words)
                    open_again(writer)
                    finished = self.run_words(["standby", "--image", str(path), "--listen", NOWHERE])
                    self.assertEqual((finished.status, finished.output, without_news(finished.errors)), (FAILED, b"", CANNOT_LISTEN))
                    self.assertEqual(words_of(path.read_bytes()), writer.words)


class Refusals(Newcomers):
    """Whatever is refused, the image stays as it was."""

    def test_a_primary(self):
        with self.folder() as folder:
            path = self.made(folder, new(2).words)
            words = ["primary", "--image", str(path), "--listen", NOWHERE, "--link", NOWHERE]
            self.assert_untouched(words, path, 16, b"is an image of the other role")

    def test_a_promotion(self):
        with self.folder() as folder:
            for name, writer in [("new", new(2)), ("of the last epoch", new(LAST_EPOCH)), ("with half a copy", half()), ("with half a copy in a gap", reopened_half())]:
                with self.case(name):
                    path = self.made(folder, writer.words)
                    for least in (0, 1, 2**64 - 1):
                        self.assert_untouched(promote_words(path, "--at-least", str(least)), path, 17, NOT_COPIED)
                    self.assert_untouched(promote_words(path), path, 17, NOT_COPIED)
                    # (the fence is asked for first)
                    before = path.read_bytes()
                    finished = self.run_words(["promote", "--image", str(path)])
                    self.assertEqual((finished.status, finished.output, finished.errors.splitlines()[-1]), (FAILED, b"", b"refusal 15: not fenced"))
                    self.assert_bytes(path.read_bytes(), before)

    def test_a_promotion_at_a_terminal(self):
        """Nobody is asked before."""
        with self.folder() as folder:
            path = self.made(folder, new(2).words)
            before = path.read_bytes()
            with AtTerminal(promote_words(path)) as terminal:
                terminal.wait_for(b"refusal 17: not copied\n")
                self.assertEqual(terminal.process.wait(common.SECONDS), FAILED)
                self.assertEqual(terminal.told, os.fsencode(path) + b" " + NOT_COPIED + b"\nrefusal 17: not copied\n")
            self.assert_bytes(path.read_bytes(), before)

    def test_damage(self):
        """A newcomer's image is read whole before its role: a position, a version that counts, a begin that no record allows."""
        word = lambda name: LAYOUT.slot_word(LINES, 1) + name
        version = half().words | {word(2): 1, word(3): 4_098}
        with self.folder() as folder:
            for name, words in [
                ("a position", new().words | {word(1): 1}),
                ("the last position", new().words | {word(1): BOUND - 1}),
                ("a version", version),
                ("a version at position 0", version | {8 * 8 + 2: 0, 9 * 8 + 2: 0}),
                ("epoch 0", new().words | {word(4): 0}),
                ("role 4", new().words | {word(LAYOUT.role_word): 4}),
                ("a role of all bits", new().words | {word(LAYOUT.role_word): 2**64 - 1}),
                ("a begin at cd", half().words | {8 * 8: 4_097}),
            ]:
                with self.case(name):
                    with self.assertRaises(plain_image.BadImage):
                        plain_image.read_image(Words(LINES, words))
                    path = self.made(folder, words)
                    for command in (["inspect", "--image", str(path)], ["standby", "--image", str(path), "--listen", NOWHERE], promote_words(path)):
                        self.assert_untouched(command, path, 7, b"breaks a rule of an image")

    def test_a_migration(self):
        """Role and epoch stay."""
        with self.folder() as folder:
            for reopenings in (0, 1, 8):
                with self.case("gaps", count=reopenings):
                    writer = OldNewcomer(LINES, NEWCOMER, layout=VERSION_1, epoch=6)
                    for _ in range(reopenings):
                        writer.reopen()
                    path = self.made(folder, writer.words)
                    self.assert_written(run_program("server", migrate_words(path)), MIGRATED)
                    self.assertEqual(held(LINES, words_of(path.read_bytes()))[1], migrated_record(writer))


class OldNewcomer(Writer):
    """A newcomer's image of version 1."""

    def last_entries(self):
        return [0, 0, 0]


# The worked case: two records, as one part of a copy at position 2.
PART = [Put((b"a",), b"1"), Put((b"b",), b"2")]


def half():
    writer = new()
    writer.stage(PART, 2)
    return writer


def reopened_half():
    writer = half()
    writer.reopen()
    return writer


class Copies(Newcomers):
    """What the plain writer leaves of a copy, as the program reads it."""

    def test_the_worked_copy(self):
        writer = half()
        with self.folder() as folder:
            path = self.made(folder, writer.words)
            self.assert_written(self.inspect(path), told(new().record, 0))
            # before its root, and then opened again
            writer.reopen()
            path = self.made(folder, writer.words)
            text = b"version 2\nrecord 2\nposition 0\ncp 4097\ncd 8194\nepoch 1\nrole newcomer\nfloor 0\npair 0\ngaps 1\ngap 1 4096\nlive 0\n"
            self.assert_written(self.inspect(path), text)
            writer = half()
            writer.commit_staged(2)
            path = self.made(folder, writer.words)
            text = b"version 2\nrecord 2\nposition 2\ncp 1\ncd 4098\nepoch 1\nrole standby\nfloor 0\npair 0\ngaps 0\nlive 2\n"
            self.assert_written(self.inspect(path), text)
            self.assertEqual(plain_image.read_image(Words(LINES, writer.words)).map, {(b"a",): b"1", (b"b",): b"2"})
            # and it is promoted as any standby's
            self.assertEqual(self.run_words(promote_words(path))[:2], (DONE, b"promoted to epoch 2\n"))

    def test_a_copy_that_is_dropped(self):
        """And the same stamp once more."""
        writer = half()
        writer.room.give(writer.drop_staged())
        self.assertEqual({at: word for at, word in writer.words.items() if at % 8 == 0 and 8 <= at // 8 < 8 + LAYOUT.entries(LINES)}, {})
        writer.stage(PART[1:], 2)
        writer.commit_staged(2)
        with self.folder() as folder:
            path = self.made(folder, writer.words)
            self.assert_written(self.inspect(path), told_of(writer.words))
            self.assertEqual(plain_image.read_image(Words(LINES, writer.words)).map, {(b"b",): b"2"})

    def test_33_crashes_in_a_copy(self):
        """Each leaves a gap, and from the 33rd on the oldest goes first. Once the gaps are cleared a copy fills the image but for one entry."""
        writer = new(3)
        for count in range(1, 34):
            writer.stage(PART, 9)
            writer.crash()
            writer.reopen()
            image = plain_image.read_image(Words(LINES, writer.words))
            self.assertEqual((image.record.role, image.record.position, image.map, len(image.record.gaps)), (NEWCOMER, 0, {}, min(count, 32)))
        with self.folder() as folder:
            self.assert_written(self.inspect(self.made(folder, writer.words)), told_of(writer.words))
            while writer.record.gaps:
                writer.room.give(writer.clear_gap())
            self.assertEqual(writer.gapped, [])
            keys = [b"%d" % key for key in range(LAYOUT.entries(LINES) - 1)]
            for at in range(0, len(keys), 64):
                writer.stage([Put((key,), b"v") for key in keys[at:at + 64]], 9)
            writer.commit_staged(9)
            self.assertEqual(plain_image.read_image(Words(LINES, writer.words)).map, {(key,): b"v" for key in keys})
            self.assert_written(self.inspect(self.made(folder, writer.words)), told(writer.record, len(keys)))

    def test_cut_at_each_step(self):
        """At each store, flush and fence of two parts, of dropping them, and of the record: a newcomer with nothing, or the standby with all."""
        whole = {(b"a",): b"1", (b"b",): b"2", (b"c",): 100 * b"3"}

        def first(writer):
            writer.stage(PART, 7)

        def second(writer):
            writer.stage([Put((b"c",), 100 * b"3")], 7)

        def drop(writer):
            writer.drop_staged()

        def end(writer):
            writer.commit_staged(7)

        with self.folder() as folder:
            for before, step in [([], first), ([first], second), ([first, second], drop), ([first, second], end)]:
                for picks in ([0], [1], [0, 1]):
                    for calls in itertools.count():
                        writer = new(2, device=Device())
                        for earlier in before:
                            earlier(writer)
                        writer.device.settle()
                        writer.device.keep(calls)
                        step(writer)
                        is_cut = writer.device._kept is not None
                        writer.device.crash(itertools.islice(itertools.cycle(picks), 1_000))
                        for _ in range(2):
                            image = plain_image.read_image(Words(LINES, writer.words))
                            is_whole = image.record.role == STANDBY
                            self.assertEqual((image.record.position, image.map), (7, whole) if is_whole else (0, {}))
                            self.assertTrue(is_whole or image.record.role == NEWCOMER)
                            self.assertFalse(is_whole and step is not end)
                            writer = copy.deepcopy(writer)
                            writer.read()
                            writer.reopen()
                        if calls % 9 == 0 or not is_cut:
                            self.assert_written(self.inspect(self.made(folder, writer.words)), told_of(writer.words))
                        if not is_cut:
                            break
