"""The server's subcommand `promote` (docs/server.md): what it makes of a standby's image, each refusal with its place in their order, and that an image
that was refused is as it was."""

import contextlib
import fcntl
import os
import pathlib
import tempfile

import plain_image
from common import CAUSE, NEWS, Cases, run_program, without_news
from plain_image import LAYOUT, PRIMARY, STANDBY, VERSION_1, WORDS_OF_LINE, Words, extents_begin
from plain_keyspace import DropKey, Put
from test_images import DONE, FAILED, LINE_BYTES, LINES, MISUSED, PASSING, format_words, image_bytes, told, words_of
from damaged_images import BASE, ENTRIES_ALONE, ENTRIES_TOGETHER, RECORDS, SUPERBLOCKS
from plain_writer import Writer

PROGRAMS = ["server"]

STOPPED = "--old-primary-stopped"
LAST_COUNTER = 2**62 - 1

# docs/refusals.md, those that a promotion meets.
TEXTS = {
    1: "device fault",
    2: "bad magic",
    3: "bad version",
    4: "wrong size",
    6: "stamps exhausted",
    7: "damaged image",
    15: "not fenced",
    16: "wrong role",
    17: "not copied",
}


# The slots of records lie between the entries and the extents.
FIRST_RECORD_WORD, EXTENTS_WORD = LAYOUT.slot_word(LINES, 0), extents_begin(LINES) * WORDS_OF_LINE


class Standby(Writer):
    """A standby's image, which is promoted once it is opened again."""

    def __init__(self, lines=LINES, pair=0):
        super().__init__(lines, STANDBY, pair=pair)

    def number(self, **values):
        """Gives the record these numbers, as if it had come so far."""
        self.record = self.record._replace(**values)
        self.words = {word: value for word, value in self.words.items() if not FIRST_RECORD_WORD <= word < EXTENTS_WORD}
        self._put_record()

    def promote(self):
        """The record of the next epoch, of a primary, with its position as the floor and the rest as before."""
        self.reopen()
        record = self.record
        self.record = record._replace(number=record.number + 1, epoch=record.epoch + 1, role=PRIMARY, floor=record.position)
        self._put_record()


def with_groups(pair=0):
    """A standby that took three frames, of which one ended what an earlier one had made."""
    standby = Standby(pair=pair)
    standby.commit([[Put((b"a",), b"1")], [Put((b"b",), b"2")]])
    standby.commit([[Put((b"h", b"f"), b"3")], [Put((b"a",), b"4")]])
    standby.commit([[DropKey(b"b")]])
    return standby


def with_32_gaps():
    standby = Standby()
    standby.commit([[Put((b"a",), b"1")]])
    for _ in range(32):
        standby.reopen()
    return standby


def of_epoch(epoch):
    standby = with_groups()
    standby.number(epoch=epoch)
    return standby


class Promotions(Cases):
    """Tests over files in a folder of their own."""

    @contextlib.contextmanager
    def folder(self):
        with tempfile.TemporaryDirectory() as name:
            yield pathlib.Path(name)

    def promote(self, path, *flags, **options):
        return run_program("server", ["promote", "--image", str(path), *flags], **options)

    def assert_refused(self, finished, number, status=FAILED):
        """It is refused so, in the line after one that names the file or the option."""
        first, last = [line for line in finished.errors.splitlines(keepends=True) if not NEWS.fullmatch(line)]
        self.assertEqual((finished.status, finished.output, last), (status, b"", f"refusal {number}: {TEXTS[number]}\n".encode()))
        if number == 15:
            self.assertIn(STOPPED.encode(), first)
        else:
            self.assertRegex(first, CAUSE)

    def assert_promotes(self, finished, epoch):
        """It is promoted to this epoch; what it holds is told beside that."""
        self.assertEqual((finished.status, finished.output), (DONE, b"promoted to epoch %d\n" % epoch))
        self.assertRegex(finished.errors, rb"(?s)\A(?:[^\n]+\n)?[^\n]+ is a primary's now, at position \d+, with \d+ keys\n\Z")

    def assert_inspected(self, path, text):
        self.assert_written(run_program("server", ["inspect", "--image", str(path)]), text)


class Promoting(Promotions):
    def assert_promoted(self, standby):
        """Its image becomes the plain one's, byte for byte, and its map and its position are as before."""
        with self.folder() as folder:
            path, before = folder / "s.img", plain_image.read_image(Words(standby.lines, standby.words))
            path.write_bytes(image_bytes(standby.lines, standby.words))
            standby.promote()
            self.assert_promotes(self.promote(path, STOPPED), standby.record.epoch)
            data = path.read_bytes()
            self.assert_bytes(data, image_bytes(standby.lines, standby.words))
            after = plain_image.read_image(Words(standby.lines, words_of(data)))
            self.assertEqual((after.record.role, after.record.epoch), (PRIMARY, before.record.epoch + 1))
            self.assertEqual((after.record.position, after.map), (before.record.position, before.map))
            self.assert_inspected(path, told(after.record, len(before.map), before.pair))

    def test_a_new_image(self):
        for lines in (4_096, 4_103, 40_000):
            with self.case("image", lines=lines):
                self.assert_promoted(Standby(lines))

    def test_images_that_hold_something(self):
        for name, standby in [
            ("three frames", with_groups()),
            ("the number of a pair", with_groups(pair=2**62 - 1)),
            ("32 gaps", with_32_gaps()),
            ("a later epoch", of_epoch(7)),
            ("the last epoch but one", of_epoch(LAST_COUNTER - 1)),
        ]:
            with self.case(name):
                self.assert_promoted(standby)

    def test_an_image_that_the_program_made(self):
        with self.folder() as folder:
            path = folder / "s.img"
            self.assert_written(run_program("server", format_words(path, role="standby")), b"formatted 4096 lines, 494 entries\n")
            self.assert_promotes(self.promote(path, STOPPED), 2)
            text = b"version 2\nrecord 3\nposition 0\ncp 4097\ncd 8194\nepoch 2\nrole primary\nfloor 0\npair 0\ngaps 1\ngap 1 4096\nlive 0\n"
            self.assert_inspected(path, text)

    def test_output_that_fails(self):
        with self.folder() as folder, open("/dev/full", "wb") as full:
            path, standby = folder / "s.img", with_groups()
            path.write_bytes(image_bytes(LINES, standby.words))
            finished = self.promote(path, STOPPED, stdout=full)
            self.assertEqual(finished.status, FAILED)
            self.assertRegex(finished.errors, rb"\A[^\n]+\n\Z")
            # the image is promoted all the same
            standby.promote()
            self.assert_bytes(path.read_bytes(), image_bytes(LINES, standby.words))

    def test_what_it_serves_then(self):
        """A promoted image is opened as a primary's, and no more as a standby's."""
        # (an address of no machine of ours)
        nowhere = "192.0.2.1:7000"
        with self.folder() as folder:
            path, standby = folder / "s.img", with_groups()
            path.write_bytes(image_bytes(LINES, standby.words))
            self.assertEqual(self.promote(path, STOPPED).status, DONE)
            standby.promote()
            words = ["--image", str(path), "--listen", nowhere]
            self.assert_refused(run_program("server", ["standby", *words]), 16)
            self.assert_bytes(path.read_bytes(), image_bytes(LINES, standby.words))
            status, output, errors = run_program("server", ["primary", *words, "--link", nowhere])
            self.assertEqual((status, output, without_news(errors)), (FAILED, b"", b"cannot listen\n"))
            standby.reopen()
            self.assert_bytes(path.read_bytes(), image_bytes(LINES, standby.words))


class Refusals(Promotions):
    """What is refused leaves the image as it was, byte for byte. The fence is asked for before the image, and the image is read before its role."""

    def assert_untouched(self, path, number, *flags, status=FAILED):
        before = path.read_bytes()
        self.assert_refused(self.promote(path, *flags), number, status)
        self.assert_bytes(path.read_bytes(), before)

    def test_an_image_of_version_1(self):
        with self.folder() as folder:
            path, writer = folder / "s.img", Writer(LINES, STANDBY, layout=VERSION_1)
            writer.commit([[Put((b"a",), b"1")]])
            path.write_bytes(image_bytes(LINES, writer.words))
            self.assert_untouched(path, 3, STOPPED)

    def test_no_fence(self):
        whole = image_bytes(LINES, with_groups().words)
        with self.folder() as folder:
            path = folder / "s.img"
            for name, data in [
                ("a standby's image", whole),
                ("a primary's image", image_bytes(LINES, BASE.words)),
                ("no magic", bytes(8) + whole[8:]),
                ("half an image", whole[:-1]),
                ("nothing", b""),
            ]:
                with self.case(name):
                    path.write_bytes(data)
                    self.assert_untouched(path, 15)
            for path in (folder / "none.img", folder, ""):
                with self.case("no file", path=str(path)):
                    self.assert_refused(self.promote(path), 15)
            self.assertEqual(os.listdir(folder), ["s.img"])

    def test_an_image_that_is_open_elsewhere(self):
        with self.folder() as folder:
            path = folder / "s.img"
            path.write_bytes(image_bytes(LINES, with_groups().words))
            with open(path, "r+b") as held:
                fcntl.flock(held, fcntl.LOCK_EX | fcntl.LOCK_NB)
                # without the fence it is not even opened
                self.assert_untouched(path, 15)
                self.assert_untouched(path, 1, STOPPED, status=PASSING)

    def test_no_file(self):
        with self.folder() as folder:
            for path in (folder / "none.img", folder, ""):
                with self.case("path", path=str(path)):
                    self.assert_refused(self.promote(path, STOPPED), 1)
            self.assertEqual(os.listdir(folder), [])

    def test_sizes(self):
        whole = image_bytes(LINES, with_groups().words)
        with self.folder() as folder:
            path = folder / "s.img"
            for name, data in [("nothing", b""), ("a line less", whole[:-LINE_BYTES]), ("a byte more", whole + b"\0"), ("a line more", whole + bytes(LINE_BYTES))]:
                with self.case(name):
                    path.write_bytes(data)
                    self.assert_untouched(path, 4, STOPPED)

    def test_images_that_are_none(self):
        """All of them have a primary's record where they have one: that is looked at last."""
        with self.folder() as folder:
            path = folder / "s.img"
            for name, number, changes in SUPERBLOCKS + RECORDS + ENTRIES_ALONE + ENTRIES_TOGETHER:
                with self.case(name):
                    path.write_bytes(image_bytes(LINES, BASE.words | changes))
                    self.assert_untouched(path, number, STOPPED)

    def test_superblocks_of_a_standby(self):
        with self.folder() as folder:
            path = folder / "s.img"
            for name, number, changes in SUPERBLOCKS:
                with self.case(name):
                    path.write_bytes(image_bytes(LINES, with_groups().words | changes))
                    self.assert_untouched(path, number, STOPPED)

    def test_an_image_of_a_primary(self):
        with self.folder() as folder:
            path = folder / "p.img"
            for name, words in [("a new one", Writer(LINES, PRIMARY).words), ("one that holds something", BASE.words)]:
                with self.case(name):
                    path.write_bytes(image_bytes(LINES, words))
                    self.assert_untouched(path, 16, STOPPED)

    def test_an_image_that_was_promoted(self):
        with self.folder() as folder:
            path = folder / "s.img"
            path.write_bytes(image_bytes(LINES, with_groups().words))
            self.assertEqual(self.promote(path, STOPPED).status, DONE)
            self.assert_untouched(path, 16, STOPPED)
            self.assert_untouched(path, 15)

    def test_counters_at_their_limit(self):
        with self.folder() as folder:
            path = folder / "s.img"
            # the image cannot be opened again: it is as it was
            standby = with_groups()
            standby.number(number=LAST_COUNTER)
            path.write_bytes(image_bytes(LINES, standby.words))
            self.assert_untouched(path, 6, STOPPED)
            # it can, and is a standby's then, but has no next epoch, or no next record
            for name, values in [("the last epoch", {"epoch": LAST_COUNTER}), ("the last record but one", {"number": LAST_COUNTER - 1})]:
                with self.case(name):
                    standby = with_groups()
                    standby.number(**values)
                    path.write_bytes(image_bytes(LINES, standby.words))
                    self.assert_refused(self.promote(path, STOPPED), 6)
                    standby.reopen()
                    self.assert_bytes(path.read_bytes(), image_bytes(LINES, standby.words))


class CommandLines(Promotions):
    """A command line that is none is told of with status 2 before the fence is asked for."""

    def test_words_that_are_no_command_line(self):
        with self.folder() as folder:
            path = str(folder / "s.img")
            for name, words, naming in [
                ("no image", [], b"--image"),
                ("no image, with the fence", [STOPPED], b"--image"),
                ("no value", ["--image"], b"--image"),
                ("a value of the fence", ["--image", path, f"{STOPPED}=yes"], b"yes"),
                ("the fence twice", ["--image", path, STOPPED, STOPPED], STOPPED.encode()),
                ("a shorter word", ["--image", path, "--old-primary"], b"--old-primary"),
                ("a word more", ["--image", path, STOPPED, "now"], b"now"),
                ("an option of another subcommand", ["--image", path, "--listen", "127.0.0.1:1"], b"--listen"),
            ]:
                with self.case(name):
                    finished = run_program("server", ["promote", *words])
                    self.assertEqual((finished.status, finished.output), (MISUSED, b""))
                    self.assertIn(naming, finished.errors)
                    self.assertEqual(os.listdir(folder), [])

    def test_help(self):
        finished = run_program("server", ["promote", "--help"])
        self.assertEqual((finished.status, finished.errors), (DONE, b""))
        for naming in (b"--image", STOPPED.encode()):
            self.assertIn(naming, finished.output)
