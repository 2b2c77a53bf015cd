"""Image files with a journal behind the lines of the image (docs/image.md, "Behind the lines"): how each subcommand makes, reads, changes and gives away one.
What an opening makes of a file is told by the plain model (plain_journal.image_in). It catches a subcommand that reads the lines alone."""

import os
import random
import stat
import subprocess

import common
import plain_image
from old_images import OldWriter
from plain_image import PRIMARY, STANDBY, Words
from plain_journal import LINE_BYTES, Shape, file_of, image_in, sealed
from plain_keyspace import Put
from plain_writer import Writer
from standby_node import StandingBy
from test_images import DONE, LINES, ROLES, format_words, image_bytes, limited, new_image, told_of, words_of
from test_losing import FORMATTED, KEPT, AtTerminal, promote_words
from test_migrating import migrate_words

PROGRAMS = ["server"]

SHAPE = Shape.of_image(LINES)


def lines_in(old, new):
    """The lines of an image that are others in another one, each a number and its words."""
    numbers = sorted({place // 8 for place in old.keys() | new.keys() if old.get(place, 0) != new.get(place, 0)})
    return [(number, [new.get(place, 0) for place in range(8 * number, 8 * number + 8)]) for number in numbers]


def with_journal(words, records, generation=1, shape=SHAPE, head=None, other=()):
    """The bytes of a file: an image of these words, and these words of records in the part that this generation uses."""
    words = dict(words)
    words |= {place: word for place, word in enumerate(shape.head(generation) if head is None else head, shape.head_at) if word}
    words |= {place: word for place, word in enumerate(records, shape.part_at(generation)) if word}
    words |= {place: word for place, word in enumerate(other, shape.part_at(generation + 1)) if word}
    return image_bytes(shape.lines_of_file, words)


def behind(role, groups=4, layout=plain_image.LAYOUT):
    """An image of this role, what it was some groups before, and those groups as records."""
    writer = Writer(LINES, role, layout=layout, pair=77)
    first, records = dict(writer.words), []
    for number in range(groups):
        before = dict(writer.words)
        writer.commit([[Put((b"k%d" % number,), b"v" * 70), Put((b"same",), b"%d" % number)]])
        records += sealed(lines_in(before, writer.words))
    return writer, first, records


class Journaled(StandingBy):
    """Tests over files with a journal."""

    def image(self, path):
        """The words of the image in a file."""
        return words_of(image_in(path.read_bytes()))


class Formats(Journaled):
    def test_a_new_file(self):
        """With a journal where nothing is said: zeros behind the lines."""
        for lines, role in [(4_096, PRIMARY), (4_096, STANDBY), (4_103, PRIMARY), (40_000, STANDBY)]:
            for more in ([], ["--journal", "1"]):
                with self.case("image", lines=lines, role=role, more=more), self.folder() as folder:
                    path = folder / "p.img"
                    words = ["format", "--image", str(path), "--lines", str(lines), "--role", ROLES[role], *more]
                    self.assert_written(self.run_words(words), b"formatted %d lines, %d entries\n" % (lines, lines // 8 - 18))
                    data = path.read_bytes()
                    self.assertEqual(len(data), LINE_BYTES * (lines + 1 + 2 * (lines // 4)))
                    self.assert_bytes(data, file_of(new_image(lines, role, data)))
                    self.assertEqual(stat.S_IMODE(path.stat().st_mode), 0o600)
                    self.assert_written(self.inspect(path), told_of(words_of(data), lines))

    def test_the_longest_journal(self):
        """A part has at most 524,288 lines. (The file has holes, and the disk is not asked for all of it.)"""
        for lines, part in [(2_097_151, 524_287), (2_097_152, 524_288), (2**31, 524_288)]:
            with self.case("lines", lines=lines):
                self.assertEqual(Shape.of_image(lines).part, part)

    def test_a_file_without(self):
        for role, name in ROLES.items():
            with self.case("role", role=role), self.folder() as folder:
                path = folder / "p.img"
                self.assert_written(self.run_words(format_words(path, role=name, journal=0)), FORMATTED)
                self.assert_bytes(path.read_bytes(), new_image(LINES, role, path.read_bytes()))

    def test_over_another_one(self):
        """Of the same size: what it held is told, and the new image goes through its journal."""
        with self.folder() as folder:
            path = folder / "p.img"
            writer, first, records = behind(PRIMARY)
            path.write_bytes(with_journal(first, records))
            finished = self.run_words(format_words(path, role="standby", journal=1))
            held = os.fsencode(path) + b" held a primary's image at position 4, epoch 1, 5 keys\n"
            self.assertEqual(finished, (DONE, FORMATTED, held))
            found = plain_image.read_image(Words(LINES, self.image(path)))
            self.assertEqual((found.record, found.map, found.pair), (Writer(LINES, STANDBY).record, {}, 0))
            with AtTerminal(format_words(path, role="standby", journal=1)) as terminal:
                self.assertEqual(terminal.type(b""), (DONE, FORMATTED, b""))

    def test_over_one_of_the_other_kind(self):
        """A file is not made longer or shorter. One of just that size, but another image, holds what it holds."""
        plain, journaled = image_bytes(LINES, behind(PRIMARY)[0].words), with_journal(*behind(PRIMARY)[1:])
        with self.folder() as folder:
            path = folder / "p.img"
            for data, journal in [(plain, 1), (journaled, 0)]:
                with self.case("journal", journal=journal):
                    path.write_bytes(data)
                    self.assert_refused(format_words(path, journal=journal), 4)
                    self.assertEqual(self.run_words([*format_words(path, journal=journal), "--new"]), (KEPT, b"", b"not formatted: the file is there\n"))
                    self.assert_bytes(path.read_bytes(), data)
            writer = Writer(SHAPE.lines_of_file, PRIMARY)
            writer.commit([[Put((b"k%d" % number,), 60_000 * b"v")] for number in range(5)])
            larger = image_bytes(SHAPE.lines_of_file, writer.words)
            path.write_bytes(larger)
            with AtTerminal(format_words(path, journal=1)) as terminal:
                self.assertIn(b"position 5, epoch 1, 5 keys, and format makes it empty\n", terminal.wait_for(b"yes to go on: "))
                self.assertEqual(terminal.type(b"no\n")[0], KEPT)
            self.assert_refused(format_words(path, SHAPE.lines_of_file + 1, journal=1), 4)
            self.assert_bytes(path.read_bytes(), larger)

    def test_something_behind_the_lines(self):
        """What is neither zeros nor a journal of this image would keep its journal from beginning: it is refused."""
        with self.folder() as folder:
            path = folder / "p.img"
            for name, at in [("the head", SHAPE.head_at), ("the first part", SHAPE.part_at(0)), ("the last word", SHAPE.part_at(1) + SHAPE.words_of_part - 1)]:
                with self.case(name):
                    data = image_bytes(SHAPE.lines_of_file, {at: 7})
                    path.write_bytes(data)
                    self.assert_refused(format_words(path, journal=1), 4)
                    self.assert_bytes(path.read_bytes(), data)
            path.write_bytes(bytes(LINE_BYTES * SHAPE.lines_of_file))
            self.assert_written(self.run_words(format_words(path, journal=1)), FORMATTED)

    def test_new_over_what_a_format_left(self):
        new, slot = Writer(LINES, PRIMARY), 8 * plain_image.LAYOUT.slot_line(LINES, 1)
        whole = file_of(image_bytes(LINES, new.words))
        record = {at: word for at, word in new.words.items() if at >= slot}
        superblock = {at: word for at, word in new.words.items() if 0 < at < 8}
        opened = Writer(LINES, PRIMARY)
        opened.reopen()
        with self.folder() as folder:
            path = folder / "p.img"
            words = [*format_words(path, journal=1), "--new"]
            made = lambda found: file_of(image_bytes(LINES, found))
            for left, data in [("all", whole), ("its length", bytes(len(whole))), ("no magic", made(record | superblock)), ("the record", made(record)),
                               ("the number of lines", made({2: LINES})), ("some of the record", made({slot: 1, slot + 3: 4_097}))]:
                with self.case("left", left=left):
                    path.write_bytes(data)
                    if left not in ("all",):
                        self.assert_refused(["inspect", "--image", str(path)], 2, b"is what a format has left unfinished: give that again")
                    self.assertEqual(self.run_words(words), (DONE, FORMATTED, b""))
                    # (the journal has begun where the number of lines was there)
                    found = image_in(path.read_bytes())
                    self.assert_bytes(found, new_image(LINES, PRIMARY, found))
            for there, data in [("opened", made(opened.words)), ("a journal", with_journal(*behind(PRIMARY)[1:])), ("longer", whole + bytes(128)), ("shorter", whole[:-128]),
                                ("an entry", made(superblock | {64: 1})), ("a byte behind", bytes(len(whole) - 1) + b"\1"),
                                ("an image of all lines", image_bytes(SHAPE.lines_of_file, Writer(SHAPE.lines_of_file, PRIMARY).words))]:
                with self.case("there", there=there):
                    path.write_bytes(data)
                    self.assertEqual(self.run_words(words), (KEPT, b"", b"not formatted: the file is there\n"))
                    self.assert_bytes(path.read_bytes(), data)

    def test_no_room(self):
        with self.folder() as folder:
            path = folder / "p.img"
            for size in (LINE_BYTES * LINES, LINE_BYTES * SHAPE.lines_of_file - 1):
                with self.case("size", size=size):
                    cause = b"could not be made: no file may be as large, there or for this process"
                    self.assert_refused(format_words(path, journal=1), 1, cause=cause, preexec_fn=limited(size))
                    self.assertFalse(path.exists())


class Reading(Journaled):
    """Each subcommand reads the image with what its journal has."""

    def test_records(self):
        with self.folder() as folder:
            path = folder / "s.img"
            for generation in (1, 2, 7, 2**64 - 1):
                for role in (PRIMARY, STANDBY):
                    writer, first, records = behind(role)
                    with self.case("image", generation=generation, role=role):
                        data = with_journal(first, records, generation)
                        path.write_bytes(data)
                        self.assertEqual(self.image(path), writer.words)
                        self.assert_written(self.inspect(path), told_of(writer.words))
                        finished = self.run_words(["status", "--image", str(path)])
                        self.assertIn(b"\nposition 4\n", finished.output)
                        self.assert_bytes(path.read_bytes(), data)

    def test_wbl_status(self):
        """The script tells of a file what it tells of its image."""
        with self.folder() as folder:
            path = folder / "p.img"
            asked = [common.ROOT / "bin" / "wbl-status", path]
            for generation in (0, 1, 2):
                for count in (0, 1, 4):
                    writer, first, records = behind(PRIMARY, count)
                    with self.case("image", generation=generation, records=count):
                        path.write_bytes(image_bytes(LINES, writer.words))
                        wanted = subprocess.run(asked, capture_output=True, timeout=common.SECONDS, check=True)
                        cut = sealed([(70, 8 * [5])])[:-1]
                        path.write_bytes(with_journal(first, [*records, *cut], generation, other=sealed([(1, 8 * [7])])))
                        found = subprocess.run(asked, capture_output=True, timeout=common.SECONDS, check=True)
                        self.assertEqual((found.stdout, found.stderr), (wanted.stdout, b""))
                        self.assertIn(b" position %d, " % count, found.stdout)

    def test_lines_that_are_in_place_in_part(self):
        """What is recorded does not matter in place."""
        writer, first, records = behind(PRIMARY)
        draws = random.Random("in place")
        with self.folder() as folder:
            path = folder / "p.img"
            recorded = [at for number, _ in lines_in(first, writer.words) for at in range(8 * number, 8 * number + 8)]
            for number in range(20):
                with self.case("draw", number=number):
                    words = dict(first)
                    for at in recorded:
                        if draws.random() < 0.5:
                            words[at] = draws.choice([writer.words.get(at, 0), draws.getrandbits(64)])
                    # (where the image tells how many lines it has nothing else is ever written)
                    words[2] = LINES
                    path.write_bytes(with_journal(words, records))
                    self.assert_written(self.inspect(path), told_of(writer.words))

    def test_records_that_are_cut_short(self):
        """Of what was not synced each word is there or 0: all up to the first record that is not whole counts."""
        writer, first, records = behind(PRIMARY, 3)
        draws = random.Random("cut short")
        with self.folder() as folder:
            path = folder / "p.img"
            for number in range(60):
                with self.case("draw", number=number):
                    share = draws.choice([0.5, 0.9, 0.99, 0.999])
                    left = [word if draws.random() < share else 0 for word in records]
                    path.write_bytes(with_journal(first, left))
                    self.assert_written(self.inspect(path), told_of(self.image(path)))

    def test_promote(self):
        with self.folder() as folder:
            path = folder / "s.img"
            path.write_bytes(with_journal(*behind(STANDBY)[1:]))
            self.assertEqual(self.run_words(promote_words(path, "--at-least", "5"))[:2], (KEPT, b""))
            finished = self.run_words(promote_words(path, "--at-least", "4"))
            self.assertEqual((finished.status, finished.output), (DONE, b"promoted to epoch 2\n"))
            self.assertIn(b"position 4, with 5 keys", finished.errors)
            self.assertEqual(plain_image.read_image(Words(LINES, self.image(path))).record.epoch, 2)

    def test_migrate(self):
        """An image of version 1 that has a journal, which no release has made."""
        with self.folder() as folder:
            path = folder / "s.img"
            writer = OldWriter(STANDBY, LINES)
            first = dict(writer.words)
            writer.commit([[Put((b"a",), b"1"), Put((b"b",), 500 * b"2")]])
            path.write_bytes(with_journal(first, sealed(lines_in(first, writer.words))))
            self.assertEqual(self.run_words(migrate_words(path))[:2], (DONE, b"migrated to version 2, 494 entries\n"))
            found = plain_image.read_image(Words(LINES, self.image(path)))
            self.assertEqual((found.record.position, found.map), (writer.record.position, {(b"a",): b"1", (b"b",): 500 * b"2"}))


class Opening(Journaled):
    """A node opens it again."""

    def test_openings(self):
        """It is opened to the same, its lines are in place then, and the next generation has begun."""
        with self.folder() as folder:
            path = folder / "s.img"
            for generation in (0, 1, 2):
                writer, first, records = behind(self.ROLE)
                with self.case("generation", generation=generation):
                    path.write_bytes(with_journal(first, records, generation, other=records[:40]))
                    before = Words(LINES, self.image(path))
                    self.open_again(path)
                    found = words_of(path.read_bytes())
                    self.assert_opened(before, Words(LINES, self.image(path)))
                    self.assertEqual(SHAPE.generation_in(found), generation + 1)
                    # (an entry that is opened again is in the journal, and what was there before is in place)
                    self.assertEqual(found[64], writer.words[64])


class OpeningOfAPrimary(Opening):
    """The same of a primary."""

    ROLE = PRIMARY
