"""The images that a node opens again (docs/image.md, "Reopening"), before its address is looked at."""

import random

import plain_image
from damaged_images import BASE, ENTRIES_ALONE, ENTRIES_TOGETHER, FIELD_OF, RECORDS, SLOT, STRANGE, SUPERBLOCKS
from plain_image import LAYOUT, PRIMARY, STANDBY, VERSION_1
from plain_keyspace import Put
from plain_writer import Writer
from standby_node import LIMIT, Node, StandingBy, crashed, cut_short, drawn_change, drawn_frames, take, with_record
from test_images import LINES, image_bytes, limited, words_of

PROGRAMS = ["server"]


class Opening(StandingBy):
    """Of a standby: an image is looked at, and opened again, before the address is."""

    def test_an_image_of_the_other_role(self):
        with self.folder() as folder:
            path = self.made(folder, Writer(LINES, PRIMARY + STANDBY - self.ROLE).words)
            data = path.read_bytes()
            self.assert_refused(self.opening_words(path), 16)
            self.assert_bytes(path.read_bytes(), data)

    def test_images_that_are_none(self):
        with self.folder() as folder:
            self.assert_refused(self.opening_words(folder / "s.img"), 1)
            for name, number, changes in SUPERBLOCKS + RECORDS + ENTRIES_ALONE + ENTRIES_TOGETHER:
                with self.case(name):
                    path = self.made(folder, BASE.words | {SLOT + FIELD_OF["role"]: self.ROLE} | changes)
                    data = path.read_bytes()
                    self.assert_refused(self.opening_words(path), number)
                    self.assert_bytes(path.read_bytes(), data)

    def test_images_that_break_no_rule(self):
        with self.folder() as folder:
            for name, changes in STRANGE:
                with self.case(name):
                    path = self.made(folder, BASE.words | changes | {SLOT + FIELD_OF["role"]: self.ROLE})
                    before = self.words(path)
                    self.open_again(path)
                    self.assert_opened(before, self.words(path))

    def test_an_image_of_version_1(self):
        with self.folder() as folder:
            writer = Writer(LINES, self.ROLE, layout=VERSION_1)
            writer.commit([[Put((b"a",), b"1")]])
            path = self.made(folder, writer.words)
            data = path.read_bytes()
            self.assert_refused(self.opening_words(path), 3)
            self.assert_bytes(path.read_bytes(), data)

    def test_36_reopenings(self):
        """Each adds a gap. From the 33rd on, the oldest goes first, under a record of its own."""
        with self.folder() as folder:
            writer = Writer(LINES, self.ROLE)
            writer.commit([[Put((b"a",), b"1")]])
            path = self.made(folder, writer.words)
            for count in range(1, 37):
                writer.reopen()
                with self.case("reopenings", count=count):
                    self.open_again(path)
                    self.assertEqual(words_of(path.read_bytes()), writer.words)
            self.assertEqual((len(writer.record.gaps), writer.record.number), (32, 2 + 36 + 4))

    def test_what_a_crash_in_a_commit_left(self):
        """Twice in a row: map and position stay, and the entries that it left count for nothing."""
        with self.folder() as folder:
            for seed in range(40):
                with self.case("seed", seed=seed):
                    draws, writer = random.Random(f"crashed {seed}"), Writer(LINES, self.ROLE)
                    for frame in drawn_frames(draws, 0, 4):
                        take(writer, frame)
                    path = self.made(folder, crashed(writer, [drawn_change(draws) for _ in range(4)], draws))
                    for _ in range(2):
                        before = self.words(path)
                        self.open_again(path)
                        self.assert_opened(before, self.words(path))

    def test_counters_at_their_end(self):
        writer = Writer(LINES, self.ROLE)
        writer.commit([[Put((b"a",), b"1")]])
        record, full = writer.record, LIMIT - 4_098
        for name, current, is_opened in [
            ("number", record._replace(number=LIMIT - 2), True),
            ("number", record._replace(number=LIMIT - 1), False),
            ("stamps", record._replace(cp=full, cd=full + 4_097), False),
            ("stamps, but for one", record._replace(cp=full - 4_097, cd=full), True),
            ("stamps reach the limit", record._replace(cp=full - 4_096, cd=full + 1), False),
        ]:
            with self.case(name, record=current), self.folder() as folder:
                path = self.made(folder, with_record(writer.words, current))
                before = self.words(path)
                if is_opened:
                    self.open_again(path)
                    self.assert_opened(before, self.words(path))
                else:
                    self.assert_refused(self.opening_words(path), 6)
                    self.assertEqual(words_of(path.read_bytes()), words_of(image_bytes(LINES, with_record(writer.words, current))))

    def test_a_file_that_may_not_be_written(self):
        with self.folder() as folder:
            path = self.made(folder, Writer(LINES, self.ROLE).words)
            data = path.read_bytes()
            self.assert_refused(self.opening_words(path), 1, preexec_fn=limited(0))
            self.assert_bytes(path.read_bytes(), data)


class Killed(StandingBy):
    """A standby that is killed again and again, while nothing comes to it, so that it clears no gap."""

    def test_34_openings(self):
        """The gaps of eight that were killed are all there with the ninth, and so up to the 32nd; the 33rd clears the oldest, and with it what a commit that
        was cut short had left."""
        draws, writer = random.Random("killed"), Writer(LINES, self.ROLE)
        for frame in drawn_frames(draws, 0, 4):
            take(writer, frame)
        with self.folder() as folder:
            path = self.made(folder, cut_short(writer, [Put((b"cut",), b"v")]))
            first = self.words(path)
            image = plain_image.read_image(first)
            cut = plain_image.read_versions(first, plain_image.reopened(image.record)[-1]).gapped
            self.assertEqual(len(cut), 1)
            record = image.record
            for count in range(1, 35):
                record = plain_image.reopened(record)[-1]
                with self.case("openings", count=count):
                    with Node(path):
                        pass
                    after = self.words(path)
                    self.assertEqual(plain_image.read_image(after), plain_image.Image(record, image.map, image.pair))
                    self.assertEqual(len(record.gaps), min(count, LAYOUT.most_gaps))
                    left = plain_image.read_versions(after, record).gapped
                    self.assertEqual(left, cut if count <= LAYOUT.most_gaps else [])


class OpeningOfAPrimary(Opening):
    """The same of a primary."""

    ROLE = PRIMARY
