"""Damaged images: `inspect` says of each what the plain reader says, and those that are whole all the same open again, with all that they hold
(docs/image.md, "Reading an arbitrary image")."""

import os
import random

import common
import plain_image
from common import tell
from damaged_images import entry, whole_entry
from drawn_damage import LINES, drawn_damage, drawn_image
from plain_image import PRIMARY, Words
from plain_keyspace import Put
from plain_writer import Writer
from standby_node import StandingBy
from test_images import DONE, FAILED, Images, image_bytes, refusal, told, words_of

PROGRAMS = ["server"]

# How many images there are, and how often each is damaged.
IMAGES, TIMES = 200, 25
# So many times as many in the long part.
LONG = 10
# Of those that are whole all the same one of so many is opened again.
OPENED = 10


class Inspected(Images):
    def inspected(self, path):
        """What `inspect` says, but for the line that names the file."""
        found = self.inspect(path)
        return found._replace(errors=common.without_cause(found.errors))


class WorkedImage(Inspected):
    """The worked image of the page after `SET a 1`, of which single words are others."""

    def test_single_words(self):
        writer = Writer(LINES, PRIMARY)
        writer.commit([[Put((b"a",), b"1")]])
        for name, changed, is_whole in [
            ("as it was written", {}, True),
            ("a line more of entry 0", entry(0, lines=2), False),
            ("a line less of the directory", {3: 511}, False),
            ("an end at cd in entry 1", entry(1, end=4_098), False),
            ("a begin and an end that do not count in entry 1", whole_entry(1, 4_000, 4_097, *6 * [2**64 - 1]), True),
        ]:
            with self.case(name), self.folder() as folder:
                path = folder / "p.img"
                path.write_bytes(image_bytes(LINES, writer.words | changed))
                wanted = (DONE, told(writer.record, 1), b"") if is_whole else (FAILED, b"", refusal(7))
                self.assertEqual(self.inspected(path), wanted)


class Damaged(Inspected, StandingBy):
    def check(self, part, parts):
        """One part of the images."""
        counted = {}
        with self.folder() as folder:
            path = folder / "p.img"
            for seed in range(part, IMAGES * (LONG if common.IS_LONG else 1), parts):
                draws = random.Random(f"damaged image {seed}")
                words = drawn_image(draws)
                path.write_bytes(image_bytes(LINES, words))
                self.show(path, f"seed {seed}", words, {}, draws, counted)
                for number in range(TIMES):
                    name, changed = drawn_damage(draws, words)
                    self.show(path, f"seed {seed}, {number}: {name}", words, changed, draws, counted)
        tell("damaged images, by what is said of them", counted)

    def show(self, path, name, words, changed, draws, counted):
        """An image of which these words were changed. They are put back."""
        with self.case(name):
            self.put(path, changed)
            damaged = words | changed
            # (of each version that there is)
            layout = plain_image.LAYOUTS.get(damaged.get(1, 0), plain_image.LAYOUT)
            try:
                image = plain_image.read_image(Words(LINES, damaged), layout)
                wanted = (DONE, told(image.record, len(image.map), image.pair), b"")
            except plain_image.BadImage as bad:
                image, wanted = None, (FAILED, b"", refusal(bad.number))
            said = "whole" if image else f"refusal {wanted[2][8:9].decode()}"
            counted[said] = counted.get(said, 0) + 1
            self.assertEqual(self.inspected(path), wanted)
            is_served = layout == plain_image.LAYOUT
            if image and draws.randrange(OPENED) == 0 and is_served and image.record.number < plain_image.BOUND - 3 and image.record.cd < plain_image.BOUND // 2:
                self.show_opened(path, image, damaged)
        self.put(path, {at: words.get(at, 0) for at in changed})

    def put(self, path, words):
        """Writes words into a file."""
        with open(path, "r+b") as file:
            for at, value in words.items():
                os.pwrite(file.fileno(), value.to_bytes(8, "little"), 8 * at)

    def show_opened(self, path, image, words):
        """A node opens a copy of the image again in its role."""
        copy = path.with_suffix(".copy")
        copy.write_bytes(image_bytes(LINES, words))
        self.ROLE = image.record.role
        self.open_again(copy)
        self.assert_opened(Words(LINES, words), Words(LINES, words_of(copy.read_bytes())))
        copy.unlink()

    def test_first_quarter(self):
        self.check(0, 4)

    def test_second_quarter(self):
        self.check(1, 4)

    def test_third_quarter(self):
        self.check(2, 4)

    def test_last_quarter(self):
        self.check(3, 4)
