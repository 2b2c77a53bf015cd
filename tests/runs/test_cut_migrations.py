"""A power cut at each call of `wbl-server migrate`, and at each call of the migration behind that: what is left holds what the image held, and comes to version
2. The calls are noted (noted_calls), and what a cut leaves is the model page_cache. Where there is no gcc each test is skipped, and says so."""

import collections
import os
import random
import struct
import subprocess

import common
import noted_calls
import plain_image
from common import drawn, run_program, tell
from noted_calls import Noting
from old_images import IMAGES, JUST_ENOUGH, LINES, WITHOUT_ROOM, held
from page_cache import PageCache
from plain_image import VERSION_1
from test_images import DONE, FAILED, refusal
from test_migrating import MIGRATED, NO_PLACE, Migrating, migrate_words

PROGRAMS = ["server"]
IS_SLOW = True
QUICK = ["PowerCuts.test_of_images_without_room", "PowerCuts.test_what_is_left_out_is_seen"]


class Cuts:
    """What a cut of the power leaves of an image of these words at each call of a run that was noted: of each word that was not synced the oldest value or the
    newest. Tried are the oldest of all, the newest of all, both by turns, and some that are drawn."""

    def __init__(self, name, words, asked):
        self.name, self.words, self.asked = name, words, asked

    def moments(self):
        """The file before the first call, and behind each one after which words wait: with how many calls were made."""
        file = PageCache(self.words)
        yield 0, file
        for made, call in enumerate(self.asked, 1):
            if call is None:
                file.sync()
            else:
                file.write(call[0] // 8, struct.unpack(f"<{len(call[1]) // 8}Q", call[1]))
            if file.waiting:
                yield made, file

    def ways(self):
        """At each moment each set of words that may have been brought to the disk, of those that are tried."""
        for made, file in self.moments():
            waiting, draws = file.waiting, random.Random(f"{self.name} {made}")
            some = [place for place in waiting if draws.randrange(2)]
            for brought in dict.fromkeys(map(frozenset, ([], waiting, waiting[::2], waiting[1::2], some))):
                yield made, file, brought

    def drawn(self, least):
        """Of those that are tried, how many calls were made, how many words were brought of how many, and the words of the image."""
        tried = set(drawn(self.name, range(sum(1 for _ in self.ways())), least))
        for number, (made, file, brought) in enumerate(self.ways()):
            if number in tried:
                yield made, f"{len(brought)} of {len(file.waiting)}", file.after_a_cut(brought.__contains__)


class PowerCuts(Migrating):
    """The power is cut at each call of a migration, and at each call of the one behind that. It catches a store that comes before what it rests on is
    synced."""

    # After how many of the first cuts the calls of the second migration are tried as well.
    SECOND_CUTS, MORE_SECOND_CUTS = 2, 12
    # How many cuts of a migration are tried at least.
    LEAST, LEAST_OF_SECOND = 12, 6

    def setUp(self):
        super().setUp()
        self.loaded = noted_calls.library(self.path.parent)
        if self.loaded is None:
            print(f"{self.id()}: skipped, since there is no gcc", flush=True)
        self.counted = collections.Counter()

    def asked(self, words):
        """What a migration of an image of these words asks of its file."""
        self.write(words)
        noting = Noting(self.loaded, self.path, keeps=False, keeps_bytes=True)
        subprocess.run([*noting.words, common.program("server"), *migrate_words(self.path)], capture_output=True, timeout=common.SECONDS, check=False)
        return noting.writes_and_syncs()

    def assert_keeps(self, words, wanted, ends):
        """An image of these words holds this, and so it does after a migration, which ends in one of these ways: in version 2, or refused as full in version
        1."""
        layout, _, found = held(LINES, words)
        self.assertEqual(found, wanted)
        self.write(words)
        finished = run_program("server", migrate_words(self.path))
        told = {DONE: (DONE, MIGRATED, b""), FAILED: (FAILED, b"", os.fsencode(self.path) + b" " + NO_PLACE + b"\n" + refusal(5))}
        self.assertIn(finished, [told[status] for status in ends])
        self.counted[f"of version {layout.version}" + ", refused" * (finished.status == FAILED)] += 1
        if finished.status == DONE:
            self.assert_is_migrated(words)
        else:
            self.assertEqual((layout, self.held()[0], self.held()[2]), (VERSION_1, VERSION_1, wanted))

    def sweep(self, name, words, ends, least):
        """Each cut of a migration of this image that is tried. Gives what they leave."""
        wanted, left = held(LINES, words)[2], []
        for made, brought, after in Cuts(name, words, self.asked(words)).drawn(least):
            with self.case("cut", image=name, calls=made, brought=brought):
                self.assert_keeps(after, wanted, ends)
            left.append((made, after))
        return left

    def sweep_twice(self, images, ends):
        """Each cut of the migrations of these images, and behind some of them each cut of the next one."""
        for name, make in images.items():
            self.counted.clear()
            left = self.sweep(name, make().words, ends, self.LEAST)
            tell(f"a migration, {name}, cut once", self.counted)
            self.counted.clear()
            count = self.MORE_SECOND_CUTS if common.IS_LONG else self.SECOND_CUTS
            for number, (made, words) in enumerate(random.Random(name).sample(left, min(count, len(left)))):
                self.sweep(f"{name}, cut after {made} calls, {number}", words, ends, self.LEAST_OF_SECOND)
            tell(f"a migration, {name}, cut twice", self.counted)

    def test_of_images_that_come_to_version_2(self):
        if self.loaded:
            self.sweep_twice(IMAGES, [DONE])

    def test_of_images_without_room(self):
        """The version stays as well."""
        if self.loaded:
            self.sweep_twice(WITHOUT_ROOM, [FAILED])

    def test_of_images_with_just_enough_room(self):
        """A cut between the making of a version in its new place and the freeing of its old one leaves one more, for which there is no place then."""
        if self.loaded:
            self.sweep_twice(JUST_ENOUGH, [DONE, FAILED])

    def test_what_is_left_out_is_seen(self):
        """Of a run without one of its syncs some cut leaves what is damaged, or holds something else: without that behind the first mark, behind the number of
        the new record, and behind most others where versions are moved."""
        if not self.loaded:
            return
        for name, least in [("empty", 4), ("gaps", 12)]:
            words = IMAGES[name]().words
            asked = self.asked(words)
            syncs = [at for at, call in enumerate(asked) if call is None]
            seen = [self.is_seen(name, words, asked[:at] + asked[at + 1:], at) for at in syncs]
            with self.case(name):
                self.assertEqual(seen[-4:], [True, False, True, False])
                self.assertGreaterEqual(sum(seen), least)

    def is_seen(self, name, words, asked, first):
        """Whether a cut after so many of these calls, or up to two more, leaves what an image of these words does not hold."""
        wanted = held(LINES, words)[2]
        near = ((file, brought) for made, file, brought in Cuts(name, words, asked).ways() if first <= made <= first + 2)
        return any(self.read(file.after_a_cut(brought.__contains__)) != wanted for file, brought in near)

    def read(self, words):
        try:
            return held(LINES, words)[2]
        except plain_image.BadImage as why:
            return str(why)
