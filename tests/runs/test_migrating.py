"""The server's subcommand `migrate` (docs/server.md, "From version 1 of the format to version 2"): what it makes of an image, and what it refuses."""

import fcntl
import os
import pathlib
import tempfile

import plain_image
from common import run_program
from damaged_images import entry, text, whole_entry
from old_images import IMAGES, LINES, WITHOUT_ROOM, OldWriter, held, promoted, with_all_last_entries, with_gaps, with_nothing_last
from pair import MEMORY, inspected
from plain_image import BOUND, DAMAGED, GAPS_WORD, HALFWAY, PRIMARY, STAMPS_BETWEEN_RECORDS, VERSION_1, VERSION_2, WORDS_OF_LINE, Words, extents_begin
from plain_keyspace import Put
from plain_writer import Writer
from test_images import FAILED, LINE_BYTES, MISUSED, PASSING, ROLES, Images, image_bytes, limited, words_of

PROGRAMS = ["server"]

MIGRATED = b"migrated to version 2, 494 entries\n"
OTHER_VERSION = b"is an image of another version; wbl-server migrate brings one of version 1 to version 2"
NO_PLACE = b"has no place for a version that has to move"
NOWHERE = "192.0.2.1:7000"


def migrate_words(path):
    return ["migrate", "--image", str(path)]


def migrated_record(writer):
    """The record that a migration leaves: the image is opened again, its gaps are cleared, each live version in the last entries is moved under a stamp and a
    record of its own, and the record of version 2 is written, by which all that has ended may have been freed."""
    opened = plain_image.reopened(writer.record)[-1]
    moved, cleared = writer.last_entries()[0], len(opened.gaps)
    cp = opened.cp + moved
    number, cd = opened.number + cleared + moved + 1, cp + STAMPS_BETWEEN_RECORDS
    return opened._replace(number=number, cp=cp, cd=cd, gaps=(), layout=VERSION_2, floor=opened.position)


class Migrating(Images):
    """Tests over an image in a folder of their own, where a sync takes no time, if the machine has such a folder."""

    def setUp(self):
        folder = tempfile.TemporaryDirectory(prefix="wbl-migrating-", dir=MEMORY if os.access(MEMORY, os.W_OK) else None)
        self.addCleanup(folder.cleanup)
        self.path = pathlib.Path(folder.name, "p.img")

    def write(self, words):
        """Makes the image one of these words."""
        self.path.write_bytes(image_bytes(LINES, words))

    def held(self):
        return held(LINES, words_of(self.path.read_bytes()))

    def assert_migrates(self, words):
        """It comes to version 2, and holds what an image of these words does."""
        self.assert_written(run_program("server", migrate_words(self.path)), MIGRATED)
        self.assert_is_migrated(words)

    def assert_is_migrated(self, words):
        layout, record, found = self.held()
        self.assertEqual((layout, record.gaps, found), (VERSION_2, (), held(LINES, words)[2]))

    def assert_unchanged(self, words, number, cause=None, **options):
        """It is refused so, and the image is as it was, byte for byte."""
        before = self.path.read_bytes()
        self.assert_refused(words, number, cause, **options)
        self.assert_bytes(self.path.read_bytes(), before)


class Upgrades(Migrating):
    def test_three_records(self):
        """Three records of a primary and two gaps, as `inspect` prints them before and after; and the same words once more, which change nothing."""
        writer = OldWriter()
        writer.commit([[Put((key,), b"1")] for key in (b"a", b"b", b"c")])
        writer.reopen()
        writer.reopen()
        self.write(writer.words)
        text_before = b"record 4\nposition 3\ncp 8197\ncd 12294\nepoch 1\nrole primary\nfloor 0\npair 0\ngaps 2\ngap 4 4099\ngap 4101 8196\nlive 3\n"
        self.assert_written(self.inspect(self.path), b"version 1\n" + text_before)
        self.assert_migrates(writer.words)
        # it was opened again, three gaps were cleared, and the record of version 2 was written
        self.assert_written(self.inspect(self.path), b"version 2\nrecord 9\nposition 3\ncp 12294\ncd 16391\nepoch 1\nrole primary\nfloor 3\npair 0\ngaps 0\nlive 3\n")
        migrated = self.path.read_bytes()
        self.assert_written(run_program("server", migrate_words(self.path)), MIGRATED)
        self.assert_bytes(self.path.read_bytes(), migrated)

    def test_each_image(self):
        """Gaps, versions in the last entries, hashes, long values, each role: the map, the position, the epoch, the role and what has ended stay."""
        for name, make in IMAGES.items():
            with self.case(name):
                writer = make()
                self.write(writer.words)
                before = inspected(self.path)
                self.assertEqual((before["version"], before["gaps"]), (1, len(writer.record.gaps)))
                self.assert_migrates(writer.words)
                after, record = inspected(self.path), migrated_record(writer)
                for it in ("position", "epoch", "role", "live"):
                    self.assertEqual(after[it], before[it])
                self.assertEqual(self.held()[1], record)
                self.assertEqual((after["version"], after["record"], after["cp"], after["cd"], after["gaps"]), (2, record.number, record.cp, record.cd, 0))

    def test_the_last_entries_are_in_use(self):
        """So the images are what they are said to be."""
        self.assertEqual(sum(with_all_last_entries().last_entries()), VERSION_2.lacks)
        self.assertEqual(len(with_all_last_entries().record.gaps), VERSION_1.most_gaps)
        for name in ("gaps", "each of the last entries", "hashes", "long values", "promoted"):
            with self.case(name):
                live, ended, _ = IMAGES[name]().last_entries()
                self.assertTrue(live and ended)
        self.assertEqual((promoted().record.epoch, promoted().role), (2, PRIMARY))

    def test_one_of_version_2(self):
        """It is kept as it is, with its gaps."""
        for role in ROLES:
            with self.case("role", role=ROLES[role]):
                writer = Writer(LINES, role)
                writer.commit([[Put((b"a",), b"1")], [Put((b"a",), b"2")]])
                writer.reopen()
                self.write(writer.words)
                self.assert_written(run_program("server", migrate_words(self.path)), MIGRATED)
                self.assert_bytes(self.path.read_bytes(), image_bytes(LINES, writer.words))

    def test_one_that_is_halfway(self):
        """Whatever the lines hold that are no entries any more."""
        first = VERSION_2.slot_word(LINES, 0)
        for name, garbage in [("nothing", {}), ("garbage", dict.fromkeys(range(first, first + VERSION_2.lacks * WORDS_OF_LINE), 2**64 - 1))]:
            with self.case(name):
                words = with_nothing_last().words | garbage | {1: HALFWAY.version}
                self.write(words)
                self.assertEqual(inspected(self.path)["version"], 3)
                self.assert_migrates(words)

    def test_output_that_fails(self):
        writer = with_gaps()
        self.write(writer.words)
        with open("/dev/full", "wb") as full:
            finished = run_program("server", migrate_words(self.path), stdout=full)
        self.assertEqual(finished.status, FAILED)
        self.assertRegex(finished.errors, rb"\A[^\n]+\n\Z")
        # the image is migrated all the same
        self.assert_is_migrated(writer.words)

    def test_command_lines(self):
        self.write(with_gaps().words)
        before = self.path.read_bytes()
        for words in (["migrate"], [*migrate_words(self.path), "--lines", "4096"], [*migrate_words(self.path), "now"]):
            with self.case("words", words=words):
                self.assertEqual(run_program("server", words)[:2], (MISUSED, b""))
        self.assert_bytes(self.path.read_bytes(), before)


def broken_images():
    """Images of version 1 with one rule broken: of each its name, the refusal, and the words that are others than those of `with_gaps`."""
    writer = with_gaps()
    record, first = writer.record, min(entry for entry in writer.live if entry >= writer.kept)
    slot = VERSION_1.slot_word(LINES, record.number)
    other = next(place for at, (name, place) in writer._versions.items() if name == (b"b",) and at in writer.live)
    return writer, [
        ("no magic", 2, {0: 0}),
        ("version 0", 3, {1: 0}),
        ("version 4", 3, {1: 4}),
        ("a line more", 4, {2: LINES + 1}),
        ("its number of entries in version 2", DAMAGED, {3: VERSION_2.entries(LINES)}),
        ("a root without a record", DAMAGED, {VERSION_1.root_word: record.number + 2}),
        ("no root", DAMAGED, {VERSION_1.root_word: 0}),
        ("a record of version 2 alone", DAMAGED, {VERSION_1.root_word: 0, VERSION_2.root_word: record.number}),
        ("cd is not behind cp", DAMAGED, {slot + 3: record.cd + 1}),
        ("epoch 0", DAMAGED, {slot + 4: 0}),
        ("nine gaps", DAMAGED, {slot + 5: 9}),
        ("a gap up to cp", DAMAGED, {slot + GAPS_WORD + 3: record.cp}),
        ("no role", DAMAGED, {slot + VERSION_1.role_word: 0}),
        ("a fourth role", DAMAGED, {slot + VERSION_1.role_word: 4}),
        ("a newcomer with versions", DAMAGED, {slot + VERSION_1.role_word: 3}),
        ("a begin at cd in the last entry", DAMAGED, entry(VERSION_1.entries(LINES) - 1, begin=record.cd)),
        ("an extent in the directory, of one of the last entries", DAMAGED, entry(first, line=100)),
        ("an extent of another, of one of the last entries", DAMAGED, entry(first, line=other.line)),
        ("a value too long, of one of the last entries", DAMAGED, entry(first, value=2**20 + 1)),
        ("a key that is live twice, in the last entry too", DAMAGED, whole_entry(VERSION_1.entries(LINES) - 1, 1, 0, 1, 600, 1, 1, 1, 1) | text(600, b"b9")),
    ]


def broken_halfway():
    """Images that are halfway with one rule of entries broken: of each its name, and the words that are others than those of `with_nothing_last`."""
    writer = with_nothing_last()
    record, first = writer.record, extents_begin(LINES)
    return writer, [
        ("a begin at cd", entry(100, begin=record.cd)),
        ("an end at cd in a free entry", entry(VERSION_2.entries(LINES) - 1, end=record.cd)),
        ("a position above the record's", entry(1, position=record.position + 1)),
        ("an extent in the lines of the last entries", entry(1, line=first - 1)),
        ("an extent of another, which has ended", entry(1, line=first)),
        ("an extent behind the last line", entry(1, line=LINES)),
        ("more lines than its lengths take", entry(1, lines=2)),
        ("a third kind", entry(1, kind=3)),
        ("a key too long", entry(1, lengths=513)),
        ("a value too long", entry(1, value=2**20 + 1)),
        ("a key that is live twice", whole_entry(VERSION_2.entries(LINES) - 1, 1, 0, 1, 600, 1, 1, 1, 1) | text(600, b"b9")),
        ("a key that is a hash too", whole_entry(VERSION_2.entries(LINES) - 1, 1, 0, 1, 600, 1, 2, 65_537, 1) | text(600, b"bf9")),
    ]


class Refusals(Migrating):
    """What is refused leaves the image as it was, byte for byte, or with the same records under version 1."""

    def test_nodes_and_promotions_of_another_version(self):
        """They name the command that helps."""
        for role in ROLES:
            writer = OldWriter(role)
            writer.commit([[Put((b"a",), b"1")]])
            for layout in (VERSION_1, HALFWAY):
                self.write(writer.words | {1: layout.version})
                for words in (["primary", "--link", NOWHERE, "--listen", NOWHERE], ["standby", "--listen", NOWHERE], ["promote", "--old-primary-stopped"]):
                    with self.case("words", role=ROLES[role], version=layout.version, words=words):
                        self.assert_unchanged([words[0], "--image", str(self.path), *words[1:]], 3, OTHER_VERSION)

    def test_images_that_break_a_rule(self):
        writer, table = broken_images()
        for name, number, changes in table:
            with self.case(name):
                words = writer.words | changes
                with self.assertRaises(plain_image.BadImage) as refused:
                    plain_image.read_image(Words(LINES, words), VERSION_1)
                self.assertEqual(refused.exception.number, number)
                self.write(words)
                self.assert_unchanged(migrate_words(self.path), number)

    def test_halfway_images_that_break_a_rule(self):
        """No migration leaves such a one, and none goes on from it."""
        writer, table = broken_halfway()
        halfway = writer.words | {1: HALFWAY.version}
        plain_image.read_image(Words(LINES, halfway), HALFWAY)
        for name, changes in table:
            with self.case(name):
                words = halfway | changes
                with self.assertRaises(plain_image.BadImage) as refused:
                    plain_image.read_image(Words(LINES, words), HALFWAY)
                self.assertEqual(refused.exception.number, DAMAGED)
                self.write(words)
                self.assert_unchanged(migrate_words(self.path), DAMAGED)

    def test_one_that_is_halfway_with_a_gap(self):
        """No migration leaves such a one."""
        self.write(with_gaps().words | {1: HALFWAY.version})
        self.assert_unchanged(migrate_words(self.path), DAMAGED)

    def test_no_room(self):
        """The image keeps its records, and its version."""
        for name, make in WITHOUT_ROOM.items():
            with self.case(name):
                writer = make()
                self.write(writer.words)
                for _ in range(2):
                    self.assert_refused(migrate_words(self.path), 5, NO_PLACE)
                    layout, _, found = self.held()
                    self.assertEqual((layout, found), (VERSION_1, held(LINES, writer.words)[2]))

    def test_the_end_of_a_counter(self):
        """Wherever a migration comes to it the records stay."""
        for name, number, last in [("cd", 1, BOUND - 1), *((f"the record's number, {before} before it", BOUND - 1 - before, 0) for before in range(8))]:
            with self.case(name):
                writer = OldWriter()
                writer.commit_last([[Put((b"a",), b"1")], [Put((b"b",), b"2")]])
                cd = last or writer.record.cd
                writer.record = writer.record._replace(number=number, cp=cd - STAMPS_BETWEEN_RECORDS, cd=cd)
                writer._put_record()
                self.write(writer.words)
                # (of the numbers five are used: by the opening, by the clearing of its gap, by two moves and by the record of version 2)
                if not last and number + 5 < BOUND:
                    self.assert_migrates(writer.words)
                    continue
                self.assert_refused(migrate_words(self.path), 6)
                self.assertEqual(self.held()[2], held(LINES, writer.words)[2])

    def test_files_that_are_no_image(self):
        whole = image_bytes(LINES, with_gaps().words)
        for name, data in [("nothing", b""), ("a line less", whole[:-LINE_BYTES]), ("a byte more", whole + b"\0"), ("a line more", whole + bytes(LINE_BYTES))]:
            with self.case(name):
                self.path.write_bytes(data)
                self.assert_unchanged(migrate_words(self.path), 4)

    def test_no_file(self):
        for path, cause in [
            (self.path, b"is not there"),
            (self.path.parent / "none" / "p.img", b"is not there"),
            (self.path.parent, b"is no file"),
        ]:
            with self.case("path", path=str(path)):
                self.assert_refused(migrate_words(path), 1, cause)
        self.assertEqual(os.listdir(self.path.parent), [])

    def test_one_that_another_process_holds(self):
        self.write(with_gaps().words)
        with open(self.path, "r+b") as other:
            fcntl.flock(other, fcntl.LOCK_EX | fcntl.LOCK_NB)
            self.assert_unchanged(migrate_words(self.path), 1, b"is held by another process", status=PASSING)

    def test_one_that_may_not_be_written(self):
        self.write(with_gaps().words)
        self.assert_unchanged(migrate_words(self.path), 1, b"could not be written: no file may be as large, there or for this process", preexec_fn=limited(0))
