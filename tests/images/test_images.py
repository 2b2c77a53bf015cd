"""The server's subcommands over image files (docs/server.md): what `format` writes, what `inspect` prints, every refusal of an image, files
that cannot be written, and command lines that are none."""

import contextlib
import fcntl
import os
import pathlib
import resource
import signal
import stat
import struct
import subprocess
import tempfile

import plain_image
from common import CAUSE, NEWS, Cases, program, run_program, without_cause
from damaged_images import BASE, ENTRIES_ALONE, ENTRIES_TOGETHER, RECORDS, SLOT, STRANGE, SUPERBLOCKS, entry
from plain_image import BOUND, DIRECTORY_LINE, LAYOUT, LAYOUTS, MOST_VALUE_BYTES, NEWCOMER, PAIR_WORD, PRIMARY, STANDBY, WORDS_OF_LINE, Words
from plain_keyspace import DropKey, Put
from plain_writer import Writer

PROGRAMS = ["server"]

LINE_BYTES = 64
LINES = 4_096
ROLES = {PRIMARY: "primary", STANDBY: "standby"}
# (and of a standby before its copy)
ROLE_NAMES = ROLES | {NEWCOMER: "newcomer"}
DONE, FAILED, MISUSED, PASSING = 0, 1, 2, 75

# docs/refusals.md, those of images and their files.
TEXTS = {
    1: "device fault", 2: "bad magic", 3: "bad version", 4: "wrong size", 5: "full", 6: "stamps exhausted", 7: "damaged image", 16: "wrong role",
    17: "not copied",
}


def refusal(number):
    """What the program tells of a refusal."""
    return f"refusal {number}: {TEXTS[number]}\n".encode()


def image_bytes(lines, words):
    """A file of so many lines with these words, and zeros elsewhere."""
    count = lines * plain_image.WORDS_OF_LINE
    return struct.pack(f"<{count}Q", *(words.get(word, 0) for word in range(count)))


def words_of(data):
    """The words of a file that are not zero."""
    found = struct.unpack(f"<{len(data) // 8}Q", data)
    return {word: value for word, value in enumerate(found) if value}


def told(record, live, pair=0):
    """What `inspect` prints of a record with so many live entries, of the pair of this number."""
    lines = [f"version {record.layout.version}", f"record {record.number}", f"position {record.position}", f"cp {record.cp}", f"cd {record.cd}"]
    lines += [f"epoch {record.epoch}", f"role {ROLE_NAMES[record.role]}", f"floor {record.floor}", f"pair {pair}", f"gaps {len(record.gaps)}"]
    lines += [f"gap {first} {last}" for first, last in record.gaps]
    return "".join(f"{line}\n" for line in [*lines, f"live {live}"]).encode()


def told_of(words, lines=LINES):
    """What `inspect` prints of an image of these words."""
    image = plain_image.read_image(Words(lines, words))
    return told(image.record, len(image.map), image.pair)


def new_image(lines, role, data):
    """The bytes of a new image, of the pair whose number these bytes have."""
    return image_bytes(lines, Writer(lines, role, pair=words_of(data).get(PAIR_WORD, 0)).words)


def format_words(path, lines=LINES, role="primary", journal=0):
    return ["format", "--image", str(path), "--lines", str(lines), f"--journal={journal}", "--role", role]


def limited(size):
    """What a program does first, to be able to write no byte of a file past `size`."""

    def limit():
        # by default the signal would end it
        signal.signal(signal.SIGXFSZ, signal.SIG_IGN)
        resource.setrlimit(resource.RLIMIT_FSIZE, (size, size))

    return limit


class Images(Cases):
    """Tests over files in a folder of their own."""

    @contextlib.contextmanager
    def folder(self):
        with tempfile.TemporaryDirectory() as name:
            yield pathlib.Path(name)

    def run_words(self, words, **options):
        return run_program("server", words, **options)

    def assert_refused(self, words, number, cause=None, status=FAILED, **options):
        """It is refused so, in the line after one that names the file and the cause, which is this one where one is said."""
        finished = self.run_words(words, **options)
        first, last = [line for line in finished.errors.splitlines(keepends=True) if not NEWS.fullmatch(line)]
        self.assertEqual((finished.status, finished.output, last), (status, b"", refusal(number)))
        found = CAUSE.fullmatch(first)
        self.assertEqual(found["file"], os.fsencode(words[words.index("--image") + 1]))
        self.assertIn(cause, (None, found["cause"]))

    def inspect(self, path):
        return self.run_words(["inspect", "--image", str(path)])


class Formatting(Images):
    def test_a_new_image(self):
        for lines, role in [(4_096, PRIMARY), (4_096, STANDBY), (4_103, PRIMARY), (5_000, STANDBY), (40_000, PRIMARY)]:
            with self.case("image", lines=lines, role=role), self.folder() as folder:
                path = folder / "p.img"
                finished = self.run_words(format_words(path, lines, ROLES[role]))
                self.assert_written(finished, b"formatted %d lines, %d entries\n" % (lines, lines // 8 - 18))
                self.assert_bytes(path.read_bytes(), new_image(lines, role, path.read_bytes()))
                # (its owner's alone)
                self.assertEqual(stat.S_IMODE(path.stat().st_mode), 0o600)

    def test_over_another_image(self):
        """All but the extents is new."""
        with self.folder() as folder:
            path = folder / "p.img"
            path.write_bytes(b"\xa5" * LINES * LINE_BYTES)
            self.assert_written(self.run_words(format_words(path, role="standby")), b"formatted 4096 lines, 494 entries\n")
            data, front = path.read_bytes(), plain_image.extents_begin(LINES) * LINE_BYTES
            self.assert_bytes(data[:front], image_bytes(LINES, Writer(LINES, STANDBY).words)[:front])
            self.assert_bytes(data[front:], b"\xa5" * (LINES * LINE_BYTES - front))

    def test_the_number_of_a_pair(self):
        """It is drawn for each image of a primary, also over an image that has one; a standby's has none."""
        with self.folder() as folder:
            path, found = folder / "p.img", []
            for role in 20 * [PRIMARY] + [STANDBY] + 20 * [PRIMARY]:
                self.assert_written(self.run_words(format_words(path, role=ROLES[role])), b"formatted 4096 lines, 494 entries\n")
                found.append(plain_image.read_image(Words(LINES, words_of(path.read_bytes()))).pair)
                self.assert_written(self.inspect(path), told(Writer(LINES, role).record, 0, found[-1]))
            drawn = found[:20] + found[21:]
            self.assertEqual((found[20], len(set(drawn))), (0, len(drawn)))
            self.assertTrue(all(0 < number < BOUND for number in drawn), drawn)
            # (each bit is drawn)
            for bit in range(62):
                self.assertEqual({number >> bit & 1 for number in drawn}, {0, 1}, bit)

    def test_numbers_of_lines_that_no_image_has(self):
        with self.folder() as folder:
            for lines in (0, 1, 4_095, 2**31 + 1, 2**62, 2**64 - 1):
                with self.case("lines", lines=lines):
                    self.assert_refused(format_words(folder / "p.img", lines), 4)
                    self.assertEqual(os.listdir(folder), [])

    def test_a_file_of_another_size(self):
        with self.folder() as folder:
            path = folder / "p.img"
            for size in (0, 1, LINES * LINE_BYTES - 1, LINES * LINE_BYTES + 1, (LINES + 1) * LINE_BYTES):
                with self.case("size", size=size):
                    path.write_bytes(b"\1" * size)
                    self.assert_refused(format_words(path), 4)
                    self.assertEqual(path.read_bytes(), b"\1" * size)

    def test_files_that_cannot_be_made(self):
        with self.folder() as folder:
            (folder / "file").write_bytes(b"")
            for path, cause in [
                (folder, b"is no file"),
                (folder / "none" / "p.img", b"could not be made: its folder is not there"),
                ("none/p.img", b"could not be made: its folder is not there"),
                (folder / "file" / "p.img", b"could not be made: its folder is not there"),
                ("", b"could not be made: no file can have this name"),
                (folder / ("n" * 300), b"could not be made: no file can have this name"),
            ]:
                with self.case("path", path=str(path)):
                    self.assert_refused(format_words(path), 1, cause=cause)

    def test_a_file_that_may_not_grow(self):
        with self.folder() as folder:
            for size in (0, 64, LINES * LINE_BYTES // 2, LINES * LINE_BYTES - 1):
                with self.case("size", size=size):
                    path = folder / f"{size}.img"
                    self.assert_refused(format_words(path), 1, cause=b"could not be made: no file may be as large, there or for this process", preexec_fn=limited(size))
                    self.assertFalse(path.exists())

    def test_a_full_disk(self):
        """A file system of 128 pages, where one may be mounted: an image that it has no room for leaves no file behind."""
        apart = ["unshare", "--mount", "--map-root-user", "sh", "-c"]
        with self.folder() as folder:
            mount = f'mount -t tmpfs -o size=512k none {folder} && {{ "$0" "$@"; status=$?; ls {folder}; exit $status; }}'
            if subprocess.run([*apart, mount, "true"], stderr=subprocess.DEVNULL, check=False).returncode:
                return
            for lines in (4_096, 40_000):
                with self.case("lines", lines=lines):
                    words = [*apart, mount, program("server"), *format_words(folder / "p.img", lines)]
                    ran = subprocess.run(words, capture_output=True, check=False)
                    wanted = (DONE, b"formatted 4096 lines, 494 entries\np.img\n", b"") if lines == LINES else (FAILED, b"", refusal(1))
                    self.assertEqual((ran.returncode, ran.stdout, without_cause(ran.stderr)), wanted)
                    self.assertEqual(b": its file system has no room for it\n" in ran.stderr, lines != LINES)

    def test_output_that_fails(self):
        with self.folder() as folder, open("/dev/full", "wb") as full:
            finished = self.run_words(format_words(folder / "p.img"), stdout=full)
            self.assertEqual(finished.status, FAILED)
            self.assertRegex(finished.errors, rb"\A[^\n]+\n\Z")
            # the image is there all the same
            self.assert_written(self.inspect(folder / "p.img"), told_of(words_of((folder / "p.img").read_bytes())))


class Inspecting(Images):
    def assert_told(self, lines, words, text):
        """So much is printed of an image of these words, and it is as it was."""
        with self.folder() as folder:
            path, data = folder / "p.img", image_bytes(lines, words)
            path.write_bytes(data)
            self.assert_written(self.inspect(path), text)
            self.assert_bytes(path.read_bytes(), data)

    def test_three_keys(self):
        """Three SETs as one group, before a reopening and after it."""
        writer = Writer(LINES, PRIMARY)
        writer.commit([[Put((key,), b"1")] for key in (b"a", b"b", b"c")])
        self.assert_told(LINES, writer.words, b"version 2\nrecord 2\nposition 3\ncp 3\ncd 4100\nepoch 1\nrole primary\nfloor 0\npair 0\ngaps 0\nlive 3\n")
        writer.reopen()
        text = b"version 2\nrecord 3\nposition 3\ncp 4100\ncd 8197\nepoch 1\nrole primary\nfloor 0\npair 0\ngaps 1\ngap 4 4099\nlive 3\n"
        self.assert_told(LINES, writer.words, text)

    def test_new_images(self):
        for lines, role in [(4_096, PRIMARY), (4_103, STANDBY), (40_000, STANDBY)]:
            with self.case("image", lines=lines, role=role):
                name = ROLES[role].encode()
                text = b"version 2\nrecord 1\nposition 0\ncp 0\ncd 4097\nepoch 1\nrole %s\nfloor 0\npair 0\ngaps 0\nlive 0\n" % name
                self.assert_told(lines, Writer(lines, role).words, text)

    def test_versions_that_have_ended_are_not_live(self):
        writer = Writer(LINES, PRIMARY)
        writer.commit([[Put((b"a",), b"1")], [Put((b"a",), b"2")], [Put((b"h", b"f"), b"3")], [Put((b"h", b"g"), b"4")]])
        self.assert_told(LINES, writer.words, told(writer.record, 3))
        writer.commit([[DropKey(b"h")]])
        self.assert_told(LINES, writer.words, told(writer.record, 1))

    def test_32_gaps(self):
        writer = Writer(LINES, STANDBY)
        for count in range(1, 35):
            writer.reopen()
            with self.case("reopenings", count=count):
                self.assert_told(LINES, writer.words, told(writer.record, 0))

    def test_a_full_image(self):
        writer = Writer(LINES, PRIMARY)
        for at in range(0, 494, 64):
            writer.commit([[Put((b"k%d" % key,), b"v")] for key in range(at, min(at + 64, 494))])
        self.assert_told(LINES, writer.words, told(writer.record, 494))

    def test_the_longest_value(self):
        """At a key of one byte it takes 16,385 lines. One that is a byte longer breaks a rule."""
        lines = 20_480
        writer = Writer(lines, PRIMARY)
        writer.commit([[Put((b"a",), MOST_VALUE_BYTES * b"v")]])
        self.assertEqual(writer.words[DIRECTORY_LINE * WORDS_OF_LINE + 4], 16_385)
        self.assert_told(lines, writer.words, told(writer.record, 1))
        with self.folder() as folder:
            path = folder / "p.img"
            path.write_bytes(image_bytes(lines, writer.words | entry(0, value=MOST_VALUE_BYTES + 1)))
            self.assert_refused(["inspect", "--image", str(path)], 7)

    def test_images_that_break_no_rule(self):
        for name, changes in STRANGE:
            with self.case(name):
                self.assert_told(LINES, BASE.words | changes, told_of(BASE.words | changes))

    def test_large_numbers(self):
        changes = dict(enumerate([2**62 - 2, 2**62 - 1], SLOT + 1))
        changes |= {SLOT + 2: 2**62 - 4_098, SLOT + 3: 2**62 - 1, SLOT + 4: 2**62 - 1}
        changes |= {PAIR_WORD: 2**62 - 1}
        self.assert_told(LINES, BASE.words | changes, told_of(BASE.words | changes))


def of_its_version(words):
    """How `inspect` refuses an image, which it reads by whatever version the superblock names."""
    try:
        plain_image.read_image(Words(LINES, words), LAYOUTS.get(words.get(1), LAYOUT))
    except plain_image.BadImage as why:
        return why.number
    return None


class Refusals(Images):
    """Files that are no image are refused with their cause, and stay as they were."""

    def assert_no_image(self, path, number):
        before = path.read_bytes()
        self.assert_refused(["inspect", "--image", str(path)], number)
        self.assertEqual(path.read_bytes(), before)

    def check(self, table):
        with self.folder() as folder:
            path = folder / "p.img"
            for name, number, changes in table:
                with self.case(name):
                    words = BASE.words | changes
                    with self.assertRaises(plain_image.BadImage) as refused:
                        plain_image.read_image(Words(LINES, words))
                    self.assertEqual(refused.exception.number, number)
                    path.write_bytes(image_bytes(LINES, words))
                    self.assert_no_image(path, of_its_version(words))

    def test_superblocks(self):
        self.check(SUPERBLOCKS)

    def test_records(self):
        self.check(RECORDS)

    def test_entries(self):
        self.check(ENTRIES_ALONE + ENTRIES_TOGETHER)

    def test_sizes(self):
        whole = image_bytes(LINES, BASE.words)
        with self.folder() as folder:
            path = folder / "p.img"
            for name, data in [("nothing", b""), ("a line less", whole[:-LINE_BYTES]), ("a byte less", whole[:-1]), ("a byte more", whole + b"\0")]:
                with self.case(name):
                    path.write_bytes(data)
                    self.assert_no_image(path, 4)
            # it has lines enough, and its superblock names another number
            path.write_bytes(whole + bytes(LINE_BYTES))
            self.assert_no_image(path, 4)

    def test_no_file(self):
        with self.folder() as folder:
            for path in (folder / "none.img", folder, ""):
                with self.case("path", path=str(path)):
                    self.assert_refused(["inspect", "--image", str(path)], 1)
            self.assertEqual(os.listdir(folder), [])

    def test_an_image_that_is_open_elsewhere(self):
        with self.folder() as folder:
            path = folder / "p.img"
            data = image_bytes(LINES, BASE.words)
            path.write_bytes(data)
            with open(path, "r+b") as held:
                fcntl.flock(held, fcntl.LOCK_EX | fcntl.LOCK_NB)
                self.assert_refused(format_words(path), 1, cause=b"is held by another process", status=PASSING)
                self.assert_written(self.inspect(path), told_of(BASE.words))
            self.assert_bytes(path.read_bytes(), data)

    def test_an_image_that_may_not_be_written(self):
        with self.folder() as folder:
            path = folder / "p.img"
            path.write_bytes(image_bytes(LINES, BASE.words))
            finished = self.run_words(["inspect", "--image", str(path)], preexec_fn=limited(0))
            self.assert_written(finished, told_of(BASE.words))


class CommandLines(Images):
    """A command line that is none is answered on standard error with status 2, one that asks for help on standard output with 0, before any file is touched."""

    def assert_misused(self, words, naming):
        finished = self.run_words(words)
        self.assertEqual((finished.status, finished.output), (MISUSED, b""))
        self.assertIn(naming, finished.errors)
        self.assertTrue(finished.errors.endswith(b"\n"))

    def assert_helped(self, words, *naming):
        finished = self.run_words(words)
        self.assertEqual((finished.status, finished.errors), (DONE, b""))
        for name in naming:
            self.assertIn(name, finished.output)

    def test_words_that_are_no_command_line(self):
        with self.folder() as folder:
            path = str(folder / "p.img")
            good = format_words(path)
            for name, words, naming in [
                ("another subcommand", ["formats", *good[1:]], b"formats"),
                ("a subcommand in capitals", ["FORMAT", *good[1:]], b"FORMAT"),
                ("an option before the subcommand", [*good[1:3], *good[:1], *good[3:]], b"--image"),
                ("no image", ["format", *good[3:]], b"--image"),
                ("no lines", [*good[:3], *good[5:]], b"--lines"),
                ("no role", good[:5], b"--role"),
                ("no value", good[:-1], b"--role"),
                ("another role", [*good[:-1], "witness"], b"witness"),
                ("a role in capitals", [*good[:-1], "Primary"], b"Primary"),
                *((f"a journal of {value!r}", format_words(path, journal=value), b"--journal") for value in ("", "2", "-1", "01", "yes", "true", " 1")),
                ("no value of a journal", [*good[:5], *good[6:], "--journal"], b"--journal"),
                ("a journal twice", [*good, "--journal", "1"], b"--journal"),
                ("journal without an image", ["journal"], b"--image"),
                ("settle without an image", ["settle"], b"--image"),
                ("settle with a value", ["settle", "--image", path, "--journal", "0"], b"--journal"),
                ("no number", format_words(path, "many"), b"many"),
                ("no digits", format_words(path, ""), b"--lines"),
                ("a number below 0", [*good[:3], "--lines=-1", *good[5:]], b"-1"),
                ("a fraction", format_words(path, "4096.0"), b"4096.0"),
                ("more than 64 bits", format_words(path, 2**64), b"18446744073709551616"),
                ("an option twice", [*good, "--lines", "4096"], b"--lines"),
                ("an unknown option", [*good, "--force"], b"--force"),
                ("a word more", [*good, "now"], b"now"),
                ("inspect without an image", ["inspect"], b"--image"),
                ("inspect of two words", ["inspect", "--image", path, path], path.encode()),
                ("inspect with lines", ["inspect", "--image", path, "--lines", "4096"], b"--lines"),
                ("no subcommand", ["--"], b"Usage: wbl-server"),
                ("bytes that are no text", ["inspect", "--image", b"\xff\xfe"], b"UTF-8"),
            ]:
                with self.case(name):
                    self.assert_misused(words, naming)
                    self.assertEqual(os.listdir(folder), [])

    def test_help(self):
        for words in (["help"], ["--help"], ["-h"]):
            with self.case("help", words=words):
                self.assert_helped(words, b"format", b"inspect", b"primary", b"standby", b"journal", b"settle")
        for words in (["help", "format"], ["format", "--help"], ["format", "--lines", "4096", "-h"]):
            with self.case("help of a subcommand", words=words):
                self.assert_helped(words, b"--image", b"--lines", b"--role", b"standby", b"--journal <0|1>")

    def test_faults_of_the_command_line_come_first(self):
        with self.folder() as folder:
            self.assert_misused(["inspect", "--image", str(folder / "none.img"), "--now"], b"--now")
            self.assert_misused(format_words(folder / "none" / "p.img", "x"), b"--lines")

    def test_a_value_behind_an_equals_sign(self):
        with self.folder() as folder:
            path = folder / "p.img"
            words = ["format", f"--image={path}", "--role=standby", "--lines=4096"]
            self.assert_written(self.run_words(words), b"formatted 4096 lines, 494 entries\n")
            self.assert_written(self.run_words(["inspect", f"--image={path}"]), told(Writer(LINES, STANDBY).record, 0))
