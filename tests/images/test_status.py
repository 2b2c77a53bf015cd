"""The subcommand `status` and `bin/wbl-status` over images of the plain writer: what they tell is what the plain reader finds."""

import contextlib
import copy
import fcntl
import io
import itertools
import pathlib
import random
import struct
import subprocess
import tempfile

import common
import plain_image
from plain_image import LAYOUT, NEWCOMER, PRIMARY, STANDBY, VERSION_1, Words
from plain_keyspace import DropKey, Put
from plain_writer import Writer
from standby_node import cut_short
from test_migrating import OTHER_VERSION

PROGRAMS = ["server"]

LINES = 4_096
# Word 4 of an image, and a record's place in it.
ROOT = LAYOUT.root_word


class Looking(common.Cases):
    """Tests over images in a folder of their own."""

    def setUp(self):
        folder = tempfile.TemporaryDirectory()
        self.addCleanup(folder.cleanup)
        self.folder = pathlib.Path(folder.name)

    def made(self, name, words):
        data = bytearray(64 * LINES)
        for at, word in words.items():
            struct.pack_into("<Q", data, 8 * at, word)
        (self.folder / name).write_bytes(data)
        return name

    def run_words(self, *words):
        ran = subprocess.run([common.ROOT / "bin" / "wbl-status", *words], cwd=self.folder, capture_output=True, text=True, timeout=common.SECONDS, check=False)
        return ran.returncode, ran.stdout, ran.stderr


class Status(Looking):
    def told(self, name, words):
        """What is to be told of an image, by the plain reader."""
        device = Words(LINES, words)
        layout = VERSION_1 if words[1] == 1 else LAYOUT
        record = plain_image.read_image(device, layout).record
        versions = plain_image.read_versions(device, record)
        taken, ended = len(versions.counted) + len(versions.gapped), sum(end != 0 for _, end in versions.counted)
        entries, room = layout.entries(LINES), LINES - 8 - LINES // 8
        lines = room - len(plain_image.free_lines(device, record))
        role = {PRIMARY: "primary", STANDBY: "standby", NEWCOMER: "newcomer"}[record.role]
        shares = f"versions {taken} of {entries} ({100 * taken // entries} %, {ended} ended), lines {lines} of {room} ({100 * lines // room} %)"
        return f"{name}: {role}, epoch {record.epoch}, position {record.position}, {shares}, gaps {len(record.gaps)}\n"

    def drawn(self, seed):
        """An image after some groups, of which some versions have ended, and perhaps a reopening after a commit that was cut short."""
        draws, writer = random.Random(f"status {seed}"), Writer(LINES, PRIMARY)
        for _ in range(draws.randrange(30)):
            writer.commit([[draws.choice([Put((b"%d" % draws.randrange(40),), draws.randrange(300) * b"v"), DropKey(b"%d" % draws.randrange(40))])]])
        if draws.randrange(2):
            cut = copy.deepcopy(writer)
            cut.words = cut_short(writer, [Put((b"new",), b"1"), Put((b"other",), 200 * b"2")])
            cut.reopen()
            return cut.words
        return writer.words

    def test_drawn_images(self):
        for seed in range(20):
            with self.case("seed", seed=seed):
                words = self.drawn(seed)
                self.assertEqual(self.run_words(self.made("it.img", words)), (0, self.told("it.img", words), ""))

    def test_two_images(self):
        first, second = Writer(LINES, PRIMARY), Writer(LINES, STANDBY)
        first.commit([[Put((b"a",), b"1")], [Put((b"b",), b"1")], [Put((b"a",), b"2")]])
        second.commit([[Put((b"a",), b"1")]])
        names = [self.made(name, it.words) for name, it in (("one.img", first), ("two.img", second))]
        told = self.told("one.img", first.words) + self.told("two.img", second.words)
        self.assertEqual(self.run_words(*names), (0, f"{told}behind: 2\n", ""))
        told = self.told("two.img", second.words) + self.told("one.img", first.words)
        self.assertEqual(self.run_words(*names[::-1]), (0, f"{told}ahead: 2\n", ""))

    def test_a_pair_that_writes_meanwhile(self):
        """Each image is written to after it was read. The second, which is behind at any moment, does not seem ahead."""
        script = common.script("wbl-status")
        at = itertools.count(5)
        script.read_status = lambda path: script.Status("primary", 1, next(at), 0, 494, 0, 0, 3_576, 0)
        told = io.StringIO()
        with contextlib.redirect_stdout(told):
            self.assertEqual(script.tell(["one.img", "two.img"], 101, None, None), 0)
        self.assertEqual(told.getvalue().splitlines()[-1], "behind: 1")

    def test_a_share(self):
        """Of 494 versions 445 are 90 per cent, by the whole number below; of lines too."""
        for name, count, length, most in [("versions", 445, 1, 90), ("lines", 3, 65_536, 85)]:
            with self.case(name):
                writer = Writer(LINES, PRIMARY)
                for at in range(count):
                    writer.commit([[Put((b"%d" % at,), length * b"v")]])
                made, told = self.made("it.img", writer.words), self.told("it.img", writer.words)
                self.assertEqual(self.run_words("--below", str(most + 1), made), (0, told, ""))
                self.assertEqual(self.run_words("--below", str(most), made), (1, told, ""))

    def test_an_image_of_version_1(self):
        writer = Writer(LINES, PRIMARY, layout=VERSION_1)
        writer.commit([[Put((b"a",), b"1")], [Put((b"b",), b"1")], [Put((b"a",), b"2")]])
        writer.reopen()
        self.assertEqual(self.run_words(self.made("it.img", writer.words)), (0, self.told("it.img", writer.words), ""))

    def test_what_is_no_image(self):
        (self.folder / "text").write_text("text\n", encoding="ascii")
        words = Writer(LINES, PRIMARY).words
        (self.folder / "cut").write_bytes((self.folder / self.made("it.img", words)).read_bytes()[:100])
        self.made("torn", words | {ROOT: 2})
        self.made("later", words | {1: 9})
        for name, why in [("later", "it is of another version"), ("text", "it does not begin as one"), ("none", "No such file or directory"), ("cut", "it ends too early"), ("torn", "its record is not that of its root")]:
            with self.case(name):
                self.assertEqual(self.run_words(name), (2, "", f"{name}: no image that can be read: {why}\n"))


class Kept(Looking):
    """What `bin/wbl-status --least` keeps for a fail over, and `--role`."""

    def images(self, primary, standby, epoch=1):
        """The images of a pair at these positions, the primary's of this epoch."""
        for name, role, count in (("a.img", PRIMARY, primary), ("b.img", STANDBY, standby)):
            writer = Writer(LINES, role)
            for at in range(count):
                writer.commit([[Put((b"%d" % at,), b"v")]])
            if role == PRIMARY:
                writer._put_record(writer.record._replace(epoch=epoch))
            self.made(name, writer.words)

    def keep(self, *names):
        """The status of keeping what these images have in common, what was told of it, and what is kept then."""
        status, _, told = self.run_words("--least", "least", *names)
        path = self.folder / "least"
        self.assertFalse((self.folder / "least.new").exists())
        return status, told, path.read_text(encoding="ascii") if path.exists() else None

    def test_what_both_have(self):
        """Of two images what both have come to, of a standby's alone what it has; it only rises."""
        self.images(5, 3)
        self.assertEqual(self.keep("a.img", "b.img"), (0, "", "3\n"))
        self.images(7, 6)
        self.assertEqual(self.keep("b.img"), (0, "", "6\n"))
        self.images(7, 7)
        self.assertEqual(self.keep("b.img", "a.img"), (0, "", "7\n"))
        self.assertEqual(self.keep("a.img", "b.img"), (0, "", "7\n"))

    def test_an_image_that_lacks_something(self):
        """Told, whichever it is, and the file stays."""
        (self.folder / "least").write_text("5\n", encoding="ascii")
        for primary, standby in ((4, 6), (6, 4), (4, 4), (6, 0)):
            with self.case("positions", primary=primary, standby=standby):
                self.images(primary, standby)
                told = f"least says that what was answered came to position 5, and an image is at {min(primary, standby)} alone\n"
                self.assertEqual(self.keep("a.img", "b.img"), (3, told, "5\n"))

    def test_a_primary_alone(self):
        """It is only looked whether it lacks something: it may hold what its standby never will."""
        self.images(5, 5)
        self.assertEqual(self.keep("a.img"), (0, "", None))
        (self.folder / "least").write_text("5\n", encoding="ascii")
        self.assertEqual(self.keep("a.img"), (0, "", "5\n"))
        self.images(4, 5)
        self.assertEqual(self.keep("a.img"), (3, "least says that what was answered came to position 5, and an image is at 4 alone\n", "5\n"))

    def test_what_tells_nothing(self):
        """Two primaries, a pair of two epochs, a standby that holds nothing: nothing is kept, and what is there stays."""
        nobody, empty = "these are not the images of a pair, or of a standby", "no standby holds anything yet"
        for name, counts, images, told in [
            ("two primaries", (5, 5, 1), ["a.img", "a.img"], nobody),
            ("two epochs", (5, 5, 2), ["a.img", "b.img"], nobody),
            ("an empty standby", (5, 0, 1), ["a.img", "b.img"], empty),
            ("an empty standby of an older epoch", (5, 0, 2), ["a.img", "b.img"], empty),
        ]:
            with self.case(name):
                self.images(*counts)
                self.assertEqual(self.keep(*images), (1, f"least stays: {told}\n", None))

    def test_roles(self):
        self.images(2, 2)
        self.assertEqual(self.run_words("--role", "primary", "a.img")[::2], (0, ""))
        self.assertEqual(self.run_words("--role", "standby", "a.img")[::2], (1, "a.img is no standby's image\n"))
        self.assertEqual(self.run_words("--role", "primary", "a.img", "b.img")[::2], (1, "b.img is no primary's image\n"))
        self.assertEqual(self.run_words("--role", "primary", "none.img")[0], 2)


class OfTheServer(Status):
    """The subcommand tells the same of the same images, a number a line."""

    def run_words(self, *names):
        options = [word for name, option in zip(names, ("--image", "--behind")) for word in (option, name)]
        ran = common.run_program("server", ["status", *options], cwd=self.folder)
        return ran.status, ran.output.decode(), ran.errors.decode()

    def told(self, name, words):
        device = Words(LINES, words)
        image = plain_image.read_image(device)
        record = image.record
        versions = plain_image.read_versions(device, record)
        room = LINES - 8 - LINES // 8
        rows = {
            "role": {PRIMARY: "primary", STANDBY: "standby"}[record.role], "epoch": record.epoch, "pair": image.pair, "position": record.position,
            "versions": len(versions.counted), "ended": sum(end != 0 for _, end in versions.counted), "cut": len(versions.gapped),
            "entries": LAYOUT.entries(LINES), "lines": room - len(plain_image.free_lines(device, record)), "room": room, "gaps": len(record.gaps),
        }
        return "".join(f"{word} {value}\n" for word, value in rows.items())

    def test_two_images(self):
        first, second = Writer(LINES, PRIMARY, pair=2**62 - 1), Writer(LINES, STANDBY)
        first.commit([[Put((b"a",), b"1")], [Put((b"b",), b"1")], [Put((b"a",), b"2")]])
        second.commit([[Put((b"a",), b"1")]])
        pairs = [("one.img", first), ("two.img", second)]
        names, told = [self.made(name, it.words) for name, it in pairs], [self.told(name, it.words) for name, it in pairs]
        self.assertEqual(self.run_words(*names), (0, "".join(told) + "behind 2\n", ""))
        self.assertEqual(self.run_words(*names[::-1]), (0, "".join(told[::-1]) + "ahead 2\n", ""))

    def test_what_is_no_image(self):
        for name, data, cause, number, text in [
            ("none.img", None, "is not there", 1, "device fault"),
            ("short.img", b"WBLIMG01", "has not as many lines as an image, or as were asked for", 4, "wrong size"),
            ("zeros.img", bytes(64 * LINES), "is what a format has left unfinished: give that again", 2, "bad magic"),
        ]:
            with self.case(name):
                if data is not None:
                    (self.folder / name).write_bytes(data)
                self.assertEqual(self.run_words(name), (1, "", f"{name} {cause}\nrefusal {number}: {text}\n"))
        one = self.made("one.img", Writer(LINES, PRIMARY).words)
        told = self.told(one, Writer(LINES, PRIMARY).words)
        self.assertEqual(self.run_words(one, "none.img"), (1, told, "none.img is not there\nrefusal 1: device fault\n"))

    def test_an_image_that_is_in_use(self):
        """It takes no lock. One that another process holds and that breaks a rule changed while it was read."""
        name = self.made("it.img", Writer(LINES, PRIMARY).words)
        with open(self.folder / name, "r+b") as held:
            fcntl.flock(held, fcntl.LOCK_EX | fcntl.LOCK_NB)
            self.assertEqual(self.run_words(name)[0], 0)
            held.seek(8 * 3)
            held.write(b"\1")
            held.flush()
            self.assertEqual(self.run_words(name), (75, "", "in use\n"))
        self.assertEqual(self.run_words(name), (1, "", f"{name} breaks a rule of an image\nrefusal 7: damaged image\n"))

    def test_an_image_of_version_1(self):
        name = self.made("it.img", Writer(LINES, PRIMARY, layout=VERSION_1).words)
        self.assertEqual(self.run_words(name), (1, "", f"{name} {OTHER_VERSION.decode()}\nrefusal 3: bad version\n"))

    # (the subcommand has no such option)
    test_a_share = None
