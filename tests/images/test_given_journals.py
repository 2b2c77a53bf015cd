"""Files that are no image for what stands behind their lines, and the subcommands `journal` and `settle` (docs/image.md, "Behind the lines"): what they leave, wherever
one of their calls fails or the power is cut. Where there is no gcc each test that notes calls is skipped, and says so."""

import contextlib
import fcntl
import gzip
import os
import random
import re
import subprocess

import common
import noted_calls
import plain_image
from common import without_cause
from noted_calls import Noting
from pair import PATIENCE
from plain_image import PRIMARY, STANDBY
from plain_journal import LINE_BYTES, Shape, file_of, image_in
from plain_writer import Writer
from test_images import LINES, PASSING, image_bytes, limited, refusal, told_of, words_of
from test_journals import SHAPE, Journaled, behind, with_journal
from test_losing import promote_words
from test_migrating import migrate_words

PROGRAMS = ["server"]

HAS_JOURNAL, HAS_NONE = b"has a journal\n", b"has no journal\n"


class Sizes(Journaled):
    """A head of another file, or none, makes it one of the wrong size: it is refused, and nothing is changed."""

    def test_files_that_are_none(self):
        writer, first, records = behind(STANDBY)
        whole, head = with_journal(first, records), SHAPE.head(1)
        other = Shape(LINES, SHAPE.part - 1)
        changed = lambda at, word: with_journal(first, records, head=[*head[:at], word, *head[at + 1:]])
        with self.folder() as folder:
            path = folder / "s.img"
            for name, data in [
                *((f"cut to {len(whole) - count} bytes", whole[:-count]) for count in (1, 8, 64, 128, LINE_BYTES * SHAPE.part, LINE_BYTES * 2 * SHAPE.part)),
                *((f"{count} bytes more", whole + bytes(count)) for count in (1, 64, 128, LINE_BYTES * LINES)),
                ("another magic", changed(0, 7)), ("another number of lines", changed(2, LINES + 8)), ("another part", changed(3, SHAPE.part + 1)),
                ("a word more", changed(7, 1)), ("the head of another shape", with_journal(first, [], head=other.head(1))),
                ("a superblock of more lines", with_journal(first | {2: LINES + 8}, records)),
                ("a superblock of all lines", with_journal(first | {2: SHAPE.lines_of_file}, records)),
                ("without a head, of another number", image_bytes(SHAPE.lines_of_file - 2, first | {2: LINES + 1})),
            ]:
                with self.case(name):
                    path.write_bytes(data)
                    self.assertEqual(len(image_in(data)), len(data))
                    for words in (["inspect", "--image", str(path)], ["status", "--image", str(path)], promote_words(path), self.opening_words(path),
                                  ["journal", "--image", str(path)], ["settle", "--image", str(path)]):
                        self.assert_refused(words, 7 if "all lines" in name else 4)
                    self.assert_bytes(path.read_bytes(), data)

    def test_what_is_left_of_the_first_head(self):
        """Any words of it: the journal has not begun."""
        writer, first, _ = behind(STANDBY)
        draws = random.Random("first head")
        with self.folder() as folder:
            path = folder / "s.img"
            for number in range(12):
                head = [word if draws.random() < 0.5 else 0 for word in SHAPE.head(1)] if number else SHAPE.head(0)
                with self.case("head", head=head):
                    path.write_bytes(with_journal(writer.words, [], head=head))
                    self.assert_written(self.inspect(path), told_of(writer.words))
                    self.open_again(path)
                    self.assertIn(SHAPE.generation_in(words_of(path.read_bytes())), (1, 2) if head == SHAPE.head(1) else (1,))

    def test_a_release_before(self):
        """It answers 4, and changes nothing: those that knew no journal."""
        former = former_release()
        if former is None:
            print(f"{self.id()}: skipped, since no release before is known here", flush=True)
            return
        with self.folder() as folder:
            path, program = folder / "s.img", folder / "wbl-server"
            program.write_bytes(former)
            program.chmod(0o700)
            data = with_journal(*behind(STANDBY)[1:])
            path.write_bytes(data)
            for words in (["inspect", "--image", str(path)], ["status", "--image", str(path)], promote_words(path), migrate_words(path), self.opening_words(path),
                          ["primary", "--image", str(path), "--listen", "127.0.0.1:0", "--link", "127.0.0.1:1"],
                          ["format", "--image", str(path), "--lines", str(LINES), "--role", "primary"]):
                with self.case("words", words=words[0]):
                    ran = subprocess.run([program, *words], capture_output=True, stdin=subprocess.DEVNULL, timeout=common.SECONDS, check=False)
                    self.assertEqual((ran.returncode, common.without_times(ran.stderr).splitlines()[-1]), (1, b"refusal 4: wrong size"))
                    self.assert_bytes(path.read_bytes(), data)
            self.assert_written(self.run_words(["settle", "--image", str(path)]), HAS_NONE)
            ran = subprocess.run([program, "inspect", "--image", path], capture_output=True, timeout=common.SECONDS, check=False)
            self.assertEqual((ran.returncode, ran.stdout), (0, self.inspect(path).output))


def former_release():
    """The program of the last release that made no journal, from the repository's own history, or None where that is not here."""
    asked = ["git", "-C", str(common.ROOT), "log", "--format=%H", "--", "releases/LIST"]
    with contextlib.suppress(OSError, subprocess.CalledProcessError):
        for commit in subprocess.run(asked, capture_output=True, check=True, text=True).stdout.split():
            data = gzip.decompress(subprocess.run(["git", "-C", str(common.ROOT), "show", f"{commit}:releases/wbl-server.gz"], capture_output=True, check=True).stdout)
            if b"WBLJRN01" not in data and HAS_JOURNAL not in data:
                return data
    return None


class Copies(Journaled):
    """`bin/copy-image` of images that no node runs."""

    def copied(self, *words, **options):
        ran = subprocess.run([common.ROOT / "bin" / "copy-image", *words], capture_output=True, text=True, timeout=common.SECONDS, check=False, **options)
        return ran.returncode, ran.stdout, ran.stderr

    def test_a_copy(self):
        with self.folder() as folder:
            path, copy = folder / "s.img", folder / "copy.img"
            path.write_bytes(with_journal(*behind(STANDBY)[1:]))
            self.assertEqual(self.copied(path, copy), (0, "", ""))
            self.assert_bytes(copy.read_bytes(), path.read_bytes())
            self.assertEqual((copy.stat().st_mode & 0o777, sorted(it.name for it in folder.iterdir())), (0o600, ["copy.img", "s.img"]))
            self.assertEqual(self.copied(path, copy)[0], 1)

    def test_no_room(self):
        """Nothing of a copy is left, and the image is as it was."""
        with self.folder() as folder:
            path, copy, data = folder / "s.img", folder / "copy.img", with_journal(*behind(STANDBY)[1:])
            path.write_bytes(data)
            for size in (0, 64, LINE_BYTES * LINES, len(data) - 1):
                with self.case("size", size=size):
                    status, output, errors = self.copied(path, copy, preexec_fn=limited(size))
                    self.assertEqual((status, output, errors.count("\n")), (1, "", 1), errors)
                    self.assertTrue(errors.startswith(f"copy-image: {path} is not copied to {copy}: "), errors)
                    self.assertEqual([it.name for it in folder.iterdir()], ["s.img"])
            self.assert_bytes(path.read_bytes(), data)
            self.assertEqual(self.copied(path, copy, preexec_fn=limited(len(data))), (0, "", ""))

    def test_none(self):
        """Status 1 and a line that says why, or 2 where the words are not given; no copy is there."""
        with self.folder() as folder:
            path, copy = folder / "s.img", folder / "copy.img"
            path.write_bytes(image_bytes(LINES, behind(STANDBY)[0].words))
            os.mkfifo(folder / "fifo")
            for name, why in [("s.img", "it has no journal: stop its node, and copy it then"), ("none.img", "No such file or directory"), ("fifo", "it is no file"), (".", "it is no file")]:
                with self.case("file", name=name):
                    status, output, errors = self.copied(folder / name, copy)
                    self.assertEqual((status, output), (1, ""))
                    self.assertRegex(errors, rf"\Acopy-image: {re.escape(str(folder / name))} is not copied(?: to {re.escape(str(copy))})?: {why}\n\Z")
                    self.assertFalse(copy.exists())
            path.write_bytes(with_journal(*behind(STANDBY)[1:]))
            self.assertEqual(self.copied(path, folder / "none" / "copy.img")[:2], (1, ""))
            for words in ([], [path], [path, copy, copy]):
                self.assertEqual(self.copied(*words)[0], 2)
            self.assertEqual(sorted(it.name for it in folder.iterdir()), ["fifo", "s.img"])


class GivenAndTaken(Journaled):
    """`journal` and `settle`."""

    def test_there_and_back(self):
        """Twice each: the second changes nothing."""
        with self.folder() as folder:
            path = folder / "s.img"
            for role, layout in [(PRIMARY, plain_image.LAYOUT), (STANDBY, plain_image.LAYOUT), (STANDBY, plain_image.VERSION_1)]:
                with self.case("image", role=role, version=layout.version):
                    writer, first, records = behind(role, layout=layout)
                    plain = image_bytes(LINES, writer.words)
                    path.write_bytes(plain)
                    for _ in range(2):
                        self.assert_written(self.run_words(["journal", "--image", str(path)]), HAS_JOURNAL)
                        self.assert_bytes(path.read_bytes(), file_of(plain))
                    path.write_bytes(with_journal(first, records))
                    self.assert_written(self.run_words(["journal", "--image", str(path)]), HAS_JOURNAL)
                    self.assert_bytes(path.read_bytes(), with_journal(first, records))
                    for _ in range(2):
                        self.assert_written(self.run_words(["settle", "--image", str(path)]), HAS_NONE)
                        self.assert_bytes(path.read_bytes(), plain)

    def test_what_is_no_image(self):
        with self.folder() as folder:
            path = folder / "s.img"
            damaged = Writer(LINES, STANDBY).words | {3: 7}
            for number, data in [(2, bytes(LINE_BYTES * LINES)), (4, b"a note"), (7, image_bytes(LINES, damaged)), (7, with_journal(damaged, []))]:
                for word in ("journal", "settle"):
                    with self.case("word", word=word, number=number):
                        path.write_bytes(data)
                        self.assert_refused([word, "--image", str(path)], number)
                        self.assert_bytes(path.read_bytes(), data)
            path.unlink()
            for word in ("journal", "settle"):
                self.assert_refused([word, "--image", str(path)], 1, b"is not there")
                self.assertFalse(path.exists())

    def test_one_that_is_held(self):
        with self.folder() as folder:
            path = folder / "s.img"
            for word, data in [("journal", image_bytes(LINES, Writer(LINES, STANDBY).words)), ("settle", with_journal(*behind(STANDBY)[1:]))]:
                path.write_bytes(data)
                with self.case("word", word=word), open(path, "rb") as held:
                    fcntl.flock(held, fcntl.LOCK_EX)
                    self.assert_refused([word, "--image", str(path)], 1, b"is held by another process", status=PASSING)
                    self.assert_bytes(path.read_bytes(), data)

    def test_no_room(self):
        """The file keeps its length."""
        with self.folder() as folder:
            path, data = folder / "s.img", image_bytes(LINES, behind(STANDBY)[0].words)
            path.write_bytes(data)
            for size in (len(data), len(data) + 64, LINE_BYTES * SHAPE.lines_of_file - 1):
                with self.case("size", size=size):
                    cause = b"could not be written: no file may be as large, there or for this process"
                    self.assert_refused(["journal", "--image", str(path)], 1, cause, preexec_fn=limited(size))
                    self.assert_bytes(path.read_bytes(), data)

    def test_each_failure(self):
        """A sync fails, or a write in its half: what is left holds the same, and the same word, given again, is done."""
        with self.folder() as folder:
            loaded = noted_calls.library(folder)
            if loaded is None:
                print(f"{self.id()}: skipped, since there is no gcc", flush=True)
                return
            path, (writer, first, records) = folder / "s.img", behind(STANDBY)
            wanted = told_of(writer.words)
            for word, data, done in [("journal", image_bytes(LINES, writer.words), HAS_JOURNAL), ("settle", with_journal(first, records), HAS_NONE)]:
                for way in [*({"fails": number} for number in range(1, 7)), *({"torn": number} for number in (1, 2, 7, 8, 9, 12))]:
                    with self.case("word", word=word, **way):
                        path.write_bytes(data)
                        ran = subprocess.run([*Noting(loaded, path, keeps=False, **way).words, common.program("server"), word, "--image", path], capture_output=True, timeout=PATIENCE, check=False)
                        self.assertIn((ran.returncode, ran.stdout, without_cause(ran.stderr)), [(1, b"", refusal(1)), (0, done, b"")])
                        self.assert_written(self.inspect(path), wanted)
                        self.assert_written(self.run_words([word, "--image", str(path)]), done)
                        self.assert_written(self.inspect(path), wanted)

    def test_powercuts(self):
        """The power is cut at each write and each sync, and at each length: what is left holds the same."""
        with self.folder() as folder:
            loaded = noted_calls.library(folder)
            if loaded is None:
                print(f"{self.id()}: skipped, since there is no gcc", flush=True)
                return
            path, (writer, first, records) = folder / "s.img", behind(STANDBY)
            wanted, draws = writer.words, random.Random("given and taken")
            for word, data in [("journal", image_bytes(LINES, writer.words)), ("settle", with_journal(first, records))]:
                path.write_bytes(data)
                noting = Noting(loaded, path, keeps=False, keeps_bytes=True)
                ran = subprocess.run([*noting.words, common.program("server"), word, "--image", path], capture_output=True, timeout=PATIENCE, check=False)
                self.assertEqual(ran.returncode, 0, ran.stderr)
                for number, left in noted_calls.after_cuts(data, noting.changes(), draws):
                    with self.case("word", word=word, number=number):
                        self.assertEqual(words_of(image_in(left)), wanted)
