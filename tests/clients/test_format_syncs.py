"""What `format` asks of its files, and what becomes of them where a sync fails, by a library that is loaded before it (noted_calls). Where there is no gcc each
test is skipped, and says so."""

import itertools
import subprocess

import common
from noted_calls import Call, Noting
from pair import PATIENCE
from plain_journal import image_in
from test_syncs import FAULT, LINES, LINES_OF_FILE, NotedCases

PROGRAMS = ["server"]
IS_SLOW = True

# How many blocks an opening reads and writes back of a file with a journal.
BLOCKS_OF_IMAGE, BLOCKS_BEHIND = LINES // 1_024, -(-(LINES_OF_FILE - LINES) // 1_024)


def settled(calls, image):
    """What a `format` asked of its files before its first write: words alone, with `file` or `folder` behind those of a sync."""
    names = {str(image): "file", str(image.parent.resolve()): "folder"}
    before = calls[:next((at for at, call in enumerate(calls) if call.word == "write"), len(calls))]
    return [f"{call.word} {names[call.path]}" for call in before if call.path in names and not call.failed and call.word != "open"]


class Formatting(NotedCases):
    """What `format` asks of its files. It catches one after which a crash takes the file, its length or its name away."""

    MADE = ["made file", "length file", "sync file", "sync folder"]
    WRITTEN_BACK = [("write", 65_536 * block) for block in range(BLOCKS_OF_IMAGE)]
    BEHIND = [("write", 64 * LINES + 65_536 * block) for block in range(BLOCKS_BEHIND)]
    WRITES = [("data", None), *4 * [("write", 0), ("data", None)]]

    def format(self, image, role, keeps, journal=0):
        noting = Noting(self.loaded, image, keeps=keeps)
        words = [common.program("server"), "format", "--image", image, "--lines", str(LINES), "--role", role, "--journal", str(journal)]
        ran = subprocess.run([*noting.words, *words], capture_output=True, timeout=PATIENCE)
        self.assertEqual((ran.returncode, ran.stderr), (0, b""))
        return noting

    def assert_writes(self, noting, journal=0):
        """The file is written back, with a sync behind it; then four writes from the first byte on, the last of which is that of the number of the pair, each with
        a sync, and nothing more: the journal has not begun."""
        calls = [call for call in noting.calls() if call.word in ("write", "data")]
        wanted = [*self.WRITTEN_BACK, *self.BEHIND * journal, *self.WRITES]
        self.assertEqual([(call.word, call.numbers[0] if call.numbers else None) for call in calls], wanted)
        self.assertEqual({call.path for call in calls}, {str(noting.image)})

    def test_a_new_file(self):
        if not self.loaded:
            return
        for role, journal in itertools.product(("primary", "standby"), (0, 1)):
            with self.case("role", role=role, journal=journal):
                noting = self.format(self.folder / f"{role}{journal}.img", role, keeps=False, journal=journal)
                self.assertEqual(settled(noting.calls(), noting.image), self.MADE)
                length = next(call for call in noting.calls() if call.word == "length")
                self.assertEqual(length.numbers, (64 * (LINES_OF_FILE if journal else LINES),))
                self.assert_writes(noting, journal)

    def test_a_file_that_is_there(self):
        """Whoever made it may have ended before it was durable, so it is synced once more, with its folder."""
        if not self.loaded:
            return
        image = self.folder / "there.img"
        for fill in (b"\0", b"\xff"):
            with self.case("filled", fill=fill):
                image.write_bytes(64 * LINES * fill)
                noting = self.format(image, "primary", keeps=True)
                self.assertEqual(settled(noting.calls(), image), ["sync file", "sync folder"])
                self.assert_writes(noting)
                # all that it wrote was durable once it said so
                self.assert_bytes(noting.synced.read_bytes(), image.read_bytes())

    def test_each_sync_fails(self):
        """Status 1 and the text of a fault, and nothing is written behind it. A file that is not whole yet is not there any more."""
        if not self.loaded:
            return
        for fails in range(1, 8):
            with self.case("sync", number=fails):
                image = self.folder / f"fails{fails}.img"
                noting = Noting(self.loaded, image, fails=fails, keeps=False)
                words = [common.program("server"), "format", "--image", image, "--lines", str(LINES), "--role", "primary", "--journal", "0"]
                ran = subprocess.run([*noting.words, *words], capture_output=True, timeout=PATIENCE)
                self.assertEqual((ran.returncode, ran.stdout, common.without_cause(ran.stderr)), (1, b"", FAULT))
                # (what is held at the file, and why it could not be made or used, is looked for by opening it)
                calls = [call for call in noting.calls() if call.word != "open"]
                (at,) = (at for at, call in enumerate(calls) if call.failed)
                self.assertIn(calls[at].word, ("sync", "data"))
                self.assertEqual(image.exists(), fails > 3)
                # (for the cause one that is there is written back once more, and one that was taken away is made once more, and taken away again)
                self.assertEqual([call.word for call in calls[at + 1:] if call.word != "write"], ["data"] if fails > 3 else ["made", "length", "sync"])
                written_back = [("write", 65_536 * block) for block in range(LINES // 1_024)]
                self.assertEqual([(call.word, call.numbers[0]) for call in calls[at + 1:] if call.word == "write"], written_back if fails > 3 else [])

    def test_what_is_read_is_durable(self):
        """An image of which a sync failed, so that the system has in memory what the disk has not, is opened again: then all of it is durable."""
        if not self.loaded:
            return
        lacking = 0
        for fails, journal in itertools.product(range(1, 8), (0, 1)):
            with self.case("sync", number=fails, journal=journal):
                image = self.folder / f"read{fails}{journal}.img"
                self.format(image, "standby", keeps=False, journal=journal)
                for goes_on, number, statuses in [(False, fails, (0, 1)), (True, 0, (0, 1))]:
                    noting = Noting(self.loaded, image, fails=number, goes_on=goes_on, lasts=True)
                    lacking += goes_on and image_in(noting.synced.read_bytes()) != image_in(image.read_bytes())
                    words = [common.program("server"), "promote", "--image", image, "--old-primary-stopped"]
                    ran = subprocess.run([*noting.words, *words], capture_output=True, timeout=PATIENCE)
                    self.assertIn(ran.returncode, statuses)
                self.assertNotEqual(ran.stderr, FAULT)
                self.assert_bytes(image_in(noting.synced.read_bytes()), image_in(image.read_bytes()))
        self.assertTrue(lacking)

    def test_what_is_left_out_is_seen(self):
        """Of a format that left out one of them."""
        image = self.folder / "none.img"
        path, folder = str(image), str(image.parent.resolve())
        whole = [Call("made", path, (), False), Call("length", path, (64 * LINES,), False), Call("sync", path, (), False),
                 Call("open", folder, (), False), Call("sync", folder, (), False), Call("write", path, (0, 64), False)]
        self.assertEqual(settled(whole, image), self.MADE)
        for at in (0, 1, 2, 4):
            self.assertNotEqual(settled(whole[:at] + whole[at + 1:], image), self.MADE)
        self.assertNotEqual(settled(whole[:4] + [whole[5], whole[4]], image), self.MADE)
        self.assertNotEqual(settled(whole[:4] + [whole[4]._replace(failed=True), whole[5]], image), self.MADE)
