"""A pair whose images have journals (docs/image.md, "Behind the lines"): what its nodes ask of their files is noted, and files are made of what power cuts
leave at each write and sync, in serving, in checkpoints and in openings; kills. What is in a file is told by the plain model, and of
some by the program. It catches lines that are put in place before their records are durable, a generation that begins too early, and a reply before a sync.
Where there is no gcc each test that notes calls is skipped, and says so."""

import contextlib
import itertools
import os
import pathlib
import random
import shutil
import subprocess
import tempfile

import common
import noted_calls
import plain_image
import plain_journal
from load import WRITERS, Load
from noted_calls import Noting, after_cuts
from pair import PATIENCE, Ended, PairCases, inspected
from plain_journal import Shape, image_in
from plain_replies import integer
from standby_node import NOWHERE
from test_images import words_of

PROGRAMS = ["server"]
IS_SLOW = True

LINES = 4_096
SHAPE = Shape.of_image(LINES)
KEYS = 7
ROUNDS = 6
# (of kills with --long)
MORE_ROUNDS = 100


# What starts a script with file systems of its own.
APART = [shutil.which("unshare") or "unshare", "--mount", "--map-root-user", "sh", "-c"]


def generation_of(data):
    return plain_journal.shape_in(data)[1]


def read(data):
    """The record and the map of the image that an opening makes of these bytes."""
    found = plain_image.read_image(plain_image.Words(LINES, words_of(image_in(data))))
    return found.record, found.map


def expected(count):
    """The map after so many calls: counters by turns."""
    counts = {}
    for number in range(count):
        key = b"n%d" % (number % KEYS)
        counts[key,] = b"%d" % (int(counts.get((key,), b"0")) + 1)
    return counts


class Cuts(PairCases):
    """One node is started so that its calls are noted, and its counters count."""

    # How many calls are answered while they are noted: a part has room for the records of some 60, and each replaces a version.
    CALLS = 150
    # How many of the files that cuts leave are opened by the program.
    OPENED = 12

    def setUp(self):
        super().setUp()
        folder = tempfile.TemporaryDirectory(prefix="wbl-journaled-")
        self.addCleanup(folder.cleanup)
        self.folder, self.loaded = pathlib.Path(folder.name), noted_calls.library(folder.name)
        if self.loaded is None:
            print(f"{self.id()}: skipped, since there is no gcc", flush=True)

    def ask(self, client, number):
        """The call of this number, of which each changes the position by one."""
        self.assertEqual(client.ask("INCR", f"n{number % KEYS}"), integer(number // KEYS + 1))

    def expected(self, count):
        """The map after so many calls."""
        return expected(count)

    def counted(self, role):
        """The bytes of a node's file before it was started, what it asked of it, and how much of that was noted when each call was answered."""
        nodes = self.pair(lines=LINES, has_number=True)
        node = getattr(nodes, role)
        node.end()
        before, noting = node.image.read_bytes(), Noting(self.loaded, node.image, keeps=False, keeps_bytes=True)
        node.before = noting.words
        node.start()
        nodes.wait()
        answered = []
        with nodes.client() as client:
            for number in range(self.CALLS):
                self.ask(client, number)
                answered.append(noting.log.read_bytes().count(b"\n"))
        nodes.end()
        self.assertGreaterEqual(generation_of(node.image.read_bytes()), 3)
        # (by how many of the changes of the image that were)
        lines, places, changes = list(map(str.encode, noting.log.read_text("utf-8").splitlines())), [], noting.changes()
        for number, call in enumerate(noting.calls(), 1):
            if call.path == str(node.image) and call.word in ("write", "length", "sync", "data"):
                places.append(number)
        self.assertEqual(len(places), len(changes))
        self.assertEqual(len(lines), len(noting.calls()))
        return before, changes, [sum(place <= count for place in places) for count in answered]

    def files_left(self, role):
        """What cuts leave, one after another, each with how many calls were answered by then at least."""
        before, changes, answered = self.counted(role)
        draws = random.Random(f"cuts of the {role}")
        for number, left in after_cuts(before, changes, draws):
            yield sum(count <= number for count in answered), left

    def check(self, role):
        if not self.loaded:
            return
        found, wrong, opened, draws = 0, [], [], random.Random(f"opened of the {role}")
        for least, left in self.files_left(role):
            record, held = read(left)
            if not least <= record.position <= self.CALLS or held != self.expected(record.position):
                wrong.append((least, record.position, held))
            found += 1
            # (all at once would be half a gibibyte)
            if len(opened) < self.OPENED:
                opened.append(left)
            elif (place := draws.randrange(found)) < self.OPENED:
                opened[place] = left
        self.assertGreater(found, self.CALLS)
        self.assertEqual(wrong, [])
        for number, left in enumerate(opened):
            with self.case("opened", number=number):
                self.check_opening(role, left, draws, 2)

    def check_opening(self, role, left, draws, times):
        """The program tells what the model tells, and opens it to the same; so it does whatever a cut in that leaves, and once more in that."""
        path = self.folder / "left.img"
        path.write_bytes(left)
        record, held = read(left)
        found = inspected(path)
        self.assertEqual((found["position"], found["record"], found["live"]), (record.position, record.number, len(held)))
        noting = Noting(self.loaded, path, keeps=False, keeps_bytes=True)
        words = [role, "--image", path, "--listen", NOWHERE, *(["--link", NOWHERE] if role == "primary" else [])]
        ran = subprocess.run([*noting.words, common.program("server"), *words], capture_output=True, timeout=PATIENCE, check=False)
        self.assertIn(b"cannot listen", ran.stderr)
        again = list(after_cuts(left, noting.changes(), draws))
        for _, data in again:
            after, map_after = read(data)
            self.assertEqual((after.position, map_after), (record.position, held))
            # (a reopening writes one record, or two)
            self.assertIn(after.number, range(record.number, record.number + 3))
        self.assertGreater(generation_of(path.read_bytes()), generation_of(left))
        if times > 1:
            self.check_opening(role, draws.choice(again)[1], draws, times - 1)

    def test_cuts_of_the_primary(self):
        self.check("primary")

    def test_cuts_of_the_standby(self):
        self.check("standby")


class CutsOfLongValues(Cuts):
    """The same of values for which no part has room: each is put in place between two generations, over lines that a value before it left."""

    CALLS, OPENED = 8, 6

    def value(self, number):
        return b"%c" % (97 + number) * (64 * (SHAPE.part + 1))

    def ask(self, client, number):
        self.assertEqual(client.ask("SET", "large", self.value(number)), b"+OK\r\n")

    def expected(self, count):
        return {(b"large",): self.value(count - 1)} if count else {}


class Kills(PairCases):
    """Kills of either node, or both, under writers, with a journal that begins anew every few dozen writes."""

    ON_DISK = True

    def test_kills(self):
        nodes = self.pair(lines=LINES)
        load, draws = Load(nodes), random.Random()
        rounds = MORE_ROUNDS if common.IS_LONG else ROUNDS
        for number in range(rounds):
            with self.case("round", number=number):
                load.start()
                load.wait_for(draws.randrange(1, 20) * WRITERS)
                killed = [[nodes.primary], [nodes.standby], [nodes.standby, nodes.primary]][number % 3]
                for node in killed:
                    node.end()
                if nodes.primary in killed:
                    load.end()
                for node in killed:
                    data = node.image.read_bytes()
                    found = node.inspect()
                    self.assertEqual(found["position"], plain_image.read_image(plain_image.Words(nodes.lines, words_of(image_in(data)))).record.position)
                    self.assertLessEqual(load.answered() if nodes.primary in killed else 0, found["position"])
                for node in killed:
                    node.start()
                if nodes.primary not in killed:
                    load.wait_for(WRITERS)
                    load.end()
                nodes.wait()
                load.check(f"after round {number}")
        self.assertEqual(self.assert_positions(nodes), (load.answered(), load.answered()))
        # (more often than it was opened)
        self.assertGreater(generation_of(nodes.primary.image.read_bytes()), rounds + 1)

    def test_a_file_that_is_cut_short(self):
        """Beside a node that runs: its next sync fails, and nothing more is answered; so where it is made longer."""
        for change in (-64, 64):
            with self.case("bytes", change=change):
                nodes = self.pair(lines=LINES)
                size = nodes.primary.image.stat().st_size
                with nodes.client() as client:
                    self.assertEqual(client.ask("INCR", "n"), integer(1))
                    with open(nodes.primary.image, "r+b") as file:
                        file.truncate(size + change)
                    with contextlib.suppress(OSError), self.assertRaises(Ended):
                        client.ask("INCR", "n")
                self.assertEqual(nodes.primary.wait(), 1)
                self.assertEqual(common.without_news(nodes.primary.errors.read_bytes()), b"refusal 1: device fault\n")
                finished = common.run_program("server", ["inspect", "--image", str(nodes.primary.image)])
                self.assertEqual((finished.status, common.without_cause(finished.errors)), (1, b"refusal 4: wrong size\n"))
                with open(nodes.primary.image, "r+b") as file:
                    file.truncate(size)
                if change > 0:
                    self.assertIn(nodes.primary.inspect()["position"], (1, 2))
                nodes.close()


class FullDisks(PairCases):
    """Either node over an image on a file system of its own, which has no room but for the image: it goes on over many generations, since its journal has all of its
    room from the first."""

    # Changes that take more than two parts.
    CHANGES = 200

    def test_it_goes_on(self):
        nodes = self.pair(lines=LINES, has_number=True)
        if subprocess.run([*APART, "mount -t tmpfs none /mnt"], capture_output=True, check=False).returncode:
            self.skipTest("no file system may be mounted here")
        for node in (nodes.standby, nodes.primary):
            with self.case("node", role=node.role):
                self.move_to_a_full_disk(nodes, node)
                begun = generation_of(self.read_there(node))
                with nodes.client() as client:
                    for number in range(self.CHANGES):
                        self.assertEqual(client.ask("INCR", node.role), integer(number + 1))
                self.assertGreater(generation_of(self.read_there(node)), begun + 2)
                self.assertEqual(read(self.read_there(node))[1][node.role.encode(),], b"%d" % self.CHANGES)
        self.assertTrue(nodes.primary.is_running() and nodes.standby.is_running())

    def move_to_a_full_disk(self, nodes, node):
        """Starts it over its image, copied there with all of its bytes; a file takes what room is left."""
        node.end()
        node.there = nodes.folder / node.role
        node.there.mkdir()
        node.words[node.words.index("--image") + 1] = str(node.there / "node.img")
        script = (f"mount -t tmpfs -o size=600k none {node.there} && cp --sparse=never {node.image} {node.there}/node.img || exit 99\n"
                  f"head -c 1000000 /dev/zero > {node.there}/filler 2> /dev/null\n" 'exec "$0" "$@"')
        node.before = [*APART, script]
        node.start()
        nodes.wait()
        self.assertEqual(os.statvfs(self.seen(node)).f_bavail, 0)

    def seen(self, node):
        """Where its folder is seen from without."""
        return pathlib.Path(f"/proc/{node.process.pid}/root/{node.there}")

    def read_there(self, node):
        return (self.seen(node) / "node.img").read_bytes()


class Generations(PairCases):
    """Lines for which no part has room are put in place, and then another generation begins before a record is written: whoever reads beside the node may have
    read these lines before, and sees by the head that they are others."""

    def test_a_value_that_fits_no_part(self):
        with tempfile.TemporaryDirectory(prefix="wbl-journaled-") as folder:
            loaded = noted_calls.library(folder)
            if loaded is None:
                print(f"{self.id()}: skipped, since there is no gcc", flush=True)
                return
            nodes = self.pair(lines=LINES, has_number=True)
            for node in (nodes.standby, nodes.primary):
                node.end()
                node.noting = Noting(loaded, node.image, keeps=False, keeps_bytes=True)
                node.before = node.noting.words
                node.start()
            nodes.wait()
            length = 64 * (SHAPE.part + 1)
            with nodes.client() as client:
                self.assertEqual(client.ask("SET", "large", length * "v"), b"+OK\r\n")
            nodes.end()
            for node in (nodes.primary, nodes.standby):
                with self.case("node", role=node.role):
                    changes = node.noting.changes()
                    (last,) = [at for at, change in enumerate(changes) if change and change[0] < 64 * LINES and change[1].endswith(b"v" + bytes(-(length + 5) % 64))]
                    # (of syncs with nothing between them the first)
                    behind = [later for change, later in itertools.pairwise(changes[last:]) if change is not None or later is not None]
                    self.assertEqual((behind[0], behind[1][0], behind[2]), (None, 64 * LINES, None))
                    self.assertEqual(generation_of(node.image.read_bytes()), words_of(behind[1][1])[1])


class Syncs(PairCases):
    """How often a node syncs: once for each call of its engine that writes, whatever the call asks of its device."""

    def test_a_lone_write(self):
        loaded = None
        with tempfile.TemporaryDirectory(prefix="wbl-journaled-") as folder:
            loaded = noted_calls.library(folder)
            if loaded is None:
                print(f"{self.id()}: skipped, since there is no gcc", flush=True)
                return
            nodes = self.pair(lines=16 * LINES)
            for node in (nodes.standby, nodes.primary):
                node.end()
                node.noting = Noting(loaded, node.image, keeps=False)
                node.before = node.noting.words
                node.start()
            nodes.wait()
            with nodes.client() as client:
                syncs = lambda: [sum(call.word == "data" for call in node.noting.calls()) for node in (nodes.primary, nodes.standby)]
                counts = [syncs()]
                for number in range(20):
                    self.assertEqual(client.ask("SET", f"k{number}", "v"), b"+OK\r\n")
                    counts.append(syncs())
                for at, role in enumerate(("primary", "standby")):
                    with self.case("node", role=role):
                        found = [later[at] - first[at] for first, later in itertools.pairwise(counts)]
                        # (a node that nothing came to for a second clears gaps, and others share this machine)
                        self.assertTrue(all(count > 0 for count in found), found)
                        self.assertGreater(found.count(1), 10, found)
