"""Files of images with journals that are read while a node serves them and their journals begin anew again and again: copies (bin/copy-image), and what `status`
tells. It catches a reading that mixes two moments, and one that lacks what was answered before it was begun."""

import os
import subprocess
import threading

import common
import plain_image
from load import WRITERS, Load
from pair import PATIENCE, PairCases, inspected, wait_until
from plain_journal import Shape, image_in
from plain_replies import OK
from test_images import words_of
from test_journaled import LINES, generation_of

PROGRAMS = ["server"]
IS_SLOW = True

COPYING = common.script("copy-image")
COPIES, STATUSES = 100, 30


class LargeWrites:
    """Sets one key to values that fit no part of a journal, so that each begins a generation. `asked` and `held` are the numbers of the last one that it asked for
    and of the last one that it was told of, and `pause` how many seconds it rests between two."""

    LINES = 2_100

    def __init__(self, nodes):
        self.nodes, self.asked, self.held, self.pause, self.ended = nodes, 0, 0, 0, threading.Event()
        self.thread = threading.Thread(target=self._run, daemon=True)

    @classmethod
    def value(cls, number):
        return b"%08d" % number * (8 * cls.LINES - 13)

    def _run(self):
        with self.nodes.client() as client:
            while not self.ended.is_set():
                self.asked += 1
                # (one that is told that there is no room yet leaves the value as it was)
                if client.ask("SET", "large", self.value(self.asked)) == OK:
                    self.held = self.asked
                self.ended.wait(self.pause)

    def __enter__(self):
        self.thread.start()
        return self

    def __exit__(self, *_):
        self.ended.set()
        self.thread.join(PATIENCE)


class ReadBeside(PairCases):
    """Lines are read first, then the journal, and all of it again where that began anew meanwhile."""

    # For how long writers rest at most between two writes, so that a slow machine reads a file within a generation of its journal.
    LONGEST_PAUSE = 16

    def rest_longer(self, writers, why):
        """These writers left no time for a reading: they rest twice as long from now on."""
        writers.pause = 2 * writers.pause or 0.001
        self.assertLess(writers.pause, self.LONGEST_PAUSE, why)

    def copy(self, image, copy, writers):
        """As bin/copy-image does it, within this process, beside writers who leave it the time for that."""
        while True:
            try:
                return COPYING.copied(image, copy, 0)
            except COPYING.Restless as why:
                self.rest_longer(writers, why)

    def run_copy(self, image, copy, writers):
        """The same by the script itself."""
        while True:
            ran = subprocess.run([common.ROOT / "bin" / "copy-image", image, copy], capture_output=True, text=True, timeout=PATIENCE, check=False)
            if ran.stderr != f"copy-image: {image} is not copied: its journal began anew each time that it was read\n":
                return self.assertEqual((ran.returncode, ran.stdout, ran.stderr), (0, "", ""))
            self.assertFalse(copy.exists())
            self.rest_longer(writers, ran.stderr)

    def test_copies(self):
        """Each is whole, and holds what was answered before it was begun."""
        nodes = self.pair(lines=4 * LINES)
        load, copy = Load(nodes), nodes.folder / "copy.img"
        load.start()
        load.wait_for(10 * WRITERS)
        generations = set()
        for number in range(COPIES):
            node = (nodes.primary, nodes.standby)[number % 2]
            with self.case("copy", number=number):
                # (so that writes go on between two copies)
                load.wait_for(WRITERS)
                answered = load.answered()
                (self.copy if number % 10 else self.run_copy)(node.image, copy, load)
                asked = load.asked()
                generations.add((node.role, generation_of(copy.read_bytes())))
                record = plain_image.read_image(plain_image.Words(nodes.lines, words_of(image_in(copy.read_bytes())))).record
                self.assertLessEqual(answered, record.position)
                self.assertLessEqual(record.position, asked)
                if number % 10 == 0:
                    self.assertEqual(inspected(copy)["position"], record.position)
                copy.unlink()
        load.end()
        # (checkpoints came between)
        self.assertGreater(len(generations), 3)
        load.check("after copies")

    def test_copies_of_values_that_fit_no_part(self):
        """They are put in place at once: each copy, which is begun as another write is, has one of them whole, and none from before what was answered."""
        nodes = self.pair(lines=2 * LINES)
        copy, begun = nodes.folder / "copy.img", 0
        self.assertGreater(LargeWrites.LINES, Shape.of_image(nodes.lines).part)
        with LargeWrites(nodes) as writes:
            wait_until(lambda: writes.held, "a large value")
            for number in range(COPIES // 2):
                with self.case("copy", number=number):
                    wait_until(lambda last=begun: writes.asked > last, "another write")
                    begun, held = writes.asked, writes.held
                    self.copy((nodes.primary, nodes.standby)[number % 2].image, copy, writes)
                    asked = writes.asked
                    found = plain_image.read_image(plain_image.Words(nodes.lines, words_of(image_in(copy.read_bytes())))).map[b"large",]
                    self.assertIn(int(found[:8]), range(held, asked + 1))
                    self.assertEqual(found, writes.value(int(found[:8])))
                    copy.unlink()

    def test_status_beside_a_node(self):
        """It is never refused while it has the time to read, and tells no position below what was answered."""
        nodes = self.pair(lines=4 * LINES)
        load = Load(nodes)
        load.start()
        for number in range(STATUSES):
            node = (nodes.primary, nodes.standby)[number % 2]
            with self.case("status", number=number):
                load.wait_for(WRITERS)
                answered, words = load.answered(), ["status", "--image", str(node.image)]
                restless = b"%s is in use by another process, and changed while it was read\nrefusal 1: device fault\n" % os.fsencode(node.image)
                while (found := common.run_program("server", words, seconds=PATIENCE)).errors == restless:
                    self.rest_longer(load, found.errors)
                self.assertEqual((found.status, found.errors), (0, b""))
                rows = dict(line.split(b" ", 1) for line in found.output.splitlines())
                self.assertLessEqual(answered, int(rows[b"position"]))
                self.assertLessEqual(int(rows[b"position"]), load.asked())
        load.end()
