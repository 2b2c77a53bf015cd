"""Each block of docs/operating.md after each other one, as they stand, in a new shell, over what the first left, also where a node or an image was lost between
them: nothing that was answered is lost, and where nobody serves afterwards that was told. Of all pairs of blocks a part is drawn (`tests/run --long` tries all)."""

import collections
import contextlib

import common
import pages
import plain_image
from operated import FIRST, NODES, PAGE, SECOND, Operated
from page_shell import PageShell
from pair import Client, Ended, wait_until
from plain_image import Words
from plain_journal import image_in
from plain_replies import NULL_BULK, OK, integer
from test_images import words_of

PROGRAMS = ["server", "client"]
IS_SLOW = True

# How long a block waits for a write, and how long is looked for one afterwards.
SECONDS = 2 * common.BUSY
# What is lost between two blocks: processes, or one image of both with its process.
LOSSES = ["nothing", "both processes", "the primary's image", "the standby's image"]


def blocks():
    """By heading and number the blocks of the page that are for a shell."""
    found, headings = {}, collections.Counter()
    lines = pages.text_of(PAGE).split("\n")
    for number, block in pages.blocks(PAGE):
        heading = next(line.lstrip("# ") for line in reversed(lines[:number]) if line.startswith("#"))
        if not block[0].startswith("#"):
            headings[heading] += 1
            found[f"{heading} {headings[heading]}"] = block
    return found


BLOCKS = blocks()
BACKUP, RESTORE = "Backup 1", "Restore 1"
# Those that start nothing: they look, or copy an image.
LOOKS = [BACKUP, "What to look at 1", "What to look at 2", "How far a pair was 1", "A standby of another pair 1"]


class After(Operated):
    """A pair with a backup, and what it was answered: of each key the value, or None."""

    def setUp(self):
        super().setUp()
        self.ask({"first": "1", "gone": "1"})
        self.do("Backup")
        self.backed_up = {"first": "1", "gone": "1"}
        self.answered = dict(self.backed_up)
        self.ask({"second": "2", "gone": None})

    def ask(self, changes):
        """Makes these changes where clients are served now."""
        (port,) = wait_until(self.serving, "a primary that serves")
        with Client(self.shell.port(port)) as client:
            for key, value in changes.items():
                found = client.ask("SET", key, value) if value else client.ask("DEL", key)
                self.assertEqual(found, OK if value else integer(1))
        with contextlib.suppress(AttributeError):
            self.answered |= changes

    def serving(self):
        """The ports of the page at which a write is answered."""
        return [port for port in (FIRST, SECOND) if self.is_served(port)]

    def is_served(self, port):
        with contextlib.suppress(OSError, Ended), Client(self.shell.port(port), SECONDS) as client:
            return client.ask("SET", "health", "1") == OK
        return False

    def found(self, port):
        """What is read of each key there."""
        with Client(self.shell.port(port)) as client:
            values = {key: client.ask("GET", key) for key in ("first", "gone", "second", "third")}
        return {key: None if value == NULL_BULK else value.split(b"\r\n")[1].decode() for key, value in values.items()}

    def in_images(self):
        """What each file holds that is a whole image."""
        for path in self.shell.folder.glob("*.img*"):
            data = image_in(path.read_bytes())
            with contextlib.suppress(plain_image.BadImage):
                found = plain_image.read_image(Words(len(data) // 64, words_of(data))).map
                yield {key: found.get((key.encode(),), b"").decode() or None for key in ("first", "gone", "second", "third")}

    def lose_between(self, loss):
        names = {role: name for name in ("a.img", "b.img") for role in (self.role_of(name),) if role}
        if loss == "both processes":
            self.kill(*names.values())
        elif loss != "nothing":
            self.lose(names["primary" if "primary" in loss else "standby"])

    def role_of(self, name):
        """As what the node runs that has this image."""
        process = NODES.holder_of(self.shell.folder / name)
        return NODES.words_of(process)[1] if process else None

    def run_block(self, shell, name):
        """Runs a block in this shell. What it told on standard error since."""
        before = len(shell.errors.read_text())
        shell.run(f"export WAIT_SECONDS={SECONDS:.0f}", *BLOCKS[name])
        told = shell.errors.read_text()[before:].splitlines()
        return [line for line in told if line not in ("Terminated", "Killed")]

    def try_after(self, first, loss, second):
        """Returns how the second block came out."""
        self.run_block(self.shell, first)
        if first == BACKUP:
            self.backed_up = dict(self.answered)
        if first == RESTORE:
            self.answered = {"second": None} | self.backed_up
        self.ask({"third": "3"})
        self.lose_between(loss)
        shell = PageShell(beside=self.shell)
        self.addCleanup(shell.close)
        told = self.run_block(shell, second)
        wanted = [self.answered] + [{"second": None, "third": None} | self.backed_up] * (second == RESTORE)
        # (a block that starts a node and tells nothing has had a write answered)
        serving = self.serving() if told or second in LOOKS else wait_until(self.serving, "a primary that serves, behind a block that told nothing")
        self.assertLessEqual(len(serving), 1, "both serve")
        if serving:
            self.assertIn(self.found(*serving), wanted)
            return "served" if not told else "served, and something was told"
        self.assertIn(wanted[0], list(self.in_images()), "no image holds what was answered")
        return "nobody serves, which was told" if told else "nobody serves, of a block that looks"


def sweep(first):
    """A test of the blocks that may come after this one; the losses go round."""
    def test(self):
        counted = collections.Counter()
        others = list(BLOCKS)
        cases = [(second, LOSSES[(list(BLOCKS).index(first) + at) % len(LOSSES)]) for at, second in enumerate(others)]
        for number, (second, loss) in enumerate(common.drawn(f"after {first}", cases, LEAST)):
            with self.case("block", after=first, lost=loss, block=second):
                if number:
                    self.doCleanups()
                    self.setUp()
                counted[self.try_after(first, loss, second)] += 1
        common.tell(f"blocks after {first}", counted)

    return test


# How many are drawn of the blocks that may come after one.
LEAST = 1


class EachAfterEach(After):
    def test_the_blocks(self):
        """Those of the page that are for a shell."""
        self.assertGreater(len(BLOCKS), 10)
        self.assertLessEqual({BACKUP, RESTORE, *LOOKS}, set(BLOCKS))
        for name, lines in BLOCKS.items():
            with self.case("block", name=name):
                self.assertTrue(any(line.strip().startswith(("bin/", "if bin/", "if cp ", "for it in ", "grep", "[ ")) for line in lines))


for at, first in enumerate(BLOCKS):
    setattr(EachAfterEach, f"test_after_{at}_{first.lower().replace(' ', '_')}", sweep(first))
