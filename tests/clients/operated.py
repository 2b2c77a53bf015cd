"""The pair of docs/operating.md, which a shell starts by the blocks of the page as they stand."""

import os
import re
import signal
import typing

import common
from load import WRITERS
from page_shell import PageShell, blocks_below
from pair import Client, PairCases, wait_until

PAGE = common.ROOT / "docs" / "operating.md"
# What each writer is answered, on the average, before a procedure and after it.
ANSWERS = 10
FIRST, SECOND = 7001, 7002
PROMOTED = re.compile(r"\S+ is a primary's now, at position [1-9]\d*, with \d+ keys")
NODES = common.script("stop-node")


class Door(typing.NamedTuple):
    number: int


class Page:
    """Where clients come, as a load has it."""

    def __init__(self, shell, port):
        self.door = Door(shell.port(port))


class Operated(PairCases):
    """Tests over the pair of the page."""

    def setUp(self):
        super().setUp()
        self.shell = self.new_shell()
        self.do("A pair")

    def new_shell(self):
        shell = PageShell(self.image_folder())
        self.addCleanup(shell.close)
        return shell

    def do(self, *headings):
        """Runs all blocks below these headings of the page. Returns what they print."""
        printed = ""
        for heading in headings:
            found = blocks_below(PAGE, heading)
            self.assertTrue(found, heading)
            for lines in found:
                printed += self.shell.run(*lines)
        self.assert_without_errors()
        return printed

    def assert_without_errors(self):
        """Nothing was told on standard error, but by the shell of what was ended, and what a promoted image holds."""
        told = self.shell.errors.read_bytes().decode().splitlines()
        self.assertEqual([line for line in told if line not in ("Terminated", "Killed") and not PROMOTED.fullmatch(line)], [])

    def process(self, image):
        """The number of the process that runs this image."""
        return int(NODES.holder_of(self.shell.folder / image).name)

    def kill(self, *images):
        """Kills the nodes that run these images, and those that wait for one to end."""
        for path in (self.shell.folder / image for image in images):
            wait_until(lambda held=path: not self._kill_holder(held), "a node that was killed")

    def _kill_holder(self, path):
        """Kills the node that runs this image, if one does. Whether one did."""
        process = NODES.holder_of(path)
        if process:
            os.kill(int(process.name), signal.SIGKILL)
        return NODES.is_held(path)

    def lose(self, *images):
        """Kills the nodes that run these images, which are gone too."""
        self.kill(*images)
        for image in images:
            (self.shell.folder / image).unlink()

    def log(self, name):
        """What a node told on standard error so far, in the file that the page names for it."""
        path = self.shell.folder / f"{name}.log"
        return common.without_times(path.read_bytes()) if path.exists() else b""

    def client(self, port=FIRST):
        client = Client(self.shell.port(port))
        self.addCleanup(client.close)
        return client

    def started(self, load):
        load.start()
        load.wait_for(ANSWERS * WRITERS)

    def ended(self, load, port, told):
        """The writers end, all that they were answered is there at this port, and they go on."""
        load.end()
        load.pair = Page(self.shell, port)
        load.check(told)
        self.started(load)
        load.end()
        load.check(f"{told}, and after more writes")
