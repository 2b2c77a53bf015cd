"""The commands that pages show, run from the root over the programs that were built: they print what the pages show."""

import os
import pathlib
import re
import subprocess
import tempfile

import common
import pages
import sources

PROGRAMS = ["server", "client", "simulator"]

README = common.ROOT / "README.md"
# Pages whose blocks have tests of their own (tests/clients/test_pair_command.py and test_operating.py).
OPERATED = [README, *(common.ROOT / "docs" / f"{name}.md" for name in ("architecture", "operating"))]
SIMULATOR, SESSIONS = (common.ROOT / "docs" / f"{name}.md" for name in ("simulator", "sessions"))
# The sessions of that page: events, and below them as comments the command that plays them, after a `$ `, with what it prints.
PLAYED = common.ROOT / "tests" / "pages" / "sessions"


def lines_of(block):
    return "".join(f"{line}\n" for line in block).encode()


class Commands(common.Cases):
    """Commands with what they print. Line ends of replies are line ends on the pages."""

    @classmethod
    def setUpClass(cls):
        folder = tempfile.TemporaryDirectory()
        cls.addClassCleanup(folder.cleanup)
        cls.root = pathlib.Path(folder.name)
        (cls.root / "bin").mkdir()
        for folder in ("crates", "tests"):
            (cls.root / folder).symlink_to(common.ROOT / folder)
        for starter, crate in pages.STARTERS.items():
            (cls.root / "bin" / starter).symlink_to(os.path.abspath(common.program(crate)))

    def run_command(self, command, stdin=b""):
        ran = subprocess.run(["sh", "-c", command], cwd=self.root, input=stdin, capture_output=True, timeout=common.SECONDS)
        self.assertEqual(ran.stderr, b"")
        return ran.stdout.replace(b"\r\n", b"\n").decode("ascii")

    def test_readme(self):
        shown = pages.typed(README)
        self.assertGreater(len(shown), 1)
        for command in shown:
            with self.case("command", line=command.line):
                self.assertEqual(self.run_command(command.command), command.output)

    def test_other_pages(self):
        for page in pages.PAGES:
            for line, lines in pages.blocks(page):
                # (what connects needs a server: tests/clients/test_cli.py)
                is_alone = "[" not in lines[0] and "--connect" not in lines[0]
                if re.search(r"(^|\| )bin/wbl-\w+", lines[0]) and page not in OPERATED and is_alone:
                    with self.case("command", page=pages.name_of(page), line=line):
                        self.assertNotEqual(self.run_command(lines[0]), "")

    def test_sessions(self):
        """The blocks of the simulator's page, and the files that the page of sessions names."""
        shown = self.sessions(SIMULATOR)
        self.assertEqual(len(shown), 1)
        for (first, events), command, (_, output) in shown:
            with self.case("session", line=first):
                self.assertEqual(self.run_command(command, lines_of(events)), lines_of(output).decode())
        files = sorted(PLAYED.iterdir())
        self.assertEqual([f"sessions/{it.name}" for it in files], sorted(path for path in pages.paths(SESSIONS) if path.startswith("sessions/")))
        self.assertEqual(len(files), 7)
        for file in files:
            with self.case("session", file=file.name):
                _, command, output = self.played(file.stem)
                self.assertGreater(len(output), 3)
                self.assertEqual(self.run_command(command, file.read_bytes()), lines_of(output).decode())

    def test_what_is_said_of_the_sessions(self):
        # the first is what the simulator is started with, the second is played with another crash, and the third with lines that let the standby catch up
        first, failing, other, lagging, caught_up = (
            self.played(name)[0] for name in ("first_set", "failing_fence", "failing_fence_kept", "lagging_standby", "lagging_standby_caught_up"))
        self.assertEqual(lines_of(first), (sources.CRATES / "simulator" / "stdin").read_bytes())
        self.assertEqual((failing[:-1], failing[-1], other[-1]), (other[:-1], "crash primary 0", "crash primary 1"))
        place = next(place for place, line in enumerate(lagging) if line.startswith("# what"))
        self.assertEqual((caught_up[:place], caught_up[place - len(lagging):]), (lagging[:place], lagging[place:]))
        self.assertIn('connection 0: released "+OK\\r\\n+OK\\r\\n"', self.played("lagging_standby_caught_up")[2])

    def played(self, name):
        """The events of a session's file, its command, and what that prints."""
        lines = (PLAYED / f"{name}.txt").read_text(encoding="ascii").splitlines()
        place = next(place for place, line in enumerate(lines) if line.startswith("# $ "))
        return lines[:place], lines[place].removeprefix("# $ "), [line.removeprefix("# ") for line in lines[place + 1:]]

    def sessions(self, page):
        """The events of each session of a page, its command, and its output. The blocks above and below a command are the two."""
        text, blocks, found = pages.text_of(page), pages.blocks(page), []
        for shown in re.finditer(r"(?m)^`(bin/wbl-sim [^`]*)` prints$", text):
            line = text.count("\n", 0, shown.start()) + 1
            above, below = [it for it in blocks if it[0] < line], [it for it in blocks if it[0] > line]
            found.append((above[-1], shown[1], below[0]))
        return found

    def test_usage(self):
        usage = next(lines for _, lines in pages.blocks(SIMULATOR) if lines[0].startswith("bin/wbl-sim ["))
        said = common.run_program("simulator", ["--usage"]).errors.decode()
        self.assertEqual(said.removeprefix("usage: ").split(), " ".join(usage).replace("bin/", "").split())
