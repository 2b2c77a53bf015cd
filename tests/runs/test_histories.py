"""Histories for the simulator: of a failover, of commits and promotions that are cut, of fences that fail, of older images that are put back. Each is a file of histories/, which says first what it
shows, then has the events, and last the command that plays it, after a `$ `, with what that prints."""

import pathlib

from common import Cases, run_program

PROGRAMS = ["simulator"]

HISTORIES = pathlib.Path(__file__).with_name("histories")
COMMAND = "# $ bin/wbl-sim --map | grep -v ': done'"


class Histories(Cases):
    def test_what_is_printed(self):
        files = sorted(HISTORIES.iterdir())
        self.assertEqual(len(files), 8)
        for path in files:
            with self.case("history", name=path.stem):
                lines = path.read_text(encoding="ascii").splitlines()
                wanted = [line.removeprefix("# ") for line in lines[lines.index(COMMAND) + 1:]]
                self.assertGreater(len(wanted), 5)
                ran = run_program("simulator", ["--map"], path.read_bytes())
                self.assertEqual((ran.status, ran.errors), (0, b""))
                self.assertEqual([line for line in ran.output.decode("ascii").splitlines() if ": done" not in line], wanted)
