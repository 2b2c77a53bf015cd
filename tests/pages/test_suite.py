"""`tests/run` and `bin/test` where something is lacking: over a made-up repository, with two small modules for tests."""

import importlib
import os
import pathlib
import shutil
import subprocess
import sys
import tempfile

import common

sys.path.insert(0, str(common.ROOT / "bin"))

PROGRAMS = []

# A module of tests over these programs.
MODULE = """\
import common

PROGRAMS = {programs}
{more}

class Some(common.Cases):
    def test_first(self):
        self.assertTrue({first})

    def test_second(self):
        pass
"""
SLOW = "IS_SLOW = True\nQUICK = ['Some.test_second', 'More']\n"


class Suite(common.Cases):
    def setUp(self):
        folder = tempfile.TemporaryDirectory()
        self.addCleanup(folder.cleanup)
        self.root = pathlib.Path(folder.name)
        for it in ("tests/run", "tests/common.py", "bin/test", "bin/wrong_bodies.py"):
            (self.root / it).parent.mkdir(exist_ok=True)
            shutil.copy(common.ROOT / it, self.root / it)
        for room in common.ROOMS:
            (self.root / "tests" / room.name).mkdir()
        self.starter("[ \"$*\" = '--where server wbl-server' ] && echo /bin/true || exit 1")
        self.module("clients", "test_pairs", ["server"])
        self.module("runs", "test_events", ["server", "simulator"])

    def starter(self, text):
        path = self.root / "bin" / "run-program"
        path.write_text(f"#!/bin/sh\n{text}\n", encoding="ascii")
        path.chmod(0o755)

    def module(self, room, name, programs, more="", first="True"):
        (self.root / "tests" / room / f"{name}.py").write_text(MODULE.format(programs=programs, more=more, first=first), encoding="ascii")

    def run_words(self, *words, **how):
        """The status of a command here, the lines that it prints, and what it tells on standard error. No toolchain is on the path."""
        others = [it for it in os.environ["PATH"].split(os.pathsep) if not pathlib.Path(it, "rt").exists()]
        given = {name: text for name, text in os.environ.items() if not name.startswith("WBL_")} | {"PATH": os.pathsep.join(others)}
        ran = subprocess.run([sys.executable, *words], cwd=self.root, env=given, capture_output=True, text=True, check=False, **how)
        return ran.returncode, ran.stdout.splitlines(), ran.stderr

    def run_tests(self, *words):
        status, lines, told = self.run_words("tests/run", "--jobs", "1", *words)
        self.assertEqual(told, "")
        return status, [line for line in lines if not line.endswith(" s")]

    def lacking(self):
        return f"no program at {self.root.resolve()}/crates/simulator/out/simulator: build it with `bin/wbl-sim < /dev/null`, or name another by WBL_SIM"

    def test_a_program_is_lacking(self):
        """Nothing is tested where a test has no program, and what needs none of that is."""
        for words in ([], ["--quick"], ["test_events"], ["test_events", "test_pairs"]):
            with self.case("words", words=words):
                self.assertEqual(self.run_tests(*words), (1, [self.lacking(), "0 passed, 1 failed"]))
        self.assertEqual(self.run_tests("test_pairs"), (0, ["2 passed, 0 failed"]))

    def test_what_was_built(self):
        for crate in ("server", "simulator"):
            built = self.root / "crates" / crate / "out" / crate
            built.parent.mkdir(parents=True)
            shutil.copy("/bin/true", built)
        self.starter("exit 1")
        self.assertEqual(self.run_tests(), (0, ["4 passed, 0 failed"]))

    def test_no_release_and_nothing_built(self):
        self.starter("exit 1")
        status, lines = self.run_tests("test_pairs")
        self.assertEqual((status, lines[-1]), (1, "0 passed, 1 failed"))
        self.assertRegex(lines[0], r"\Ano program at .*/crates/server/out/server: build it with `bin/wbl-server < /dev/null`")

    def test_quick(self):
        self.starter("echo /bin/true")
        more = "class More(common.Cases):\n    def test_third(self):\n        pass\n"
        self.module("clients", "test_pairs", ["server"], SLOW + more, "False")
        self.module("images", "test_others", [])
        self.assertEqual(self.run_tests("--quick"), (0, ["6 passed, 0 failed"]))
        status, lines = self.run_tests()
        self.assertEqual((status, lines[-1]), (1, "6 passed, 1 failed"))

    def test_what_is_named_as_quick_is_there(self):
        """In the modules of this repository: a class, or a test of one."""
        count = 0
        for path in sorted(it for room in common.ROOMS for it in room.glob("test_*.py")):
            module = importlib.import_module(path.stem)
            for name in getattr(module, "QUICK", []):
                with self.case("quick", module=path.stem, name=name):
                    count += 1
                    tests, _, test = name.partition(".")
                    self.assertTrue(hasattr(getattr(module, tests), test or "setUp"))
                    self.assertTrue(module.IS_SLOW)
        self.assertGreater(count, 5)

    def test_progress(self):
        """A line now and then, and the last line of all is that of the counts."""
        text = (self.root / "tests" / "run").read_text(encoding="utf-8")
        (self.root / "tests" / "run").write_text(text.replace("SECONDS_BETWEEN_LINES = 30", "SECONDS_BETWEEN_LINES = 0"), encoding="utf-8")
        self.module("images", "test_others", [], "", "False")
        status, lines, told = self.run_words("tests/run", "--jobs", "1", "test_others", "test_pairs")
        self.assertEqual((status, lines[-1]), (1, "3 passed, 1 failed"))
        self.assertEqual(told, "1 of 4 tests, 1 failed\n2 of 4 tests, 1 failed\n3 of 4 tests, 1 failed\n4 of 4 tests, 1 failed\n")

    def test_one_that_is_too_late(self):
        """It is tried once more, and counts as it ends then. One that fails otherwise as well is not."""
        tried = self.root / "tried"
        late = f'''
    def test_late(self):
        with open({str(tried)!r}, "a") as file:
            file.write("x")
        with self.case("first"):
            self.assert_in_time(2, 1)
        with self.case("second"):
            self.assertTrue(len(open({str(tried)!r}).read()) LIMIT)
'''
        for limit, status, last, count in ((">= 1", 1, "3 passed, 1 failed", 2), (">= 2", 1, "2 passed, 2 failed", 1)):
            with self.case("limit", limit=limit):
                tried.unlink(missing_ok=True)
                self.module("images", "test_others", [])
                path = self.root / "tests" / "images" / "test_others.py"
                path.write_text(path.read_text(encoding="ascii") + late.replace("LIMIT", limit), encoding="ascii")
                found, lines = self.run_tests("test_others")
                self.assertEqual((found, lines[-1], len(tried.read_text(encoding="ascii"))), (status, last, count))

    def test_one_that_was_held_up(self):
        tried = self.root / "tried"
        first = f"open({str(tried)!r}, 'a').write('x') and self.assert_in_time(3 - len(open({str(tried)!r}).read()), 2) is None"
        self.module("images", "test_others", [], "", first)
        status, lines = self.run_tests("test_others")
        self.assertEqual((status, lines[0], lines[-1]), (0, "TOO LATE test_others.Some.test_first ", "2 passed, 0 failed"))

    def test_a_check_without_the_toolchain(self):
        status, lines, told = self.run_words("bin/test")
        self.assertEqual((status, lines), (1, []))
        self.assertRegex(told, r"\Abin/test needs the toolchain's command rt on the path .*\n\Z")


class Costs(common.Cases):
    """What `bin/test --release` keeps of the processor seconds by crate."""

    def setUp(self):
        folder = tempfile.TemporaryDirectory()
        self.addCleanup(folder.cleanup)
        self.said = common.script("test")
        self.said.ROOT, self.said.COSTS = pathlib.Path(folder.name), pathlib.Path(folder.name, "costs.txt")

    def note(self, crates, rows, gate_lines=(), edit_lines=()):
        """The rows that are kept after this run."""
        (self.said.ROOT / "crates.txt").write_text("".join(f"{it}:\n" for it in crates), encoding="ascii")
        self.said.note_costs(rows, gate_lines, edit_lines)
        text = self.said.COSTS.read_text(encoding="utf-8")
        self.assertTrue(text.startswith(self.said.COSTS_HEAD))
        return text.removeprefix(self.said.COSTS_HEAD).splitlines()

    def test_what_is_kept(self):
        head, low, top = "crate  proof  tests  edits  all", ["low", 100, 2, 30, 132], ["top", 40, 1, 5, 46]
        proved, tried = ["fn low::put: proved in 1 s", "fn top::shelf::Shelf::take: proved"], ["edits of low: 3 of 3 refused, 30 processor seconds"]
        self.assertEqual(self.note(["low", "top"], [low, top], proved, tried), [head, "low      100      2     30  132", "top       40      1      0   41", "all      140      3     30  173"])
        # (what was taken from an earlier run costs next to nothing, and stays as it was; a crate that is gone goes)
        again = [["low", 1, 0, 7, 8], ["top", 50, 3, 6, 59]]
        tried = ["edits of top: 1 of 1 refused, 6 processor seconds"]
        self.assertEqual(self.note(["low", "top"], again, proved[1:], tried), [head, "low      100      2     30  132", "top       50      3      6   59", "all      150      5     36  191"])
        self.assertEqual(self.note(["top"], []), [head, "top       50      3      6   59", "all       50      3      6   59"])
        self.assertEqual(self.note(["new"], []), ["crate  proof  tests  edits  all", "all        0      0      0    0"])
