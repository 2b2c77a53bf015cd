"""What `bin/` knows of a whole check: which functions an edit changes, which crates the gate proved as they are, what cannot be tried, what is large,
and when a program is built anew."""

import contextlib
import errno
import io
import os
import pathlib
import runpy
import shutil
import subprocess
import sys
import tempfile
import threading
import types

import common

sys.path.insert(0, str(common.ROOT / "bin"))
import wrong_bodies  # noqa: E402

PROGRAMS = []

# The type stands in src/shelf.rt.
SOURCE = """\
impl<K: Ord> Shelf<K> {
    pub fn put(&mut self, key: K)
        requires { HasRoom self.old }
    {
        self.keys.push(key);
    }
}

impl From<Box> for Shelf<u8> {
    fn from(other: Box) -> Self {
        other.shelf
    }
}

fn is_full() -> bool {
    true
}

const MOST: u64 = 8;
""".split("\n")
PUT, FROM_BOX, FROM_KEY, IS_FULL = (
    "store::shelf::Shelf::put", "store::shelf::ShelfFromBox::from", "store::shelf::ShelfFromKey::from", "store::taking::is_full"
)
KNOWN = {PUT, FROM_BOX, FROM_KEY, IS_FULL, "store::shelf::is_full", "store::shelf::Shelf::take"}
TOOLCHAIN = "a kit"


class Functions(common.Cases):
    """An edit is tried in the functions that it changes, by the names that a check gives them."""

    CASES = [(4, {PUT}), (1, {PUT}), (10, {FROM_BOX}), (15, {IS_FULL}), (18, set())]

    def test_the_function_around_a_line(self):
        for line, wanted in self.CASES:
            with self.case("line", line=line):
                found, _ = wrong_bodies.named(KNOWN, "store", "src/taking.rt", SOURCE, line)
                self.assertEqual(found, wanted)


@contextlib.contextmanager
def repository():
    """A repository of a library and of a program that uses it, as a gate leaves it that proved both."""
    with tempfile.TemporaryDirectory() as folder:
        root = pathlib.Path(folder)
        (root / "crates.txt").write_text("low: bytes\ntop: low\n", encoding="utf-8")
        for crate, file in (("low", "lib.rt"), ("top", "main.rt")):
            (root / "crates" / crate / "src").mkdir(parents=True)
            (root / "crates" / crate / "src" / file).write_text("fn f() {}\n", encoding="utf-8")
        library = root / "crates" / "low" / "out" / "rlib" / "low.rlib"
        library.mkdir(parents=True)
        (library / "format").write_text("1\n", encoding="utf-8")
        crates = wrong_bodies.Crates(root)
        sums = {it: wrong_bodies.sum_of_sources(root, crates, it, TOOLCHAIN).hexdigest() for it in crates.rows}
        (root / "crates" / "top" / "out").mkdir()
        wrong_bodies.note_proved(root, sums, 1_000_000_000, ["fn low::f: proved", "fn low::g: not proved", "fn low::f: proved"])
        yield root


class Proved(common.Cases):
    """What the gate proved is tried over its libraries, as long as it is what stands there."""

    def functions(self, root, crate, toolchain=TOOLCHAIN):
        return wrong_bodies.proved_functions(root, wrong_bodies.Crates(root), crate, toolchain)

    def test_as_the_gate_left_it(self):
        with repository() as root:
            with self.case("library"):
                self.assertEqual(self.functions(root, "low"), ["low::f"])
            with self.case("program that was kept"):
                self.assertEqual(self.functions(root, "top"), [])

    def test_no_longer_as_the_gate_left_it(self):
        low = pathlib.Path("crates", "low")
        changes = [
            ("source", "low", lambda root: (root / low / "src" / "lib.rt").write_text("fn f() { }\n", encoding="utf-8")),
            ("source below", "top", lambda root: (root / low / "src" / "lib.rt").write_text("fn f() { }\n", encoding="utf-8")),
            ("line of crates.txt", "top", lambda root: (root / "crates.txt").write_text("low: bytes\ntop: low bytes\n", encoding="utf-8")),
            ("library gone", "low", lambda root: shutil.rmtree(root / low / "out" / "rlib")),
            ("library of another command", "low", lambda root: (root / low / "out" / "rlib" / "stamp").write_text("1", encoding="utf-8")),
            ("nothing noted", "low", lambda root: (root / low / "out" / "proved.txt").unlink()),
        ]
        for name, crate, change in changes:
            with self.case(name), repository() as root:
                change(root)
                self.assertIsNone(self.functions(root, crate))
        with self.case("toolchain"), repository() as root:
            self.assertIsNone(self.functions(root, "low", "another kit"))


class Untried(common.Cases):
    """A crate whose edits cannot be tried fails, and holds up no other."""

    EDIT = "file: src/lib.rt\nold: fn f\nnew: fn g\n"

    def full(self, *_):
        raise OSError(errno.ENOSPC, "the disk is full")

    def test_a_crate_that_cannot_be_copied(self):
        with repository() as root, contextlib.redirect_stdout(io.StringIO()) as said:
            for crate in ("low", "top"):
                (root / "crates" / crate / "wrong-bodies").mkdir()
                (root / "crates" / crate / "wrong-bodies" / "renamed.edit").write_text(self.EDIT, encoding="utf-8")
            base = types.SimpleNamespace(
                crates=wrong_bodies.Crates(root), top=root, all=["low", "top"], warm=set(), by_gate=None, toolchain=TOOLCHAIN,
                above=["top", "low"].index, need=lambda _: 0, room=self.full,
            )
            work = runpy.run_path(str(common.ROOT / "bin" / "try-edits"))["Work"](base, base.all, root)
            workers = [threading.Thread(target=work.work, daemon=True) for _ in range(2)]
            for it in workers:
                it.start()
            for it in workers:
                it.join(common.SECONDS)
        self.assertFalse(any(it.is_alive() for it in workers))
        self.assertEqual([[*trial.found.values()] for trial in work.trials], 2 * [["bad"]])
        self.assertIn("low/renamed: BAD: it cannot be tried: OSError(28, 'the disk is full')", said.getvalue())


class Large(common.Cases):
    """Functions whose proofs cost most are listed by what the prover kept of them."""

    SIZES = {"shelf.put": 3_000_000, "shelf.take": 9_500_000, "shelf.is_full": 400_000}

    def listed(self, root, name):
        return subprocess.run([sys.executable, str(root / "bin" / "large-functions"), name], capture_output=True, text=True, check=False)

    def test_the_largest_first(self):
        with tempfile.TemporaryDirectory() as folder:
            root = pathlib.Path(folder)
            kept = root / "crates" / "store" / "out" / "incremental" / "checked"
            for made in (root / "bin", kept):
                made.mkdir(parents=True)
            shutil.copy(common.ROOT / "bin" / "large-functions", root / "bin")
            for name, size in self.SIZES.items():
                file = kept / f"Rattle-store-proofs.{name}.Lts.oantt"
                file.touch()
                os.truncate(file, size)
            with self.case("kept"):
                self.assertEqual(self.listed(root, "store").stdout, "store: 3 functions, 13 MB\n   9.5 shelf.take\n   3.0 shelf.put\n")
            with self.case("nothing kept"):
                done = self.listed(root, "till")
                self.assertEqual((done.returncode, done.stdout, done.stderr), (1, "", "till: nothing is kept: run rt check in crates/till\n"))


class Programs(common.Cases):
    """A program is run as it is where what it was built from is no younger, else the toolchain builds it."""

    def run_with(self, marks, source_time):
        """Runs a program that is there, with marks of these names and times, and a toolchain that builds nothing."""
        with tempfile.TemporaryDirectory() as folder:
            root = pathlib.Path(folder)
            for name in ("bin", "tools", "crates/top/src", "crates/top/specs", "crates/top/proofs", "crates/top/out"):
                (root / name).mkdir(parents=True)
            for name in ("run-program", "release", "wrong_bodies.py"):
                shutil.copy(common.ROOT / "bin" / name, root / "bin")
            self.write(root / "crates.txt", "top:\n", 1_000)
            self.write(root / "crates" / "top" / "src" / "main.rt", "fn main() {}\n", source_time)
            for program, text in (("tools/rt", "exit 1"), ("crates/top/out/top", 'echo "ran $*"')):
                self.write(root / program, f"#!/bin/sh\n{text}\n", 1_000)
                (root / program).chmod(0o755)
            for name, time in marks.items():
                self.write(root / "crates" / "top" / "out" / name, "", time)
            for at in [root / "crates" / "top" / it for it in ("src", "specs", "proofs")]:
                os.utime(at, (1_000, 1_000))
            path = {**os.environ, "PATH": f"{root / 'tools'}:{os.environ['PATH']}"}
            return subprocess.run([root / "bin" / "run-program", "top", "wbl-top", "a", "b"], env=path, capture_output=True, text=True)

    @staticmethod
    def write(file, text, time):
        file.write_text(text, encoding="utf-8")
        os.utime(file, (time, time))

    # A toolchain that takes its time, and meanwhile sees a source edited in its first builds, so many as EDITS says.
    SLOW = """\
#!/bin/sh
echo built >> ../../count
sleep 0.2
printf '#!/bin/sh\\necho "ran $*"\\n' > out/new.$$
chmod +x out/new.$$
mv out/new.$$ out/top
[ $(wc -l < ../../count) -gt "$EDITS" ] || echo '// edited' >> src/main.rt
"""

    @contextlib.contextmanager
    def slowly_built(self, edits):
        """A repository whose program is not built yet, and the environment to start it in."""
        with tempfile.TemporaryDirectory() as folder:
            root = pathlib.Path(folder)
            for name in ("bin", "tools", "crates/top/src", "crates/top/specs", "crates/top/proofs"):
                (root / name).mkdir(parents=True)
            for name in ("run-program", "release", "wrong_bodies.py"):
                shutil.copy(common.ROOT / "bin" / name, root / "bin")
            for name, text in (("crates.txt", "top:\n"), ("crates/top/src/main.rt", "fn main() {}\n"), ("tools/rt", self.SLOW)):
                self.write(root / name, text, 1_000)
            (root / "tools" / "rt").chmod(0o755)
            yield root, {**os.environ, "PATH": f"{root / 'tools'}:{os.environ['PATH']}", "EDITS": str(edits)}

    def start(self, root, path):
        words = [root / "bin" / "run-program", "top", "wbl-top", "a", "b"]
        return subprocess.Popen(words, env=path, stdout=subprocess.PIPE, stderr=subprocess.PIPE, text=True)

    def test_two_first_starts_at_once(self):
        with self.slowly_built(edits=0) as (root, path):
            for started in [self.start(root, path) for _ in range(2)]:
                said, told = started.communicate()
                self.assertEqual((started.returncode, said), (0, "ran a b\n"), told)
            self.assertEqual({it.name for it in (root / "crates" / "top" / "out").iterdir()}, {"top", "wbl-top.built"})

    def test_a_source_that_is_edited_while_it_is_built(self):
        with self.slowly_built(edits=1) as (root, path):
            for builds in (1, 2, 2):
                self.assertEqual(self.start(root, path).communicate()[0], "ran a b\n")
                self.assertEqual((root / "count").read_text(encoding="ascii").count("\n"), builds)

    def test_a_build_that_fails_leaves_no_mark(self):
        with self.slowly_built(edits=0) as (root, path):
            self.write(root / "tools" / "rt", "#!/bin/sh\nexit 1\n", 1_000)
            self.assertEqual(self.start(root, path).communicate()[0], "")
            self.assertEqual([*(root / "crates" / "top" / "out").iterdir()], [])

    def test_programs_that_are_run_as_they_are(self):
        for marks in ({"wbl-top.built": 2_000}, {"proved.txt": 2_000}, {"wbl-top.built": 1_000, "proved.txt": 2_000}):
            with self.case("marks", marks=marks):
                ran = self.run_with(marks, source_time=1_500)
                self.assertEqual((ran.returncode, ran.stdout, ran.stderr), (0, "ran a b\n", ""))

    def test_programs_that_are_built_anew(self):
        for marks in ({}, {"wbl-top.built": 1_000}, {"proved.txt": 1_000}, {"wbl-sim.built": 2_000}):
            with self.case("marks", marks=marks):
                ran = self.run_with(marks, source_time=1_500)
                self.assertEqual((ran.returncode, ran.stdout), (1, ""))
                self.assertIn("wbl-top: it was not proved and built, so it does not run", ran.stderr)
