"""The releases: `bin/release` and `bin/run-program` over a made-up repository, where scripts stand in for the programs and for the toolchain."""

import gzip
import hashlib
import os
import pathlib
import pty
import shutil
import subprocess
import sys
import tempfile

import common

PROGRAMS = []

BIN = common.ROOT / "bin"
sys.path.insert(0, str(BIN))
import wrong_bodies  # noqa: E402

# The toolchain: it names itself, and builds the program `built`.
TOOLCHAIN = """\
[ "$1" = version ] && exec echo a-kit logic 1234
mkdir -p out
printf '#!/bin/sh\\necho built "$@"\\n' > out/server
chmod +x out/server
"""
# A user that owns nothing here.
NOBODY = 65_534
PROVED, NOT_OF_THESE = "#!/bin/sh\necho proved \"$@\"\n", "the release is not of these sources"
HINT = "; a green `bin/test --release` writes it anew"


def write(file, text):
    file.parent.mkdir(parents=True, exist_ok=True)
    file.write_text(text, encoding="utf-8")
    file.chmod(0o755)


class Repository:
    """A server over one library, with what a gate made of it."""

    def __init__(self, folder):
        self.root = pathlib.Path(folder)
        for it in ("release", "run-program", "wbl-server", "wrong_bodies.py"):
            (self.root / "bin").mkdir(exist_ok=True)
            shutil.copy(BIN / it, self.root / "bin")
        write(self.root / "crates.txt", "low:\nserver: low\n")
        for crate, top in (("low", "lib"), ("server", "main")):
            for it in (f"src/{top}.rt", "specs/What.antt", "proofs/why.antt"):
                write(self.root / "crates" / crate / it, "text\n")
        self.tool = self.root / "tools" / "rt"
        write(self.tool, f"#!/bin/sh\n{TOOLCHAIN}")

    def gate(self, program=PROVED):
        """What `bin/test` leaves where the gate passed."""
        write(self.root / "crates" / "server" / "out" / "server", program)
        crates = wrong_bodies.Crates(self.root)
        sums = {it: wrong_bodies.sum_of_sources(self.root, crates, it, "logic 1234").hexdigest() for it in crates.rows}
        began = max(it.stat().st_mtime for it in self.root.rglob("*") if "out" not in it.parts)
        wrong_bodies.note_proved(self.root, sums, began, [])

    def forget(self):
        """As in a fresh clone, git has none of what was built."""
        shutil.rmtree(self.root / "crates" / "server" / "out")

    def edit(self, path, text="another text\n"):
        write(self.root / path, text)
        # (newer than all, whatever the clock's steps)
        later = max(it.stat().st_mtime for it in self.root.rglob("*")) + 1
        os.utime(self.root / path, (later, later))

    def run(self, *words, has_toolchain=True, **how):
        others = [it for it in os.environ["PATH"].split(os.pathsep) if not pathlib.Path(it, "rt").exists()]
        tools = [str(self.tool.parent)] * has_toolchain
        variables = {**os.environ, "PATH": os.pathsep.join(tools + others), **how.pop("variables", {})}
        ran = subprocess.run(words, cwd=self.root, env=variables, capture_output=True, text=True, check=False, **how)
        return ran.returncode, ran.stdout, ran.stderr

    def lock(self):
        """Makes it one that nobody but root can write to. Returns how another user, or this one where it is not root, runs something in it."""
        self.root.chmod(0o755)
        for it in [self.root, *self.root.rglob("*")]:
            it.chmod(it.stat().st_mode & ~0o222 | 0o444)
        return {"user": NOBODY, "group": NOBODY, "extra_groups": []} if os.geteuid() == 0 else {}

    def serve(self, **how):
        return self.run("bin/wbl-server", "a", "b c", **how)


class Releases(common.Cases):
    def setUp(self):
        folder = tempfile.TemporaryDirectory()
        self.addCleanup(folder.cleanup)
        self.it = Repository(folder.name)

    def release(self):
        self.it.gate()
        status, said, _ = self.it.run("bin/release")
        self.assertEqual((status, said.splitlines()[-1]), (0, "1 passed, 0 failed"))

    def assert_checked(self, *lines, **how):
        status, said, errors = self.it.run("bin/release", "--check", **how)
        self.assertEqual((said.splitlines(), errors), ([*lines], ""))
        self.assertEqual(status, 0 if lines[-1].endswith(" 0 failed") else 1)

    def assert_wrong(self, fault):
        self.assert_checked(f"wbl-server: {fault}{HINT}", "0 passed, 1 failed")

    def test_a_fresh_clone_runs_the_release(self):
        self.release()
        for has_toolchain in (True, False):
            with self.case("toolchain", is_there=has_toolchain):
                self.it.forget()
                for _ in range(2):
                    self.assertEqual(self.it.serve(has_toolchain=has_toolchain), (0, "proved a b c\n", ""))
                self.assertFalse((self.it.root / "crates" / "server" / "out" / "server").exists())

    def test_at_a_terminal_it_says_what_it_waits_for(self):
        """Only without arguments."""
        self.release()
        main, terminal = pty.openpty()
        self.addCleanup(os.close, main)
        self.addCleanup(os.close, terminal)
        told = "wbl-server: serves the requests of standard input once that has ended (Ctrl-D); --help tells of the nodes of a pair\n"
        self.assertEqual(self.it.run("bin/wbl-server", stdin=terminal), (0, "proved\n", told))
        self.assertEqual(self.it.run("bin/wbl-server", "a", stdin=terminal), (0, "proved a\n", ""))
        self.assertEqual(self.it.run("bin/wbl-server", stdin=subprocess.DEVNULL), (0, "proved\n", ""))

    def test_what_was_built_here_goes_first(self):
        self.release()
        self.it.gate("#!/bin/sh\necho here\n")
        self.assertEqual(self.it.serve(), (0, "here\n", ""))

    def test_an_edit_is_proved_and_built(self):
        for path in ("crates/low/src/lib.rt", "crates/low/specs/What.antt", "crates/server/src/main.rt", "crates.txt"):
            with self.case("edited", path=path):
                self.release()
                self.it.forget()
                self.assertEqual(self.it.serve()[1], "proved a b c\n")
                self.it.edit(path, "low:\nserver: low bytes\n" if path == "crates.txt" else f"{path}\n")
                status, said, errors = self.it.serve(has_toolchain=False)
                self.assertEqual((status, said), (1, ""))
                self.assertIn("no release is of these sources, and the toolchain's command rt is not on the path", errors)
                self.assertEqual(self.it.serve()[1], "built a b c\n")

    def test_an_edit_that_is_taken_back(self):
        self.release()
        self.it.forget()
        self.it.edit("crates/low/src/lib.rt", "other\n")
        self.assertEqual(self.it.serve(has_toolchain=False)[0], 1)
        self.it.edit("crates/low/src/lib.rt", "text\n")
        self.assertEqual(self.it.serve(has_toolchain=False), (0, "proved a b c\n", ""))

    def test_another_proof_of_the_same(self):
        self.release()
        self.it.forget()
        self.it.edit("crates/low/proofs/why.antt")
        self.assertEqual(self.it.serve(has_toolchain=False), (0, "proved a b c\n", ""))
        self.it.gate()
        self.assert_checked("1 passed, 0 failed")

    def test_nothing_runs_that_does_not_match(self):
        self.release()
        pack = self.it.root / "releases" / "wbl-server.gz"
        whole = pack.read_bytes()
        other = gzip.compress(b"#!/bin/sh\necho other\n", mtime=0)
        for name, data in [("a byte", whole[:-1] + b"x"), ("cut", whole[:20]), ("empty", b""), ("another program", other)]:
            with self.case("damaged", how=name):
                pack.write_bytes(data)
                self.it.forget()
                status, said, errors = self.it.serve()
                self.assertEqual((status, said), (1, ""))
                self.assertRegex(errors, r"\Areleases/wbl-server\.gz is damaged: its SHA-256 is not that of releases/LIST: `git checkout releases` ")
                self.assertTrue(errors.endswith("\nwbl-server: its release cannot be used, and nothing was run\n"))
                self.it.gate()
                self.assert_wrong("releases/wbl-server.gz is damaged: its SHA-256 is not that of releases/LIST")
        with self.case("not there"):
            pack.unlink()
            self.it.forget()
            self.assertRegex(self.it.serve()[2], r"\Areleases/wbl-server\.gz cannot be read: No such file")
        with self.case("a program that is not the list's"):
            listed = (self.it.root / "releases" / "LIST").read_text(encoding="utf-8")
            rows = listed.replace(listed.split()[-2], hashlib.sha256(other).hexdigest())
            (self.it.root / "releases" / "LIST").write_text(rows, encoding="utf-8")
            pack.write_bytes(other)
            status, said, errors = self.it.serve()
            self.assertEqual((status, said), (1, ""))
            self.assertIn("what it holds has another SHA-256", errors)

    def test_what_was_unpacked_and_damaged_is_unpacked_anew(self):
        self.release()
        self.it.forget()
        self.it.serve()
        unpacked = self.it.root / "crates" / "server" / "out" / "released" / "wbl-server"
        write(unpacked, "#!/bin/sh\necho other\n")
        self.it.edit("crates/low/src/lib.rt", "text\n")
        self.assertEqual(self.it.serve(), (0, "proved a b c\n", ""))

    def test_a_list_that_cannot_be_read(self):
        self.release()
        self.it.forget()
        (self.it.root / "releases" / "LIST").write_text("wbl-server 1\n", encoding="utf-8")
        status, said, errors = self.it.serve()
        self.assertEqual((status, said), (1, ""))
        told = "releases/LIST has a line that bin/release does not write: wbl-server 1: `git checkout releases` brings back what was released\n"
        self.assertEqual(errors, f"{told}wbl-server: its release cannot be used, and nothing was run\n")
        self.assertEqual(self.it.run("bin/release", "--stale"), (1, "", told))
        self.assertEqual(self.it.run("bin/release", "--check"), (1, f"{told}0 passed, 1 failed\n", ""))
        # (what is proved is released all the same)
        self.release()
        self.assert_checked("1 passed, 0 failed")

    def test_a_machine_of_another_type_is_told_so(self):
        """Nothing is unpacked or built there."""
        self.release()
        self.it.forget()
        with tempfile.TemporaryDirectory() as folder:
            uname = pathlib.Path(folder, "uname")
            uname.write_text("#!/bin/sh\necho aarch64\n", encoding="ascii")
            uname.chmod(0o755)
            path = os.pathsep.join([folder, os.environ["PATH"]])
            told = "wbl-server: runs on a machine of type x86-64, and this one is aarch64\n"
            self.assertEqual(self.it.serve(variables={"PATH": path}), (1, "", told))

    def test_another_machine_builds(self):
        self.release()
        self.it.forget()
        listed = self.it.root / "releases" / "LIST"
        listed.write_text(listed.read_text(encoding="utf-8").replace(f"machine {os.uname().machine}", "machine none"), encoding="utf-8")
        self.assertEqual(self.it.serve()[1], "built a b c\n")

    def test_what_a_check_tells(self):
        self.it.gate()
        self.assert_checked("nothing is released yet", "0 passed, 0 failed")
        self.release()
        self.assert_checked("1 passed, 0 failed")
        for said in ("other-kit patch 3 logic 1234", "a-kit logic 1234 patch 3"):
            with self.case("the same logic", version=said):
                write(self.it.tool, f"#!/bin/sh\necho {said}\n")
                self.assert_checked("1 passed, 0 failed")
        with self.case("other bytes"):
            self.it.gate("#!/bin/sh\necho other\n")
            self.assert_wrong("what was built of the same sources has other bytes")
        with self.case("nothing built"):
            self.it.forget()
            self.assert_wrong("server was not proved as it is: run bin/test")
        with self.case("another toolchain"):
            write(self.it.tool, "#!/bin/sh\necho a-kit logic 5678\n")
            self.assert_checked("wbl-server: not compared with what was built, since the toolchain here is logic 5678 and released was by logic 1234", "1 passed, 0 failed")
        with self.case("no toolchain"):
            said = "wbl-server: not compared with what was built, since the toolchain here is absent and released was by logic 1234"
            self.assert_checked(said, "1 passed, 0 failed", has_toolchain=False)
        with self.case("other sources"):
            self.it.edit("crates/low/src/lib.rt")
            self.assert_checked(f"wbl-server: {NOT_OF_THESE}{HINT}", said, "0 passed, 1 failed", has_toolchain=False)

    def test_a_check_after_other_sources_were_proved(self):
        self.release()
        self.it.edit("crates/low/specs/What.antt")
        self.it.gate()
        self.assert_wrong(NOT_OF_THESE)

    def test_stale_ones_are_listed(self):
        self.release()
        for path, wanted in [("crates/low/proofs/why.antt", ""), ("crates/low/specs/What.antt", "wbl-server\n")]:
            with self.case("edited", path=path):
                self.it.edit(path)
                self.assertEqual(self.it.run("bin/release", "--stale", has_toolchain=False), (0, wanted, ""))

    def test_a_program_of_no_crate(self):
        self.release()
        with open(self.it.root / "releases" / "LIST", "a", encoding="utf-8") as file:
            file.write("other none 1 2 3\n")
        self.assert_checked(f"other: it is released, and no crate of crates.txt makes it{HINT}", "1 passed, 1 failed")

    def test_what_is_not_proved_is_not_released(self):
        def refused(why):
            self.assertEqual(self.it.run("bin/release"), (1, f"wbl-server: not released: {why}: run bin/test\n0 passed, 1 failed\n", ""))
            self.assertFalse((self.it.root / "releases").exists())

        with self.case("nothing proved"):
            refused("low was not proved as it is")
        for path in ("crates/low/src/lib.rt", "crates/low/proofs/why.antt", "crates/server/specs/What.antt", "crates.txt"):
            with self.case("edited since", path=path):
                self.it.gate()
                self.it.edit(path, "low:\nserver: low bytes\n" if path == "crates.txt" else f"{path}\n")
                refused(f"{'low' if 'low' in path else 'server'} was not proved as it is")
        with self.case("built since"):
            self.it.gate()
            write(self.it.root / "crates" / "server" / "out" / "server", "#!/bin/sh\necho other\n")
            refused("crates/server/out/server is not what the gate built")

    def test_what_the_programs_say_of_themselves(self):
        say = lambda text: self.it.edit("crates/version/src/release.rt", f'pub const VERSION: &str = "{text}";\n')
        gated = lambda program=PROVED: (self.it.gate(program), self.it.run("bin/release"))[1]
        again = "other programs were released as 7 before: raise the number in crates/version/src/release.rt for the next ones\n"
        with self.case("another toolchain"):
            say("7 (logic 99)")
            why = "it says that it was proved by logic 99, and the toolchain here is logic 1234: edit crates/version/src/release.rt"
            self.assertEqual(gated(), (1, f"wbl-server: not released: {why}\n0 passed, 1 failed\n", ""))
        say("7 (logic 1234)")
        for name, program, is_told in (("the first", PROVED, False), ("the same again", PROVED, False), ("another", PROVED + "# other\n", True)):
            with self.case(name):
                status, said, _ = gated(program)
                self.assertEqual((status, again in said), (0, is_told))
                self.assertIn("\nrelease 7\n", (self.it.root / "releases" / "LIST").read_text())
        with self.case("the next"):
            say("8 (logic 1234)")
            self.assertNotIn(again, gated(PROVED)[1])
            self.assert_checked("1 passed, 0 failed")

    def test_the_same_is_packed_alike(self):
        self.release()
        known = [it.read_bytes() for it in sorted((self.it.root / "releases").iterdir())]
        for folder in ("releases", ""):
            with self.case("again", without=folder):
                if folder:
                    shutil.rmtree(self.it.root / folder)
                self.release()
                self.assertEqual([it.read_bytes() for it in sorted((self.it.root / "releases").iterdir())], known)


class FromAnyPlace(common.Cases):
    """A clone that this user cannot write to: its releases run from a folder of the user's own."""

    def setUp(self):
        folder, homes = tempfile.TemporaryDirectory(), tempfile.TemporaryDirectory()
        self.addCleanup(folder.cleanup)
        self.addCleanup(homes.cleanup)
        self.it = Repository(folder.name)
        self.it.gate()
        self.assertEqual(self.it.run("bin/release")[0], 0)
        self.it.forget()
        self.homes = pathlib.Path(homes.name)
        self.homes.chmod(0o777)
        self.how = self.it.lock()
        self.addCleanup(self.unlock)

    def unlock(self):
        for it in [self.it.root, *self.it.root.rglob("*")]:
            it.chmod(it.stat().st_mode | 0o200)

    def made(self, name, mode=0o777):
        made = self.homes / name
        made.mkdir()
        made.chmod(mode)
        return str(made)

    def serve(self, *words, **variables):
        given = {"HOME": "/nonexistent", "XDG_CACHE_HOME": "", **variables}
        return self.it.run(*(words or ("bin/wbl-server", "a", "b c")), has_toolchain=False, variables=given, **self.how)

    def test_each_place(self):
        home, cache, temporary = self.made("home"), self.made("cache"), self.made("temporary")
        locked = self.made("locked", 0o555)
        user = self.how.get("user", os.geteuid())
        for name, variables, wanted in [
            ("home", {"HOME": home}, f"{home}/.cache/wbl"),
            ("a cache that is named", {"HOME": home, "XDG_CACHE_HOME": cache}, f"{cache}/wbl"),
            ("no home", {"HOME": "", "TMPDIR": temporary}, f"{temporary}/wbl-{user}"),
            ("a home that is locked", {"HOME": locked, "TMPDIR": temporary}, f"{temporary}/wbl-{user}"),
        ]:
            with self.case(name):
                for _ in range(2):
                    self.assertEqual(self.serve(**variables), (0, "proved a b c\n", ""))
                path = pathlib.Path(f"{wanted}{self.it.root.resolve()}/wbl-server")
                self.assertEqual(self.serve("bin/run-program", "--where", "server", "wbl-server", **variables), (0, f"{path}\n", ""))
                self.assertEqual(pathlib.Path(wanted).stat().st_mode & 0o077, 0)

    def test_nothing_runs_that_somebody_else_put_there(self):
        """A folder beside what is temporary that is not the user's own is passed over, and so is a link to one that is."""
        if os.geteuid():
            print(f"{self.id()}: skipped, since it needs root", flush=True)
            return
        temporary, own = self.made("temporary"), self.made("own")
        os.chown(own, NOBODY, NOBODY)
        for name, make in [("another user's", lambda it: it.mkdir()), ("a link", lambda it: it.symlink_to(own))]:
            with self.case(name):
                place = pathlib.Path(temporary, f"wbl-{NOBODY}")
                make(place)
                planted = pathlib.Path(f"{place}{self.it.root.resolve()}/wbl-server")
                write(planted, "#!/bin/sh\necho planted\n")
                status, said, errors = self.serve(TMPDIR=temporary)
                self.assertEqual((status, said), (1, ""))
                self.assertRegex(errors, rf"\Awbl-server can be unpacked nowhere: .*: Permission denied; .*; {place}: it is another user's\n")
                self.assertEqual(planted.read_text(encoding="utf-8"), "#!/bin/sh\necho planted\n")
                if place.is_symlink():
                    place.unlink()
                else:
                    shutil.rmtree(place)

    def test_an_edit_cannot_be_built_in_it(self):
        self.unlock()
        self.it.edit("crates/low/src/lib.rt")
        self.how = self.it.lock()
        given = {"variables": {"HOME": self.made("home")}, **self.how}
        said = "wbl-server: no release is of these sources, and this clone cannot be written to, so nothing can be proved or built in it\n"
        self.assertEqual(self.it.run("bin/wbl-server", "a", **given), (1, "", said))
