"""Each program says which it is, and by which toolchain it was proved."""

import re
import shutil
import subprocess

import common
import pages

PROGRAMS = ["server", "client", "simulator"]

SAYING = common.ROOT / "crates" / "version" / "src" / "release.rt"
CONSTANT = re.compile(r'const VERSION: &str = "(\d+ \(logic ([0-9a-f]{16})\))";')


class Versions(common.Cases):
    def setUp(self):
        self.text, self.logic = CONSTANT.search(SAYING.read_text(encoding="utf-8")).groups()

    def test_each_program_says_it(self):
        names = {crate: name for name, crate in pages.STARTERS.items()}
        for crate in PROGRAMS:
            for word in ("--version", "-V"):
                with self.case("version", crate=crate, word=word):
                    self.assert_written(common.run_program(crate, [word]), f"{names[crate]} {self.text}\n".encode())

    def test_output_that_fails(self):
        for crate in PROGRAMS:
            with self.case("version", crate=crate), open("/dev/full", "wb") as full:
                self.assertEqual(common.run_program(crate, ["--version"], stdout=full).status, 1)

    def test_only_asked_alone(self):
        """Beside other words it is no request, and nothing is done."""
        with self.case("client"):
            finished = common.run_program("client", ["--connect", "127.0.0.1:1", "--version"])
            self.assertEqual((finished.status, finished.output), (2, b""))
        with self.case("server"):
            self.assertEqual(common.run_program("server", ["primary", "--version"]).status, 2)

    def test_the_toolchain(self):
        if not shutil.which("rt"):
            print(f"{self.id()}: skipped, since there is no rt", flush=True)
            return
        ran = subprocess.run(["rt", "version"], capture_output=True, text=True, check=True)
        self.assertIn(f"logic {self.logic}", ran.stdout)

    def test_the_page(self):
        self.assertIn(f"`wbl-server {self.text}`", (common.ROOT / "docs" / "server.md").read_text(encoding="utf-8"))
