"""Wrong command lines of each program, while its standard input stays open. They catch a program that reads its input before its words: it would
wait here for ever."""

import os
import subprocess

import common

PROGRAMS = ["server", "client", "simulator"]

MISUSED = 2
# A program that waits for its input takes longer.
SECONDS = 120 * common.BUSY

IMAGE, LISTEN, LINK = ["--image", "none.img"], ["--listen", "127.0.0.1:1"], ["--link", "127.0.0.1:1"]
FORMAT = ["--lines", "4096", "--role", "primary"]
# Words that are no host and port.
NO_ADDRESSES = ["", "7800", "host", "host:", ":7800", "host:x", "host:65536", "host:-1", "host:+80", "a host:7800", "[::1]"]
WRONG = {
    "server": [
        ["nosuch"], [""], ["--"], ["PRIMARY"], [b"\xff\xfe"], ["format"], ["inspect"], ["primary"], ["standby"], ["promote"],
        ["format", *IMAGE, "--lines", "4096"], ["format", *IMAGE, "--lines", "x", "--role", "primary"], ["format", *IMAGE, *FORMAT[:3], "other"],
        ["format", *IMAGE, *FORMAT, "more"], ["format", *IMAGE, *FORMAT, "--role", "standby"], ["format", *FORMAT, "--image"],
        ["inspect", *IMAGE, *IMAGE], ["inspect", *IMAGE, *LISTEN], ["inspect", "none.img"], ["primary", *IMAGE, *LISTEN],
        ["primary", *IMAGE, *LINK], ["primary", *LISTEN, *LINK], ["primary", *IMAGE, *LISTEN, *LINK, "more"], ["standby", *IMAGE],
        ["standby", *LISTEN], ["standby", *IMAGE, *LISTEN, *LINK], ["promote", "--old-primary-stopped"],
        ["promote", *IMAGE, "--old-primary-stopped=yes"],
        *(["primary", *IMAGE, *LISTEN, "--link", word] for word in NO_ADDRESSES),
        *(["primary", *IMAGE, "--listen", word, *LINK] for word in NO_ADDRESSES),
        *(["standby", *IMAGE, "--listen", word] for word in NO_ADDRESSES),
    ],
    "client": [
        ["PING"], [""], ["-"], ["--"], ["--connect"], ["--connect=127.0.0.1:1", *LISTEN, "PING"], ["--link", "127.0.0.1:1", "PING"],
        ["--connect", "127.0.0.1:1", "--connect", "127.0.0.1:1", "PING"], ["--connect", "127.0.0.1:1", "-x"], [b"\xff\xfe"],
        *(["--connect", word, "PING"] for word in NO_ADDRESSES),
    ],
    "simulator": [
        ["--help"], ["x"], [""], ["-"], ["--"], ["--lines"], ["--lines", "4096"], ["--lines", "4096,4096,4096"], ["--lines", "x,4096"],
        ["--map", "x"], ["--images=1"], ["--map", "--map", "x"], [b"\xff\xfe"],
    ],
}


class InputThatStaysOpen(common.Cases):
    """Each ends at once with status 2, says why on standard error, prints nothing and reads nothing."""

    def check(self, crate):
        for words in WRONG[crate]:
            with self.case("words", words=words):
                source, sink = os.pipe()
                try:
                    os.write(sink, b"PING\n")
                    ran = subprocess.run([common.program(crate), *words], stdin=source, capture_output=True, timeout=SECONDS)
                    self.assertEqual(common.bytes_unread(source), len(b"PING\n"))
                finally:
                    os.close(source)
                    os.close(sink)
                self.assertEqual((ran.returncode, ran.stdout), (MISUSED, b""))
                self.assertTrue(ran.stderr.endswith(b"\n"))

    def test_of_the_server(self):
        self.check("server")

    def test_of_the_client(self):
        self.check("client")

    def test_of_the_simulator(self):
        self.check("simulator")

    def test_help(self):
        """It is printed on standard output, with status 0, of each subcommand too."""
        asked = {"server": [[], *([it] for it in ("format", "primary", "standby", "promote", "migrate", "inspect", "status"))], "client": [[]]}
        for crate, before in asked.items():
            for words in [[*some, word] for some in before for word in ("--help", "-h")]:
                with self.case("words", crate=crate, words=words):
                    finished = common.run_program(crate, words)
                    self.assertEqual((finished.status, finished.errors), (0, b""))
                    self.assertIn(b"Usage: ", finished.output)
