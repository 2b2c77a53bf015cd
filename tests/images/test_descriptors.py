"""Programs that are started with standard streams closed. What they open next would have the number of one of these, unless they hold it first, and
what they tell there would be written over an image, or into a socket."""

import contextlib
import os
import pathlib
import select
import subprocess
import tempfile

from common import SECONDS, Cases, program, run_program
from pair import Client, Port, wait_until
from plain_image import PRIMARY, STANDBY
from plain_journal import file_of
from plain_replies import OK
from plain_wire import Acknowledgement, Greeting, text
from plain_writer import Writer
from standby_node import NOWHERE
from stored_server import StoredServer
from spelling import spell
from test_images import DONE, FAILED, LINES, MISUSED, ROLES, format_words, image_bytes, new_image
from test_promote import STOPPED, with_groups
from worked_cases import SET_A

PROGRAMS = ["server", "client", "simulator"]

INPUT, OUTPUT, ERRORS = range(3)
STREAMS = [(), (INPUT,), (OUTPUT,), (ERRORS,), (INPUT, OUTPUT), (INPUT, ERRORS), (OUTPUT, ERRORS), (INPUT, OUTPUT, ERRORS)]


def closing(streams):
    """What a program does first, to be started with these streams closed."""

    def close():
        for stream in streams:
            os.close(stream)

    return close


def run_closed(crate, words, streams, stdin=b""):
    """Runs a program that is started with these streams closed."""
    return run_program(crate, words, stdin, preexec_fn=closing(streams))


class ClosedStreams(Cases):
    @contextlib.contextmanager
    def closed(self, streams, **details):
        """A case of its own with these streams closed, with a folder."""
        with self.case("closed", streams=streams, **details), tempfile.TemporaryDirectory() as folder:
            yield pathlib.Path(folder)

    def assert_ended(self, finished, streams, status, output=None, errors=None):
        """It has this status, and wrote this to each stream that was open."""
        self.assertEqual(finished.status, status, finished)
        for stream, found, wanted in [(OUTPUT, finished.output, output), (ERRORS, finished.errors, errors)]:
            if stream in streams:
                self.assertEqual(found, b"")
            elif wanted is not None:
                self.assertEqual(found, wanted)

    def check_image(self, words, before, after, output):
        """A subcommand over this image leaves the one that this tells of what is there, whatever is closed. It is done where its output is open."""
        for streams in STREAMS:
            with self.closed(streams, words=words) as folder:
                path = folder / "i.img"
                if before is not None:
                    path.write_bytes(before)
                finished = run_closed("server", [words[0], "--image", str(path), *words[1:]], streams)
                self.assert_ended(finished, streams, FAILED if OUTPUT in streams else DONE, output)
                self.assert_bytes(path.read_bytes(), after(path.read_bytes()))


class Server(ClosedStreams):
    def test_format(self):
        for role, name in ROLES.items():
            words = ["format", "--lines", str(LINES), "--role", name]
            self.check_image(words, None, lambda left, role=role: file_of(new_image(LINES, role, left)), None)

    def test_inspect(self):
        image = image_bytes(LINES, with_groups().words)
        self.check_image(["inspect"], image, lambda _: image, None)

    def test_promote(self):
        standby = with_groups()
        before = image_bytes(LINES, standby.words)
        standby.promote()
        self.check_image(["promote", STOPPED], before, lambda _: image_bytes(LINES, standby.words), None)

    def test_nodes_that_cannot_listen(self):
        """The image is opened again, and is whole."""
        for role, links in [(PRIMARY, ["--link", NOWHERE]), (STANDBY, [])]:
            for streams in STREAMS:
                with self.closed(streams, role=ROLES[role]) as folder:
                    writer, path = Writer(LINES, role), folder / "i.img"
                    path.write_bytes(image_bytes(LINES, writer.words))
                    finished = run_closed("server", [ROLES[role], "--image", str(path), "--listen", NOWHERE, *links], streams)
                    self.assert_ended(finished, streams, FAILED, b"")
                    writer.reopen()
                    self.assert_bytes(path.read_bytes(), image_bytes(LINES, writer.words))

    def test_nodes_that_serve(self):
        for role, links, asked, wanted in [
            ("primary", ["--link", NOWHERE], spell("PING"), b"+PONG\r\n"),
            ("standby", [], text(Greeting()), text(Greeting()) + text(Acknowledgement(1, 0))),
        ]:
            for streams in STREAMS:
                with self.closed(streams, role=role) as folder:
                    self.serve(folder / "i.img", role, links, asked, wanted, streams)

    def serve(self, path, role, links, asked, wanted, streams):
        self.assertEqual(run_program("server", format_words(path, role=role)).status, DONE)
        port = Port()
        words = [program("server"), role, "--image", str(path), "--listen", port.address(), *links]
        pipes = {"stdin": subprocess.DEVNULL, "stdout": subprocess.PIPE, "stderr": subprocess.PIPE}
        with subprocess.Popen(words, preexec_fn=closing(streams), **pipes) as child:
            try:
                with wait_until(lambda: connected(port, child), "a node that listens") as client:
                    client.send(asked)
                    self.assertEqual(client.read(len(wanted)), wanted)
                # (what it tells is written by a thread of its own, which may come to it later)
                errors = b"" if ERRORS in streams else told_up_to(child, b"listening on")
            finally:
                child.kill()
                port.close()
            output, more = child.communicate()
            errors += more
        self.assertEqual(output, b"")
        self.assertEqual(b"listening on" in errors, ERRORS not in streams)
        self.assertEqual(run_program("server", ["inspect", "--image", str(path)]).status, DONE)

    def test_no_arguments(self):
        for streams in STREAMS:
            with self.closed(streams):
                is_done = INPUT not in streams and OUTPUT not in streams
                self.assert_ended(run_closed("server", [], streams, SET_A), streams, DONE if is_done else FAILED, OK if is_done else b"")

    def test_command_lines_that_are_none(self):
        for words in (["serve"], ["primary"]):
            for streams in STREAMS:
                with self.closed(streams, words=words):
                    finished = run_closed("server", words, streams)
                    self.assert_ended(finished, streams, MISUSED, b"")
                    self.assertEqual(b"Usage: wbl-server" in finished.errors, ERRORS not in streams)


def told_up_to(child, words):
    """What a process tells, up to these words at least."""
    found = b""
    while words not in found and select.select([child.stderr], [], [], SECONDS)[0] and (piece := os.read(child.stderr.fileno(), 65_536)):
        found += piece
    return found


def connected(port, child):
    """A client of a process that listens at this port, or nothing yet."""
    if child.poll() is not None:
        raise AssertionError(f"it has ended: {child.communicate()}")
    try:
        return Client(port.number)
    except ConnectionRefusedError:
        return None


class Others(ClosedStreams):
    def test_client(self):
        for streams in STREAMS:
            with self.closed(streams):
                with StoredServer([(spell("PING"), [OK])]) as server:
                    finished = run_closed("client", ["--connect", server.address, "PING"], streams)
                self.assertEqual((server.came, server.rest), ([spell("PING")], b""))
                self.assert_ended(finished, streams, FAILED if OUTPUT in streams else DONE, b"OK\n")

    def test_client_by_lines(self):
        for streams in STREAMS:
            with self.closed(streams):
                with StoredServer([(spell("PING"), [OK])]) as server:
                    finished = run_closed("client", ["--connect", server.address], streams, b"PING\n")
                is_done = INPUT not in streams and OUTPUT not in streams
                self.assertEqual((server.came, server.rest), ([] if INPUT in streams else [spell("PING")], b""))
                self.assert_ended(finished, streams, DONE if is_done else FAILED, b"OK\n" if is_done else b"")

    def test_simulator(self):
        for streams in STREAMS:
            with self.closed(streams):
                is_done = INPUT not in streams and OUTPUT not in streams
                self.assert_ended(run_closed("simulator", [], streams, b"enter\n"), streams, DONE if is_done else FAILED)
