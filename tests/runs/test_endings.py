"""How the server ends: its statuses and messages, files that fail, and limits on memory, as README.md has them."""

import os
import resource
import tempfile

from common import Cases, run_program
from worked_cases import OK, SET_A, SHORTEST, UNKNOWN

PROGRAMS = ["server"]

FAILED, MISUSED, PASSING = 1, 2, 75

# The messages where memory is refused: to a call, to the simulated device, or to one end of a connection between the threads.
NO_MEMORY = b"refusal 14: out of memory\n"
STARVED = b"refusal 1: device fault\n"
BROKEN = b"broken connection\n"
OUT_OF_MEMORY = b"-ERR out of memory\r\n"

PAGE = 4_096


class Messages(Cases):
    """Everything but the replies goes to standard error."""

    def assert_failed(self, finished):
        """One line on standard error, and status 1."""
        self.assertEqual(finished.status, FAILED, finished)
        self.assertRegex(finished.errors, rb"\A[^\n]+\n\Z")

    def test_words_that_are_no_subcommand(self):
        some = [["x"], [""], [b"\xff\xfe"], ["-"], ["--"], ["", ""], ["serve", "now"], ["x" * 100_000]]
        for words in some:
            with self.case("words", words=[word[:20] for word in words]):
                finished = run_program("server", words, SET_A)
                self.assertEqual((finished.status, finished.output), (MISUSED, b""))
                self.assertIn(b"Usage: wbl-server", finished.errors)

    def test_directory_as_standard_input(self):
        directory = os.open("/", os.O_RDONLY)
        try:
            finished = run_program("server", stdin=directory)
        finally:
            os.close(directory)
        self.assert_failed(finished)
        self.assertEqual(finished.output, b"")

    def test_closed_standard_input(self):
        finished = run_program("server", stdin=None, preexec_fn=lambda: os.close(0))
        self.assert_failed(finished)
        self.assertEqual(finished.output, b"")

    def test_standard_input_that_cannot_be_read(self):
        with tempfile.TemporaryFile() as file:
            sink = os.open(f"/proc/self/fd/{file.fileno()}", os.O_WRONLY)
            try:
                finished = run_program("server", stdin=sink)
            finally:
                os.close(sink)
        self.assert_failed(finished)
        self.assertEqual(finished.output, b"")

    def test_closed_output_pipe(self):
        for name, data in [("few replies", SET_A), ("many replies", 10_000 * SHORTEST)]:
            with self.case(name):
                source, sink = os.pipe()
                os.close(source)
                try:
                    self.assert_failed(run_program("server", stdin=data, stdout=sink))
                finally:
                    os.close(sink)

    def test_full_disk(self):
        for name, data in [("few replies", SET_A), ("many replies", 10_000 * SHORTEST)]:
            with self.case(name), open("/dev/full", "wb") as full:
                self.assert_failed(run_program("server", stdin=data, stdout=full))

    def test_files_in_place_of_pipes(self):
        with tempfile.TemporaryFile() as source, tempfile.TemporaryFile() as sink:
            source.write(SET_A + 10_000 * SHORTEST)
            source.seek(0)
            finished = run_program("server", stdin=source, stdout=sink)
            sink.seek(0)
            self.assertEqual((finished.status, finished.errors), (0, b""))
            self.assert_bytes(sink.read(), OK + 10_000 * UNKNOWN)


def serve_within(limit, data):
    """Runs the server in an address space of `limit` bytes."""
    return run_program("server", stdin=data, preexec_fn=lambda: resource.setrlimit(resource.RLIMIT_AS, (limit, limit)))


def least(enough, low, high):
    """The least number of pages from `low` to `high` that is enough, where `high` is."""
    while low < high:
        middle = (low + high) // 2
        low, high = (low, middle) if enough(middle) else (middle + 1, high)
    return high


class Memory(Cases):
    """Being out of memory is told, and nothing that is wrong is written."""

    REQUESTS = 300 * SET_A + 3_000 * SHORTEST
    REPLIES = 300 * [OK] + 3_000 * [UNKNOWN]
    # What is ample: each of ten threads takes 8 MiB of addresses for its stack, and some 64 or 128 for its heap.
    AMPLE = 2**30

    def assert_told(self, finished):
        """Either nothing was written and the cause is told, or each request has its reply or was refused memory."""
        if finished.status in (FAILED, PASSING):
            self.assertIn(finished.errors, (NO_MEMORY, STARVED, BROKEN))
            self.assertEqual(finished.status == PASSING, finished.errors == NO_MEMORY)
            self.assertEqual(finished.output, b"")
            return finished.errors
        self.assertEqual((finished.status, finished.errors), (0, b""))
        replies = finished.output.split(b"\r\n")[:-1]
        self.assertEqual(len(replies), len(self.REPLIES))
        wrong = [pair for pair in zip(replies, self.REPLIES) if pair[0] + b"\r\n" not in (OUT_OF_MEMORY, pair[1])]
        self.assertEqual(wrong[:3], [])
        return None

    def test_less_and_less_memory(self):
        """Which thread finds how much left differs from run to run, so the limits go from the least with which the program begins to one
        that is ample."""
        last = self.AMPLE // PAGE
        first = least(lambda pages: serve_within(pages * PAGE, b"").status in (0, FAILED, PASSING), 0, last)
        told = set()
        for step in range(60):
            pages = int(first * (last / first) ** (step / 60))
            with self.case("limit", pages=pages):
                told.add(self.assert_told(serve_within(pages * PAGE, self.REQUESTS)))
        self.assertIn(NO_MEMORY, told)
        self.assert_written(serve_within(self.AMPLE, self.REQUESTS), b"".join(self.REPLIES))
