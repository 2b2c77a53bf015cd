"""Programs of which one request for memory is refused, each of a run in turn, and some in a row: what is answered is right, or `ERR out of memory` for its own
request, or the program says why it ended. The simulator, the server without arguments, its subcommands over image files, and the client program."""

import os
import re

import common
import plain_image
from common import Cases, drawn, run_program, tell
from faulty_pair import BROKEN, FAULT as STARVED, NO_MEMORY
from plain_image import PAIR_WORD, STANDBY, Words
from plain_keyspace import Put
from plain_machine import DEFAULT_LINES, Machine
from plain_replies import NULL_BULK, OK, array, bulk, elements, integer
from plain_starved import REFUSED, Starved, answers, replies_in
from plain_writer import Writer
from refused_calls import FOR_EVER, FaultyCases
from simulation import NODES, Runs, Schedule, Trace, told_positions
from spelling import read, spell
from stored_server import StoredServer, cut
from test_deltas import SETS, UNSENT, reopened, words
from test_images import LINES, Images, format_words, image_bytes, words_of
from test_moves import two_long_values_and_a_short_one
from worked_cases import SET_A, TRANSACTIONS

PROGRAMS = ["server", "client", "simulator"]

DONE, FAILED, PASSING = 0, 1, 75
IN_A_ROW = 3
TRANSACTION = TRANSACTIONS["an_error_among_others"].input()
# The fourth finds no room beside the three large values before it, and the sixth does, once one of them is gone.
LARGE = [
    ("SET", "a", 32_127 * b"v"), ("SET", "b", 65_536 * b"v"), ("SET", "c", 65_536 * b"v"), ("SET", "a", 65_536 * b"w"), ("DEL", "b"),
    ("SET", "a", 65_536 * b"w"),
]
ROOM = b"".join(spell(*request) for request in LARGE)


def first_set():
    schedule = Schedule(1)
    schedule.serve_to_end(0, 0, SET_A)
    return schedule


def transaction():
    schedule = Schedule(1)
    schedule.feed(0, TRANSACTION)
    schedule.drain(1, 6, 1)
    return schedule


def room():
    """(the fourth changes nothing, so the fifth is the fourth frame)"""
    schedule = Schedule(1)
    for number, request in zip([0, 1, 2, 2, 3, 4], LARGE):
        schedule.serve_to_end(0, number, spell(*request))
        schedule.free()
    return schedule


def delta():
    schedule = reopened(SETS, UNSENT)
    schedule.feed(1, words("GET k2"))
    schedule.serve(1)
    for events in (["open-link", "ack-delivered 6", "raise-remote"], ["send", "deliver 6", "apply"], ["ack-delivered 7"], ["raise-remote"]):
        schedule.add(*events)
        schedule.read_marks(1)
        schedule.write_out(1)
    return schedule


def reopenings():
    """Both nodes crash and open again, 33 times, so that gaps are cleared; then the connection that is left goes on."""
    schedule = first_set()
    for _ in range(33):
        schedule.add("crash standby 0", "reopen standby", "crash primary 0", "reopen primary")
    schedule.add("open-link", "ack-delivered 1", "raise-remote", "clear-gap", "accept-freed", "enter")
    schedule.serve_to_end(1, 1, spell("INCR", "a"))
    return schedule


SCHEDULES = {
    "a first set": first_set, "a transaction": transaction, "large values": room, "a delta": delta, "reopenings": reopenings,
    "a standby that makes room": two_long_values_and_a_short_one,
}


class Simulated(FaultyCases, Runs):
    """Of the simulator. A run ends with its message, or names the event at which it ended, before which all was done and after which nothing was; or a call is
    answered that there is no memory. All else is, word for word, what the plain machine tells."""

    def sweep(self, name, *options):
        schedule, faults = SCHEDULES[name](), self.faults()
        text = "".join(f"{event}\n" for event in schedule.events).encode()
        run = lambda: run_program("simulator", ["--map", "--images", *options], text, env=os.environ | faults.settings())
        faults.refuse("memory", FOR_EVER)
        whole = run()
        self.assertEqual((whole.status, whole.errors, whole.output.count(b"out of memory")), (DONE, b"", 0))
        count, counted = faults.calls("memory"), {}
        for row in (1, IN_A_ROW):
            for number in drawn(f"{name} {options} {row}", range(1, count + 1)):
                with self.case(name, options=options, number=number, row=row):
                    faults.refuse("memory", number, number + row - 1)
                    found = run()
                    self.assertGreater(faults.refused("memory"), 0)
                    kind = self.assert_refused(found, whole, schedule.events, row)
                    counted[kind] = counted.get(kind, 0) + 1
        tell(f"the simulator, {name}{' by one call' * bool(options)}, of {count} requests for memory", counted)

    def assert_refused(self, found, whole, events, row):
        """What became of the run, which was as it may be."""
        if found.status == FAILED:
            self.assertIn(found.errors, (b"out of memory\n", b"reading failed: out of memory\n"))
            # (where more was refused than what ended it, what it printed may tell of that)
            self.assertTrue(row > 1 or whole.output.startswith(found.output), found.output[-200:])
            return "ended"
        self.assertEqual((found.status, found.errors), (DONE, b""))
        trace = Trace(found.output.decode("ascii"))
        return self.assert_trace(trace, events)

    def assert_trace(self, trace, events):
        ended = re.fullmatch(r"at event (\d+), line (\d+): refusal 14: out of memory", trace.ended)
        if trace.ended == "at formatting: refusal 14: out of memory":
            self.assertEqual((trace.done, trace.calls), ([], []))
            return "named the formatting"
        reached = int(ended[1]) if ended else len(events)
        self.assertTrue(ended or trace.ended == f"after all {len(events)} events", trace.ended)
        machine = Machine(DEFAULT_LINES, told=told_positions(trace))
        machine.redis = Starved([call.reply for call in trace.calls], machine.primary.image.room)
        machine.play(events[:reached])
        self.assert_events(trace, machine, 0)
        for place, node in enumerate(NODES):
            # (a node that was refused memory while it opened its image may have written the record of that)
            if ended and events[reached] == f"reopen {node}" and trace.nodes[node].record > getattr(machine, node).image.record.number:
                machine.reopen(node)
            # (a standby that was refused memory for a frame may have moved versions for it)
            if ended and events[reached] == "apply":
                machine.standby.image.places_may_differ = True
            self.assert_stands(trace, machine, node, DEFAULT_LINES[place])
        if ended:
            return "named an event"
        return "answered" if any(REFUSED in call.reply for call in trace.calls) else "made good"

    def assert_stands(self, trace, machine, node, lines):
        """The image is that of the plain machine; but a standby that was refused memory for it frees what a frame ended before the next one."""
        found = trace.words[node]
        if node == "standby" and (machine.standby.runs or found):
            device = Words(lines, found)
            ended = [entry for entry, end in plain_image.read_versions(device, plain_image.read_image(device).record).counted if end]
            for entry in ended:
                found.pop((plain_image.DIRECTORY_LINE + entry) * plain_image.WORDS_OF_LINE)
        self.assert_image(trace, machine, node, lines)

    def test_each_request_for_memory(self):
        for name in SCHEDULES:
            self.sweep(name)

    def test_each_request_for_memory_of_one_call(self):
        for name in SCHEDULES:
            self.sweep(name, "--whole")


class Served(FaultyCases, Cases):
    """Of the server without arguments. Each reply is right, or says that there was no memory for its own request; one that ends before it replied to all says
    why: that memory was refused, or that one of its connections broke for it."""

    ROWS = {
        "a first set": SET_A, "a transaction": TRANSACTION, "every kind of reply": TRANSACTIONS["every_kind_of_reply"].input(), "large values": ROOM,
    }

    def sweep(self, name, kind, **how):
        data, faults = self.ROWS[name], self.faults()
        items = read(data).items
        run = lambda: run_program("server", stdin=data, env=os.environ | faults.settings())
        faults.refuse(kind, FOR_EVER)
        self.assert_written(run(), b"".join(answers(items)))
        count, counted = faults.calls(kind), {}
        for row in (1, IN_A_ROW):
            for number in drawn(f"{name} {kind} {row}", range(1, count + 1)):
                with self.case(name, kind=kind, number=number, row=row):
                    faults.refuse(kind, number, number + row - 1, **how)
                    found = self.assert_answered(run(), items)
                    counted[found] = counted.get(found, 0) + 1
        tell(f"the server without arguments, {name}, of {count} calls of the kind {kind}", counted)

    def assert_answered(self, found, items):
        """What became of the run, which was as it may be."""
        replies, _ = replies_in(found.output)
        wanted = b"".join(answers(items, replies))
        if found.status in (FAILED, PASSING):
            self.assertIn(found.errors, (NO_MEMORY, STARVED, BROKEN))
            self.assertEqual(found.status == PASSING, found.errors == NO_MEMORY)
            self.assertTrue(wanted.startswith(found.output), found.output[-200:])
            return "lost a connection" if found.errors == BROKEN else "ended"
        self.assert_written(found, wanted)
        return "answered" if REFUSED in found.output else "made good"

    def test_each_request_for_memory(self):
        for name in self.ROWS:
            self.sweep(name, "memory")

    def test_each_thread(self):
        for name in self.ROWS:
            self.sweep(name, "thread")


class Seen(Cases):
    """What the sweeps would not take: replies to one connection that no refusal of memory explains."""

    def assert_seen(self, *found):
        """These are no replies to the transaction."""
        items = read(TRANSACTION).items
        self.assertNotEqual(answers(items, found), list(found))

    def test_replies_that_are_wrong(self):
        whole = answers(read(TRANSACTION).items)
        ok, queued, array_of_all, last = whole[0], whole[1], whole[4], whole[5]
        self.assertEqual(answers(read(TRANSACTION).items, whole), whole)
        failed, two = elements(array_of_all)[1], array([OK, OK])
        for name, found in [
            ("a reply that was dropped", [ok, queued, queued, array_of_all, last]),
            ("a refused request that spoils nothing", [ok, queued, REFUSED, queued, two, last]),
            ("a refused EXEC that ends its transaction", [ok, queued, queued, queued, REFUSED, NULL_BULK]),
            ("a refused element that changes its key", [ok, queued, queued, queued, array([OK, failed, REFUSED]), last]),
            ("a refused element before one that saw it", [ok, queued, queued, queued, array([REFUSED, failed, OK]), last]),
            ("a key that is there though all was refused", [REFUSED, OK, failed, REFUSED, *whole[4:5], last]),
        ]:
            with self.case(name):
                self.assert_seen(*found)


def without_pair(data):
    """An image but for the number of its pair."""
    return data[:8 * PAIR_WORD] + data[8 * PAIR_WORD + 8:]


class Subcommands(FaultyCases, Images):
    """Of the subcommands over image files. What a subcommand says that it did is done; where it was refused memory the image is as it was, or, of one that is
    promoted, opened again."""

    def sweep(self, name, before, command, told=lambda data: data):
        """`told` is what of an image is the same each time."""
        with self.folder() as folder:
            path, faults = folder / "s.img", self.faults(name)
            run = lambda: run_program("server", command(path), env=os.environ | faults.settings())
            put = lambda: path.write_bytes(before) if before else path.unlink(missing_ok=True)
            put()
            faults.refuse("memory", FOR_EVER)
            whole, after = run(), path.read_bytes()
            count, counted = faults.calls("memory"), {}
            for number in drawn(name, range(1, count + 1)):
                with self.case(name, number=number):
                    put()
                    faults.refuse("memory", number)
                    found = run()
                    self.assertEqual(faults.refused("memory"), 1)
                    left = path.read_bytes() if path.exists() else b""
                    if found.status == DONE:
                        self.assertEqual((found.output, told(left)), (whole.output, told(after)))
                        # (what is told of it beside may lack)
                        self.assertTrue(whole.errors.startswith(found.errors), found.errors)
                    else:
                        self.assertEqual((found.status, found.output, common.without_cause(found.errors)), (PASSING, b"", NO_MEMORY))
                        self.assert_stays(left, before)
                    kind = "made good" if found.status == DONE else "ended"
                    counted[kind] = counted.get(kind, 0) + 1
            tell(f"{name}, of {count} requests for memory", counted)

    def assert_stays(self, left, before):
        if left == (before or b""):
            return
        images = [plain_image.read_image(Words(LINES, words_of(data))) for data in (left, before)]
        self.assertEqual(images[0].map, images[1].map)
        self.assertEqual(images[0].record, plain_image.reopened(images[1].record)[-1])

    def test_each_request_for_memory(self):
        writer = Writer(LINES, STANDBY)
        for number in range(4):
            writer.commit([[Put((b"k%d" % number,), 100 * b"v")]])
        writer.reopen()
        image = image_bytes(LINES, writer.words)
        # (the number of a pair is drawn)
        self.sweep("format of a new file", None, format_words, without_pair)
        self.sweep("format of an image", image, format_words, without_pair)
        self.sweep("inspect", image, lambda path: ["inspect", "--image", str(path)])
        self.sweep("promote", image, lambda path: ["promote", "--image", str(path), "--old-primary-stopped"])


# What the client program is asked for, and what comes back in three pieces each.
REQUESTS = [(b"HSET h f 1", integer(1)), (b"HGETALL h", array([bulk(b"f"), bulk(b"1")])), (b"GET a", bulk(5_000 * b"v"))]


def run_client(faults):
    """The client program over a server that answers so."""
    exchanges = [(spell(*request.split()), cut(reply, 1 + len(reply) // 3)) for request, reply in REQUESTS]
    with StoredServer(exchanges) as server:
        lines = b"".join(request + b"\n" for request, _ in REQUESTS)
        return run_program("client", ["--connect", server.address], lines, env=os.environ | faults.settings())


class Client(FaultyCases, Cases):
    """Of the client program: it ends with 1, and what it printed before begins what it would print."""

    def test_each_request_for_memory(self):
        faults = self.faults()
        faults.refuse("memory", FOR_EVER)
        whole, counted = run_client(faults), {}
        self.assertEqual((whole.status, whole.errors), (DONE, b""))
        count = faults.calls("memory")
        for number in drawn("the client", range(1, count + 1)):
            with self.case("the client", number=number):
                faults.refuse("memory", number)
                found = run_client(faults)
                if found.status == DONE:
                    self.assertEqual(found, whole)
                else:
                    self.assertIn(found.errors, (NO_MEMORY, b"reading failed: out of memory\n"))
                    self.assertEqual(found.status, PASSING if found.errors == NO_MEMORY else FAILED)
                    self.assertTrue(whole.output.startswith(found.output), found.output)
                kind = "made good" if found.status == DONE else "ended"
                counted[kind] = counted.get(kind, 0) + 1
        tell(f"the client, of {count} requests for memory", counted)
