"""The simulator itself: its words and lines, what it says of bad ones, and the order and form of what it prints."""

from common import Cases, run_program
from simulation import NODES, Schedule, Trace, simulate
from worked_cases import GET_A, SET_A

PROGRAMS = ["simulator"]

FAILED, MISUSED = 1, 2
MOST_EVENTS = 16_777_216
ABOVE_U64 = 2**64

USAGE = b"""usage: wbl-sim [--lines N,N] [--list | --whole] [--map] [--images] < EVENTS
       wbl-sim [--lines N,N] --trace < EVENTS
       wbl-sim [--trace] --explore SEED EVENTS
"""

FIRST_SET = [
    "enter", "feed 0 SET a 1", "offer 0", "turn 0", "close-group", "commit", "raise-local", "hand", "send", "deliver 0",
    "apply", "ack-delivered 0", "raise-remote", "hold 0", "read 0 local", "read 0 remote", "release 0", "write 0 5",
]

FIRST_SET_PRINTED = """\
call 0: connection 0, "SET" "a" "1" -> "+OK\\r\\n"
connection 0: released "+OK\\r\\n"
frame 0: epoch 1, from 0 to 1, changes 1, bytes 010000000000000001000000000000000000000000000000010000000000000009010001610000000131
acknowledgement 0: epoch 1, position 1, bytes 0200000000000000010000000000000001
primary: position 1, record 2, cp 1, cd 4098, epoch 1, role primary, gaps 0
standby: position 1, record 2, cp 1, cd 4098, epoch 1, role standby, gaps 0
primary record: "a" = "1"
standby record: "a" = "1"
ended: after all 18 events
"""

# Words of eight bytes each, as they are printed.
PRINTED_WORDS = [
    r'"\x00\x01\x02\x03\x04\x05\x06\x07"',
    r'"\x08\t\n\x0b\x0c\r\x0e\x0f"',
    '" !\\"#$%&\'"',
    r'"XYZ[\\]^_"',
    r'"xyz{|}~\x7f"',
]

BAD_LINES = [
    "nonsense", "Enter", "ENTER", "enter 0", "enter,", "close-group 1", "close_group", "commit 0", "raise-local 0",
    "hand 0", "free 0", "Free", "accept-freed 0", "accept_freed", "clear-gap 0", "clear-gaps", "open-link 0", "send 0",
    "apply 0", "raise-remote 0", "feed", "feed 0", "feed x a", "feed -1 a",
    "feed-bytes", "feed-bytes 0 0", "feed-bytes 0 0g", "feed-bytes 0 00 00", "feed-bytes 0 0x00", "feed-bytes x 00",
    "offer", "offer 0 0", "offer x", "offer +0", "offer -1", "offer 00", "offer 01", "offer 0x1", "offer 1.0",
    "offer 1_0", f"offer {ABOVE_U64}", "turn", "turn 0 0", "deliver", "deliver 0 x", "deliver 0 0 0", "ack-delivered",
    "ack-delivered 0 0", "hold", "hold 0 0", "read", "read 0", "read 0 both", "read local 0", "read 0 local 0",
    "read 0 Local", "release", "release 0 0", "leave", "leave 0 0", "leave x", "write", "write 0", "write 0 0 0", "write 0 -1",
    f"write 0 {10 * ABOVE_U64}", "repeat", "repeat 2", "repeat x enter", "repeat 01 enter", "repeat enter",
    "repeat 2 repeat 2 enter", "repeat 2 nonsense", "repeat 2 # nothing", "repeat 2 fail primary 1",
    "repeat 2 crash primary", f"repeat {MOST_EVENTS + 1} enter", f"repeat {ABOVE_U64 - 1} enter",
    f"repeat {ABOVE_U64} enter", "fail", "fail primary", "fail 1 primary", "fail third 1", "fail primary 01",
    "fail primary 1 2", "crash", "crash primary", "crash third 0", "crash 0", "crash primary x", "crash primary 00",
    "crash primary 0 x", f"crash primary {ABOVE_U64}", "crash primary commit", "crash primary commit 1", "crash primary commit x 0",
    "crash primary commit 1 x", "crash primary commit 01 0", "crash commit 1 0", "crash primary hand 1 0", "crash primary Commit 1 0",
    "crash primary commit apply 1 0", "fail-fence", "fail-fence primary", "fail-fence 1 primary", "fail-fence third 1", "fail-fence primary 01",
    "fail-fence primary 1 2", "fail_fence primary 1", "reopen", "reopen third", "reopen primary 0", "reopen 0", "repeat 2 reopen",
    "keep", "keep third", "keep primary 0", "keep 0", "Keep primary", "repeat 2 keep primary", "restore", "restore third", "restore primary", "restore standby",
    "restore primary 0", "repeat 2 restore primary",
]

# By its text lines of which the last is told so.
TEXTS_OF_BAD_LINES = {
    "unknown event": ["nonsense", "nonsense 0 x", "repeat 2 fail primary 1", "\xff"],
    "a word is missing": ["offer", "feed 0", "read 0", "crash primary", "crash primary apply 1", "repeat 2", "fail primary", "fail-fence primary"],
    "a word too many": ["enter 0", "offer 0 0", "deliver 0 0 0", "fail primary 1 2", "fail-fence primary 1 2"],
    "not a decimal number below 2^64": ["offer x", "deliver 0 x", "crash primary 0 01", "crash primary hand 1 0", "crash primary free x 0", "repeat x enter",
                                        "fail primary x", "fail-fence standby x", f"offer {ABOVE_U64}"],
    "not an even number of hex digits": ["feed-bytes 0 0", "feed-bytes 0 0g"],
    "the mark is neither local nor remote": ["read 0 both"],
    "the node is neither primary nor standby": ["crash third 0", "reopen third", "fail third 1", "fail-fence third 1"],
    "fail after the first event": ["enter\nfail primary 1"],
    "no image of this node was kept": ["restore primary", "keep standby\nenter\nrestore primary"],
    "a word behind the restore": [f"keep primary\nrestore primary\n{word}" for word in ("enter", "keep standby", "restore primary", "fail primary 1", "x")],
    "more than 16777216 events": [f"repeat {MOST_EVENTS + 1} enter", f"repeat {MOST_EVENTS} enter\nenter"],
}

BAD_COMMAND_LINES = [
    ["--list", "--whole"],
    ["x"], [""], ["--help"], ["--lines"], ["--lines", "4096"], ["--lines", "4096,"], ["--lines", "4096,4096,4096"],
    ["--lines", "4096 4096"], ["--lines", "x,4096"], ["--lines", "04096,4096"], ["--lines", f"{ABOVE_U64},4096"],
    ["--lines", "-1,4096"], ["--map", "x"], ["--Map"], ["--images=1"], [b"\xff"], ["--map", ""], ["--plain"], ["-"], ["--"],
]


def text_of(events):
    return "".join(f"{event}\n" for event in events).encode()


def simulator(words, text):
    return run_program("simulator", words, text)


class Printed(Cases):
    """What is printed, and in which order."""

    def test_worked_run_word_for_word(self):
        events = "".join(f"event {number}, line {number + 1}: done\n" for number in range(18))
        self.assert_written(simulator(["--map"], text_of(FIRST_SET)), (events + FIRST_SET_PRINTED).encode())

    def test_nothing_is_printed_that_was_not_asked_for(self):
        trace = simulate(FIRST_SET)
        self.assertEqual(trace.records, {"primary": [], "standby": []})
        self.assertEqual(trace.words, {"primary": {}, "standby": {}})
        self.assertEqual(len(trace.calls), 1)

    def test_options_in_any_order(self):
        one = simulator(["--lines", "4096,8192", "--map", "--images"], text_of(FIRST_SET))
        other = simulator(["--images", "--map", "--lines", "4096,8192"], text_of(FIRST_SET))
        self.assertEqual(one, other)
        words = Trace(one.output.decode()).words
        self.assertEqual((words["primary"][2], words["standby"][2]), (4_096, 8_192))

    def test_no_events(self):
        for text in [b"", b"\n", b"# nothing\n", b"\n\n#\n"]:
            with self.case("text", text=text):
                trace = Trace(simulator([], text).output.decode())
                self.assertEqual((trace.done, trace.calls, trace.released), ([], [], []))
                self.assertEqual(trace.ended, "after all 0 events")

    def test_bytes_are_quoted(self):
        data = bytes(range(256))
        schedule = Schedule(1)
        for at in range(0, 256, 8):
            schedule.feed(0, b"*2\r\n$3\r\nSET\r\n$8\r\n" + data[at:at + 8] + b"\r\n")
            schedule.serve(0)
        finished = simulator([], text_of(schedule.events))
        words = b"".join(call.words[1] for call in Trace(finished.output.decode("ascii")).calls)
        self.assertEqual(words, data)
        for word in PRINTED_WORDS:
            with self.case("word", word=word):
                self.assertIn(f'"SET" {word} -> '.encode(), finished.output)

    def test_a_fault_is_no_request(self):
        schedule = Schedule(1)
        schedule.feed(0, b"P")
        schedule.serve(0)
        finished = simulator([], text_of(schedule.events))
        self.assertIn(b"call 0: connection 0, fault -> \"-ERR Protocol error: expected '*'\\r\\n\"\n", finished.output)


class Lines(Cases):
    """How lines are read."""

    def test_lines_are_counted_that_are_passed_over(self):
        trace = Trace(simulator([], b"# first\nenter\n\n#enter\noffer 0\n\nenter").output.decode())
        self.assertEqual((trace.event_lines, trace.done), ([2, 5, 7], [True, False, True]))

    def test_spaces_between_words(self):
        feeds = ["feed  0   GET    a", "feed-bytes   0  " + GET_A.hex()]
        trace = simulate(["enter", *feeds, "read  0     remote", "repeat  2   offer    0"])
        self.assertEqual(trace.done, 6 * [True])

    def test_hex_digits_of_either_case(self):
        trace = simulate(["enter", "feed-bytes 0 2A310d0A24310D0a", "feed-bytes 0 7A0d0A", "offer 0", "turn 0"])
        self.assertEqual(trace.calls[0].words, (b"z",))

    def test_an_empty_piece(self):
        self.assertEqual(simulate(["enter", "feed-bytes 0", "offer 0"]).done, [True, True, False])

    def test_repeat(self):
        trace = simulate(["enter", "repeat 3 feed 0 GET a", "repeat 0 enter", "repeat 4 offer 0", "repeat 1 enter"])
        self.assertEqual(trace.event_lines, [1, 2, 2, 2, 4, 4, 4, 4, 5])
        self.assertEqual(trace.done, 7 * [True] + [False, True])
        self.assertEqual(trace.ended, "after all 9 events")

    def test_crashes_and_reopenings(self):
        trace = simulate(["repeat 2 crash primary 0 1", "enter", "repeat 2 reopen primary", "enter", "repeat 2 reopen standby",
                          f"crash  standby   {ABOVE_U64 - 1}  7", "apply", "reopen standby", "open-link"])
        self.assertEqual(trace.event_lines, [1, 1, 2, 3, 3, 4, 5, 5, 6, 7, 8, 9])
        self.assertEqual(trace.done, [True, False, False, True, False, True, False, False, True, False, True, True])
        self.assertEqual([(line.record, line.gaps) for line in trace.nodes.values()], [(2, 1), (2, 1)])

    def test_calls_that_a_node_is_not_in_are_not_cut(self):
        calls = [("primary", "commit"), ("primary", "free"), ("primary", "clear-gap"), ("primary", "reopen"), ("standby", "apply"), ("standby", "reopen"),
                 ("standby", "promote"), ("standby", "commit")]
        for place in range(len(FIRST_SET) + 1):
            # (a call that comes next may be cut: test_cut_calls)
            comes = {("primary", "commit"), ("standby", "apply")} & {(node, FIRST_SET[place]) for node in NODES if place < len(FIRST_SET)}
            added = [f"crash {node} {call} {count} 0 1" for node, call in calls if (node, call) not in comes for count in (0, 1, 99)]
            with self.case("place", place=place):
                trace = simulate([*FIRST_SET[:place], *added, *FIRST_SET[place:]])
                self.assertEqual(trace.done, place * [True] + len(added) * [False] + (len(FIRST_SET) - place) * [True])
                self.assertEqual(trace.released, [b"+OK\r\n"])

    def test_many_reopenings(self):
        # nine gaps are held; of those of 33 reopenings the oldest was cleared, in a record of its own
        for count, wanted in [(9, (10, 9)), (32, (33, 32)), (33, (35, 32))]:
            with self.case("reopenings", count=count):
                trace = simulate([*(count * ["crash primary 0", "reopen primary"])])
                self.assertEqual((trace.nodes["primary"].record, trace.nodes["primary"].gaps), wanted)

    def test_greatest_numbers(self):
        most = ABOVE_U64 - 1
        trace = simulate(["enter", f"offer {most}", f"write 0 {most}", f"deliver {most}"])
        self.assertEqual(trace.done, [True, False, False, False])

    def test_ended_at_an_event_of_a_repeat(self):
        schedule = Schedule(1)
        schedule.feed(0, SET_A)
        schedule.add("offer 0", "turn 0", "close-group")
        before, after = ["# the first fence of the first commit", "fail primary 4"], ["repeat 3 commit", "enter"]
        trace = simulate(before + schedule.events + after)
        self.assertEqual(trace.ended, "at event 5, line 8: refusal 1: device fault")
        self.assertEqual(trace.event_lines, [3, 4, 5, 6, 7])

    def test_a_fence_of_number_0_does_not_fail(self):
        self.assertEqual(simulate(["fail primary 0", "fail standby 0"] + FIRST_SET).released, [b"+OK\r\n"])

    def test_the_last_fail_of_a_node_counts(self):
        self.assertEqual(simulate(["fail primary 1", "fail standby 1", "fail primary 0", "fail standby 0"] + FIRST_SET).released, [b"+OK\r\n"])
        trace = simulate(["fail primary 0", "fail primary 4"] + FIRST_SET)
        self.assertEqual(trace.ended, "at event 5, line 8: refusal 1: device fault")

    def test_many_events(self):
        count = 200_000
        trace = simulate([f"repeat {count} raise-remote", f"repeat {count} open-link"])
        self.assertEqual(trace.ended, f"after all {2 * count} events")
        self.assertEqual((sum(trace.done), len(trace.done)), (count, 2 * count))


class Misuse(Cases):
    """Bad lines and bad command lines: status 2, and nothing on standard output."""

    def assert_bad_line(self, text, line):
        finished = simulator([], text)
        self.assertEqual((finished.status, finished.output), (MISUSED, b""))
        self.assertRegex(finished.errors, rb"\Aline %d: [^\n]+\n\Z" % line)

    def test_bad_lines(self):
        for line in BAD_LINES:
            with self.case("line", line=line):
                self.assert_bad_line(line.encode(), 1)
                self.assert_bad_line(b"# a bad line comes\n\n" + line.encode() + b"\nenter\n", 3)

    def test_texts_of_bad_lines(self):
        for text, given in TEXTS_OF_BAD_LINES.items():
            for lines in given:
                with self.case("text", text=text, lines=lines):
                    finished = simulator([], lines.encode("latin-1"))
                    wanted = f"line {lines.count(chr(10)) + 1}: {text}\n".encode()
                    self.assertEqual((finished.status, finished.output, finished.errors), (MISUSED, b"", wanted))

    def test_the_first_bad_line_is_told(self):
        self.assert_bad_line(b"enter\nwrong\noffer x\n", 2)

    def test_words_out_of_their_place(self):
        for text, line in [
            (b"enter\nfail primary 1\n", 2),
            (b"crash standby 0\nfail standby 5\n", 2),
        ]:
            with self.case("text", text=text):
                self.assert_bad_line(text, line)

    def test_too_many_events_in_all(self):
        self.assert_bad_line(b"repeat %d commit\nrepeat 1 commit\n" % MOST_EVENTS, 2)
        self.assert_bad_line(b"repeat %d commit\nenter\n" % MOST_EVENTS, 2)

    def test_bad_command_lines(self):
        for words in BAD_COMMAND_LINES:
            with self.case("words", words=words):
                finished = simulator(words, b"enter\n")
                self.assertEqual((finished.status, finished.output, finished.errors), (MISUSED, b"", USAGE))

    def test_a_full_disk(self):
        with open("/dev/full", "wb") as full:
            finished = run_program("simulator", stdin=text_of(FIRST_SET), stdout=full)
        self.assertEqual(finished.status, FAILED)
        self.assertRegex(finished.errors, rb"\A[^\n]+\n\Z")
