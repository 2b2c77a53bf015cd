"""What bytes ask for, in any pieces: each text is fed to connections of its own, cut at every position and in single
bytes. The requests and the faults are written here by hand, from docs/protocol.md."""

import spelling
import worked_cases as worked
from simulation import Runs, Schedule
from worked_cases import GET_A, PING, SET_A

PROGRAMS = ["simulator"]

SET = (b"SET", b"a", b"1")
GET = (b"GET", b"a")
NINE = b"\r\n$1\r\n\0\xff*"
LONGEST = bytes(range(256)) * 4_096

# Texts, and the words of the requests that they ask for.
REQUESTS = {
    "nothing": (b"", []),
    "first_set": (SET_A, [SET]),
    "set_and_get": (SET_A + GET_A, [SET, GET]),
    "empty_word": (b"*3\r\n$3\r\nSET\r\n$1\r\ne\r\n$0\r\n\r\n" + GET_A, [(b"SET", b"e", b""), GET]),
    "word_of_any_bytes": (b"*1\r\n$9\r\n" + NINE + b"\r\n", [(NINE,)]),
    "no_words_before": (b"*0\r\n" + PING, [(b"PING",)]),
    "no_words_between": (b"*0\r\n" + PING + b"*0\r\n*0\r\n" + PING + b"*0\r\n", [(b"PING",), (b"PING",)]),
    "no_words_at_all": (b"*0\r\n", []),
    "a_prefix_of_a_request": (SET_A[:-1], []),
}

# Texts that are at fault at their last byte, by where that byte is.
IN_COUNT = [b"*01", b"*-", b"*\r", b"*\n", b"*1\n", b"*1\r\r", b"*1025", b"*9999", b"*1030", b"*1x", b"*1024x", b"*10240"]
IN_COUNT += [b"*+", b"*x", b"* ", b"*0\n", b"*00"]
FIRST_BYTES = [b"P", b"*0\r\nP", b"\r", b"\n", b"\0", b"$", b"+", b"*0\r\n$"]
DOLLARS = [(b"*1\r\n" + byte, byte) for byte in (b":", b"*", b"~", b" ", b"'", b"+", b"0")]
DOLLARS += [(b"*1\r\n" + byte, b"?") for byte in (b"\x01", b"\x1f", b"\x7f", b"\xff", b"\r", b"\n")]
DOLLARS += [(b"*2\r\n$1\r\na\r\n*", b"*"), (b"*3\r\n$1\r\na\r\n$0\r\n\r\n\r", b"?")]
IN_LENGTH = [b"*1\r\n$-", b"*1\r\n$1048577", b"*1\r\n$1048580", b"*1\r\n$00", b"*1\r\n$01", b"*1\r\n$\r", b"*1\r\n$1\n"]
IN_LENGTH += [b"*1\r\n$1\r1", b"*2\r\n$1\r\na\r\n$+", b"*3\r\n$3\r\nSET\r\n$1\r\na\r\n$1048577", b"*1\r\n$x"]
IN_LENGTH += [b"*1\r\n$ ", b"*1\r\n$9999999", b"*1\r\n$1048576x", b"*1\r\n$10485760"]
AFTER_WORD = [b"*1\r\n$4\r\nPINGX", b"*1\r\n$4\r\nPING\n", b"*1\r\n$4\r\nPING\rX", b"*1\r\n$0\r\nX"]
AFTER_WORD += [b"*2\r\n$1\r\na\r\n$1\r\nbb"]

FAULTS = {
    "first_byte": (FIRST_BYTES, worked.NO_STAR),
    "count": (IN_COUNT, worked.BAD_COUNT),
    "length": (IN_LENGTH, worked.BAD_LENGTH),
    "after_a_word": (AFTER_WORD, worked.NO_LINE_END),
}


class Parsed(Runs):
    """Tests of what the bytes of many connections ask for."""

    def assert_asked(self, text, wanted, behind=b""):
        """The text asks for these items, however it is cut into two and in single bytes. `behind` is fed after it, and
        asks for nothing more."""
        ways = [[text[:cut], text[cut:]] for cut in range(len(text) + 1)]
        ways.append([text[at:at + 1] for at in range(len(text))])
        schedule = Schedule(len(ways))
        for c, pieces in enumerate(ways):
            for piece in pieces:
                schedule.feed(c, piece)
            if behind:
                schedule.feed(c, behind)
        for c in range(len(ways)):
            schedule.add(*((len(wanted) + 1) * [f"offer {c}", f"turn {c}"]))
        trace = self.play(schedule)
        for c in range(len(ways)):
            found = [call.reply if call.words is None else call.words for call in trace.calls if call.connection == c]
            self.assertEqual(found, wanted)


@worked.one_test_for_each(REQUESTS, "check_row")
class Requests(Parsed):
    """Texts without a fault."""

    def check_row(self, text, wanted):
        self.assert_asked(text, wanted)
        self.assertEqual(spelling.read(text).items, wanted)

    def test_each_front_of_a_transaction(self):
        """None is a fault: what is whole in it is asked for at once, and the rest once the rest has come."""
        text = worked.TRANSACTIONS["an_error_among_others"].input()
        words, schedule, whole = spelling.read(text).items, Schedule(len(text)), []
        for c in range(len(text)):
            schedule.feed(c, text[:c])
            whole.append(len(spelling.read(text[:c]).items))
            schedule.add(*((whole[c] + 1) * [f"offer {c}", f"turn {c}"]))
            schedule.feed(c, text[c:])
            schedule.add(*((len(words) - whole[c] + 1) * [f"offer {c}", f"turn {c}"]))
            schedule.commit()
        self.assertEqual(sorted(set(whole)), list(range(len(words))))
        trace = self.play(schedule)
        for c in range(len(text)):
            with self.case("front", bytes=c):
                self.assertEqual([call.words for call in trace.calls if call.connection == c], words)

    def test_words_as_the_simulator_spells_them(self):
        schedule = Schedule(1)
        schedule.add("feed 0 SET a 1", "feed 0  GET   a", "feed 0 PING")
        schedule.add(*(3 * ["offer 0", "turn 0"]))
        self.assertEqual([call.words for call in self.play(schedule).calls], [SET, GET, (b"PING",)])

    def test_the_greatest_count_and_length(self):
        # cut where a count, a length, a word or a line end begins, and in pieces of 16,383 and of 65,536 bytes
        many, long = spelling.spell(*(1_024 * [b"w"])), spelling.spell(b"ECHO", LONGEST)
        for name, text, words in [("words", many, 1_024 * (b"w",)), ("bytes", long, (b"ECHO", LONGEST))]:
            cuts = [*range(24), *range(len(text) - 4, len(text) + 1)]
            ways = [[text[:cut], text[cut:]] for cut in cuts]
            ways += [[text[at:at + size] for at in range(0, len(text), size)] for size in (16_383, 65_536)]
            schedule = Schedule(len(ways))
            for c, pieces in enumerate(ways):
                for piece in pieces:
                    schedule.feed(c, piece)
                schedule.add(f"offer {c}", f"turn {c}")
            with self.case(name):
                self.assertEqual([call.words for call in self.play(schedule).calls], len(ways) * [words])

    def test_items_come_of_pieces(self):
        schedule = Schedule(1)
        schedule.feed(0, PING[:10])
        schedule.add("offer 0")
        schedule.feed(0, PING[10:] + GET_A)
        schedule.add("offer 0", "offer 0", "offer 0", "turn 0", "turn 0", "turn 0")
        trace = self.play(schedule)
        self.assertEqual(trace.done, [True, True, False, True, True, True, False, True, True, False])

    def test_empty_pieces(self):
        schedule = Schedule(1)
        schedule.feed(0, b"")
        schedule.add("offer 0")
        for at in range(len(SET_A)):
            schedule.feed(0, SET_A[at:at + 1])
            schedule.feed(0, b"")
        schedule.add("offer 0", "offer 0")
        self.assertEqual(self.play(schedule).done[-2:], [True, False])


@worked.one_test_for_each(FAULTS, "check_row")
class Faults(Parsed):
    """Texts that are at fault at their last byte: before it nothing is said, and nothing is read after it."""

    def check_row(self, texts, reply):
        for text in texts:
            self.check_fault(text, reply)

    def check_fault(self, text, reply):
        with self.case("fault", text=text):
            self.assert_asked(text, [reply])
            self.assert_asked(text[:-1], [])
            self.assert_asked(text, [reply], behind=SET_A)
            self.assert_asked(GET_A + text + SET_A, [GET, reply], behind=b"P")

    def test_dollar(self):
        for text, shown in DOLLARS:
            self.check_fault(text, b"-ERR Protocol error: expected '$', got '%s'\r\n" % shown)

    def test_nothing_is_fed_after_a_fault(self):
        schedule = Schedule(1)
        schedule.feed(0, SET_A)
        schedule.feed(0, b"*01")
        schedule.feed(0, PING)
        schedule.feed(0, b"P")
        schedule.feed(0, b"")
        schedule.add(*(3 * ["offer 0", "turn 0"]))
        trace = self.play(schedule)
        self.assertEqual(trace.done[1:6], [True, True, False, False, False])
        self.assertEqual([call.words for call in trace.calls], [SET, None])


@worked.one_test_for_each(worked.FAULTS, "check_row")
class FaultsAtTheirLastByte(Runs):
    """The faults of worked_cases, from bytes in to bytes out: three connections, one without the last byte, one with it, and one
    with a request after it."""

    def check_row(self, data, output):
        schedule = Schedule(3)
        schedule.feed(0, data[:-1])
        schedule.feed(1, data)
        schedule.feed(2, data)
        schedule.feed(2, SET_A)
        schedule.drain(3, 3, 1)
        trace = self.play(schedule)
        self.assertEqual(trace.released, [b"", output, output])
        self.assertEqual(trace.done[3:7], [True, True, True, False])

    def test_a_fault_closes_no_other_seat(self):
        # two connections are at fault, one after the other; a third goes on, and so does each until its own fault
        for first, second in [(0, 1), (1, 0), (0, 2), (2, 1)]:
            with self.case("order", first=first, second=second):
                schedule = Schedule(3)
                last = 3 - first - second
                sent = [(first, b"P"), (second, SET_A), (last, SET_A), (second, b"*1\r\n:")]
                for c, data in sent + [(last, GET_A), (first, SET_A)]:
                    schedule.feed(c, data)
                    schedule.serve(c)
                schedule.add("enter")
                schedule.feed(3, PING)
                schedule.drain(4, 3, 3)
                released = dict(enumerate(self.play(schedule).released))
                self.assertEqual(released[first], worked.NO_STAR)
                self.assertEqual(released[second], worked.OK + b"-ERR Protocol error: expected '$', got ':'\r\n")
                self.assertEqual(released[last], worked.OK + worked.ONE)
                self.assertEqual(released[3], worked.PONG)
