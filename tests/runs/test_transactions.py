"""Transactions and watched keys, rule by rule (docs/commands.md, "Transactions"), of one connection and of several."""

import plain_image
from common import run_program
from plain_machine import SEATS
from simulation import NODES, Runs, Schedule
from spelling import spell
from worked_cases import OK, SET_A

PROGRAMS = ["server", "simulator"]

ABORTED = "-EXECABORT Transaction discarded because of previous errors."
UNKNOWN = "-ERR unknown command"
TOO_LONG = "-ERR transaction is too long"
LONG_KEY = "-ERR key or field is longer than 512 bytes"
STORE_IS_FULL = "-ERR store is full"
STOPPED = "*-1"

# What a connection says to learn whether its watches still stop a transaction, and what it is answered.
ASKING = ("MULTI", "PING", "EXEC")
WENT_ON = ("+OK", "+QUEUED", "*1\r\n+PONG")
WAS_STOPPED = ("+OK", "+QUEUED", STOPPED)


def wrong_number(name):
    return f"-ERR wrong number of arguments for '{name}' command"


def said(name, *pairs):
    """A connection's requests with their replies, which stand by turns."""
    return [(name, asked, reply) for asked, reply in zip(pairs[::2], pairs[1::2])]


def asks(name, replies):
    return [(name, asked, reply) for asked, reply in zip(ASKING, replies)]


def request(asked):
    """The bytes of a request: a text with spaces between its words, or these words."""
    return spell(*(asked.split() if isinstance(asked, str) else asked))


class Talks(Runs):
    """Tests that are requests of the connections A, B and so on, one after another, each with its reply."""

    def talk(self, told, position, lines=(4_096, 4_096)):
        """Each request is served and what it changed committed before the next one; in the end all has gone to the standby,
        and all replies are out. Where all requests are of A, the server answers them alike."""
        connections = 1 + max(ord(name) - ord("A") for name, _, _ in told)
        schedule, replies = Schedule(connections), [b""] * connections
        for name, asked, reply in told:
            c = ord(name) - ord("A")
            schedule.feed(c, request(asked))
            schedule.serve(c)
            schedule.commit()
            schedule.add("send")
            replies[c] += reply.encode() + b"\r\n"
        schedule.drain(connections, 0, position)
        trace = self.play(schedule, lines=lines)
        for call, (name, asked, reply) in zip(trace.calls, told):
            self.assertEqual((call.reply.decode(), name, asked), (reply + "\r\n", name, asked))
        self.assertEqual(trace.released, replies)
        self.assertEqual([node.position for node in trace.nodes.values()], 2 * [position])
        if connections == 1:
            data = b"".join(request(asked) for _, asked, _ in told)
            self.assert_written(run_program("server", stdin=data), replies[0])
        return trace


class Rules(Talks):
    """Queueing, spoiling and ending."""

    def test_a_request_that_is_refused_spoils_wherever_it_comes(self):
        for asked, reply in [
            ("NOSUCH", UNKNOWN), ("GET", wrong_number("get")), ("MSET a 1 b", wrong_number("mset")), ("HSET h f", wrong_number("hset")),
            (("GET", 513 * "k"), LONG_KEY), (("HSET", "h", 513 * "f", "1"), LONG_KEY), (("WATCH", 513 * "k"), LONG_KEY),
            ("MULTI now", wrong_number("multi")), ("EXEC 1", wrong_number("exec")), ("DISCARD all", wrong_number("discard")),
            ("WATCH", wrong_number("watch")), ("UNWATCH k", wrong_number("unwatch")), ("PING a b", wrong_number("ping")),
        ]:
            refused = [("A", asked, reply)]
            with self.case("inside", asked=asked):
                begun = said("A", "MULTI", "+OK", "SET a 1", "+QUEUED")
                ended = said("A", "SET b 2", "+QUEUED", "UNWATCH", "+QUEUED", "EXEC", ABORTED, "EXISTS a b", ":0")
                self.talk(begun + refused + ended, 0)
                self.talk(said("A", "MULTI", "+OK") + refused + said("A", "DISCARD", "+OK") + asks("A", WENT_ON), 0)
            with self.case("outside", asked=asked):
                self.talk(refused + asks("A", WENT_ON), 0)

    def test_an_error_of_the_run_spoils_nothing(self):
        queued = ["SET a 1 EX", "INCRBY a x", "DECRBY a -9223372036854775808", "FLUSHDB now", "SET a 1 NX XX"]
        errors = ["ERR syntax error", "ERR value is not an integer or out of range", "ERR decrement would overflow"]
        errors += 2 * ["ERR syntax error"]
        array = "*5" + "".join(f"\r\n-{text}" for text in errors)
        self.talk(said("A", "MULTI", "+OK", *(word for asked in queued for word in (asked, "+QUEUED")), "EXEC", array), 0)

    def test_the_end_of_a_spoiled_transaction_leaves_nothing(self):
        self.talk(said(
            "A", "MULTI", "+OK", "NOSUCH", UNKNOWN, "EXEC", ABORTED, "EXEC", "-ERR EXEC without MULTI", "SET a 1", "+OK",
            "MULTI", "+OK", "GET a", "+QUEUED", "EXEC", "*1\r\n$1\r\n1", "DISCARD", "-ERR DISCARD without MULTI",
        ), 1)

    def test_256_requests_run(self):
        told = said("A", "MULTI", "+OK") + 256 * said("A", "INCR n", "+QUEUED")
        told += said("A", "EXEC", "*256" + "".join(f"\r\n:{number}" for number in range(1, 257)), "GET n", "$3\r\n256")
        self.talk(told, 1)

    def test_257_requests_do_not(self):
        self.talk(said("A", "MULTI", "+OK") + 256 * said("A", "PING", "+QUEUED") + said("A", "PING", TOO_LONG, "EXEC", ABORTED), 0)

    def test_behind_256_requests_all_but_good_ones_answer_as_ever(self):
        told = said("A", "MULTI", "+OK") + 256 * said("A", "SET a 1", "+QUEUED")
        told += said(
            "A", "MULTI", "-ERR MULTI calls can not be nested", "WATCH a", "-ERR WATCH inside MULTI is not allowed",
        )
        with self.case("not spoiled"):
            self.talk(told + said("A", "EXEC", "*256" + 256 * "\r\n+OK"), 1)
        told += said("A", "NOSUCH", UNKNOWN, "GET", wrong_number("get"), "SET a 1", TOO_LONG, "UNWATCH", TOO_LONG)
        with self.case("spoiled"):
            self.talk(told + said("A", "DISCARD", "+OK", "EXISTS a", ":0"), 0)

    def test_a_spoiled_transaction_still_counts(self):
        told = said("A", "MULTI", "+OK", "NOSUCH", UNKNOWN) + 256 * said("A", "PING", "+QUEUED")
        self.talk(told + said("A", "PING", TOO_LONG, "EXEC", ABORTED, "PING", "+PONG"), 0)

    def test_names_in_any_case(self):
        for multi, exec_, discard, watch, unwatch in [
            ("multi", "exec", "discard", "watch", "unwatch"), ("Multi", "Exec", "Discard", "Watch", "Unwatch"),
            ("mULTI", "eXeC", "diSCArd", "WATCh", "unWATCH"),
        ]:
            with self.case("names", multi=multi):
                self.talk(said(
                    "A", f"{watch} k", "+OK", "SET k 1", "+OK", unwatch, "+OK", multi, "+OK", multi, "-ERR MULTI calls can not be nested",
                    unwatch, "+QUEUED", exec_, "*1\r\n+OK", f"{watch} k", "+OK", multi, "+OK", discard, "+OK", exec_,
                    "-ERR EXEC without MULTI",
                ), 1)

    def test_a_fault_in_a_transaction(self):
        schedule = Schedule(2)
        schedule.feed(0, spell("MULTI") + SET_A + b"P" + spell("EXEC"))
        schedule.feed(1, spell("EXISTS", "a"))
        schedule.drain(1, 4, 0)
        schedule.drain(2, 1, 0)
        self.assertEqual(self.play(schedule).released, [b"+OK\r\n+QUEUED\r\n-ERR Protocol error: expected '*'\r\n", b":0\r\n"])
        data = spell("MULTI") + SET_A + b"P" + spell("EXEC")
        self.assert_written(run_program("server", stdin=data), b"+OK\r\n+QUEUED\r\n-ERR Protocol error: expected '*'\r\n")

    def test_what_another_does_before_exec_is_seen(self):
        begun = said("A", "MULTI", "+OK", "GET k", "+QUEUED", "INCR k", "+QUEUED") + said("B", "GET k", "$-1", "SET k 7", "+OK")
        self.talk(begun + said("A", "EXEC", "*2\r\n$1\r\n7\r\n:8") + said("B", "GET k", "$1\r\n8"), 2)

    def test_each_connection_has_its_own(self):
        begun = said("A", "MULTI", "+OK") + said("B", "EXEC", "-ERR EXEC without MULTI", "SET k 1", "+OK", "MULTI", "+OK", "NOSUCH", UNKNOWN)
        ended = said("A", "GET k", "+QUEUED", "EXEC", "*1\r\n$1\r\n1") + said("B", "EXEC", ABORTED)
        self.talk(begun + ended, 1)


class Watches(Talks):
    """Watched keys."""

    def test_another_writes_a_watched_key(self):
        self.talk(said("A", "WATCH k", "+OK") + said("B", "SET k 1", "+OK") + asks("A", WAS_STOPPED) + asks("A", WENT_ON), 1)
        self.talk(said("A", "WATCH k", "+OK", "MULTI", "+OK", "SET k 2", "+QUEUED") + said("B", "SET k 1", "+OK")
                  + said("A", "EXEC", STOPPED, "GET k", "$1\r\n1"), 1)

    def test_a_spoiled_transaction_with_a_modified_key(self):
        told = said("A", "WATCH k", "+OK", "MULTI", "+OK", "NOSUCH", UNKNOWN, "GET k", "+QUEUED") + said("B", "SET k 2", "+OK")
        self.talk(told + said("A", "EXEC", ABORTED) + asks("A", WENT_ON), 1)

    # What the key k holds, a request of another connection, and whether it modifies k.
    MODIFYING = [
        ("", "SET k 1", True), ("SET k 1", "SET k 1", True), ("", "SETNX k 1", True), ("SET k 1", "SETNX k 2", False),
        ("SET k 1", "SET k 1 NX", False), ("", "SET k 1 XX", False), ("", "SET j 1", False), ("SET k 1", "GETDEL k", True),
        ("", "GETDEL k", False), (("SET", "k", ""), ("APPEND", "k", ""), True), ("", ("APPEND", "k", ""), True), ("", "DEL k", False),
        ("SET k 1", "DEL j k", True), ("SET k 1", "DEL j", False), ("", "MSET j 1 k 1", True), ("SET k 1", "MSETNX j 1 k 1", False),
        ("", "MSETNX j 1 k 1", True), ("", "INCR k", True), ("SET k x", "INCR k", False), ("SET k 1", "DECRBY k 0", True),
        ("SET k 1", "FLUSHDB", True), ("HSET k f 1", "FLUSHDB", True), ("", "FLUSHDB", False), ("SET j 1", "FLUSHDB", False),
        ("SET k 1", "FLUSHDB now", False), ("", "HSET k f 1", True), ("HSET k f 1", "HSET k f 1", True), ("SET k 1", "HSET k f 1", False),
        ("HSET k f 1", "HSETNX k f 2", False), ("HSET k f 1", "HSETNX k g 2", True), ("HSET k f 1", "HDEL k g", False),
        ("HSET k f 1 g 1", "HDEL k x f", True), ("HSET k f 1", "HDEL k f", True), ("", "HINCRBY k f 1", True),
        ("HSET k f x", "HINCRBY k f 1", False), ("HSET k f 1", "SET k 1", True), ("SET k 1", "GET k", False), ("HSET k f 1", "HGETALL k", False),
        ("SET k 1", "EXISTS k", False), ("", "SET K 1", False), ("", "SET kk 1", False), ("HSET k f 1", "HSET f k 1", False),
    ]

    def test_what_modifies_a_key(self):
        for held, asked, is_modified in self.MODIFYING:
            with self.case("request", held=held, asked=asked):
                schedule = Schedule(2)
                schedule.group(1, *([request(held)] if held else []))
                schedule.group(0, spell("WATCH", "k"))
                schedule.group(1, request(asked))
                schedule.group(0, *map(request, ASKING))
                self.assertEqual(self.play(schedule).calls[-1].reply, b"*-1\r\n" if is_modified else b"*1\r\n+PONG\r\n")

    def test_an_exec_modifies_what_its_requests_modify(self):
        for inside, replies, is_modified, position in [
            (["SET k 1"], ["+OK"], True, 1), (["SET j 1"], ["+OK"], False, 1), (["GET k", "DEL k"], ["$-1", ":0"], False, 0),
            (["SET k 1", "DEL k"], ["+OK", ":1"], True, 1), (["SET j 1", "FLUSHDB"], ["+OK", "+OK"], False, 1),
            (["SET k 1", "FLUSHDB"], ["+OK", "+OK"], True, 1), (["HSET j f 1", "HDEL j f", "INCR k"], [":1", ":1", ":1"], True, 1),
        ]:
            with self.case("inside", inside=inside):
                queued = [("B", asked, "+QUEUED") for asked in inside]
                run = said("B", "EXEC", f"*{len(inside)}" + "".join(f"\r\n{reply}" for reply in replies))
                told = said("A", "WATCH k", "+OK") + said("B", "MULTI", "+OK") + queued + run
                self.talk(told + asks("A", WAS_STOPPED if is_modified else WENT_ON), position)

    def test_what_is_discarded_or_stopped_modifies_nothing(self):
        for ends in (["DISCARD", "+OK"], ["NOSUCH", UNKNOWN, "EXEC", ABORTED]):
            with self.case("ends", ends=ends):
                other = said("B", "MULTI", "+OK", "SET k 1", "+QUEUED", *ends)
                self.talk(said("A", "WATCH k", "+OK") + other + asks("A", WENT_ON), 0)

    def test_of_two_that_watch_one_key_the_first_runs(self):
        begun = [line for name in "AB" for line in said(name, "WATCH k", "+OK", "MULTI", "+OK", "INCR k", "+QUEUED")]
        self.talk(begun + said("A", "EXEC", "*1\r\n:1") + said("B", "EXEC", STOPPED) + asks("A", WENT_ON) + asks("B", WENT_ON), 1)

    def test_an_own_transaction_forgets_what_it_writes(self):
        told = said("A", "WATCH k", "+OK", "MULTI", "+OK", "SET k 1", "+QUEUED", "EXEC", "*1\r\n+OK")
        self.talk(told + asks("A", WENT_ON), 1)

    def test_several_keys_and_one_twice(self):
        for written, replies in [("a", WAS_STOPPED), ("b", WAS_STOPPED), ("c", WAS_STOPPED), ("d", WENT_ON)]:
            with self.case("written", written=written):
                watched = said("A", "WATCH a b a", "+OK", "WATCH c b", "+OK")
                self.talk(watched + said("B", f"SET {written} 1", "+OK") + asks("A", replies), 1)

    def test_a_key_that_is_watched_again_stays_modified(self):
        told = said("A", "WATCH j k", "+OK") + said("B", "SET k 1", "+OK") + said("A", "WATCH k", "+OK")
        self.talk(told + asks("A", WAS_STOPPED), 1)

    def test_a_write_before_the_watch_does_not_count(self):
        self.talk(said("B", "SET k 1", "+OK") + said("A", "SET k 2", "+OK", "WATCH k", "+OK", "GET k", "$1\r\n2") + asks("A", WENT_ON), 2)

    def test_what_forgets_watches_and_what_does_not(self):
        outside = {"EXEC": "-ERR EXEC without MULTI", "DISCARD": "-ERR DISCARD without MULTI", "NOSUCH": UNKNOWN, "GET": wrong_number("get")}
        for asked, reply in outside.items():
            with self.case("kept", asked=asked):
                told = said("A", "WATCH k", "+OK") + said("B", "SET k 1", "+OK") + said("A", asked, reply)
                self.talk(told + asks("A", WAS_STOPPED), 1)
        for ends in [
            ["UNWATCH", "+OK"], ["MULTI", "+OK", "DISCARD", "+OK"], ["MULTI", "+OK", "EXEC", STOPPED],
            ["MULTI", "+OK", "NOSUCH", UNKNOWN, "EXEC", ABORTED], ["MULTI", "+OK", "NOSUCH", UNKNOWN, "DISCARD", "+OK"],
        ]:
            with self.case("forgotten", ends=ends):
                told = said("A", "WATCH k", "+OK") + said("B", "SET k 1", "+OK") + said("A", *ends)
                self.talk(told + asks("A", WENT_ON), 1)

    def test_an_unwatch_that_waits_forgets_nothing_before_exec(self):
        told = said("A", "WATCH k", "+OK", "MULTI", "+OK", "UNWATCH", "+QUEUED") + said("B", "SET k 1", "+OK")
        self.talk(told + said("A", "EXEC", STOPPED), 1)

    def test_many_keys(self):
        keys = [f"k{number}" for number in range(1_023)]
        for written, replies in [(keys[0], WAS_STOPPED), (keys[-1], WAS_STOPPED), ("other", WENT_ON)]:
            with self.case("written", written=written):
                self.talk([("A", ("WATCH", *keys), "+OK"), *said("B", f"SET {written} 1", "+OK"), *asks("A", replies)], 1)

    def test_the_next_in_a_seat_has_no_transaction_and_no_watch(self):
        # all seats are taken; one connection leaves in a transaction with a watched key that was modified
        schedule = Schedule(SEATS)
        schedule.group(7, *map(request, ["WATCH k", "MULTI", "SET k 1", "NOSUCH"]))
        schedule.group(8, spell("SET", "k", "2"))
        schedule.add("leave 7", "enter")
        schedule.group(SEATS, *map(request, ["EXEC", "SET k 3", "MULTI", "GET k", "EXEC"]))
        replies = [call.reply for call in self.play(schedule).calls if call.connection == SEATS]
        self.assertEqual(replies, [b"-ERR EXEC without MULTI\r\n", OK, OK, b"+QUEUED\r\n", b"*1\r\n$1\r\n3\r\n"])


class Entries(Talks):
    """An EXEC as one entry of the list, one part of a group, and one position."""

    def transaction(self, *requests):
        return list(map(request, ["MULTI", *requests, "EXEC"]))

    def test_an_exec_that_changes_nothing_takes_no_position(self):
        self.talk(said("A", "SET a 1", "+OK", "MULTI", "+OK", "GET a", "+QUEUED", "DEL z", "+QUEUED", "EXEC", "*2\r\n$1\r\n1\r\n:0"), 1)

    def test_the_reply_waits_until_both_nodes_hold_what_it_rests_on(self):
        for asked, reply in [("SET b 2", b"+OK\r\n"), ("GET a", b"$1\r\n1\r\n")]:
            for is_acknowledged in (False, True):
                with self.case("asked", asked=asked, is_acknowledged=is_acknowledged):
                    schedule = Schedule(2)
                    schedule.group(0, SET_A)
                    schedule.group(1, *self.transaction(asked))
                    for number in range(2 * is_acknowledged):
                        schedule.replicate(number)
                    schedule.read_marks(1)
                    schedule.write_out(1, 64)
                    whole = OK + b"+QUEUED\r\n*1\r\n" + reply
                    # MULTI was answered at position 1 too
                    self.assertEqual(self.play(schedule).released, [b"", whole if is_acknowledged else b""])

    def test_64_of_them_are_one_group(self):
        schedule = Schedule(1)
        for number in range(64):
            for asked in self.transaction(f"MSET a {number} b {number}", f"HSET h f{number} 1", "GETDEL a"):
                schedule.feed(0, asked)
                schedule.serve(0)
        schedule.commit()
        schedule.replicate(0)
        trace = self.play(schedule)
        self.assertEqual([(frame.before, frame.after, frame.changes) for frame in trace.frames], [(0, 64, 256)])
        self.assertEqual([(node.position, node.record, node.cp) for node in trace.nodes.values()], [(64, 2, 64), (64, 2, 1)])
        self.assertEqual(len(trace.records["standby"]), 65)

    def test_a_crash_leaves_all_of_it_or_nothing(self):
        inside = ["SET a 1", "HSET h f 1 g 2", "DEL c", "GET a", "INCR h", "SET a 3", "HDEL h f", "MSET d 4 e 5", "DEL d"]
        held, left = {(b"c",): b"4"}, {(b"a",): b"3", (b"h", b"g"): b"2", (b"e",): b"5", (b"z",): b"9"}
        schedule = Schedule(1)
        schedule.group(0, spell("SET", "c", "4"))
        schedule.replicate(0)
        schedule.group(0, *self.transaction(*inside), spell("SET", "z", "9"))
        schedule.replicate(1)
        for node in NODES:
            for fence in (1, 2, 3):
                for picks in ("0", "1", "0 1", "1 0", "1 1 0"):
                    with self.case("fence", node=node, fence=fence, picks=picks):
                        fail = (6 + fence, 0) if node == "primary" else (0, 6 + fence)
                        trace = self.play(schedule, fail=fail, crash=f"{node} {picks}")
                        image = plain_image.read_image(plain_image.Words(4_096, trace.words[node]))
                        is_new = fence == 3 and picks.startswith("1")
                        self.assertEqual((image.map, image.record.position), (left, 3) if is_new else (held, 1))

    def test_a_full_store_refuses_that_element_alone(self):
        # of 494 versions two are left: MSET finds no room, two SETs do, and what makes no version needs none
        asked = ["MSET a 1 b 2 c 3", "SET a 2", "DEL b", "SET b 3", "SET b 4", "APPEND a x", "GET a", "DEL a"]
        replies = [STORE_IS_FULL, "+OK", ":0", "+OK", STORE_IS_FULL, STORE_IS_FULL, "$1\r\n2", ":1"]
        told = said("A", *(word for number in range(492) for word in (f"SET k{number} 1", "+OK"))) + said("A", "MULTI", "+OK", *(word for each in asked for word in (each, "+QUEUED")))
        told += said("A", "EXEC", "*8" + "".join(f"\r\n{reply}" for reply in replies), "MGET a b", "*2\r\n$-1\r\n$1\r\n3")
        self.talk(told, 493)

    def test_a_transaction_that_takes_all_room(self):
        # 247 requests of two puts each
        queued = [f"MSET a{number} {number} k{number} {number}" for number in range(247)]
        told = said("A", "MULTI", "+OK", *(word for each in queued for word in (each, "+QUEUED")), "EXEC", "*247" + 247 * "\r\n+OK")
        trace = self.talk(told + said("A", "SET a1 2", STORE_IS_FULL, "DBSIZE", ":494"), 1)
        self.assertEqual([frame.changes for frame in trace.frames], [494])
