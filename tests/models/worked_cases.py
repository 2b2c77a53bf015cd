"""Cases of one connection that the programs show, by name, with the bytes in and out. docs/worked-cases.md has those that teach most, each as it is
here and by its name, and docs/protocol.md most of the faults."""

import typing

from spelling import spell

SET_A = b"*3\r\n$3\r\nSET\r\n$1\r\na\r\n$1\r\n1\r\n"
GET_A = b"*2\r\n$3\r\nGET\r\n$1\r\na\r\n"
PING = b"*1\r\n$4\r\nPING\r\n"
SHORTEST = b"*1\r\n$0\r\n\r\n"

# The worked delta: epoch 1, from 6 to 9, drop k1, drop k3, put k2 `x`.
DELTA = bytes.fromhex(
    "01 0000000000000001 0000000000000006 0000000000000009 0000000000000014 03 0002 6b31 03 0002 6b33 01 0002 6b32 00000001 78"
)

OK = b"+OK\r\n"
ONE = b"$1\r\n1\r\n"
PONG = b"+PONG\r\n"
NULL = b"$-1\r\n"
UNKNOWN = b"-ERR unknown command\r\n"
SYNTAX = b"-ERR syntax error\r\n"
STORE_IS_FULL = b"-ERR store is full\r\n"
TOO_LARGE = b"-ERR change is too large\r\n"

BAD_COUNT = b"-ERR Protocol error: invalid multibulk length\r\n"
BAD_LENGTH = b"-ERR Protocol error: invalid bulk length\r\n"
NO_STAR = b"-ERR Protocol error: expected '*'\r\n"
NO_LINE_END = b"-ERR Protocol error: expected CRLF\r\n"

# The first path: what comes in, and all that goes out.
FIRST_PATH = {
    "first_set": (SET_A, OK),
    "set_and_get": (SET_A + GET_A, OK + ONE),
    "nothing_asked_before_ping": (b"*0\r\n" + PING, PONG),
    "leading_zero_in_a_count": (b"*01\r\n" + PING, BAD_COUNT),
    "empty_value": (b"*3\r\n$3\r\nSET\r\n$1\r\ne\r\n$0\r\n\r\n*2\r\n$3\r\nGET\r\n$1\r\ne\r\n", OK + b"$0\r\n\r\n"),
    "absent_key": (b"*2\r\n$3\r\nGET\r\n$1\r\nz\r\n", b"$-1\r\n"),
    "get_without_a_key": (b"*1\r\n$3\r\nget\r\n", b"-ERR wrong number of arguments for 'get' command\r\n"),
    "value_of_1048577_bytes": (b"*3\r\n$3\r\nSET\r\n$1\r\na\r\n$1048577", BAD_LENGTH),
    "greatest_number": (
        b"*3\r\n$3\r\nSET\r\n$1\r\nn\r\n$19\r\n9223372036854775807\r\n*2\r\n$4\r\nINCR\r\n$1\r\nn\r\n*2\r\n$3\r\nGET\r\n$1\r\nn\r\n",
        OK + b"-ERR increment or decrement would overflow\r\n$19\r\n9223372036854775807\r\n",
    ),
    "requests_after_a_fault": (SET_A + b"P" + GET_A, OK + NO_STAR),
    "input_that_ends_in_a_request": (SET_A + b"*2\r\n$3\r\nGE", OK),
}

# Bytes that are at fault at the last of them, and the reply. Nothing is answered before it, and nothing is read after it.
FAULTS = {
    "no_star": (b"P", NO_STAR),
    "leading_zero": (b"*01", BAD_COUNT),
    "count_too_great": (b"*9999", BAD_COUNT),
    "count_above_the_limit": (b"*1025", BAD_COUNT),
    "count_with_a_sign": (b"*-", BAD_COUNT),
    "count_with_half_a_line_end": (b"*1\n", BAD_COUNT),
    "word_without_a_dollar": (b"*1\r\n:", b"-ERR Protocol error: expected '$', got ':'\r\n"),
    "word_that_begins_with_byte_01": (b"*1\r\n\x01", b"-ERR Protocol error: expected '$', got '?'\r\n"),
    "length_with_a_sign": (b"*1\r\n$-", BAD_LENGTH),
    "length_too_great": (b"*1\r\n$9999999", BAD_LENGTH),
    "length_above_the_limit": (b"*3\r\n$3\r\nSET\r\n$1\r\na\r\n$1048577", BAD_LENGTH),
    "word_that_goes_on": (b"*1\r\n$4\r\nPINGX", NO_LINE_END),
}


class Session(typing.NamedTuple):
    """Requests of one connection and the replies, as pages spell them, and the position of the list after them: how many of the
    requests changed something. A word `""` is empty; a reply lacks its last line end."""

    requests: list
    replies: list
    position: int

    def input(self):
        words = [["" if word == '""' else word for word in request.split()] for request in self.requests]
        return b"".join(spell(*request) for request in words)

    def output(self):
        return b"".join(reply.replace("\\r\\n", "\r\n").encode() + b"\r\n" for reply in self.replies)


NO_INTEGER = "-ERR value is not an integer or out of range"
NO_OPPOSITE = "-ERR decrement would overflow"
WRONG_TYPE = "-WRONGTYPE Operation against a key holding the wrong kind of value"

# Commands outside transactions.
COMMANDS = {
    "options_of_set": Session(
        ["SET k v NX", "SET k w NX", "SET z w XX", "SET k w XX", "GET k", "EXISTS z"],
        ["+OK", "$-1", "$-1", "+OK", r"$1\r\nw", ":0"], 2,
    ),
    "an_option_again": Session(["set k v nx NX nX", "SET k w xX XX", "GET k"], ["+OK", "+OK", r"$1\r\nw"], 2),
    "both_options": Session(["set k v nx XX", "EXISTS k"], ["-ERR syntax error", ":0"], 0),
    "no_such_option": Session(
        ["SET k v EX 10", "SET k v GET", "SET k v KEEPTTL", "DBSIZE"], [*3 * ["-ERR syntax error"], ":0"], 0,
    ),
    "set_over_a_longer_value": Session(
        ["SET k longer", "SET k v", "GET k", "STRLEN k"], ["+OK", "+OK", r"$1\r\nv", ":1"], 2,
    ),
    "the_same_value_again": Session(["SET k v", "SET k v"], ["+OK", "+OK"], 2),
    "append_of_no_bytes": Session(["APPEND k ab", 'APPEND k ""', "GET k"], [":2", ":2", r"$2\r\nab"], 2),
    "an_absent_key_counts_as_0": Session(
        ["INCR n", "DECRBY n 3", "INCRBY n 10", "DECR n", "GET n"], [":1", ":-2", ":8", ":7", r"$1\r\n7"], 4,
    ),
    "a_text_that_is_no_integer": Session(
        ["SET s 01", "INCR s", "INCRBY s 1", "INCRBY n 1x", "MGET s n"],
        ["+OK", NO_INTEGER, NO_INTEGER, NO_INTEGER, r"*2\r\n$2\r\n01\r\n$-1"], 1,
    ),
    "decrby_of_the_least_number": Session(
        ["DECRBY n -9223372036854775808", "SET s text", "DECRBY s -9223372036854775808", "EXISTS n"],
        [NO_OPPOSITE, "+OK", NO_OPPOSITE, ":0"], 1,
    ),
    "down_to_the_least_number": Session(
        ["SET n -9223372036854775807", "DECR n", "DECR n", "GET n"],
        ["+OK", ":-9223372036854775808", "-ERR increment or decrement would overflow", r"$20\r\n-9223372036854775808"], 2,
    ),
    "a_key_named_twice": Session(["MSET a 1 a 2", "GET a", "EXISTS a a", "DEL a a"], ["+OK", r"$1\r\n2", ":2", ":1"], 2),
    "several_keys_at_once": Session(
        ["MSET a 1 b 2 c 3", "DEL a x c", "MGET a b c", "DEL a c"], ["+OK", ":2", r"*3\r\n$-1\r\n$1\r\n2\r\n$-1", ":0"], 2,
    ),
    "msetnx_with_one_key_present": Session(
        ["SET b 1", "MSETNX a 2 b 3", "MGET a b", "MSETNX a 2 c 3", "MGET a c"],
        ["+OK", ":0", r"*2\r\n$-1\r\n$1\r\n1", ":1", r"*2\r\n$1\r\n2\r\n$1\r\n3"], 2,
    ),
    "getdel_once": Session(["SET a 1", "GETDEL a", "GETDEL a", "TYPE a"], ["+OK", r"$1\r\n1", "$-1", "+none"], 2),
    "flushdb_of_nothing": Session(
        ["FLUSHDB", "SET a 1", "FLUSHDB", "FLUSHDB", "DBSIZE"], ["+OK", "+OK", "+OK", "+OK", ":0"], 2,
    ),
    "flushdb_with_a_word": Session(["SET a 1", "FLUSHDB ASYNC", "GET a"], ["+OK", "-ERR syntax error", r"$1\r\n1"], 1),
    "wrong_numbers_of_words": Session(
        ["MSET a 1 b", "msetnx a", "DEL", "DBSIZE a", "PING a b", "EXISTS a"],
        [f"-ERR wrong number of arguments for '{name}' command" for name in ("mset", "msetnx", "del", "dbsize", "ping")] + [":0"], 0,
    ),
    "quit_and_what_follows": Session(["SET a 1", "QUIT", "SET a 2", "NOSUCH"], ["+OK", "+OK"], 1),
    "quit_with_words": Session(["quit at once", "SET a 1"], ["+OK"], 0),
    "all_commands_at_once": Session(
        [
            "PING", "PING text", 'ECHO ""', "SET a 1", "GET a", "SETNX a 2", "SETNX b 2", "APPEND b 0", "STRLEN b", "INCR b", "DECR b",
            "INCRBY b 5", "DECRBY b 6", "MSET c 3 d 4", "MSETNX e 5 a 6", "MGET a b e", "EXISTS a b e", "TYPE a", "TYPE e", "DBSIZE",
            "GETDEL d", "DEL c d", "FLUSHDB", "DBSIZE", "QUIT",
        ],
        [
            "+PONG", r"$4\r\ntext", r"$0\r\n", "+OK", r"$1\r\n1", ":0", ":1", ":2", ":2", ":21", ":20", ":25", ":19", "+OK", ":0",
            r"*3\r\n$1\r\n1\r\n$2\r\n19\r\n$-1", ":2", "+string", "+none", ":4", r"$1\r\n4", ":1", "+OK", ":0", "+OK",
        ], 11,
    ),
    "a_hash_from_first_to_last_field": Session(
        ["HSET h f 1", "TYPE h", "HDEL h f", "TYPE h", "EXISTS h"],
        [":1", "+hash", ":1", "+none", ":0"], 2,
    ),
    "fields_in_order": Session(
        ["HSET h b 1 a 2 b 3", "HGETALL h", "HKEYS h", "HVALS h", "HLEN h", "HINCRBY h a 5"],
        [":2", r"*4\r\n$1\r\na\r\n$1\r\n2\r\n$1\r\nb\r\n$1\r\n3", r"*2\r\n$1\r\na\r\n$1\r\nb", r"*2\r\n$1\r\n2\r\n$1\r\n3", ":2", ":7"], 2,
    ),
    "fields_one_by_one": Session(
        ["HSETNX h f 1", "HSETNX h f 2", "HGET h f", "HMGET h f x", 'HEXISTS h ""', 'HSET h "" yes', 'HEXISTS h ""', "HSTRLEN h f", "HDEL h f x f"],
        [":1", ":0", r"$1\r\n1", r"*2\r\n$1\r\n1\r\n$-1", ":0", ":1", ":1", ":1", ":1"], 3,
    ),
    "an_absent_hash_is_empty": Session(
        ["HGET h f", "HMGET h f g", "HLEN h", "HEXISTS h f", "HSTRLEN h f", "HGETALL h", "HDEL h f", "DBSIZE"],
        ["$-1", r"*2\r\n$-1\r\n$-1", ":0", ":0", ":0", "*0", ":0", ":0"], 0,
    ),
    "a_hash_command_on_a_string": Session(
        ["SET s 1", "HSET s f 1", "HGET s f", "HLEN s", "HINCRBY s f 1", "GET s"],
        ["+OK", WRONG_TYPE, WRONG_TYPE, WRONG_TYPE, WRONG_TYPE, r"$1\r\n1"], 1,
    ),
    "a_string_command_on_a_hash": Session(
        ["HSET h f 1", "GET h", "APPEND h x", "INCR h", "STRLEN h", "GETDEL h", "MGET h", "SETNX h x", "EXISTS h"],
        [":1", WRONG_TYPE, WRONG_TYPE, WRONG_TYPE, WRONG_TYPE, WRONG_TYPE, r"*1\r\n$-1", ":0", ":1"], 1,
    ),
    "set_over_a_hash": Session(
        ["HSET h f 1 g 2", "SET h x", "TYPE h", "HSET k f 1", "MSET k y", "GET k", "HSET m f 1", "DEL m h", "DBSIZE"],
        [":2", "+OK", "+string", ":1", "+OK", r"$1\r\ny", ":1", ":2", ":1"], 6,
    ),
    "numbers_in_fields": Session(
        ["HINCRBY h n 5", "HINCRBY h n -7", "HSET h t x", "HINCRBY h t 1", "HINCRBY h n 1x", "HINCRBY h n -9223372036854775808", "HGET h n"],
        [":5", ":-2", ":1", "-ERR hash value is not an integer", NO_INTEGER, "-ERR increment or decrement would overflow", r"$2\r\n-2"], 3,
    ),
}

ABORTED = "-EXECABORT Transaction discarded because of previous errors."

# Transactions of one connection.
TRANSACTIONS = {
    "an_error_among_others": Session(
        ["MULTI", "SET a x", "INCR a", "SET b y", "EXEC", "GET b"],
        ["+OK", *3 * ["+QUEUED"], rf"*3\r\n+OK\r\n{NO_INTEGER}\r\n+OK", r"$1\r\ny"], 1,
    ),
    "an_empty_transaction": Session(["MULTI", "EXEC"], ["+OK", "*0"], 0),
    "discarded": Session(
        ["MULTI", "SET a 1", "DISCARD", "GET a", "EXEC"], ["+OK", "+QUEUED", "+OK", "$-1", "-ERR EXEC without MULTI"], 0,
    ),
    "an_own_write_of_a_watched_key": Session(
        ["SET k v", "WATCH k", "SET k v", "MULTI", "GET k", "EXEC"], [*4 * ["+OK"], "+QUEUED", "*-1"], 2,
    ),
    "nothing_removed_of_a_watched_key": Session(
        ["WATCH k", "DEL k", "MULTI", "GET k", "EXEC"], ["+OK", ":0", "+OK", "+QUEUED", r"*1\r\n$-1"], 0,
    ),
    "unwatched": Session(
        ["WATCH k", "SET k v", "UNWATCH", "MULTI", "GET k", "UNWATCH", "EXEC"],
        [*4 * ["+OK"], *2 * ["+QUEUED"], r"*2\r\n$1\r\nv\r\n+OK"], 1,
    ),
    "watches_end_with_a_transaction": Session(
        ["WATCH k", "MULTI", "EXEC", "SET k v", "WATCH k", "MULTI", "DISCARD", "DEL k", "MULTI", "GET k", "EXEC"],
        ["+OK", "+OK", "*0", *4 * ["+OK"], ":1", "+OK", "+QUEUED", r"*1\r\n$-1"], 2,
    ),
    "a_refused_request_spoils": Session(
        ["MULTI", "SET a 1", "GET", "SET b 2", "EXEC", "EXISTS a b"],
        ["+OK", "+QUEUED", "-ERR wrong number of arguments for 'get' command", "+QUEUED", ABORTED, ":0"], 0,
    ),
    "what_neither_ends_nor_spoils": Session(
        ["EXEC", "DISCARD", "MULTI", "MULTI", "WATCH k", "PING", "EXEC"],
        [
            "-ERR EXEC without MULTI", "-ERR DISCARD without MULTI", "+OK", "-ERR MULTI calls can not be nested",
            "-ERR WATCH inside MULTI is not allowed", "+QUEUED", r"*1\r\n+PONG",
        ], 0,
    ),
    "quit_in_a_transaction": Session(["MULTI", "SET a 1", "QUIT", "EXEC"], ["+OK", "+QUEUED", "+OK"], 0),
    "every_kind_of_reply": Session(
        [
            "MULTI", "MSET a 1 b 2", "MGET a z b", "STRLEN z", "GET z", 'ECHO ""', "HSET h f 1", "GET h", "HGETALL z", "FLUSHDB",
            "SET c 3", "EXEC", "DBSIZE",
        ],
        [
            "+OK", *10 * ["+QUEUED"],
            r"*10\r\n+OK\r\n*3\r\n$1\r\n1\r\n$-1\r\n$1\r\n2\r\n:0\r\n$-1\r\n$0\r\n\r\n:1\r\n" + WRONG_TYPE + r"\r\n*0\r\n+OK\r\n+OK",
            ":1",
        ], 1,
    ),
}


def one_test_for_each(table, method):
    """Gives a class the test `test_NAME` for each row of the table: it calls this method of the class with the row's
    columns."""

    def add_tests(tests):
        for name, row in table.items():
            setattr(tests, f"test_{name}", lambda self, row=row: getattr(self, method)(*row))
        return tests

    return add_tests
