"""What a plain Redis answers: the forms of replies (docs/protocol.md, "Replies") and the texts of errors (docs/commands.md, "Error
texts")."""

UNKNOWN = "ERR unknown command"
WRONG_NUMBER = "ERR wrong number of arguments for '%s' command"
LONG_KEY = "ERR key or field is longer than 512 bytes"
SYNTAX = "ERR syntax error"
NO_INTEGER = "ERR value is not an integer or out of range"
NO_INTEGER_OF_A_FIELD = "ERR hash value is not an integer"
OVERFLOW = "ERR increment or decrement would overflow"
NO_OPPOSITE = "ERR decrement would overflow"
WRONG_TYPE = "WRONGTYPE Operation against a key holding the wrong kind of value"
LONG_STRING = "ERR string is longer than 1048576 bytes"
NESTED_MULTI = "ERR MULTI calls can not be nested"
EXEC_OUTSIDE = "ERR EXEC without MULTI"
DISCARD_OUTSIDE = "ERR DISCARD without MULTI"
WATCH_INSIDE = "ERR WATCH inside MULTI is not allowed"
LONG_TRANSACTION = "ERR transaction is too long"
ABORTED = "EXECABORT Transaction discarded because of previous errors."
NO_ROOM = "ERR store is full"
TOO_LARGE = "ERR change is too large"
NO_MEMORY = "ERR out of memory"


class CommandError(Exception):
    """The text that a request is answered in place of its reply. Nothing changes."""


def simple(text):
    return b"+%s\r\n" % text


def error(text):
    return b"-%s\r\n" % text.encode()


def integer(number):
    return b":%d\r\n" % number


def bulk(data):
    return NULL_BULK if data is None else b"$%d\r\n%s\r\n" % (len(data), data)


def array(replies):
    return b"*%d\r\n%s" % (len(replies), b"".join(replies))


def elements(reply):
    """The replies in an array."""
    at = reply.index(b"\r\n") + 2
    found = []
    while at < len(reply):
        end = end_of(reply, at)
        found.append(reply[at:end])
        at = end
    return found


def end_of(data, at):
    """Where the reply that begins here ends."""
    end = data.index(b"\r\n", at) + 2
    kind, count = data[at:at + 1], data[at + 1:end - 2]
    if kind == b"$" and int(count) >= 0:
        return end + int(count) + 2
    for _ in range(int(count) if kind == b"*" else 0):
        end = end_of(data, end)
    return end


OK, QUEUED = simple(b"OK"), simple(b"QUEUED")
NULL_BULK, NULL_ARRAY = b"$-1\r\n", b"*-1\r\n"
