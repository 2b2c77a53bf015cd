"""Requests as a client spells them, and a reader of them with its faults, from docs/protocol.md ("Requests", "Limits",
"Faults")."""

import re
import typing

# The limits: words in a request, the name among them, and bytes in a word.
MOST_WORDS = 1_024
MOST_BYTES = 1_048_576

# The texts of the faults, and the bytes that stand for themselves in the third.
EXPECTED_STAR = b"ERR Protocol error: expected '*'"
BAD_COUNT = b"ERR Protocol error: invalid multibulk length"
EXPECTED_DOLLAR = b"ERR Protocol error: expected '$', got '%c'"
BAD_LENGTH = b"ERR Protocol error: invalid bulk length"
EXPECTED_LINE_END = b"ERR Protocol error: expected CRLF"
SHOWN = range(0x20, 0x7F)

LINE_END = b"\r\n"


def spell(*words):
    """The bytes of a request of these words, which may be text or bytes."""
    words = [word.encode() if isinstance(word, str) else word for word in words]
    return b"*%d\r\n" % len(words) + b"".join(b"$%d\r\n%s\r\n" % (len(word), word) for word in words)


class Fault(typing.NamedTuple):
    """A protocol fault: the text of its reply, and the index of the byte at which it is decided."""

    text: bytes
    place: int

    def reply(self):
        return b"-" + self.text + LINE_END


class Reading(typing.NamedTuple):
    """What bytes ask for: requests as tuples of words, and perhaps a fault as the last item; and how many bytes that
    took."""

    items: list
    length: int


class _Decided(Exception):
    """The fault in the bytes."""


class _GoesOn(Exception):
    """The bytes end before the request does."""


def read(data):
    """All that these bytes ask for. The request that they break off in is not read."""
    items, at = [], 0
    try:
        while at < len(data):
            words, at = _read_request(data, at)
            if words:
                items.append(words)
    except _GoesOn:
        pass
    except _Decided as decided:
        fault = decided.args[0]
        items.append(fault)
        at = fault.place + 1
    return Reading(items, at)


def _read_request(data, at):
    _expect(data, at, b"*", EXPECTED_STAR)
    count, at = _read_number(data, at + 1, MOST_WORDS, BAD_COUNT)
    words = []
    for _ in range(count):
        word, at = _read_word(data, at)
        words.append(word)
    return tuple(words), at


def _read_word(data, at):
    got = data[at] if at < len(data) and data[at] in SHOWN else ord("?")
    _expect(data, at, b"$", EXPECTED_DOLLAR % got)
    length, at = _read_number(data, at + 1, MOST_BYTES, BAD_LENGTH)
    end = at + length
    _expect(data, end, b"\r", EXPECTED_LINE_END)
    _expect(data, end + 1, b"\n", EXPECTED_LINE_END)
    return data[at:end], end + 2


def _read_number(data, at, most, text):
    """A canonical decimal up to `most` and its line end."""
    start = at
    while _is_number(data[start:at + 1], most) and at < len(data):
        at += 1
    _expect(data, at, b"\r" if at > start else b"", text)
    _expect(data, at + 1, b"\n", text)
    return int(data[start:at]), at + 2


def _is_number(digits, most):
    return re.fullmatch(rb"0|[1-9][0-9]*", digits) is not None and int(digits) <= most


def _expect(data, at, byte, text):
    """The byte at this index is this one, or it decides a fault."""
    if at >= len(data):
        raise _GoesOn
    if data[at:at + 1] != byte:
        raise _Decided(Fault(text, at))


class Reader:
    """Reads bytes that come in pieces. What comes after an item that closes the connection is not read."""

    def __init__(self, closes):
        self.items = []
        self.is_over = False
        self._closes = closes
        self._rest = b""

    def feed(self, piece):
        if self.is_over:
            return
        self._rest += piece
        reading = read(self._rest)
        self._rest = self._rest[reading.length:]
        items = up_to(self._closes, reading.items)
        self.items += items
        self.is_over = bool(items) and self._closes(items[-1])


def up_to(is_last, items):
    """The items up to and including the first for which this holds, or all."""
    place = next((place for place, item in enumerate(items) if is_last(item)), len(items))
    return items[:place + 1]
