"""Numbers, requests and bytes, drawn by a seed: the same ones for the same seed."""

import random

import plain_commands
import plain_redis
import spelling

LEAST, GREATEST = b"-9223372036854775808", b"9223372036854775807"
LONGEST_KEY, LONG_KEY = 512 * b"k", 513 * b"k"

# What the words of requests are drawn from: few keys, so that requests meet.
KEYS = [b"", b"a", b"ab", b"b", b"\r\n", b"\xff", b"*1\r\n", LONGEST_KEY]
FIELDS = [b"", b"f", b"fg", b"g", b"\0", b"\xff", LONGEST_KEY]
NUMBERS = [b"0", b"1", b"-1", b"7", b"-40", GREATEST, LEAST]
NO_NUMBERS = [b"", b"01", b"+1", b"-0", b"9223372036854775808", b"-9223372036854775809", b"1 "]
VALUES = [*NUMBERS, *NO_NUMBERS, b"text", b"\0\xff", b"$-1\r\n", 100 * b"a longer text", b"NX"]
# An image of 4,096 lines has room for a few of them; for none near the limit.
LONG_VALUES = [length * b"v" for length in (65_536, 65_535, 65_534, 8_192)]
OPTIONS = [b"NX", b"nx", b"nX", b"XX", b"xx", b"EX"]

# The words after each name: a key, a field, a value, a number or an option; and those that may follow, again and again.
SHAPES = {
    b"set": ("kv", "o"), b"get": ("k", ""), b"ping": ("", "v"), b"echo": ("v", ""), b"quit": ("", "v"), b"setnx": ("kv", ""),
    b"getdel": ("k", ""), b"strlen": ("k", ""), b"append": ("kv", ""), b"del": ("k", "k"), b"exists": ("k", "k"),
    b"mset": ("kv", "kv"), b"msetnx": ("kv", "kv"), b"mget": ("k", "k"), b"incr": ("k", ""), b"decr": ("k", ""),
    b"incrby": ("kn", ""), b"decrby": ("kn", ""), b"type": ("k", ""), b"dbsize": ("", ""), b"flushdb": ("", "o"),
    b"hset": ("kfv", "fv"), b"hsetnx": ("kfv", ""), b"hget": ("kf", ""), b"hmget": ("kf", "f"), b"hdel": ("kf", "f"),
    b"hlen": ("k", ""), b"hexists": ("kf", ""), b"hstrlen": ("kf", ""), b"hincrby": ("kfn", ""), b"hgetall": ("k", ""),
    b"hkeys": ("k", ""), b"hvals": ("k", ""), b"multi": ("", ""), b"exec": ("", ""), b"discard": ("", ""),
    b"watch": ("k", "k"), b"unwatch": ("", ""), b"nosuch": ("", "v"),
}
# Those that are drawn less often than others, and those that begin or end something.
SESSION = {b"multi", b"exec", b"discard", b"watch", b"unwatch"}
RARE = {b"ping", b"echo", b"quit", b"dbsize", b"flushdb", b"nosuch", *SESSION}
NAMES = 4 * sorted(SHAPES.keys() - RARE) + sorted(RARE)
NAMES_THAT_GO_ON = [name for name in NAMES if name != b"quit"]
NAMES_INSIDE = [name for name in NAMES_THAT_GO_ON if name not in SESSION - {b"unwatch"}]
RARE_THAT_GO_ON = sorted(RARE - {b"quit"})
# A script of so many requests has each rare command at least once.
LONG_SCRIPT = 100


def request(draws, names=NAMES):
    """A request of one of these names, in any case: now and then one word too few or too many."""
    name = draws.choice(names)
    first, more = SHAPES[name]
    words = [word(draws, kind) for kind in first + draws.choice([0, 0, 1, 1, 2, 3]) * more]
    words = draws.choice([words[:-1], [*words, b"1"]]) if draws.randrange(20) == 0 else words
    return draws.choice([bytes.lower, bytes.upper, bytes.title])(name), *words


def word(draws, kind):
    """A word of a kind of `SHAPES`: now and then one near or beyond a limit."""
    is_rare = draws.randrange(12) == 0
    if kind == "k":
        return LONG_KEY if is_rare else draws.choice(KEYS)
    if kind == "f":
        return LONG_KEY if is_rare else draws.choice(FIELDS)
    if kind == "v":
        return draws.choice(LONG_VALUES if is_rare else VALUES)
    if kind == "n":
        return draws.choice(NO_NUMBERS if is_rare else NUMBERS)
    return draws.choice(OPTIONS)


# Requests that are refused before they run.
REFUSED = [(b"NOSUCH",), (b"GET",), (b"HSET", b"a", b"f"), (b"SET", LONG_KEY, b"1"), (b"WATCH",), (b"UNWATCH", b"a"), (b"EXEC", b"1")]


def good_request(draws, names):
    """A request that is not refused before it runs."""
    while not plain_commands.is_good(words := request(draws, names)):
        pass
    return words


def transaction(draws):
    """The requests of a transaction, perhaps with keys watched before it, perhaps with a bad one among them, and seldom discarded."""
    watches = [good_request(draws, [b"watch"]) for _ in range(draws.choice([0, 0, 0, 1, 1, 2]))]
    between = [request(draws, NAMES_INSIDE)] if draws.randrange(6) == 0 else []
    inside = [good_request(draws, NAMES_INSIDE) for _ in range(draws.choice([0, 1, 2, 3, 4, 6]))]
    if draws.randrange(6) == 0:
        inside.insert(draws.randint(0, len(inside)), draws.choice(REFUSED))
    return [*watches, *between, (b"MULTI",), *inside, (draws.choice([*9 * [b"EXEC"], b"DISCARD"]),)]


# Bytes that are at fault wherever a request may begin.
FAULTS = [b"P", b"*01", b"*1\r\n:", b"*1\r\n$1\r\nab"]

# Bytes that mean something to the grammar, which a damage puts in more often than others.
TELLING = b"*$\r\n0123456789-"


class Script:
    """What a connection will send: these first requests, and then requests, transactions and empty arrays, now and then one to quit, at the end a fault and a request that is
    never read. `items` are those that are taken."""

    def __init__(self, draws, count, first=()):
        requests = []
        while len(requests) < count:
            requests += transaction(draws) if draws.randrange(8) == 0 else [request(draws, NAMES_THAT_GO_ON)]
        for name in RARE_THAT_GO_ON if count >= LONG_SCRIPT else []:
            requests.insert(draws.randrange(count), request(draws, [name]))
        if draws.randrange(3) == 0:
            requests.insert(draws.randrange(count), (b"QUIT",))
        requests = [*first, *requests]
        empty = [b"*0\r\n" * (draws.randrange(8) == 0) for _ in requests]
        self.text = b"".join(before + spelling.spell(*words) for before, words in zip(empty, requests))
        self.text += draws.choice(FAULTS) + spelling.spell("SET", "a", "never")
        self.items = spelling.up_to(plain_redis.closes, spelling.read(self.text).items)
        self._fed = 0

    def take(self, count=None):
        """The next bytes, at most `count`, or all."""
        at, end = self._fed, len(self.text) if count is None else self._fed + count
        self._fed = min(end, len(self.text))
        return self.text[at:end]


def numbers(seed):
    """A source of numbers."""
    return random.Random(f"ziltovna {seed}")


def damaged(draws, data):
    """A copy with one to three bytes changed, left out, repeated or put in."""
    for _ in range(draws.randint(1, 3)):
        at = draws.randrange(len(data) + 1)
        byte = bytes([draws.choice(TELLING) if draws.randrange(4) else draws.randrange(256)])
        data = draws.choice(
            [
                data[:at] + byte + data[at + 1:],
                data[:at] + data[at + 1:],
                data[:at] + byte + data[at:],
                data[:at] + data[max(0, at - 4):],
            ]
        )
    return data
