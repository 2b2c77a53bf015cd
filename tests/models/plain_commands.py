"""Plain commands, from docs/commands.md alone: what those on strings, counters, keys, the connection and hashes reply and change, each
over a keyspace as it is, with the rules for all commands.

`effect` says what one request does to a keyspace. Nothing is played."""

import re
import typing

from plain_keyspace import Clear, Drop, DropKey, Put
from plain_replies import (
    LONG_KEY, LONG_STRING, NO_INTEGER, NO_INTEGER_OF_A_FIELD, NO_OPPOSITE, NULL_BULK, OK, OVERFLOW, SYNTAX, UNKNOWN, WRONG_NUMBER,
    CommandError, array, bulk, error, integer, simple,
)

MOST_KEY_BYTES = 512
MOST_VALUE_BYTES = 1_048_576

LEAST, GREATEST = -2**63, 2**63 - 1
# (none in the range has more than 19 digits)
INTEGER = re.compile(rb"0|-?[1-9][0-9]{0,18}")


class Effect(typing.NamedTuple):
    """What a request is answered, what it changes, and whether its connection is over then."""

    reply: bytes
    changes: tuple = ()
    closes: bool = False


# The commands, each over a keyspace and the words after the name

def put(key, value):
    return Put((key,), value)


def set_(keyspace, key, value, *options):
    options = {option.lower() for option in options}
    if options not in (set(), {b"nx"}, {b"xx"}):
        raise CommandError(SYNTAX)
    if options and (options == {b"nx"}) == (key in keyspace.keys):
        return Effect(NULL_BULK)
    return Effect(OK, (put(key, value),))


def get(keyspace, key):
    return Effect(bulk(keyspace.string(key)))


def ping(_, *text):
    return Effect(bulk(*text) if text else simple(b"PONG"))


def echo(_, text):
    return Effect(bulk(text))


def quit_(_, *words):
    return Effect(OK, closes=True)


def setnx(keyspace, key, value):
    return msetnx(keyspace, key, value)


def getdel(keyspace, key):
    value = keyspace.string(key)
    return Effect(bulk(value), () if value is None else (DropKey(key),))


def strlen(keyspace, key):
    return Effect(integer(len(keyspace.string(key) or b"")))


def append(keyspace, key, more):
    value = (keyspace.string(key) or b"") + more
    if len(value) > MOST_VALUE_BYTES:
        raise CommandError(LONG_STRING)
    return Effect(integer(len(value)), (put(key, value),))


def del_(keyspace, *keys):
    removed = [key for key in dict.fromkeys(keys) if key in keyspace.keys]
    return Effect(integer(len(removed)), tuple(map(DropKey, removed)))


def exists(keyspace, *keys):
    return Effect(integer(sum(key in keyspace.keys for key in keys)))


def mset(_, *words):
    return Effect(OK, tuple(map(put, words[::2], words[1::2])))


def msetnx(keyspace, *words):
    if any(key in keyspace.keys for key in words[::2]):
        return Effect(integer(0))
    return mset(keyspace, *words)._replace(reply=integer(1))


def mget(keyspace, *keys):
    held = [keyspace.keys.get(key) for key in keys]
    return Effect(array([bulk(value if isinstance(value, bytes) else None) for value in held]))


def integer_of(text, refused=NO_INTEGER):
    """The integer of an argument, or of a value."""
    if not INTEGER.fullmatch(text) or not LEAST <= int(text) <= GREATEST:
        raise CommandError(refused)
    return int(text)


def add_to(name, value, amount, refused):
    """What adding to the value of a record does; None counts as 0."""
    number = (0 if value is None else integer_of(value, refused)) + amount
    if not LEAST <= number <= GREATEST:
        raise CommandError(OVERFLOW)
    return Effect(integer(number), (Put(name, b"%d" % number),))


def add(keyspace, key, amount):
    return add_to((key,), keyspace.string(key), amount, NO_INTEGER)


def incr(keyspace, key):
    return add(keyspace, key, 1)


def decr(keyspace, key):
    return add(keyspace, key, -1)


def incrby(keyspace, key, amount):
    return add(keyspace, key, integer_of(amount))


def decrby(keyspace, key, amount):
    if integer_of(amount) == LEAST:
        raise CommandError(NO_OPPOSITE)
    return add(keyspace, key, -integer_of(amount))


def type_(keyspace, key):
    kinds = {bytes: b"string", dict: b"hash", type(None): b"none"}
    return Effect(simple(kinds[type(keyspace.keys.get(key))]))


def dbsize(keyspace):
    return Effect(integer(len(keyspace.keys)))


def flushdb(keyspace, *options):
    if options:
        raise CommandError(SYNTAX)
    return Effect(OK, (Clear(),) if keyspace.keys else ())


# The commands on hashes

def hset(keyspace, key, *words):
    fields = keyspace.hash(key)
    puts = [Put((key, field), value) for field, value in zip(words[::2], words[1::2])]
    return Effect(integer(len(set(words[::2]) - fields.keys())), tuple(puts))


def hsetnx(keyspace, key, field, value):
    return Effect(integer(0)) if field in keyspace.hash(key) else hset(keyspace, key, field, value)


def hget(keyspace, key, field):
    return Effect(bulk(keyspace.hash(key).get(field)))


def hmget(keyspace, key, *fields):
    held = keyspace.hash(key)
    return Effect(array([bulk(held.get(field)) for field in fields]))


def hdel(keyspace, key, *fields):
    held = keyspace.hash(key)
    removed = [field for field in dict.fromkeys(fields) if field in held]
    return Effect(integer(len(removed)), tuple(Drop((key, field)) for field in removed))


def hlen(keyspace, key):
    return Effect(integer(len(keyspace.hash(key))))


def hexists(keyspace, key, field):
    return Effect(integer(field in keyspace.hash(key)))


def hstrlen(keyspace, key, field):
    return Effect(integer(len(keyspace.hash(key).get(field, b""))))


def hincrby(keyspace, key, field, amount):
    amount = integer_of(amount)
    return add_to((key, field), keyspace.hash(key).get(field), amount, NO_INTEGER_OF_A_FIELD)


def hgetall(keyspace, key):
    return Effect(array([bulk(part) for entry in sorted(keyspace.hash(key).items()) for part in entry]))


def hkeys(keyspace, key):
    return Effect(array([bulk(field) for field in sorted(keyspace.hash(key))]))


def hvals(keyspace, key):
    return Effect(array([bulk(value) for _, value in sorted(keyspace.hash(key).items())]))


def unwatch(_):
    """What a transaction runs of it: what is watched is not the keyspace's."""
    return Effect(OK)


# The table

class Row(typing.NamedTuple):
    """A command: whether it takes so many words, the name among them; which of the words after the name are keys or
    fields; and what it does, or None where that is no matter of the keyspace."""

    takes: typing.Callable
    keys: typing.Callable
    run: typing.Callable


def exactly(*counts):
    return lambda count: count in counts


def at_least(least):
    return lambda count: count >= least


def odd_from(least):
    return lambda count: count >= least and count % 2 == 1


def even_from(least):
    return lambda count: count >= least and count % 2 == 0


def part(*bounds):
    return lambda arguments: arguments[slice(*bounds)]


def first_and_pairs(arguments):
    """The key, and the fields that stand with values by turns."""
    return arguments[:1] + arguments[1::2]


NO_KEY, FIRST, FIRST_TWO, ALL, EVERY_SECOND = part(0), part(1), part(2), part(None), part(None, None, 2)

COMMANDS = {
    b"set": Row(at_least(3), FIRST, set_),
    b"get": Row(exactly(2), FIRST, get),
    b"ping": Row(exactly(1, 2), NO_KEY, ping),
    b"echo": Row(exactly(2), NO_KEY, echo),
    b"quit": Row(at_least(1), NO_KEY, quit_),
    b"setnx": Row(exactly(3), FIRST, setnx),
    b"getdel": Row(exactly(2), FIRST, getdel),
    b"strlen": Row(exactly(2), FIRST, strlen),
    b"append": Row(exactly(3), FIRST, append),
    b"del": Row(at_least(2), ALL, del_),
    b"exists": Row(at_least(2), ALL, exists),
    b"mset": Row(odd_from(3), EVERY_SECOND, mset),
    b"msetnx": Row(odd_from(3), EVERY_SECOND, msetnx),
    b"mget": Row(at_least(2), ALL, mget),
    b"incr": Row(exactly(2), FIRST, incr),
    b"decr": Row(exactly(2), FIRST, decr),
    b"incrby": Row(exactly(3), FIRST, incrby),
    b"decrby": Row(exactly(3), FIRST, decrby),
    b"type": Row(exactly(2), FIRST, type_),
    b"dbsize": Row(exactly(1), NO_KEY, dbsize),
    b"flushdb": Row(at_least(1), NO_KEY, flushdb),
    b"hset": Row(even_from(4), first_and_pairs, hset),
    b"hsetnx": Row(exactly(4), FIRST_TWO, hsetnx),
    b"hget": Row(exactly(3), ALL, hget),
    b"hmget": Row(at_least(3), ALL, hmget),
    b"hdel": Row(at_least(3), ALL, hdel),
    b"hlen": Row(exactly(2), FIRST, hlen),
    b"hexists": Row(exactly(3), ALL, hexists),
    b"hstrlen": Row(exactly(3), ALL, hstrlen),
    b"hincrby": Row(exactly(4), FIRST_TWO, hincrby),
    b"hgetall": Row(exactly(2), FIRST, hgetall),
    b"hkeys": Row(exactly(2), FIRST, hkeys),
    b"hvals": Row(exactly(2), FIRST, hvals),
    b"multi": Row(exactly(1), NO_KEY, None),
    b"exec": Row(exactly(1), NO_KEY, None),
    b"discard": Row(exactly(1), NO_KEY, None),
    b"watch": Row(at_least(2), ALL, None),
    b"unwatch": Row(exactly(1), NO_KEY, unwatch),
}
# Those that need no session.
RUNNING = {name for name, row in COMMANDS.items() if row.run}


def check(words):
    """Raises the first cause, if there is one, for which a request of these words is refused before it runs or is queued."""
    name, *arguments = words
    row = COMMANDS.get(name.lower())
    if row is None:
        raise CommandError(UNKNOWN)
    if not row.takes(len(words)):
        raise CommandError(WRONG_NUMBER % name.lower().decode())
    if any(len(key) > MOST_KEY_BYTES for key in row.keys(arguments)):
        raise CommandError(LONG_KEY)


def is_good(words):
    """Whether a request of these words is not refused before it runs or is queued."""
    try:
        check(words)
    except CommandError:
        return False
    return True


def effect(keyspace, words):
    """What the request of these words is answered and changes, where no session is looked at: a command that needs one is
    unknown then. Nothing is played."""
    name, *arguments = words
    try:
        if name.lower() not in RUNNING:
            raise CommandError(UNKNOWN)
        check(words)
        return COMMANDS[name.lower()].run(keyspace, *arguments)
    except CommandError as refused:
        return Effect(error(str(refused)))
