"""Frames that are damaged, drawn by seed (docs/replication.md, "Frames")."""

import random

from plain_keyspace import Clear, Drop, DropKey, Put
from plain_wire import Acknowledgement, Group, change_text, text

SET_A = bytes.fromhex("01 0000000000000001 0000000000000000 0000000000000001 0000000000000009 01 0001 61 00000001 31")

# Where the numbers of a group's frame are.
BEFORE, AFTER, SIZE, BODY = 9, 17, 25, 33


def name(draw):
    return draw.randbytes(draw.choice([0, 1, 2, 5, 12, 40]))


def change_of_a_name(draw):
    return draw.choice([
        lambda: Put((name(draw),), name(draw)), lambda: Put((name(draw), name(draw)), name(draw)),
        lambda: Drop((name(draw),)), lambda: Drop((name(draw), name(draw))), lambda: DropKey(name(draw)),
    ])()


def drawn_change(draw):
    return Clear() if draw.random() < 0.2 else change_of_a_name(draw)


def drawn_group(draw):
    before = draw.choice([0, 6, 255, 2**32 - 1, 2**63, 2**64 - 2])
    changes = tuple(drawn_change(draw) for _ in range(draw.randrange(5)))
    return Group(draw.choice([1, 1, 1, draw.randrange(2**64)]), before, draw.choice([before + 1, before + 1, 2**64 - 1]), changes)


def written(data, at, value, size=8):
    """The bytes with this number in the place of another."""
    return data[:at] + (value % 256**size).to_bytes(size, "big") + data[at + size:]


def one_byte(draw, group):
    data = text(group) if draw.random() < 0.9 else text(Acknowledgement(group.epoch, group.after))
    return written(data, draw.randrange(len(data)), draw.randrange(256), 1)


def cut(draw, group):
    data = text(group)
    first = draw.randrange(len(data))
    return data[:first] + data[draw.randint(first + 1, len(data)):]


def other_size(draw, group):
    data = text(group)
    size = len(data) - BODY
    return written(data, SIZE, draw.choice([size - 1, size + 1, size + 2, size + 7, size // 2, 2**16, 2**40, 2**40 + 1, 2**63, 0]))


def other_length(draw, group):
    """A length of a change is another."""
    change = change_of_a_name(draw)
    data = text(group._replace(changes=(change, *group.changes, Clear())))
    length = draw.choice([0, 1, 2, 511, 512, 513, 65_535])
    if isinstance(change, Put) and draw.random() < 0.5:
        at = BODY + len(change_text(change)) - len(change.value) - 4
        return written(data, at, draw.choice([length, 1_048_576, 1_048_577, 2**32 - 1]), 4)
    return written(data, BODY + 1, length, 2)


def other_order(draw, group):
    data = text(group)
    if draw.random() < 0.5:
        return written(data, AFTER, draw.choice([0, group.before - 1, group.before, group.before + 1, group.before // 2]))
    return written(data, BEFORE, draw.choice([group.after - 1, group.after, group.after + 1, 2**64 - 1]))


def unknown_kind(draw, group):
    kind = draw.choice([0, 3, 7, 8, 64, 255])
    if draw.random() < 0.5:
        return written(text(group), 0, kind, 1)
    return written(text(group._replace(changes=(drawn_change(draw), *group.changes))), BODY, kind, 1)


def trailing(draw, group):
    return text(group) + draw.choice([draw.randbytes(draw.randint(1, 9)), text(group)[1:], bytes([6]), bytes(3)])


DAMAGE = [one_byte, cut, other_size, other_length, other_order, unknown_kind, trailing]


def damaged(seed):
    """How the frame of this seed is damaged, and its bytes with those of a frame behind it."""
    draw = random.Random(f"damaged frame {seed}")
    damage = DAMAGE[seed % len(DAMAGE)]
    return damage.__name__, damage(draw, drawn_group(draw)) + SET_A
