"""Which extents to move so that a run of free lines comes to be: what crates/packing plans, written once more in plain steps.

An extent is a pair, its first line and how many lines it has. A move is a pair: an extent's index in the list that was given, and the line to which it
goes.
"""

import bisect
import itertools

# How many places are tried.
TRIES = 16


def in_order(extents):
    """The extents by their first lines, each with its index: (first line, lines, index)."""
    return sorted((first_line, lines, index) for index, (first_line, lines) in enumerate(extents))


def gaps_of(placed, first, end):
    """The free lines below each extent and behind all, as (first line, line behind), also where there are none."""
    lows = itertools.accumulate((line + lines for line, lines, _ in placed), max, initial=first)
    highs = [*(min(line, end) for line, _, _ in placed), end]
    return [(low, max(low, high)) for low, high in zip(lows, highs)]


def sums_of(numbers):
    """The sum of those before each, and of all."""
    return list(itertools.accumulate(numbers, initial=0))


def make_window(extents, first, end, lines, need, most):
    """At most `most` moves, of no more lines together, that leave `need` free lines in a stretch, or `None`: as long a stretch as the run, then longer ones."""
    placed = in_order(extents)
    holes = [(low, high) for low, high in gaps_of(placed, first, end) if low < high]
    more = 0
    while sum(high - low for low, high in holes) >= need:
        length = min(need + more, end - first)
        found = [empty(placed, holes, (end, lines), start, length, need) for _, start in stretches(placed, first, end, length)[:TRIES]]
        moves = min((moves for moves in found if moves is not None), key=len, default=None)
        if moves is not None and max(len(moves), sum(extents[index][1] for index, _ in moves)) <= most:
            return moves
        if length >= min(end - first, most):
            return None
        more = 2 * more or max(need // 8, 1)
    return None


def stretches(placed, first, end, length):
    """How many lines the extents have that begin in each stretch, and where it begins: the cheapest first."""
    firsts = [line for line, _, _ in placed]
    sums = sums_of(lines for _, lines, _ in placed)
    starts = {first, *firsts, *(line + lines for line, lines, _ in placed)}
    return sorted(
        (sums[bisect.bisect_left(firsts, start + length)] - sums[bisect.bisect_left(firsts, start)], start)
        for start in starts if first <= start and start + length <= end)


def empty(placed, holes, bounds, start, length, need):
    """The moves of the extents that begin in the stretch, in order, until `need` lines are free below the next one: each into the hole that was found for it,
    or down to those that stay. `None` where so many are not free behind all."""
    end, lines = bounds
    behind = next((min(line, end) for line, _, _ in placed if line >= start + length), end)
    within = [one for one in placed if start <= one[0] < behind]
    goes = find_holes(within, [(low, high) for low, high in holes if not start <= low < behind])
    moves, floor = [], start
    for line, count, index in within:
        if min(line, end) - floor >= need:
            return moves
        if index in goes:
            moves.append((index, goes[index]))
        elif line <= floor or line - floor < count and lines - end < count:
            floor = max(floor, line + count)
        else:
            if line - floor < count:
                moves.append((index, end))
            moves.append((index, floor))
            floor += count
    return moves if behind - floor >= need else None


def find_holes(within, holes):
    """By the indices of those that have one, the line to which each goes: the longest first, into the shortest hole that is long enough."""
    lengths, goes = sorted((high - low, low) for low, high in holes), {}
    for _, count, index in sorted(within, key=lambda one: -one[1]):
        at = bisect.bisect_left(lengths, (count, -1))
        if at < len(lengths):
            free, low = lengths.pop(at)
            goes[index] = low
            if free > count:
                bisect.insort(lengths, (free - count, low + count))
    return goes


def slide_down(extents, first, end, need):
    """Moves that let extents slide down to the first line, straight or by way of `end`, until there are `need` free lines above the last of them, or `None`."""
    moves, floor = [], first
    for line, lines, index in in_order(extents):
        if line - floor >= need:
            return moves
        if line <= floor:
            floor = line + lines
            continue
        if floor + lines > line:
            moves.append((index, end))
        moves.append((index, floor))
        floor += lines
    return moves if end - floor >= need else None
