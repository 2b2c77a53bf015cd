"""Explores with the simulator, judges what it tells, and shortens a history that breaks the promise."""

import subprocess
import threading
import typing

import common
import judge

# What stands before the events of a history, and behind them: they are no events.
HELD = ("fail ", "keep ", "restore ")


class Breach(typing.NamedTuple):
    """What of the promise a history breaks, where that shows, and its lines up to there."""

    cause: str
    place: str
    lines: list

    def text(self):
        """What is broken, and the lines that suffice for it, as the simulator reads them."""
        told = [f"# broken: {self.cause}", f"# {self.place}", *map(with_bytes, self.lines)]
        return "".join(f"{line}\n" for line in told if line != "# ")


def with_bytes(line):
    """The line, behind the bytes that come in by it, if it has them in hex digits."""
    name, *words = line.split()
    return f"# {common.quoted(bytes.fromhex(''.join(words[1:])))}\n{line}" if name == "feed-bytes" else line


def judged(lines):
    """What the history breaks of which these lines tell, or None."""
    looks = judge.Judge()
    try:
        for line in lines:
            looks.take(line)
        looks.close()
    except judge.Broken as broken:
        cause, *place = broken.args
        return Breach(cause, "".join(place), looks.lines)
    return None


def histories(lines):
    """The lines of each history of a trace, and last what was told of them all."""
    history = None
    for line in lines:
        if line.startswith("# history "):
            if history is not None:
                yield history
            history = []
        elif line.startswith("explored: "):
            break
        else:
            history.append(line)
    if history is not None:
        yield history


def explore(seed, events):
    """Explores so many events, and judges each history once it has ended. Gives what the first breaks that breaks anything, or None, and the last line that
    the simulator printed."""
    words = [common.program("simulator"), "--trace", "--explore", str(seed), str(events)]
    with subprocess.Popen(words, stdin=subprocess.DEVNULL, stdout=subprocess.PIPE, text=True, encoding="ascii") as child:
        timer, last = threading.Timer(common.SECONDS, child.kill), [""]
        timer.start()
        try:
            for history in histories(noting_last(child.stdout, last)):
                if breach := judged(history):
                    child.kill()
                    return breach, last[0]
            child.stdout.read()
        finally:
            timer.cancel()
    if child.returncode:
        raise AssertionError(f"status {child.returncode}, last line {last[0]!r}")
    return None, last[0]


def noting_last(lines, last):
    """The lines without their ends; `last` has the last of them."""
    for line in lines:
        last[0] = line.removesuffix("\n")
        yield last[0]


def replayed(lines):
    """What the history of these lines breaks, or None."""
    played = common.run_program("simulator", ["--trace"], "".join(f"{line}\n" for line in lines).encode())
    if played.status > 1 or (played.status == 1 and b"# broken: " not in played.output):
        return None
    return judged(played.output.decode("ascii").splitlines())


def shortened(breach, replay=replayed):
    """The breach with fewer lines that still break the promise so: without what it does not need of a failing fence and an image that is put back, and then of
    its events, the longest pieces first."""
    lines = list(breach.lines)
    for names in (("fail ",), ("keep ", "restore ")):
        lines = shorter(lines, lambda line, names=names: not line.startswith(names), breach.cause, replay)
    size = max(1, len(lines) // 2)
    while True:
        lines = without_pieces(lines, size, breach.cause, replay)
        if size == 1:
            break
        size //= 2
    return replay(without_pieces(lines, 1, breach.cause, replay)) or breach


def shorter(lines, is_needed, cause, replay):
    """The lines that are needed, if they break the promise so; otherwise all."""
    kept = [line for line in lines if is_needed(line)]
    found = replay(kept) if len(kept) < len(lines) else None
    return kept if found and found.cause == cause else lines


def without_pieces(lines, size, cause, replay):
    """Without each piece of so many lines that they do not need."""
    start = 0
    while start < len(lines):
        kept = [line for place, line in enumerate(lines) if not start <= place < start + size or line.startswith(HELD)]
        found = replay(kept) if len(kept) < len(lines) else None
        if found and found.cause == cause:
            lines = kept
        else:
            start += size
    return lines
