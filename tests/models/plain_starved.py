"""A plain Redis that is refused memory where a program was (docs/commands.md, rule 7 of "Transactions" and the three replies that may take the place of a
command's own), and what it answers to one connection whose requests go all the way one after another."""

import contextlib
import itertools

import spelling
from plain_commands import Effect
from plain_machine import Machine
from plain_redis import Redis, closes
from plain_replies import NO_MEMORY, elements, end_of, error

REFUSED = error(NO_MEMORY)


def replies_in(data):
    """The replies that are whole in these bytes, and the bytes behind them."""
    found, at = [], 0
    with contextlib.suppress(ValueError):
        while at < len(data) and (end := end_of(data, at)) <= len(data):
            found.append(data[at:end])
            at = end
    return found, data[at:]


class Starved(Redis):
    """Is told the replies of a run, call by call. One that is refused memory there, whole or in an element of its array, is refused it here too; all else is as
    it would be."""

    def __init__(self, told, room=None):
        super().__init__(room)
        self._told = iter(told)
        self._runs, self._refused = itertools.count(), set()

    def call(self, connection, item):
        told = next(self._told, b"")
        if told == REFUSED:
            return self._refuse_whole(connection, item)
        self._runs = itertools.count()
        self._refused = {place for place, reply in enumerate(elements(told)) if reply == REFUSED} if told[:1] == b"*" else set()
        return super().call(connection, item)

    def _refuse_whole(self, connection, item):
        if closes(item):
            self.leave(connection)
        else:
            self.refuse(connection, item)
        return REFUSED

    def _run(self, words, part):
        return Effect(REFUSED) if next(self._runs) in self._refused else super()._run(words, part)


class Settled:
    """One connection of a new pair whose requests go all the way one after another, also what each of them ended is freed before the next one. `told` is how a
    run answered them."""

    def __init__(self, told=(), lines=None):
        self.machine = Machine(lines) if lines else Machine()
        self.machine.redis = Starved(told, self.machine.primary.image.room)
        self.machine.play(["enter"])

    @property
    def map(self):
        """The values by their names."""
        return dict(self.machine.redis.keyspace.records())

    def serve(self, item):
        """The reply to a request."""
        machine = self.machine
        machine.play([f"feed-bytes 0 {spelling.spell(*item).hex()}", "offer 0", "turn 0", "hold 0"])
        if machine.play(["close-group"]).done[-1]:
            machine.play(["commit", "raise-local", "hand", "send"])
            machine.play([f"deliver {len(machine.frames) - 1}", "apply"])
            machine.play([f"ack-delivered {len(machine.acknowledgements) - 1}", "raise-remote", "close-group", "free", "accept-freed"])
        return machine.calls[-1][2]


def answers(items, told=()):
    """What is answered to these requests, where a run answered so."""
    pair = Settled(told)
    return [pair.serve(item) for item in items]
