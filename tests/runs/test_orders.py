"""Events in any order, drawn by a seed, with crashes and reopenings, against one plain Redis: the promise of docs/promises.md, looked at from
outside."""

import collections

import draws
import plain_commands
import plain_image
import plain_machine
import plain_redis
import plain_replies
import spelling
from plain_keyspace import Drop
from simulation import NODES, Runs, Schedule, simulate, texts_between, told_between, told_positions

PROGRAMS = ["simulator"]
IS_SLOW = True

# Connections that enter between the other events, and leave at any time.
GUESTS = 8
REQUESTS_OF_A_GUEST = 30
EVENTS = 10_000
# So many crashes of nodes, about, with a reopening of each.
CRASHES = 6
REQUESTS_OF_EACH = (240, 200, 150, 100, 60)

# Images that take all that is drawn, and images that the first requests fill by more than half.
AMPLE_LINES, SCARCE_LINES = 65_536, 4_096
FILLING = [(b"SET", b"filling %d" % number, 65_536 * b"f") for number in range(2)]

NO_ROOM = plain_replies.error(plain_replies.NO_ROOM)

# Frames come in pieces of fewer bytes than this.
LONGEST_PIECE = 60

# A crash leaves the oldest or newest candidate of a word, or one between.
PICKS = [0, 2**64 - 1, 1, 2]

# So many groups the standby lacks at most when it is to catch up.
UNTAKEN = 40

# Pieces of a connection's bytes, and of what is written to it, are shorter than one of these.
PIECES = [24, 24, 24, 24, 200, 2_000, 20_000]


class ToldRoom:
    """Room for changes, but where the reply that was heard last tells that there is none."""

    def __init__(self):
        self._replies = iter(())

    def hear(self, call):
        """The replies to the requests that the call runs: those in the array of an EXEC, its own otherwise."""
        is_exec = call.words and call.words[0].lower() == b"exec" and call.reply[:1] == b"*"
        self._replies = iter(plain_replies.elements(call.reply) if is_exec else [call.reply])

    def take(self, _changes):
        return next(self._replies) != NO_ROOM


class Order:
    """Events drawn by a seed, and what the connections still have to send. One connection more than have entered
    is drawn too, and so are those that left. Both nodes crash, and are opened again; `first` are the first requests."""

    def __init__(self, seed, first=()):
        self.draws = draws.numbers(f"order {seed}")
        self.schedule = Schedule()
        # of each connection that entered
        self.scripts = []
        # those that entered since the primary was opened last, and those of them that stay
        self.present = []
        self.staying = []
        self.guests = []
        for c, count in enumerate(REQUESTS_OF_EACH):
            self.stay(count, () if c else first)
        self.feed(0, sum(len(spelling.spell(*words)) for words in first))
        for _ in first:
            self.schedule.serve(0)
        # after how many events a node crashed or was opened again
        self.fronts = []
        # how many times a frame was to be sent, and an acknowledgement to be made
        self.frames = 0
        self.acknowledgements = 0

    def draw(self, events):
        """Draws `events` events. About twenty times all frames come once more: otherwise those that the standby lacks would
        seldom come in order."""
        for _ in range(events):
            if self.draws.randrange(events) < 20:
                self.deliver_all()
            if self.draws.randrange(events) < 3 * GUESTS:
                self.come_or_go()
            if self.draws.randrange(events) < CRASHES:
                self.crash_and_reopen(self.draws.choice(["primary", "primary", "standby"]))
            self.draw_one()

    def draw_one(self):
        self.draws.choice([*3 * [self.draw_of_connection], *2 * [self.draw_of_nodes]])()

    def enter(self, count, first=()):
        """A connection enters that will send so many requests, after these first ones."""
        self.present.append(len(self.scripts))
        self.scripts.append(draws.Script(self.draws, count, first))
        self.schedule.add("enter")

    def stay(self, count, first=()):
        """One enters that never leaves."""
        self.staying.append(len(self.scripts))
        self.enter(count, first)

    def come_or_go(self):
        """A guest enters or leaves; one may leave that is not there yet, or no more."""
        if self.draws.randrange(2) and len(self.guests) < GUESTS:
            self.guests.append(len(self.scripts))
            self.enter(REQUESTS_OF_A_GUEST)
        else:
            self.schedule.add(f"leave {self.draws.choice([*self.guests, len(self.scripts)])}")

    def crash_and_reopen(self, node):
        """A node crashes, other events come, and it is opened again. Of a primary now and then all that it has committed was sent
        before; new connections enter then, and most often the link opens soon."""
        if node == "primary" and self.draws.randrange(3) == 0:
            self.schedule.add("raise-local", "hand", *8 * ["send"])
            self.frames += 8
        self.schedule.add(" ".join(["crash", node, *(str(self.draws.choice(PICKS)) for _ in range(self.draws.randint(1, 3)))]))
        self.fronts.append(len(self.schedule.events))
        for _ in range(self.draws.randrange(30)):
            self.draw_one()
        if node == "primary":
            self.schedule.add("enter")
        self.schedule.add(f"reopen {node}")
        self.fronts.append(len(self.schedule.events))
        if node == "primary":
            self.present, self.staying = [], []
            for count in REQUESTS_OF_EACH:
                self.stay(count)
            for _ in range(self.draws.randrange(60)):
                self.draw_one()
            if self.draws.randrange(4):
                self.open_link()

    def draw_of_connection(self):
        c = self.draws.choice(self.present) if self.draws.randrange(12) else self.draws.randrange(len(self.scripts) + 1)
        count = self.draws.randrange(self.draws.choice(PIECES))
        names = ["feed", "offer", "turn", "hold", "read local", "read remote", "release", "write"]
        (name,) = self.draws.choices(names, [4, 4, 4, 3, 1, 1, 1, 2])
        if name == "feed":
            self.feed(c, count)
        elif name == "write":
            self.schedule.add(f"write {c} {count}")
        else:
            name, *mark = name.split()
            self.schedule.add(" ".join([name, str(c), *mark]))

    def draw_of_nodes(self):
        names = ["close-group", "commit", "raise-local", "hand", "free", "accept-freed", "clear-gap", "send"]
        names += ["deliver", "apply", "ack-delivered", "raise-remote", "open-link"]
        (name,) = self.draws.choices(names, [12, 15, 15, 15, 6, 4, 4, 9, 4, 4, 4, 3, 1])
        self.frames += name == "send"
        self.acknowledgements += name == "apply"
        # frames and acknowledgements may be old, or not there yet
        bounds = {"deliver": self.frames, "ack-delivered": self.acknowledgements}
        words = [name, str(self.draws.randint(0, bounds[name]))] if name in bounds else [name]
        # a frame comes whole, or in pieces of a few bytes
        words += [str(len(self.schedule.events) % LONGEST_PIECE)] if name == "deliver" else []
        self.schedule.add(" ".join(words))

    def feed(self, c, count=None):
        self.schedule.feed(c, self.scripts[c].take(count) if c < len(self.scripts) else b"no such connection")

    def deliver_all(self):
        self.schedule.take(*range(self.frames))
        self.acknowledgements += self.frames

    def open_link(self):
        """The link opens, and one frame is sent: the delta, where one is due."""
        self.schedule.add("open-link", "send")
        self.frames += 1
        self.acknowledgements += 1

    def catch_up(self):
        """What is committed is sent, and the standby takes of all that was ever sent what joins on; then the delta from there, if it is due
        one, and all groups that follow."""
        self.schedule.add("raise-local", "hand")
        for _ in range(2):
            self.deliver_all()
            self.open_link()
            self.schedule.add(*UNTAKEN * ["send"])
            self.frames += UNTAKEN
        self.deliver_all()

    def finish(self):
        """What is left of the scripts is fed and served to its end, but only that of connections that stayed."""
        for c in self.staying:
            self.feed(c)
        self.schedule.drain(self.staying, max(len(self.scripts[c].items) for c in self.staying), self.frames + 1_000)
        for number in range(self.acknowledgements + self.frames + 1_000):
            self.schedule.add(f"ack-delivered {number}")
        self.schedule.add("raise-remote")
        for c in self.staying:
            self.schedule.read_marks(c)
            self.schedule.write_out(c)


def told_redis():
    """A Redis, and its room, which has to hear each call before it is answered."""
    room = ToldRoom()
    return plain_redis.Redis(room), room


class Orders(Runs):
    """One test a seed. What is looked at is the promise; that each event did its step where it should is the plain
    machine's part. At the end of some runs the standby catches up, by a delta where the primary was opened again; some are then finished."""

    def check(self, seed, lines, is_caught_up, is_finished):
        order = Order(seed, FILLING if lines == SCARCE_LINES else ())
        order.draw(EVENTS)
        if is_caught_up:
            order.catch_up()
        if is_finished:
            order.finish()
        options = ["--map", "--images", "--lines", f"{lines},{lines}"]
        trace = simulate(order.schedule.events, *options)
        # the two bodies of the keyspace give the same bytes, on the images too, and so does one call for all events
        for other in ("--list", "--whole"):
            self.assertEqual(simulate(order.schedule.events, other, *options).lines, trace.lines)
        self.assertEqual(trace.ended, f"after all {len(order.schedule.events)} events")
        positions = self.check_calls(trace, lines)
        self.check_front(trace, order, lines)
        stands = [self.check_image(trace, node, lines) for node in NODES]
        with self.case("positions", stands=stands):
            self.assertTrue(stands[1] == stands[0] if is_caught_up else stands[1] <= stands[0])
            # what has ended is freed, again and again, where the standby follows
            done = collections.Counter(event for event, did in zip(order.schedule.events, trace.done) if did)
            self.assertGreater(min(done["free"], done["accept-freed"]), 4 if 2 * stands[1] > stands[0] else -1)
            self.check_draws(trace, stands[0])
        for c, script in enumerate(order.scripts):
            is_whole = is_finished and c in order.staying
            self.check_requests(trace, c, script, is_whole)
            self.check_released(trace, c, positions, stands[1], is_whole)
        self.check_machine(trace, order.schedule.events, lines)

    def check_front(self, last, order, lines):
        """At a front of the run, a crash or a reopening: both images stand where their lines say, the standby not ahead, and each call of
        which a byte was released is in both, and in the list at the end of the run, at its place and with its reply."""
        count = order.draws.choice(order.fronts) if order.fronts else 0
        trace = simulate(order.schedule.events[:count], "--map", "--images", "--lines", f"{lines},{lines}")
        positions = self.check_calls(trace, lines)
        stands = [self.check_image(trace, node, lines) for node in NODES]
        with self.case("front", count=count):
            self.assertLessEqual(stands[1], stands[0])
            for c, released in enumerate(trace.released):
                self.check_released(trace, c, positions, stands[1], False)
                self.assert_bytes(last.released[c][:len(released)], released)
            told = sum(position <= stands[1] for position in positions)
            self.assertEqual(last.calls[:told], trace.calls[:told])

    def check_draws(self, trace, position):
        """The draws lead somewhere: to groups of several changes, to every command but not always to QUIT, and to transactions
        that run, that were spoiled, and that a watched key stops."""
        self.assertGreater(position, 30)
        self.assertGreater(max(frame.changes for frame in trace.frames), 1)
        names = {call.words[0].lower() for call in trace.calls if call.words}
        self.assertEqual(plain_commands.COMMANDS.keys() - names - {b"quit"}, set())
        replies = [call.reply for call in trace.calls if call.words and call.words[0].lower() == b"exec"]
        self.assertGreater(sum(reply[:1] == b"*" and reply != plain_replies.NULL_ARRAY for reply in replies), 8)
        self.assertGreater(replies.count(plain_replies.NULL_ARRAY), 3)
        self.assertGreater(replies.count(plain_replies.error(plain_replies.ABORTED)), 2)

    def check_calls(self, trace, lines):
        """Each call is answered as one Redis answers it at that point of the list, but that its store may be full. Returns the position
        after each."""
        redis, room, positions = *told_redis(), []
        for call in trace.calls:
            room.hear(call)
            with self.case("call", place=len(positions)):
                if call.words:
                    self.assert_bytes(call.reply, redis.call(call.connection, call.words))
            positions.append(redis.position)
        if lines == AMPLE_LINES:
            self.assertFalse(any(NO_ROOM in call.reply for call in trace.calls))
        return positions

    def check_image(self, trace, node, lines):
        """The image is whole, and holds what one Redis holds after as many changes as its position says. Returns the
        position."""
        with self.case("image", node=node):
            image = plain_image.read_image(plain_image.Words(lines, trace.words[node]))
            redis, room = told_redis()
            for call in trace.calls:
                room.hear(call)
                if call.words and redis.position < image.record.position:
                    redis.call(call.connection, call.words)
            self.assertEqual(redis.position, image.record.position)
            self.assertEqual(image.map, dict(redis.keyspace.records()))
            self.assertEqual(trace.records[node], sorted(image.map.items()))
            self.assertEqual(trace.nodes[node].position, image.record.position)
            self.assertEqual((image.record.epoch, trace.nodes[node].epoch), (1, 1))
        return trace.nodes[node].position

    def check_requests(self, trace, c, script, is_finished):
        """The calls of a connection are its requests in order, up to one to quit or to its fault, and nothing more."""
        with self.case("requests", connection=c):
            calls = [call for call in trace.calls if call.connection == c]
            items = script.items if is_finished else script.items[:len(calls)]
            self.assertEqual(len(calls), len(items))
            for call, item in zip(calls, items):
                found, wanted = (call.reply, item.reply()) if isinstance(item, spelling.Fault) else (call.words, item)
                self.assertEqual(found, wanted)

    def check_released(self, trace, c, positions, covered, is_finished):
        """What was released begins the replies, and each reply of which a byte was released is covered by both
        nodes."""
        with self.case("released", connection=c):
            replies = [(call.reply, position) for call, position in zip(trace.calls, positions) if call.connection == c]
            text = b"".join(reply for reply, _ in replies)
            released = trace.released[c]
            self.assert_bytes(released, text if is_finished else text[:len(released)])
            start = 0
            for reply, position in replies:
                if start < len(released):
                    self.assertLessEqual(position, covered)
                start += len(reply)

    def check_machine(self, trace, events, lines):
        """The events that did their step are those that the plain machine has, and so are the calls, the released bytes
        and the words of both images."""
        machine = plain_machine.Machine((lines, lines), told=told_positions(trace)).play(events)
        with self.case("events"):
            wrong = [place for place, (did, should) in enumerate(zip(trace.done, machine.done)) if did != should]
            self.assertEqual((wrong[:5], len(trace.done)), ([], len(machine.done)))
            self.assertEqual([call.reply for call in trace.calls], [reply for _, _, reply, _ in machine.calls])
            self.assertEqual(trace.released, [connection.released for connection in machine.connections])
            self.assertEqual((trace.frames, trace.acknowledgements), told_between(machine))
            self.assertEqual(trace.texts, texts_between(machine))
            for node in NODES:
                self.assert_image(trace, machine, node, lines)


class Draws(Runs):
    """The draws, played by the plain machine alone."""

    def test_deltas_are_drawn(self):
        # no command drops a string by itself, so a frame that does is a delta
        found = []
        for seed in range(6):
            order = Order(seed)
            order.draw(EVENTS)
            machine = plain_machine.Machine((AMPLE_LINES, AMPLE_LINES)).play(order.schedule.events)
            found.append(sum(any(isinstance(change, Drop) and len(change.name) == 1 for change in frame.changes) for frame in machine.frames))
        self.assertGreater(sum(map(bool, found)), 4, found)
        self.assertGreater(sum(found), 20, found)


def add_seeds(seeds):
    """One test for each seed. In each second run the standby catches up, each fourth is finished, and each third is over images that
    fill."""
    for seed in seeds:
        lines = SCARCE_LINES if seed % 3 == 2 else AMPLE_LINES
        setattr(Orders, f"test_seed_{seed}", lambda self, at=(seed, lines, seed % 2 == 0, seed % 4 == 0): self.check(*at))


# (16 stands for 4, whose draws seldom free what has ended: twice, for 7 times and more in the others)
add_seeds([*range(4), 16, *range(5, 12)])
