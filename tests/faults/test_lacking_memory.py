"""Where memory lacks: all requests for memory of a run are refused in turn, and what is told of each is right; among them are a request that is watched, one that
is queued, an EXEC and an element of it, a frame of each node, and a reply that cannot be held."""

import itertools
import os

from common import run_program, tell
from faulty_pair import FaultyPair
from pair import LINES, Ended
from plain_machine import DEFAULT_LINES, Machine
from plain_replies import OK, bulk, elements
from plain_starved import REFUSED, Starved
from refused_calls import FOR_EVER, FaultyCases
from simulation import Runs, Schedule, Trace, told_positions
from spelling import spell

PROGRAMS = ["server", "simulator"]
IS_SLOW = True

# How often all are tried at most: what is refused differs from run to run, and more so on a busy machine.
ROUNDS = 40


class Requests(FaultyCases, Runs):
    """Of the simulator: each call is what the plain machine tells, which takes a refusal of memory for an answer."""

    ROW = ["WATCH a", "MULTI", "SET a x", "SET b y", "EXEC", "EXEC", "GET a"]

    def test_each_place(self):
        schedule, faults, counted = Schedule(1), self.faults(), {}
        schedule.feed(0, b"".join(spell(*words.split()) for words in self.ROW))
        for _ in self.ROW:
            schedule.serve(0)
        text = "".join(f"{event}\n" for event in schedule.events).encode()
        run = lambda: run_program("simulator", ["--map"], text, env=os.environ | faults.settings())
        faults.refuse("memory", FOR_EVER)
        run()
        for number in range(1, faults.calls("memory") + 1):
            with self.case("request for memory", number=number):
                faults.refuse("memory", number)
                found = run()
                if found.status == 0:
                    for place in self.places(Trace(found.output.decode("ascii")), schedule):
                        counted[place] = counted.get(place, 0) + 1
        tell("the places where memory lacked", counted)
        # (the others take none)
        self.assertLessEqual({"WATCH a", "SET a x, queued", "EXEC", "EXEC, an element"}, set(counted))

    def places(self, trace, schedule):
        """The requests that were refused memory, in a run to its end, of which each reply is right."""
        if trace.ended != f"after all {len(schedule.events)} events":
            return []
        machine = Machine(DEFAULT_LINES, told=told_positions(trace))
        machine.redis = Starved([call.reply for call in trace.calls], machine.primary.image.room)
        machine.play(schedule.events)
        self.assert_events(trace, machine, 0)
        found, is_open = [], False
        for call in trace.calls:
            words = b" ".join(call.words).decode()
            if call.reply == REFUSED:
                found.append(words + ", queued" * (is_open and words not in ("EXEC", "MULTI")))
            elif call.reply[:1] == b"*" and REFUSED in elements(call.reply):
                found.append(f"{words}, an element")
            is_open = is_open if call.reply == REFUSED else words == "MULTI" or is_open and words != "EXEC"
        return found


class Frames(FaultyPair):
    """Of a pair of processes. What was refused memory is done by the next try of the node itself, and the client waits for it."""

    def refuse_all(self, role, line, wanted):
        """Each request for memory of a SET in turn, and all once more, and again, where one of what is wanted was not among them: which of them is whose
        differs from run to run. Returns what came of them; one of which the node told by this line is one of the link."""
        nodes, counted = self.faulty_pair(LINES), {}
        node, faults = getattr(nodes, role), self.by_role[role]
        with nodes.client() as client:
            faults.refuse("memory", FOR_EVER)
            client.ask("SET", "a", "0")
            count = faults.calls("memory")
        for round, number in itertools.product(range(ROUNDS), range(1, count + 1)):
            if wanted <= set(counted) and number == 1:
                break
            with self.case("request for memory", role=role, round=round, number=number):
                before = node.errors.read_bytes().count(line)
                faults.refuse("memory", number)
                answered = self.ask(nodes, number)
                faults.end("memory")
                has_told = node.errors.read_bytes().count(line) > before
                kind = "told of the link" if has_told else "answered" if answered == REFUSED else "ended the connection" if not answered else "made good"
                counted[kind] = counted.get(kind, 0) + 1
                with nodes.client() as client:
                    value = client.ask("GET", "a")
                    self.assertIn(value, [bulk(b"%d" % number)] if answered == OK else [bulk(b"%d" % number), bulk(b"%d" % self.last)])
                    self.last = int(value.split(b"\r\n")[1])
        tell(f"a {role}, a SET, by what was told", counted)
        self.assert_same(nodes)
        self.assertLessEqual(wanted, set(counted))
        return counted

    def ask(self, nodes, number):
        """What is answered to a SET by a connection of its own, or nothing where that ends."""
        try:
            with nodes.client() as client:
                return client.ask("SET", "a", f"{number}")
        except (Ended, ConnectionError):
            return b""

    last = 0

    def test_a_frame_that_the_standby_has_no_memory_for(self):
        """It ends its link, says so, and takes the frame when it comes again."""
        wanted = {"told of the link", "made good"}
        self.assertEqual(set(self.refuse_all("standby", b"left the link: refusal 14: out of memory\n", wanted)), wanted)

    def test_a_frame_and_a_reply_that_the_primary_has_no_memory_for(self):
        """A frame goes out on the next link. A reply that cannot be held ends its connection, or it is told that memory lacks, and nobody else's."""
        self.refuse_all("primary", b" lost: refusal 14: out of memory\n", {"told of the link", "answered", "ended the connection", "made good"})
