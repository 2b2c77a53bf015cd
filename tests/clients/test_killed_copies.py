"""Kills and cuts in each stage of a full copy, under writers and a reader: nothing that was answered is lost, no reply is wrong, none leaves before the newcomer
has its copy, and in the end both images hold the same (docs/replication.md, "A copy"). `tests/run --long` makes 20 rounds of each; else there is one.
"""

import random
import time

import common
from copy_link import STAGES
from load import WRITERS, Load
from plain_replies import OK
from replacing import LONG, Replacing
from spelling import spell

PROGRAMS = ["server"]
IS_SLOW = True

# What each writer is answered, on the average, before the standby is lost and once the newcomer has its copy.
ANSWERS = 5
ROUNDS = 20


class Killed(Replacing):
    # A client that has asked a primary which was started again, before the newcomer had its copy.
    waiting = None

    def run_rounds(self, befalls):
        """In each round the standby is lost under writers, this befalls in a stage of the copy of the newcomer, and then that has it."""
        self.fill(LONG)
        load = Load(self.nodes)
        for number in range(ROUNDS if common.IS_LONG else 1):
            for stage in STAGES:
                with self.case("round", number=number, stage=stage):
                    load.start()
                    load.wait_for(ANSWERS * WRITERS)
                    position = self.lose_standby()
                    load.wait_for_silence()
                    self.between.hold(stage)
                    self.put_newcomer()
                    self.between.wait()
                    time.sleep(random.uniform(0, 0.05))
                    # (what the lost one had may come late on a busy machine)
                    self.assertLessEqual(load.answered() + self.changes, position)
                    befalls(stage, load)
                    self.between.release()
                    self.go_on(load, f"after round {number}, {stage}")
        self.finish(load)

    def go_on(self, load, told):
        """The newcomer gets its copy. Writers that lost their connections go on from what is there then, and the others from where they are."""
        if self.waiting:
            self.assertEqual(self.waiting.reply(), OK)
            self.waiting.close()
            self.waiting, self.changes = None, self.changes + 1
        if load.is_ending.is_set():
            load.check(told)
            load.start()
        load.wait_for(ANSWERS * WRITERS)
        load.end()
        load.check(told)

    def end_primary(self, load):
        self.nodes.primary.end()
        load.end()
        found = self.nodes.primary.inspect()
        self.assertLessEqual(load.answered() + self.changes, found["position"])
        self.assertLessEqual(found["position"], load.asked() + self.changes)

    def start_primary(self):
        """It is started again, and asked to change something before its standby is heard."""
        self.start(self.nodes.primary)
        self.waiting = self.nodes.client()
        self.waiting.send(spell("SET", "waiting", "1"))
        self.assertTrue(self.waiting.is_silent())

    def end_newcomer(self, stage):
        """Only one that has taken the end of its copy is a standby."""
        self.nodes.standby.end()
        if stage == "end taken":
            self.assertEqual(self.nodes.standby.inspect()["role"], "standby")
        else:
            self.assert_newcomer(self.nodes.standby)

    def test_kills_of_the_primary(self):
        def befalls(_, load):
            self.end_primary(load)
            self.start_primary()

        self.run_rounds(befalls)

    def test_kills_of_the_newcomer(self):
        def befalls(stage, _):
            self.end_newcomer(stage)
            self.start(self.nodes.standby)

        self.run_rounds(befalls)

    def test_kills_of_both(self):
        def befalls(stage, load):
            ends = [lambda: self.end_primary(load), lambda: self.end_newcomer(stage)]
            for end in random.sample(ends, 2):
                end()
            for start in random.sample([self.start_primary, lambda: self.start(self.nodes.standby)], 2):
                start()

        self.run_rounds(befalls)

    def test_cuts_of_the_link(self):
        self.run_rounds(lambda *_: self.between.cut())

    def test_newcomers_that_are_replaced(self):
        """By another one: while it waits, when it is half full, and when it has just become the standby."""
        def befalls(stage, _):
            self.end_newcomer(stage)
            self.nodes.standby.image.unlink()
            self.put_newcomer()

        self.run_rounds(befalls)

    def test_kills_at_drawn_moments(self):
        """Of either or both, with nothing held."""
        self.fill(LONG)
        load = Load(self.nodes)
        draws = random.Random("kills in copies")
        for number in range(ROUNDS if common.IS_LONG else 3):
            with self.case("round", number=number):
                load.start()
                load.wait_for(ANSWERS * WRITERS)
                self.lose_standby()
                load.wait_for_silence()
                self.put_newcomer()
                for _ in range(draws.randint(1, 3)):
                    time.sleep(draws.choice([0, 0.003, 0.02, 0.1]))
                    nodes = draws.choice([[self.nodes.primary], [self.nodes.standby], [self.nodes.standby, self.nodes.primary]])
                    for node in nodes:
                        node.end()
                    if self.nodes.primary in nodes:
                        load.end()
                    self.start(*nodes)
                self.go_on(load, f"after round {number}")
        self.finish(load)
