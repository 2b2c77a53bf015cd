"""The procedures of docs/operating.md: the blocks of the page as they stand, under writers, and what clients find afterwards."""

import os
import pathlib
import re
import shutil
import signal
import time

import pages
from load import Load
from old_images import LINES, OldWriter, held, with_hashes, with_nothing_last
from operated import FIRST, PAGE, SECOND, Operated, Page
from page_shell import blocks_below
from pair import Client, PairCases, give_number, inspected, number_in, wait_until
from plain_image import HALFWAY, STANDBY
from plain_journal import Shape
from plain_replies import NULL_BULK, OK, bulk, integer
from spelling import spell
from test_images import image_bytes

PROGRAMS = ["server", "client"]
IS_SLOW = True
QUICK = ["Procedures.test_the_process_of_the_primary", "Procedures.test_a_lost_primary",
         "Sizes.test_the_table"]


class Procedures(Operated):
    """Each under twenty writers and a reader: nothing that was answered is lost."""

    def check(self, *headings, kills=(), loses=(), port=FIRST):
        """Under writers these nodes are killed and these images are lost, and then the page is done. Returns what that printed."""
        load = Load(Page(self.shell, FIRST))
        self.started(load)
        self.kill(*kills)
        self.lose(*loses)
        printed = self.do(*headings)
        self.ended(load, port, headings)
        return printed

    def test_the_process_of_the_primary(self):
        self.check("The process of the primary", kills=["a.img"])

    def test_the_process_of_the_standby(self):
        self.check("The process of the standby", kills=["b.img"])

    def test_a_lost_standby(self):
        """The primary is not started again."""
        process = self.process("a.img")
        printed = self.check("A lost standby", loses=["b.img"])
        self.assertEqual(self.process("a.img"), process)
        self.assertRegex(printed, r"\na\.img: primary, epoch 1, .*\nb\.img: standby, epoch 1, .*\nbehind: \d+\n")

    def test_a_standby_that_is_replaced(self):
        """Its image is moved, and nothing takes it for that of the new one any more."""
        self.check("A lost standby", kills=["b.img"])
        old, new = (self.shell.run(f"bin/wbl-server status --image {name} | grep position") for name in ("b.img.old", "b.img"))
        self.assertLess(int(old.split()[1]), int(new.split()[1]))

    def test_a_standby_that_holds_nothing(self):
        """In the place of one that did: both logs say so, and nothing is answered until a newcomer takes its place."""
        self.assertEqual(self.client().ask("SET", "a", "1"), OK)
        start = self.line("A lost standby", " standby ")
        self.lose("b.img")
        with Client(self.shell.port(FIRST)) as client:
            self.shell.run("bin/wbl-server format --new --image b.img --lines 84280 --role standby", start)
            client.send(b"*3\r\n$3\r\nSET\r\n$1\r\nb\r\n$1\r\n2\r\n")
            wait_until(lambda: b"refusal 12: position gap" in self.log("b"), "the standby's word")
            wait_until(lambda: b": refusal 12: position gap\n" in self.log("a"), "the primary's word")
            wait_until(lambda: b": the standby lacks what this primary cannot send: " in self.log("a"), "the primary's word on what to do")
            self.assertTrue(client.is_silent(0.5))
            self.do("A lost standby")
            self.assertEqual(client.reply(), OK)
        self.assertEqual(self.client().ask("GET", "a"), bulk(b"1"))

    def test_a_standby_of_another_pair(self):
        """What the page says of it: both logs, that nothing is answered, how the two images are told apart, and what there is to do."""
        self.assertEqual(self.client().ask("SET", "a", "1"), OK)
        number = number_in(self.shell.folder / "a.img")
        wait_until(lambda: number_in(self.shell.folder / "b.img") == number, "a standby that has the number")
        self.kill("b.img")
        image = self.shell.folder / "b.img"
        give_number(image, number + 1)
        start = self.line("The process of the standby", " standby ")
        with Client(self.shell.port(FIRST)) as client:
            self.shell.run(start)
            client.send(spell("SET", "b", "2"))
            for name in "ab":
                wait_until(lambda name=name: b": refusal 18: wrong pair\n" in self.log(name), f"the word of {name}")
            wait_until(lambda: b'see "A standby of another pair" in docs/operating.md' in self.log("a"), "the primary's word on what to do")
            self.assertTrue(client.is_silent(0.5))
            printed = self.do("A standby of another pair")
            # (the primary's image may have what waits)
            self.assertRegex(printed, rf"\Aposition \d+\nepoch 1\npair {number}\nposition \d+\nepoch 1\npair {number + 1}\n\Z")
        self.do("A lost standby")
        self.assertEqual(self.client().ask("GET", "a"), bulk(b"1"))
        self.assertEqual(number_in(image), number)

    def line(self, heading, words):
        """The line of the one block below this heading that starts a node and has these words."""
        (lines,) = blocks_below(PAGE, heading)
        return next(line.strip() for line in lines if words in line and line.endswith(" &"))

    def test_a_lost_primary(self):
        printed = self.check("A lost primary", loses=["a.img"], port=SECOND)
        self.assertRegex(printed, r"\Apromoted to epoch 2; b\.img is a primary's now, at position \d+, with \d+ keys\nformatted 103024 lines, ")

    def test_a_standby_at_position_0_is_not_promoted(self):
        self.lose("a.img", "b.img")
        self.shell.run("bin/wbl-server format --new --image b.img --lines 84280 --role standby")
        self.shell.run(*blocks_below(PAGE, "A lost primary")[0])
        self.assertRegex(self.shell.errors.read_text().splitlines()[-1], r"\Afail-over: b\.img lacks what was answered, .*: position 0, below 1: not promoted; ")
        self.assertRegex(self.shell.run("bin/wbl-status b.img"), "standby, epoch 1, position 0,")

    def test_no_image_that_is_there_is_formatted(self):
        """And none in the place of one that is gone."""
        self.assertEqual(self.client().ask("SET", "a", "1"), OK)
        self.kill("a.img", "b.img")
        self.do("A pair")
        self.assertEqual(self.client().ask("GET", "a"), bulk(b"1"))
        self.lose("a.img")
        self.shell.run("WAIT_SECONDS=2", "export WAIT_SECONDS", *blocks_below(PAGE, "A pair")[0])
        self.assertIn("nobody answers at", self.shell.errors.read_text())
        self.assertEqual([it.name for it in self.shell.folder.glob("*.img*")], ["b.img"])

    def test_why_the_check_is_a_set(self):
        """A primary whose standby is gone answers PING and GET until something waits."""
        client, other = self.client(), self.client()
        self.assertEqual(client.ask("SET", "a", "1"), OK)
        self.kill("b.img")
        self.assertEqual([client.ask("PING"), client.ask("GET", "a")], [b"+PONG\r\n", bulk(b"1")])
        client.send(spell("SET", "a", "2"))
        self.assertTrue(client.is_silent(0.5))
        other.send(spell("PING"))
        self.assertTrue(other.is_silent(0.5))

    def test_seats_of_those_who_gave_up(self):
        """While a standby is away a connection that has ended keeps its seat as long as its reply waits, and gives it back then."""
        fds = pathlib.Path("/proc", str(self.process("a.img")), "fd")
        used = lambda: len(list(fds.iterdir()))
        self.assertEqual(self.client().ask("SET", "a", "0"), OK)
        before, standby = used(), self.process("b.img")
        os.kill(standby, signal.SIGSTOP)
        for at in range(20):
            with Client(self.shell.port(FIRST)) as client:
                client.send(spell("SET", "a", f"{at}"))
                self.assertTrue(client.is_silent(0.05))
        wait_until(lambda: used() >= before + 20, "seats of all of them")
        time.sleep(1)
        self.assertGreaterEqual(used(), before + 20)
        os.kill(standby, signal.SIGCONT)
        wait_until(lambda: used() <= before, "seats that are given back")

    def test_a_move_of_the_primary(self):
        self.assertEqual(blocks_below(PAGE, "A move of the primary to the other machine"), [])
        self.check("A lost primary", port=SECOND)
        self.assertEqual(self.inspected_role("a.img.old"), "primary")

    def inspected_role(self, image):
        return inspected(self.shell.folder / image)["role"]

    def test_a_larger_image(self):
        """The two blocks that the page names, with more lines in the first."""
        self.assertEqual(blocks_below(PAGE, "A larger image"), [])
        load = Load(Page(self.shell, FIRST))
        self.started(load)
        (block,) = blocks_below(PAGE, "A lost standby")
        self.shell.run(*(re.sub(r"--lines .* --role", "--lines 131072 --role", line) for line in block))
        self.do("A lost primary")
        self.ended(load, SECOND, "a larger image")
        self.assertRegex(self.shell.run("bin/wbl-status b.img a.img"), r"(?s)\Ab\.img: primary, epoch 2, .* of 16366 .*a\.img: standby, epoch 2, .* of 18709 ")

    def test_a_new_version(self):
        self.check("From one release to the next")

    def test_backup_and_restore(self):
        """A backup under writers loses nothing, and what it holds is what comes back."""
        self.assertEqual(self.client().ask("SET", "before", "1"), OK)
        printed = self.check("Backup")
        self.assertRegex(printed, r"backup\.img: standby, epoch 1, ")
        self.assertEqual([self.client().ask("SET", "after", "1"), self.client().ask("SET", "before", "2")], [OK, OK])
        self.do("Restore")
        self.assertEqual([self.client().ask("GET", it) for it in ("before", "after")], [bulk(b"1"), NULL_BULK])
        self.assertEqual(self.client().ask("SET", "after", "2"), OK)


class OtherPlace(Operated):
    """The primary is in place b, and the blocks are given with the places exchanged, as the page says."""

    EXCHANGED = {"a": "b", "b": "a", "7001": "7002", "7002": "7001", "7101": "7102", "7102": "7101"}

    def do_exchanged(self, heading):
        for lines in blocks_below(PAGE, heading):
            self.shell.run(*(re.sub(r"\b[ab](?=\.(?:img|log)\b)|\b7[01]0[12]\b", lambda found: self.EXCHANGED[found[0]], line) for line in lines))
        self.assert_without_errors()

    def test_each_block(self):
        self.do("A lost primary")
        client, count = self.client(SECOND), 0
        for heading in ("How far a pair was", "A lost standby", "Backup", "From one release to the next", "Images of releases up to 18"):
            with self.case("block", heading=heading):
                self.assertEqual(client.ask("SET", "count", f"{count}"), OK)
                self.do_exchanged(heading)
                client = self.client(SECOND)
                self.assertEqual(client.ask("GET", "count"), bulk(b"%d" % count))
                count += 1
        # (and back)
        self.do_exchanged("A lost primary")
        self.assertEqual(self.client(FIRST).ask("GET", "count"), bulk(b"%d" % (count - 1)))
        self.do("A lost standby")
        self.assertEqual(self.client(FIRST).ask("GET", "count"), bulk(b"%d" % (count - 1)))


class Former(Operated):
    """A pair of images of version 1, both of one size."""

    def setUp(self):
        PairCases.setUp(self)
        self.shell = self.new_shell()

    def test_images_of_version_1(self):
        """What they held is there, the standby has grown, and the images of before are kept; also where a migration was cut."""
        for name, halfway in (("as they were", {}), ("halfway", {1: HALFWAY.version})):
            with self.case(name):
                primary = with_nothing_last() if halfway else with_hashes()
                former = {"a.img": image_bytes(LINES, primary.words | halfway), "b.img": image_bytes(LINES, OldWriter(STANDBY).words)}
                for image, data in former.items():
                    (self.shell.folder / image).write_bytes(data)
                self.do("Images of releases up to 18")
                wanted = dict(held(LINES, primary.words)[2].map)
                names = sorted(wanted)
                found = self.client().ask_all([["GET", *it] if len(it) == 1 else ["HGET", *it] for it in names])
                self.assertEqual(dict(zip(names, found)), {it: bulk(value) for it, value in wanted.items()})
                for image, data in former.items():
                    self.assertEqual((self.shell.folder / f"{image}.old").read_bytes(), data)
                # (the new one has a journal)
                sizes = [(self.shell.folder / it).stat().st_size // 64 for it in former]
                self.assertEqual(sizes, [LINES, Shape.of_image(LINES + 18_744).lines_of_file])
                self.do("A lost primary")
                found = self.client(SECOND).ask_all([["GET", *it] if len(it) == 1 else ["HGET", *it] for it in names])
                self.assertEqual(dict(zip(names, found)), {it: bulk(value) for it, value in wanted.items()})
                self.shell.close()
                self.shell = self.new_shell()


class Sizes(Operated):
    """What the page says of sizes, and what an operator sees of a full store."""

    def setUp(self):
        PairCases.setUp(self)

    def test_the_table(self):
        number = lambda text: int(text.replace(",", ""))
        rows = pages.rows(PAGE, "How large an image")
        self.assertEqual(len(rows), 3)
        for _, sum_, size in rows:
            with self.case("row", sum=sum_):
                terms, lines = sum_.split(" = ")
                found = eval(terms.replace(",", "").replace(" x ", "*"), {})  # of digits and operators only
                self.assertAlmostEqual(number(lines), found, delta=1)
                self.assertEqual(size, f"{round(64 * number(lines) / 1e6)} MB")

    def test_a_store_that_fills(self):
        """Nine tenths of the smallest image are kept and written again and again; a monitor tells of more; a full store goes on."""
        self.shell = self.new_shell()
        self.shell.run(*(line.replace("65536", "4096").replace("84280", "22840") for line in blocks_below(PAGE, "A pair")[0]))
        client = self.client()
        kept = [f"k{at}" for at in range(494 * 9 // 10 - 10)]
        for value in "12":
            for key in kept:
                self.assertEqual(client.ask("SET", key, value), OK)
        (status, monitor, count), (watch,) = blocks_below(PAGE, "What to look at")
        self.assertEqual(self.shell.run(monitor), "")
        self.assertRegex(self.shell.run(status), r"\Aa\.img: primary, .*versions 4\d\d of 494 \(\d\d %, .*\nb\.img: standby, .* of 2837 .*\nbehind: \d+\n\Z")
        wanted = 1 if shutil.which("ss") else 0
        self.assertEqual(int(self.shell.run(count)), wanted)
        more = [client.ask("SET", f"more{at}", "1") for at in range(100)]
        self.assertEqual(more[-1], b"-ERR store is full\r\n")
        self.assertEqual(self.shell.run(monitor), "over nine tenths: see a larger image\n")
        # (the logs said so as well, the primary's before the store was full)
        full = re.compile(r'\S+Z 99 of 100 versions are taken, \d+ of 494: see "A larger image" in docs/operating\.md')
        wait_until(lambda: [line for line in self.shell.run(watch).splitlines() if full.fullmatch(line)], "a log that says how full an image is")
        self.assertEqual([client.ask("GET", kept[0]), client.ask("DEL", *kept[:100])], [bulk(b"2"), integer(100)])
        self.assertEqual(client.ask("SET", "again", "1"), OK)
        self.assert_without_errors()
