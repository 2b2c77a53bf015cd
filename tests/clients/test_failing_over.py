"""`bin/fail-over`, `bin/stop-node` and `bin/wait-for-write`: each way to end, what they leave, and that what was cut may be given again."""

import os
import re
import shutil
import signal

import common
from old_images import OldWriter
from operated import FIRST, NODES, PAGE, Operated
from page_shell import PageShell, blocks_below
from pair import PairCases, inspected, wait_until
from plain_image import PRIMARY, STANDBY
from plain_journal import Shape, file_of
from plain_keyspace import Put
from plain_replies import OK, bulk
from plain_writer import Writer
from test_images import image_bytes

PROGRAMS = ["server", "client"]
IS_SLOW = True
QUICK = ["Images", "New", "Killed", "Running.test_one_page_after_the_other"]

LINES, MORE_LINES, LINE_BYTES = 4_096, 18_744, 64
NEW_BYTES = LINE_BYTES * (LINES + MORE_LINES)
FORMATTED = f"formatted {LINES + MORE_LINES} lines, {(LINES + MORE_LINES) // 8 - 18} entries"
PROMOTED = "promoted to epoch 2; b.img is a primary's now, at position 3, with 3 keys"
# How many of the kills are drawn.
LEAST = 5
SECTION = 'see docs/operating.md, "An image that lacks something"'


def written(role=STANDBY, count=3, writer=Writer):
    """The bytes of an image at this position."""
    made = writer(role=role, lines=LINES)
    for at in range(count):
        made.commit([[Put((b"k%d" % at,), b"1")]])
    return image_bytes(LINES, made.words)


class Scripts(PairCases):
    """Tests over scripts in a folder of their own, in which no node runs."""

    def setUp(self):
        super().setUp()
        self.shell = PageShell(self.image_folder())
        self.addCleanup(self.shell.close)
        self.folder = self.shell.folder

    def write(self, name, data):
        (self.folder / name).write_bytes(data)

    def read(self, name):
        return (self.folder / name).read_bytes()

    def told(self, line):
        """The status of this line of a shell, what it prints, and what it tells on standard error."""
        *printed, status = self.shell.run(f"{line} 2> told.txt; echo $?").splitlines()
        return int(status), printed, (self.folder / "told.txt").read_text()

    def fail_over(self, *, image="b.img", least=1, new="a.img", fence="true", stop="true"):
        return self.told(f"bin/fail-over {image} {least} {new} '{fence}' '{stop}'")

    def assert_kept(self, ended, data, image="b.img", new="a.img"):
        """It ends so, with the text up to its remedy, the image is as it was, and no new one is made."""
        status, text = ended
        found = self.fail_over(image=image, new=new)
        self.assertEqual(found[:2], (status, []))
        self.assertRegex(found[2], rf"\Afail-over: {text}\n\Z")
        self.assertEqual((self.folder / image).read_bytes() if data is not None else b"", data or b"")
        self.assertEqual([it.name for it in self.folder.glob(f"{new}*")], [])

    def assert_done(self, *printed, **given):
        """It ends well, and IMAGE and NEW are what they are to be."""
        self.assertEqual(self.fail_over(**given), (0, list(printed), ""))
        self.assert_is_done()

    def assert_is_done(self):
        self.assertEqual([inspected(self.folder / "b.img")[it] for it in ("role", "position", "epoch")], ["primary", 3, 2])
        self.assertEqual([inspected(self.folder / "a.img")[it] for it in ("role", "position", "epoch")], ["newcomer", 0, 2])
        self.assertEqual((self.folder / "a.img").stat().st_size, NEW_BYTES)


class Images(Scripts):
    """What IMAGE has to be."""

    def test_a_standby_s(self):
        self.write("b.img", written())
        self.assert_done(PROMOTED, FORMATTED, least=3)
        for _ in range(2):
            self.assert_done("b.img is a primary's already", FORMATTED, least=3)

    def test_one_that_holds_nothing(self):
        """A primary's no less than a standby's."""
        for role, name in ((STANDBY, "standby"), (PRIMARY, "primary")):
            with self.case("role", role=name):
                self.write("b.img", written(role, 0))
                self.assert_kept((5, rf"b\.img lacks what was answered, and is kept as it is: position 0, below 1: not promoted; {SECTION}"), self.read("b.img"))

    def test_one_that_is_too_old(self):
        for role, name in ((STANDBY, "standby"), (PRIMARY, "primary")):
            with self.case("role", role=name):
                self.write("b.img", written(role))
                found = self.fail_over(least=4)
                self.assertEqual(found, (5, [], f"fail-over: b.img lacks what was answered, and is kept as it is: position 3, below 4: not promoted; {SECTION}\n"))
                self.assert_bytes(self.read("b.img"), written(role))
                self.assertFalse((self.folder / "a.img").exists())

    def test_what_is_no_image_of_a_standby(self):
        """Of another version, whatever its role; half formatted; damaged; not there: each is told with what the program says of it."""
        damaged = bytearray(written())
        damaged[LINE_BYTES * 8 + 8:LINE_BYTES * 8 + 16] = bytes([255] * 8)
        migrates = "is an image of another version; wbl-server migrate brings one of version 1 to version 2; refusal 3: bad version"
        for name, data, text in [
            ("version 1", written(writer=OldWriter), migrates),
            ("a primary's of version 1", written(PRIMARY, writer=OldWriter), migrates),
            ("an empty one of version 1", written(STANDBY, 0, OldWriter), migrates),
            ("half formatted", bytes(LINE_BYTES * LINES), "is what a format has left unfinished: give that again; refusal 2: bad magic"),
            ("another's", b"a letter".ljust(LINE_BYTES * LINES), "does not begin as an image; refusal 2: bad magic"),
            ("nothing", b"", "has not as many lines as an image, or as were asked for; refusal 4: wrong size"),
            ("damaged", bytes(damaged), "breaks a rule of an image; refusal 7: damaged image"),
            ("not there", None, "is not there; refusal 1: device fault"),
        ]:
            with self.case(name):
                (self.folder / "b.img").unlink(missing_ok=True)
                if data is not None:
                    self.write("b.img", data)
                self.assert_kept((6, rf"b\.img is kept as it is: b\.img {text}; {SECTION}"), data)

    def test_words_that_are_wrong(self):
        self.write("b.img", written())
        usage = "fail-over: what it needs is: fail-over IMAGE LEAST NEW FENCE STOP\n"
        self.assertEqual(self.told("bin/fail-over b.img 3 a.img true"), (2, [], usage))
        # (where nothing was noted)
        self.assertEqual(self.told("bin/fail-over b.img $(cat none 2> none.txt) a.img true true"), (2, [], usage))
        for least in ("0", "-1", "a.img", "''"):
            with self.case("LEAST", least=least):
                status, printed, told = self.fail_over(least=least)
                self.assertEqual((status, printed), (2, []))
                self.assertRegex(told, r"\Afail-over: LEAST is [^\n]+\n\Z")
        self.assertEqual(self.fail_over(new="./b.img"), (2, [], "fail-over: NEW is to be another image than b.img\n"))
        self.assert_bytes(self.read("b.img"), written())

    def test_no_fence_and_no_stop(self):
        self.write("b.img", written())
        self.assertEqual(self.fail_over(fence="false"), (3, [], "fail-over: no fence, so nothing was done\n"))
        self.assertEqual(self.fail_over(stop="false"), (4, [], "fail-over: the standby was not stopped, and nothing was promoted\n"))
        self.assert_bytes(self.read("b.img"), written())


class New(Scripts):
    """What becomes of a file that is there in the place of the newcomer's image: none is written over."""

    def setUp(self):
        super().setUp()
        self.write("b.img", written())

    def test_another_image(self):
        """It is moved, and one that was moved so before is numbered."""
        for number, data in enumerate([written(PRIMARY), written(STANDBY, 0), b"a letter"]):
            self.write("a.img", data)
            first = PROMOTED if number == 0 else "b.img is a primary's already"
            self.assert_done(first, "a.img was there, and is a.img.old", FORMATTED)
        for name, data in (("a.img.old.~1~", written(PRIMARY)), ("a.img.old.~2~", written(STANDBY, 0)), ("a.img.old", b"a letter")):
            self.assert_bytes(self.read(name), data)

    def test_one_that_a_format_left_halfway(self):
        """Whatever it had done by then. It is made whole, but for a file of no bytes, which is another's as well as its own."""
        whole = self.formatted("whole.img")
        for name, data in [("nothing", b""), ("its length", bytes(NEW_BYTES)), ("no magic yet", bytes(8) + whole[8:]), ("all", whole)]:
            with self.case(name):
                self.write("b.img", written())
                self.write("a.img", data)
                self.assert_done(PROMOTED, *([] if data else ["a.img was there, and is a.img.old"]), FORMATTED)

    def formatted(self, name):
        self.shell.run(f"bin/wbl-server format --image {name} --lines {LINES + MORE_LINES} --role newcomer --epoch 2 --journal 0 --new")
        return self.read(name)

    def test_one_with_a_journal(self):
        """The new image gets one too."""
        self.write("b.img", file_of(written()))
        self.assertEqual(self.fail_over(), (0, [PROMOTED, FORMATTED], ""))
        self.assertEqual(len(self.read("a.img")), LINE_BYTES * Shape.of_image(LINES + MORE_LINES).lines_of_file)
        self.assertEqual(len(self.read("b.img")), len(file_of(written())))

    def test_what_is_no_file(self):
        """It stays, and nobody waits for it."""
        (self.folder / "folder").mkdir()
        os.mkfifo(self.folder / "pipe")
        (self.folder / "link").symlink_to("nowhere")
        for new, first in (("folder", PROMOTED), ("pipe", "b.img is a primary's already"), ("link", "b.img is a primary's already")):
            with self.case("new", name=new):
                self.assertEqual(self.fail_over(new=new), (7, [first], f"fail-over: {new} is no file\n"))
                self.assertTrue(os.path.lexists(self.folder / new))

    def test_a_folder_that_is_not_there(self):
        self.assertEqual(self.fail_over(new="none/a.img"), (7, [PROMOTED], "fail-over: none/a.img is not made: none/a.img could not be made: "
                                                            "its folder is not there; refusal 1: device fault\n"))

    def test_a_full_disk(self):
        """Of the process, which may not write as large a file: nothing is left of the new one, and the same words go on where it may."""
        size = len(written()) // 1_024
        self.assertEqual(self.told(f"(trap '' XFSZ; ulimit -f {2 * size}; bin/fail-over b.img 1 a.img true true)"), (
            7, [PROMOTED], "fail-over: a.img is not made: a.img could not be made: no file may be as large, there or for this process; refusal 1: device fault\n"))
        self.assertFalse((self.folder / "a.img").exists())
        self.assert_done("b.img is a primary's already", FORMATTED)


# Stands for each program that fail-over runs. It counts them, and at one of them it kills all that runs, before it or behind it.
COUNTED = """\
#!/bin/sh
echo >> {folder}/count.txt
number=$(wc -l < {folder}/count.txt)
[ "$number before" != "{at}" ] || kill -9 0
{program} "$@"
status=$?
[ "$number behind" != "{at}" ] || kill -9 0
exit $status
"""


class Killed(Scripts):
    """fail-over is killed, with all that it runs, before and behind each program that it runs: the same words go on, and no file is lost."""

    PROGRAMS = ("awk", "dirname", "flock", "mv", "readlink", "sh", "stat", "wbl-server")

    def count_at(self, at):
        """Puts in the place of each program one that is counted, and kills all at this one, if one is said. Returns the words before those of fail-over."""
        stubs = self.folder / "stubs"
        stubs.mkdir(exist_ok=True)
        (self.folder / "count.txt").write_text("")
        server = self.folder / "bin" / "wbl-server"
        if not (self.folder / "server").exists():
            server.rename(self.folder / "server")
        for name in self.PROGRAMS:
            stub = server if name == "wbl-server" else stubs / name
            program = self.folder / "server" if name == "wbl-server" else shutil.which(name)
            stub.write_text(COUNTED.format(folder=self.folder, at=at, program=program))
            stub.chmod(0o755)
        return f"PATH={stubs}:$PATH setsid --wait "

    def killed(self, at):
        """fail-over, which is killed there. How many programs it came to."""
        words = self.count_at(at)
        self.told(f"{words} bin/fail-over b.img 3 a.img true true")
        return len((self.folder / "count.txt").read_text())

    def test_at_each_program(self):
        """Over a file that has to go aside first, and without one."""
        for former in (written(PRIMARY), None):
            self.write("b.img", written())
            self.begin(former)
            count = self.killed("")
            self.assertGreater(count, 5)
            cases = [f"{number} {when}" for number in range(1, count + 1) for when in ("before", "behind")]
            for at in common.drawn(f"fail-over killed {former is None}", cases, LEAST):
                with self.case("killed", at=at, over=bool(former)):
                    self.begin(former)
                    self.killed(at)
                    self.count_at("")
                    status, printed, told = self.fail_over(least=3)
                    self.assertEqual((status, told, printed[-1]), (0, "", FORMATTED))
                    self.assert_is_done()
                    kept = [it.read_bytes() for it in self.folder.glob("a.img.old*")]
                    self.assertEqual([it for it in kept if it.strip(b"\0")], [former] * bool(former))

    def begin(self, former):
        for path in self.folder.glob("a.img*"):
            path.unlink()
        self.write("b.img", written())
        if former:
            self.write("a.img", former)

    def test_in_a_format(self):
        """By a kill at a moment when the file is there and no image yet."""
        self.write("b.img", written())
        server = self.folder / "bin" / "wbl-server"
        lines = server.read_text().split("\n", 1)
        for name, made in (("no bytes", ": >"), ("a part", "head -c 5000 /dev/zero >"), ("its length", f"head -c {NEW_BYTES} /dev/zero >")):
            with self.case(name):
                self.begin(None)
                stub = f'if [ "$1" = format ]; then {made} "$3"; kill -9 0; fi\n'
                server.write_text(f"{lines[0]}\n{stub}{lines[1]}")
                self.told("setsid --wait bin/fail-over b.img 3 a.img true true")
                self.assertEqual([it.name for it in self.folder.glob("a.img*")], ["a.img"])
                server.write_text("\n".join(lines))
                aside = [] if name == "its length" else ["a.img was there, and is a.img.old"]
                self.assert_done("b.img is a primary's already", *aside, FORMATTED)


class Running(Operated):
    """Over a pair that runs."""

    def told(self, line):
        *printed, status = self.shell.run(f"{line} 2> told.txt; echo $?").splitlines()
        return int(status), printed, (self.shell.folder / "told.txt").read_text()

    def test_a_standby_that_is_not_stopped(self):
        """Its word is not enough: the standby holds its image."""
        self.kill("a.img")
        told = self.told("bin/fail-over b.img 1 a.img true true")
        self.assertEqual(told, (6, [], f"fail-over: b.img is kept as it is: b.img is held by another process; refusal 1: device fault; {SECTION}\n"))

    def test_a_node_that_runs_the_new_image(self):
        """It is not taken away from it."""
        self.kill("a.img")
        (lines,) = blocks_below(PAGE, "The process of the primary")
        self.shell.run("cp a.img c.img", *(line.replace("a.img", "c.img") for line in lines[:1]))
        wait_until(lambda: NODES.is_held(self.shell.folder / "c.img"), "a primary that runs")
        status, printed, told = self.told('bin/fail-over b.img 1 c.img true "bin/stop-node standby b.img"')
        self.assertEqual((status, len(printed), told), (7, 1, "fail-over: c.img is run by a node: bin/stop-node stops it\n"))
        self.assertTrue((self.shell.folder / "c.img").exists())

    def test_stopping(self):
        """A node is stopped as what it is, from any shell, and just the one of this image."""
        for role, image in (("standby", "a.img"), ("primary", "b.img")):
            status, printed, told = self.told(f"bin/stop-node {role} {image}")
            self.assertEqual((status, printed), (1, []))
            self.assertRegex(told, rf"\Astop-node: {image} is not stopped: process \d+ has it, which is no {role}'s: [^\n]+\n\Z")
        self.assertEqual(self.client().ask("SET", "a", "1"), OK)
        for number in range(2):
            self.assertEqual(self.told("bin/stop-node standby b.img"), (0, [], ""))
        self.assertFalse(NODES.is_held(self.shell.folder / "b.img"))
        self.assertTrue(NODES.is_held(self.shell.folder / "a.img"))
        self.assertEqual(self.told("bin/stop-node primary none.img"), (0, [], ""))
        self.assertEqual(self.told("bin/stop-node a.img")[0], 2)
        self.assertEqual(self.told("bin/stop-node node a.img")[0], 2)

    def test_stopping_one_that_is_frozen(self):
        """What does not end is told."""
        os.kill(self.process("a.img"), signal.SIGSTOP)
        status, _, told = self.told("bin/stop-node primary a.img")
        self.assertEqual(status, 1)
        self.assertRegex(told, r"\Astop-node: a\.img is not stopped: process \d+ does not end\n\Z")
        os.kill(self.process("a.img"), signal.SIGCONT)
        wait_until(lambda: not NODES.is_held(self.shell.folder / "a.img"), "a node that was stopped before")

    def test_waiting(self):
        """Until a write is answered; else why none was, with the last lines of the logs."""
        ask = f"bin/wait-for-write 127.0.0.1:{FIRST} a.log b.log none.log"
        self.assertEqual(self.told(ask), (0, [], ""))
        ask = f"WAIT_SECONDS=2 {ask}"
        self.kill("b.img")
        status, _, told = self.told(ask)
        self.assertEqual(status, 1)
        self.assertRegex(told, r"\Await-for-write: a write at \S+ waits for the standby\n(?:a\.log: [^\n]+\n){2}(?:b\.log: [^\n]+\n){2}\Z")
        self.kill("a.img")

        def nobody_answers():
            status, _, told = self.told(ask)
            self.assertEqual(status, 1)
            # (the client of the last second may not have come to it on a busy machine)
            return re.match(r"wait-for-write: nobody answers at \S+\na\.log: ", told)

        wait_until(nobody_answers, "that nobody answers")
        self.assertEqual(self.told("bin/wait-for-write")[0], 2)

    def test_one_page_after_the_other(self):
        """A standby is replaced, and then the primary is lost: what was answered between is there, and the image of the standby that was replaced is not
        promoted by the same words."""
        self.assertEqual(self.client().ask("SET", "a", "1"), OK)
        self.do("A lost standby")
        self.assertEqual(self.client().ask("SET", "a", "2"), OK)
        self.shell.run("bin/wbl-status --least least a.img b.img")
        self.lose("a.img")
        status, printed, told = self.told("bin/fail-over b.img.old $(cat least) a.img true true")
        self.assertEqual((status, printed), (5, []))
        self.assertRegex(told, r"position \d+, below \d+: not promoted")
        self.do("A lost primary")
        self.assertEqual(self.client(7002).ask("GET", "a"), bulk(b"2"))
