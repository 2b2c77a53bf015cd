"""`bin/pair`, which starts a pair with one command: what it tells, that it serves, how it ends, and each way in which it does not start; and the blocks of
pages that start a pair, by it and by hand."""

import contextlib
import os
import pathlib
import re
import shutil
import signal
import socket
import subprocess
import sys
import tempfile
import types

import common
from page_shell import PageShell, blocks_below
from pair import HOST, PATIENCE, Client, PairCases, Port, TakesTooLong, inspected, launch, number_in, run, wait_until
from plain_journal import Shape, image_in
from plain_replies import OK, bulk

PROGRAMS = ["server", "client"]
IS_SLOW = True
QUICK = ["Pages", "Serving.test_a_set_and_a_get", "Serving.test_the_second_at_once"]

README, ARCHITECTURE = common.ROOT / "README.md", common.ROOT / "docs" / "architecture.md"
ROLES = ("primary", "standby")
SERVES = re.compile(r"the pair serves at 127\.0\.0\.1:(\d+), over the images in (\S+)\. Now type, in another terminal, one of\n"
                    r"    redis-cli -p \1\n    (\S+/wbl-cli --connect 127\.0\.0\.1:\1 SET a 1)\nCtrl-C ends both nodes\n")


def fields_of(process):
    """The words of a process, and who started it; none where it has ended."""
    with contextlib.suppress(OSError):
        words = pathlib.Path("/proc", process, "cmdline").read_bytes().split(b"\0")
        # (the name, in brackets, may hold any character; behind it stand the state and the parent)
        stat = pathlib.Path("/proc", process, "stat").read_text(encoding="latin-1").rpartition(")")[2].split()
        return [word.decode() for word in words], int(stat[1]), stat[0]
    return [], 0, "X"


def is_there(process):
    return fields_of(str(process))[2] not in "ZX"


# (the last lines of a node stand below others)
TIME = re.compile(r"(?m)^( *)\d{4}-\d\d-\d\dT\d\d:\d\d:\d\d\.\d{3}Z ")


class Command:
    """A `bin/pair` that runs, in a folder of its own."""

    def __init__(self, test, *words):
        self.output, self.errors = test.folder / "told.txt", test.folder / "errors.txt"
        with open(self.output, "wb") as output, open(self.errors, "wb") as errors:
            self.process = launch([sys.executable, test.command, *map(str, words)], stdout=output, stderr=errors, cwd=test.folder)
        test.addCleanup(self.process.wait)
        test.addCleanup(self.process.kill)

    def told(self):
        """What it said, and what it told on standard error, without the times of the lines of a node."""
        return self.output.read_text(), TIME.sub(r"\1", self.errors.read_text())

    def wait(self):
        """Waits until the pair serves. Returns what it told before, and what it then said."""

        def served():
            if self.process.poll() is not None:
                raise AssertionError(f"it has ended with {self.process.returncode}: {self.told()}")
            return SERVES.search(self.output.read_text())

        found = wait_until(served, "a pair that serves")
        self.port, self.typed = int(found[1]), found[3]
        return self.output.read_text()[:found.start()]

    def nodes(self):
        """By the role of each node its process."""
        found = {}
        for process in filter(str.isdigit, os.listdir("/proc")):
            words, parent, _ = fields_of(process)
            if parent == self.process.pid and len(words) > 1:
                found[words[1]] = int(process)
        return found

    def end(self, number):
        """Sends it a signal, and returns its status once it has ended."""
        self.process.send_signal(number)
        return self.process.wait(PATIENCE)


class CommandCases(PairCases):
    def setUp(self):
        super().setUp()
        place = tempfile.TemporaryDirectory(prefix="wbl-command-", dir=self.image_folder())
        self.addCleanup(place.cleanup)
        self.folder = pathlib.Path(place.name)
        (self.folder / "bin").mkdir()
        for name, crate in (("wbl-server", "server"), ("wbl-cli", "client")):
            (self.folder / "bin" / name).symlink_to(os.path.abspath(common.program(crate)))
        self.command = shutil.copy(common.ROOT / "bin" / "pair", self.folder / "bin")
        self.images = {role: self.folder / "ziltovna-pair" / f"{role}.img" for role in ROLES}

    def new_port(self):
        port = Port()
        self.addCleanup(port.close)
        return port.number

    def started(self, *words):
        """A pair that serves, at a port that no other test takes, and what it told before."""
        command = Command(self, "--port", self.new_port(), *words)
        return command, command.wait()

    def ask(self, command, *words):
        with Client(command.port) as client:
            return client.ask(*words)

    def run_command(self, *words):
        """The status of one that ends by itself, and what it told."""
        command = Command(self, *words)
        with contextlib.suppress(subprocess.TimeoutExpired):
            return command.process.wait(PATIENCE), *command.told()
        raise TakesTooLong(f"the end of {words}: {command.told()}")

    def assert_ended(self, nodes):
        self.assertEqual(sorted(nodes), list(ROLES))
        wait_until(lambda: not any(map(is_there, nodes.values())), "the end of both nodes")

    def made(self, folder="ziltovna-pair", lines=65_536):
        return "".join(f"made {folder}/{role}.img of {count} lines\n" for role, count in zip(ROLES, (lines, lines + 18_744)))


class Serving(CommandCases):
    def test_a_set_and_a_get(self):
        """Over nothing: it makes both images, and serves by the lines that it says. At Ctrl-C both nodes end, and hold what was answered."""
        command, told = self.started()
        self.assertEqual(told, self.made())
        ran = subprocess.run(["sh", "-c", command.typed], cwd=self.folder, capture_output=True, timeout=PATIENCE)
        self.assertEqual((ran.returncode, ran.stdout, ran.stderr), (0, b"OK\n", b""))
        self.assertEqual(self.ask(command, "GET", "a"), bulk(b"1"))
        if shutil.which("redis-cli"):
            ran = subprocess.run(["redis-cli", "-p", str(command.port), "GET", "a"], capture_output=True, timeout=PATIENCE)
            self.assertEqual(ran.stdout, b"1\n")
        nodes = command.nodes()
        self.assertEqual(command.end(signal.SIGINT), 0)
        self.assert_ended(nodes)
        self.assertEqual([text.endswith("both nodes have ended\n") for text in command.told()], [True, False])
        self.assertEqual(command.told()[1], "")
        found = {role: inspected(image) for role, image in self.images.items()}
        self.assertEqual([(found[role]["role"], found[role]["position"], found[role]["live"]) for role in ROLES], [(role, 1, 1) for role in ROLES])

    def test_again(self):
        """It goes on over what is there, and makes nothing but what is missing."""
        folder = f"{self.folder}/a folder/below"
        words = [folder, "--lines", "8192"]
        for turn, missing in enumerate([ROLES, (), ("standby",)]):
            with self.case("turn", number=turn):
                command = Command(self, "--port", self.new_port(), *words)
                sizes = {"primary": 8_192, "standby": 26_936}
                found = wait_until(lambda: re.search(r"(?s)\A(.*)the pair serves at 127\.0\.0\.1:(\d+), .*\nCtrl-C", command.told()[0]), "a pair that serves")
                self.assertEqual(found[1], "".join(f"made {folder}/{role}.img of {sizes[role]} lines\n" for role in missing))
                command.port = int(found[2])
                before = [] if turn == 0 else [self.ask(command, "GET", f"k{it}") for it in range(turn)]
                self.assertEqual(before, [bulk(b"%d" % it) for it in range(turn)])
                self.assertEqual(self.ask(command, "SET", f"k{turn}", f"{turn}"), OK)
                nodes = command.nodes()
                self.assertEqual(command.end(signal.SIGTERM), 0)
                self.assert_ended(nodes)
                self.assertEqual(command.told()[1], "")
                if turn == 1:
                    (pathlib.Path(folder) / "standby.img").unlink()

    def test_a_start_that_was_cut(self):
        """An image that was not whole is made anew, and one that was is kept."""
        self.images["primary"].parent.mkdir()
        self.images["standby"].with_suffix(".part").write_bytes(b"half of it")
        run("format", "--image", str(self.images["primary"]), "--lines", "4096", "--role", "primary")
        command, told = self.started("--lines", "8192")
        self.assertEqual(told, "made ziltovna-pair/standby.img of 26936 lines\n")
        self.assertEqual(self.ask(command, "SET", "a", "1"), OK)
        self.assertEqual(self.images["primary"].stat().st_size, 64 * Shape.of_image(4_096).lines_of_file)
        self.assertEqual(sorted(it.name for it in self.images["standby"].parent.iterdir()), ["primary.img", "primary.log", "standby.img", "standby.log"])

    def test_the_second_at_once(self):
        command, _ = self.started()
        self.assertEqual(self.run_second(), (1, "", "pair: a pair runs in ziltovna-pair already\n"))
        self.assertEqual(self.ask(command, "SET", "a", "1"), OK)
        nodes = command.nodes()
        # (where nohup has it ignored, that stays so)
        hears = signal.getsignal(signal.SIGHUP) is not signal.SIG_IGN
        self.assertEqual(command.end(signal.SIGHUP if hears else signal.SIGTERM), 0)
        self.assert_ended(nodes)

    def log_of(self, role):
        """What a node told, without the times of its lines."""
        return TIME.sub(r"\1", (self.folder / "ziltovna-pair" / f"{role}.log").read_text())

    def run_second(self):
        ran = subprocess.run([sys.executable, self.command], cwd=self.folder, capture_output=True, text=True, timeout=PATIENCE)
        return ran.returncode, ran.stdout, ran.stderr

    def test_a_node_ends(self):
        """It says which, with its last lines, and ends the other."""
        for role, other in (ROLES, ROLES[::-1]):
            with self.case("role", role=role):
                command, _ = self.started()
                nodes = command.nodes()
                os.kill(nodes[role], signal.SIGKILL)
                self.assertEqual(command.process.wait(PATIENCE), 1)
                self.assert_ended(nodes)
                output, errors = command.told()
                self.assertTrue(output.endswith("\nboth nodes have ended\n"))
                first, *last = errors.splitlines()
                self.assertEqual(first, f"pair: the {role} has ended by signal 9. The last that it told, in ziltovna-pair/{role}.log:")
                told = self.log_of(role).splitlines()
                self.assertEqual(last, [f"    {line}" for line in told[-len(last):]])
                self.assertTrue(all(common.NEWS.fullmatch(f"{line[4:]}\n".encode()) for line in last) and last, last)

    def test_it_is_killed_itself(self):
        """Its nodes do not outlive it, and it goes on over their images."""
        command, _ = self.started()
        self.assertEqual(self.ask(command, "SET", "a", "1"), OK)
        nodes = command.nodes()
        command.end(signal.SIGKILL)
        self.assert_ended(nodes)
        command, told = self.started()
        self.assertEqual((told, self.ask(command, "GET", "a")), ("", bulk(b"1")))

    def test_ports(self):
        """Those that are given are taken; where 7000 is not free another is."""
        port = self.new_port()
        command, _ = self.started("--link-port", port)
        self.assertIn(f"\nlistening on {HOST}:{port}\n", self.log_of("standby"))
        self.assertEqual(command.end(signal.SIGINT), 0)
        with socket.socket() as taken:
            taken.setsockopt(socket.SOL_SOCKET, socket.SO_REUSEADDR, 1)
            # (or another has it)
            with contextlib.suppress(OSError):
                taken.bind((HOST, 7_000))
                taken.listen()
            command = Command(self)
            command.wait()
            self.assertNotEqual(command.port, 7_000)
            self.assertEqual(self.ask(command, "SET", "a", "1"), OK)


class NotStarting(CommandCases):
    """Each ends with 1 and says why, and changes no image that is there."""

    def refused(self, *words, output=""):
        """What it says where it does not start."""
        status, told, errors = self.run_command("--port", self.new_port(), *words)
        self.assertEqual((status, told), (1, output))
        self.assertTrue(errors.startswith("pair: "))
        return errors.removeprefix("pair: ")

    def test_a_folder_that_cannot_be_used(self):
        file = self.folder / "file"
        file.write_bytes(b"")
        self.assertEqual(self.refused(file), f"{file} cannot be used as a folder: File exists\n")
        self.assertEqual(self.refused(file / "below"), f"{file}/below cannot be used as a folder: Not a directory\n")
        # (no user may make a file there)
        self.assertRegex(self.refused("/proc"), r"\A/proc/primary\.img is not made: /proc/primary\.part could not be made: [^\n]+; refusal 1: device fault\n\Z")

    def test_a_log_that_cannot_be_written(self):
        (self.folder / "ziltovna-pair" / "standby.log").mkdir(parents=True)
        self.assertEqual(self.refused(output=f"{self.made()}both nodes have ended\n"), "ziltovna-pair/standby.log cannot be written: Is a directory\n")

    def make_images(self, lines=8_192):
        self.images["primary"].parent.mkdir()
        for (role, image), size in zip(self.images.items(), (lines, lines + 18_744)):
            run("format", "--image", str(image), "--lines", str(size), "--role", role)

    def read_images(self):
        return {role: image.read_bytes() for role, image in self.images.items()}

    def test_an_image_that_is_refused(self):
        """Of another version, damaged, cut off, of the other role: the node's own words are shown."""
        self.make_images()
        whole = self.read_images()
        changed = {
            "is an image of another version; wbl-server migrate brings one of version 1 to version 2": lambda data: data[:8] + b"\1" + data[9:],
            "does not begin as an image": lambda data: b"X" + data[1:],
            "has not as many lines as an image, or as were asked for": lambda data: data[:-64],
        }
        for role in ROLES:
            for cause, change in changed.items():
                with self.case("image", role=role, cause=cause):
                    damaged = change(whole[role])
                    self.images[role].write_bytes(damaged)
                    told = self.refused(output="both nodes have ended\n")
                    self.assertTrue(told.startswith(f"the {role} has ended with status 1. The last that it told, in ziltovna-pair/{role}.log:\n"), told)
                    self.assertIn(f"\n    ziltovna-pair/{role}.img {cause}\n    refusal ", told)
                    # (its journal may have begun)
                    self.assert_bytes(image_in(self.images[role].read_bytes()), image_in(damaged))
                    self.images[role].write_bytes(whole[role])
        for role, other in (ROLES, ROLES[::-1]):
            self.images[role].write_bytes(whole[other])
        self.assertRegex(self.refused(output="both nodes have ended\n"), r"\n    ziltovna-pair/(\w+)\.img is an image of the other role\n    refusal 16: ")
        for role, other in (ROLES, ROLES[::-1]):
            self.assert_bytes(image_in(self.images[role].read_bytes()), image_in(whole[other]))

    def test_a_primary_that_is_lost(self):
        """An empty primary beside a standby that is there would lose what that holds."""
        self.make_images()
        self.images["primary"].unlink()
        told = self.refused()
        self.assertEqual(told, 'ziltovna-pair/primary.img is not there, but ziltovna-pair/standby.img is: see "A lost primary" in docs/operating.md, or remove '
                               "it to begin anew\n")
        self.assertFalse(self.images["primary"].exists())

    def test_a_pair_that_does_not_serve(self):
        """The standby belongs to another pair than the primary: it says so within the time that is given."""
        command, _ = self.started()
        self.assertEqual(self.ask(command, "SET", "a", "1"), OK)
        wait_until(lambda: number_in(self.images["standby"]) == number_in(self.images["primary"]), "a standby that has the number")
        command.end(signal.SIGTERM)
        run("format", "--image", str(self.images["primary"]), "--lines", "65536", "--role", "primary")
        # (on a busy machine the two may not have met by then, or what they told of it is not among the last lines any more)
        for seconds in (3, 1, 2, 5, 10, 20):
            told = self.refused("--wait", seconds, output="both nodes have ended\n")
            if ": the standby belongs to another pair: " in told:
                break
        self.assertRegex(told, r"\Athe pair does not serve after [\d.]+ seconds\.\nThe last that the primary told, in ziltovna-pair/primary\.log:\n(?:    .*\n)*"
                               r"    \S+: the standby belongs to another pair: .*\n(?:    .*\n)*The last that the standby told, in ziltovna-pair/standby\.log:\n(?:    .*\n)+\Z")

    def test_a_port_that_is_taken(self):
        port = self.new_port()
        with socket.create_server((HOST, port)):
            status, told, errors = self.run_command("--port", port)
        self.assertEqual((status, told), (1, f"{self.made()}both nodes have ended\n"))
        self.assertRegex(errors, rf"\Apair: the primary has ended with status 75\. [^\n]+\n(?:    .*\n)*    cannot listen at {HOST}:{port}: address in use\n(?:    .*\n)*\Z")

    def test_an_image_of_no_size(self):
        told = self.refused("--lines", "5")
        self.assertRegex(told, r"\Aziltovna-pair/primary\.img is not made: .*refusal 4: [^\n]*\n\Z")
        self.assertFalse(self.images["primary"].exists())

    def test_other_words(self):
        for words in (["--port", "x"], ["--port", "0"], ["--port", "65536"], ["--wait", "x"], ["--lines", "many"], ["a", "b"], ["--other"]):
            with self.case("words", words=words):
                status, told, errors = self.run_command(*words)
                self.assertEqual((status, told), (2, ""))
                self.assertRegex(errors, r"\Abin/pair: error: ")
                self.assertFalse((self.folder / "ziltovna-pair").exists())

    def test_no_program(self):
        (self.folder / "bin" / "wbl-server").unlink()
        (self.folder / "bin" / "wbl-server").symlink_to("/bin/false")
        self.assertEqual(self.refused(), "there is no program to start\n")


class Pages(PairCases):
    """The blocks of pages that start a pair."""

    def shell(self):
        shell = PageShell(self.image_folder())
        self.addCleanup(shell.close)
        return shell

    def test_the_first_screen(self):
        """The first block of README.md runs in one terminal, and the second is pasted into another: twice, the second time over the images of the first."""
        start, ask = blocks_below(README, "Run it")
        self.assertEqual(start, ["bin/pair"])
        shell = self.shell()
        for made in (True, False):
            shell.run("rm -f told.txt", f"{start[0]} > told.txt 2>&1 & pair=$!")
            told = shell.folder / "told.txt"
            found = wait_until(lambda: told.exists() and SERVES.search(told.read_text()), "a pair that serves")
            self.assertEqual("made ziltovna-pair/primary.img" in told.read_text(), made)
            # (where 7000 is taken it is another)
            shell.ports[7_000] = types.SimpleNamespace(number=int(found[1]), close=lambda: None)
            self.assertEqual(shell.run(*ask), 'OK\n"1"\n')
            self.assertEqual(shell.run("kill $pair; wait $pair; echo $?"), "0\n")

    def test_by_hand(self):
        """Those of docs/architecture.md, pasted as a whole, twice: the second time over the images of the first."""
        shell = self.shell()
        start, stop = blocks_below(ARCHITECTURE, "A pair by hand")
        formatted = "formatted 65536 lines, 8174 entries\nformatted 84280 lines, 10517 entries\n"
        for made in (formatted, ""):
            self.assertEqual(shell.run(*start), f'{made}OK\n"1"\n')
            self.assertEqual(shell.run(*stop, "wait"), "")
        told = common.without_news(shell.errors.read_bytes()).decode().splitlines()
        self.assertLessEqual(set(told), {"Terminated", "Killed", "not formatted: the file is there"})
