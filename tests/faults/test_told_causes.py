"""Why an image cannot be opened or used, by what the system says: each cause has a text of its own, and the file is as it was."""

import errno
import os
import pathlib
import pwd
import shutil
import subprocess
import tempfile

import common
from common import CAUSE, run_program
from old_images import OldWriter
from plain_image import PRIMARY, STANDBY
from plain_journal import file_of
from plain_keyspace import Put
from plain_writer import Writer
from refused_calls import FOR_EVER, FaultyCases
from test_images import FAILED, LINES, image_bytes

PROGRAMS = ["server"]

NOWHERE = "127.0.0.1:1"
READERS = [["inspect"], ["status"]]
# Of each the role of the image that it takes.
WRITERS = [
    (STANDBY, ["promote", "--old-primary-stopped"]), (PRIMARY, ["primary", "--listen", NOWHERE, "--link", NOWHERE]), (STANDBY, ["standby", "--listen", NOWHERE]),
    (PRIMARY, ["format", "--lines", str(LINES), "--role", "primary", "--journal", "0"]),
]
DISK = b"Input/output error (os error 5)"
NO_ROOM = b"its file system has no room for it"
PASSED = b"could not be made or used a moment ago, and can be now"


def image_of(role, writer=Writer):
    made = writer(role=role, lines=LINES)
    made.commit([[Put((b"a",), b"1")]])
    return image_bytes(LINES, made.words)


def causes(finished):
    return [found["cause"] for line in finished.errors.splitlines(keepends=True) for found in [CAUSE.fullmatch(line)] if found]


class Told(common.Cases):
    def setUp(self):
        super().setUp()
        folder = tempfile.TemporaryDirectory(prefix="wbl-causes-")
        self.addCleanup(folder.cleanup)
        self.folder = pathlib.Path(folder.name)
        self.path = self.folder / "p.img"

    def cases(self):
        """Each command over an image, which it would take."""
        for role, (command, *options) in [(PRIMARY, words) for words in READERS] + WRITERS:
            self.path.write_bytes(image_of(role))
            yield command, [command, "--image", str(self.path), *options]

    def assert_told(self, words, cause, status=FAILED, **options):
        before = self.path.read_bytes()
        finished = run_program("server", words, **options)
        self.assertEqual((finished.status, finished.output, causes(finished)), (status, b"", [cause]), finished)
        self.assert_bytes(self.path.read_bytes(), before)


class Calls(FaultyCases, Told):
    """Of a system that refuses calls."""

    def sweep(self, kind, how, told, names, last=FOR_EVER):
        faults = self.faults()
        for command, words in self.cases():
            if command in names:
                with self.case("call", kind=kind, how=errno.errorcode[how], command=command):
                    faults.refuse(kind, 1, last, how=how)
                    self.assert_told(words, told, env=os.environ | faults.settings())
                    faults.end(kind)

    def test_reads(self):
        self.sweep("pread", errno.EIO, b"could not be read: " + DISK, ["inspect", "status", "promote", "primary", "standby"])

    def test_writes(self):
        for how, why in ((errno.EIO, DISK), (errno.ENOSPC, NO_ROOM), (errno.EDQUOT, NO_ROOM), (errno.EROFS, b"its file system is read-only")):
            self.sweep("pwrite", how, b"could not be written: " + why, ["promote", "primary", "standby", "format"])

    def test_syncs(self):
        for how, why in ((errno.EIO, DISK), (errno.ENOSPC, NO_ROOM)):
            self.sweep("fdatasync", how, b"could not be synced: " + why, ["promote", "primary", "standby", "format"])

    def test_what_has_passed(self):
        """By the time that it is asked for again."""
        self.sweep("pwrite", errno.EIO, PASSED, ["promote", "primary", "standby", "format"], last=1)
        self.sweep("pread", errno.EIO, PASSED, ["inspect", "status"], last=1)


class Files(Told):
    def test_one_of_another_user(self):
        """The program runs as nobody, in a folder that everybody may read."""
        if os.geteuid():
            self.skipTest("only root gives files to others")
        nobody = pwd.getpwnam("nobody").pw_uid
        self.folder.chmod(0o755)
        program = shutil.copy(common.program("server"), self.folder / "server")
        program.chmod(0o755)
        for command, words in self.cases():
            self.path.chmod(0o600)
            with self.case("command", command=command):
                ran = subprocess.run([program, *words], capture_output=True, timeout=common.SECONDS, user=nobody, check=False)
                finished = common.Finished(ran.returncode, ran.stdout, common.without_times(ran.stderr))
                self.assertEqual((finished.status, causes(finished)), (FAILED, [b"could not be opened: this user is not permitted to"]), finished)
        self.path.unlink()
        with self.case("format of one that is not there"):
            ran = subprocess.run([program, *words], capture_output=True, timeout=common.SECONDS, user=nobody, check=False)
            finished = common.Finished(ran.returncode, ran.stdout, ran.stderr)
            self.assertEqual((finished.status, causes(finished)), (FAILED, [b"could not be made: this user is not permitted to"]), finished)

    def test_links(self):
        self.path.symlink_to(self.path)
        for command, *options in [*READERS, *(words for _, words in WRITERS)]:
            with self.case("command", command=command):
                finished = run_program("server", [command, "--image", str(self.path), *options])
                self.assertEqual((finished.status, causes(finished)), (FAILED, [b"could not be opened: Too many levels of symbolic links (os error 40)"]), finished)


class Mounted(Told):
    """On a small file system of its own, where one may be mounted."""

    APART = ["unshare", "--mount", "--map-root-user", "sh", "-c"]

    def run_there(self, script, *words):
        """What a script prints in that folder, with the program as $0, or nothing where none may be mounted."""
        mount = f"mount -t tmpfs -o size=512k none {self.folder} && cd {self.folder} || exit 99\n"
        ran = subprocess.run([*self.APART, mount + script, common.program("server"), *words], capture_output=True, text=True, timeout=common.SECONDS, check=False)
        if ran.returncode == 99 or not ran.stdout and "unshare" in ran.stderr:
            self.skipTest("no file system may be mounted here")
        self.assertEqual(ran.stderr, "")
        return ran.stdout.splitlines()

    def test_holes_on_a_full_disk(self):
        """An image of version 1 with holes takes all of its room where it is migrated; it is as it was without that, and is migrated once there is room."""
        with tempfile.TemporaryDirectory(prefix="wbl-holes-") as name:
            whole = pathlib.Path(name, "whole.img")
            whole.write_bytes(image_of(PRIMARY, OldWriter))
            found = self.run_there(
                f'cp --sparse=always {whole} p.img; head -c 600000 /dev/zero > filler 2> /dev/null; '
                f'"$0" migrate --image p.img 2>&1; echo $?; cmp {whole} p.img && rm filler && "$0" migrate --image p.img 2>&1; echo $?')
        self.assertEqual(found, [f"p.img could not be written: {NO_ROOM.decode()}", "refusal 1: device fault", "1", "migrated to version 2, 494 entries", "0"])

    def test_a_journal_on_a_full_disk(self):
        """There is no room for one, and the image is as it was; of one with holes there is none to open it, or to take it away. Once there is room it is done."""
        refused, no_room = ["refusal 1: device fault", "1"], NO_ROOM.decode()
        # (the disk is larger than an image, and smaller than one with a journal)
        full, free = "head -c 600000 /dev/zero > filler 2> /dev/null", "rm filler"
        plain = image_of(STANDBY)
        with tempfile.TemporaryDirectory(prefix="wbl-full-") as name:
            whole = pathlib.Path(name, "whole.img")
            whole.write_bytes(plain)
            found = self.run_there(
                f'cp {whole} s.img; {full}; "$0" journal --image s.img 2>&1; echo $?; cmp {whole} s.img && {free} && "$0" journal --image s.img 2>&1; echo $?')
            self.assertEqual(found, [f"s.img could not be written: {no_room}", *refused, "has a journal", "0"])
            whole.write_bytes(file_of(plain))
            for words, done in [("settle", ["has no journal", "0"]), ("promote --old-primary-stopped", ["promoted to epoch 2", "s.img is a primary's now, at position 1, with 1 keys", "0"])]:
                with self.case("holes", words=words):
                    found = self.run_there(
                        f'cp --sparse=always {whole} s.img; {full}; "$0" {words} --image s.img 2>&1; echo $?; cmp {whole} s.img && {free} && "$0" {words} --image s.img 2>&1; echo $?')
                    self.assertEqual(found, [f"s.img could not be written: {no_room}", *refused, *done])

    def test_a_file_system_that_is_read_only(self):
        """Images are read there, and not served."""
        with tempfile.TemporaryDirectory(prefix="wbl-readonly-") as name:
            whole = pathlib.Path(name, "whole.img")
            whole.write_bytes(image_of(STANDBY))
            found = self.run_there(
                f'cp {whole} p.img; mount -o remount,ro none . ; "$0" promote --image p.img --old-primary-stopped 2>&1; "$0" status --image p.img | sed -n 1p; '
                f'"$0" format --image q.img --lines {LINES} --role primary 2>&1')
        refused = "refusal 1: device fault"
        self.assertEqual(found, ["p.img could not be opened: its file system is read-only", refused, "role standby", "q.img could not be made: its file system is read-only", refused])
