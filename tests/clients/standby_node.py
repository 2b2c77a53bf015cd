"""A standby as a program over an image file and a socket (docs/server.md, docs/replication.md), frames drawn by seed, and what they leave of a plain
image."""

import contextlib
import copy
import socket
import subprocess
import time

import plain_image
from common import SECONDS, program, without_news
from pair import Ended, greet
from plain_image import LAYOUT, PRIMARY, STANDBY, Words
from plain_keyspace import Clear, Drop, DropKey, Put
from plain_wire import ACK_BYTES, Greeting, Group, text
from test_images import FAILED, LINES, ROLES, Images, image_bytes, words_of

LIMIT = 2**62
NOWHERE = "192.0.2.1:7000"
CANNOT_LISTEN = b"cannot listen\n"
KEYS, FIELDS = [b"a", b"b", b"c", b"ab"], [b"", b"f", b"g"]
NAMES = [(key,) for key in KEYS] + [(key, field) for key in KEYS for field in FIELDS]


def drawn_change(draws):
    kind = draws.randrange(12)
    if kind == 0:
        return DropKey(draws.choice(KEYS))
    if kind == 1:
        return Clear() if draws.randrange(4) == 0 else Drop(draws.choice(NAMES))
    return Put(draws.choice(NAMES), draws.choice([b"", b"1", 63 * b"v", 200 * b"w"]))


def drawn_frames(draws, position, count):
    """The frames of groups from this position on, each of one to three positions."""
    for _ in range(count):
        after = position + draws.randint(1, 3)
        yield Group(1, position, after, tuple(drawn_change(draws) for _ in range(draws.randrange(5))))
        position = after


def take(writer, frame):
    """The writer's image takes a frame, as a node does that frees what had ended with it, where the frame has room beside that, and else before it. It gives
    whether there is room with nothing moved."""
    positions = frame.after - frame.before
    if writer.take_beside(frame.changes, positions):
        return True
    writer.free_ended()
    if not writer.room.take_at_once(frame.changes):
        return False
    writer.commit_parts([writer.part(frame.changes)], positions)
    return True


def with_record(words, record):
    """These words with a record and its root."""
    return words | plain_image.record_in_place(LINES, record)


def without_records(words, lines=LINES):
    """These words but for the records and the root."""
    first, end = LAYOUT.slot_word(lines, 0), LAYOUT.slot_word(lines, 1) + LAYOUT.record_words
    return {at: word for at, word in words.items() if at != LAYOUT.root_word and not first <= at < end}


def cut_short(writer, changes):
    """The words that a crash leaves before the record of a commit of these changes is stored, all else of which is there."""
    later = copy.deepcopy(writer)
    later.commit([changes])
    return with_record(later.words, writer.record)


def crashed(writer, group, draws):
    """The words that a crash in the commit of a group leaves before its root is stored: some of those that it stores."""
    later = copy.deepcopy(writer)
    later.commit([group])
    changed = [at for at in sorted(later.words.keys() | writer.words.keys()) if later.words.get(at) != writer.words.get(at) and at != LAYOUT.root_word]
    share = draws.choice([0.2, 0.5, 0.9, 1])
    return writer.words | {at: later.words.get(at, 0) for at in changed if draws.random() < share}


class Node:
    """A standby that runs. One that takes longer than a program may is ended."""

    def __init__(self, path, *options, stderr=subprocess.PIPE, **others):
        for _ in range(20):
            with socket.socket() as free:
                free.bind(("127.0.0.1", 0))
                self.address = free.getsockname()
            words = [program("server"), "standby", "--image", str(path), "--listen", "{}:{}".format(*self.address), *options]
            self.child = subprocess.Popen(words, stdout=subprocess.PIPE, stderr=stderr, **others)
            if self.is_there():
                return
            self.child.kill()
            if without_news(self.child.communicate()[1]) != CANNOT_LISTEN:
                break
        raise AssertionError(f"it does not stand by: status {self.child.returncode}")

    def is_there(self):
        end = time.monotonic() + SECONDS
        while self.child.poll() is None and time.monotonic() < end:
            with contextlib.suppress(ConnectionRefusedError), self.connect():
                return True
            time.sleep(0.005)
        return False

    def connect(self):
        """A connection on which nothing is said yet."""
        link = socket.create_connection(self.address, SECONDS)
        link.setsockopt(socket.IPPROTO_TCP, socket.TCP_NODELAY, 1)
        return link

    def link(self, greeting=Greeting()):
        """A link on which both sides have greeted."""
        link = self.connect()
        greet(link, greeting)
        return link

    def exchange(self, data=b"", piece=2**20, greeting=Greeting()):
        """All that is answered to these bytes, in pieces, behind the greetings up to the link's end."""
        answered = b""
        with self.connect() as link:
            # (a link that was ended meanwhile takes no more)
            with contextlib.suppress(OSError, Ended):
                greet(link, greeting)
                for at in range(0, len(data), piece):
                    link.sendall(data[at:at + piece])
                link.shutdown(socket.SHUT_WR)
            with contextlib.suppress(ConnectionError):
                while more := link.recv(2**16):
                    answered += more
        return answered

    def exchange_each(self, frames, piece=2**20):
        """All that is answered to these frames, each of which is sent, in pieces, once the one before it was answered."""
        with self.link() as link:
            answered = link.recv(ACK_BYTES, socket.MSG_WAITALL)
            for data in map(text, frames):
                for at in range(0, len(data), piece):
                    link.sendall(data[at:at + piece])
                answered += link.recv(ACK_BYTES, socket.MSG_WAITALL)
        return answered

    def ended(self):
        """How it ended by itself."""
        output, errors = self.child.communicate(timeout=SECONDS)
        return self.child.returncode, output, without_news(errors)

    def __enter__(self):
        return self

    def __exit__(self, *_):
        self.child.kill()
        self.child.communicate()


class StandingBy(Images):
    ROLE = STANDBY

    def opening_words(self, path):
        """The words by which an image is opened again in its role, and then nothing can be listened to."""
        links = ["--link", NOWHERE] * (self.ROLE == PRIMARY)
        return [ROLES[self.ROLE], "--image", str(path), "--listen", NOWHERE, *links]

    def open_again(self, path):
        status, output, errors = self.run_words(self.opening_words(path))
        self.assertEqual((status, output, without_news(errors)), (FAILED, b"", CANNOT_LISTEN))

    def assert_opened(self, before, after):
        """The second words are those of an image that was opened again with the first: docs/image.md, "Reopening"."""
        image = plain_image.read_image(before)
        wanted = plain_image.reopened(image.record)[-1]
        versions = plain_image.read_versions(before, image.record)
        left = plain_image.read_versions(after, wanted)
        self.assertEqual(plain_image.read_image(after), plain_image.Image(wanted, image.map, image.pair))
        self.assertEqual(left.counted, versions.counted)
        # (an entry of a gap that was cleared is free)
        self.assertLessEqual(set(left.gapped), set(versions.gapped))
        if len(image.record.gaps) < LAYOUT.most_gaps:
            self.assertEqual(left.gapped, versions.gapped)

    def assert_words(self, found, wanted):
        """An image has these words; but its node may have cleared gaps, in which nothing lies."""
        if found == wanted:
            return
        record, before = (plain_image.read_image(Words(LINES, words)).record for words in (found, wanted))
        cleared = record.number - before.number
        self.assertEqual(record, before._replace(number=record.number, gaps=before.gaps[cleared:]) if cleared > 0 else before)
        self.assertEqual(without_records(found), without_records(wanted) if cleared else wanted)

    def words(self, path):
        return Words(LINES, words_of(path.read_bytes()))

    def made(self, folder, words):
        path = folder / "s.img"
        path.write_bytes(image_bytes(LINES, words))
        return path
