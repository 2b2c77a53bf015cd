"""Programs of which one read, write, sync or connection fails, each of a run in turn: a failing socket ends that connection or that link alone, a failing
write or sync of an image ends its node, which has lost nothing that was answered, and the client program ends with 1. What a signal interrupts is made
again, and what is done in part goes on."""

import contextlib
import errno
import os
import threading

from common import Cases, drawn, run_program, tell
from faulty_pair import FAILED, FAULT, NO_MEMORY, FaultyPair, map_of, status_after, told
from faulty_pair import PASSING as PASSING_STATUS
from pair import LINES, PATIENCE, Ended, TakesTooLong, wait_until
from plain_starved import Settled
from refused_calls import FOR_EVER, SHORT, FaultyCases
from spelling import read, spell
from test_images import LINES as FEW_LINES
from test_refused_memory import TRANSACTION, run_client
from test_refused_memory_of_a_pair import HASHES

PROGRAMS = ["server", "client"]
IS_SLOW = True

# What fails for good, and what does not.
LASTING = {
    "send": [errno.ECONNRESET, errno.EPIPE, errno.ENOBUFS], "recv": [errno.ECONNRESET, errno.EIO, errno.ENOMEM], "accept": [errno.ECONNABORTED, errno.EMFILE],
    "connect": [errno.ECONNREFUSED, errno.ETIMEDOUT], "read": [errno.EIO], "write": [errno.EIO, errno.ENOSPC],
}
PASSING = {"send": [errno.EINTR, SHORT], "recv": [errno.EINTR, SHORT], "read": [errno.EINTR, SHORT], "write": [errno.EINTR, SHORT]}
OF_IMAGES = {"pwrite": [errno.EIO, errno.ENOSPC], "fdatasync": [errno.EIO, errno.ENOSPC], "fsync": [errno.EIO], "pread": [errno.EIO]}
PASSING_OF_IMAGES = {"pwrite": [errno.EINTR, SHORT], "pread": [errno.EINTR, SHORT], "fdatasync": [errno.EINTR], "fsync": [errno.EINTR]}
# What the client program says of a stream that fails; of its connection it says another thing.
WHY = {"read": b"reading failed: ", "write": b"writing failed: ", "connect": b"no connection: "}


def name_of(how):
    return errno.errorcode.get(how, "short")


def rows_of(table):
    """Each kind of call, and how it fails."""
    return [(kind, how) for kind, ways in table.items() for how in ways]


class Sockets(FaultyPair):
    """Of a pair that runs."""

    ROW = spell("SET", "a", "1") + TRANSACTION + HASHES

    def sweep(self, role, kind, how, ends):
        """Each call of this kind of the row, of which one is refused so. Nothing is ended if not `ends`."""
        self.KINDS = [kind]
        nodes, counted = self.faulty_pair(LINES), {}
        faults, bystander = self.by_role[role], nodes.client()
        self.assert_stands_by(bystander)
        faults.refuse(kind, FOR_EVER)
        self.ask_all(nodes, self.ROW)
        count = faults.calls(kind)
        faults.end(kind)
        with nodes.client() as client:
            client.ask("DEL", "a", "b", "c", "h")
        for number in drawn(f"{role} {kind} {how}", range(1, count + 2)):
            with self.case("call", role=role, kind=kind, how=name_of(how), number=number):
                faults.refuse(kind, number, how=how)
                found = self.try_row(nodes, faults, self.ROW, True, bystander)
                self.assertIn(found, ("came too late", "were made good", *["ended the connection"] * ends))
                counted[found] = counted.get(found, 0) + 1
        tell(f"a {role}, {kind} with {name_of(how)}, of {count} calls", counted)
        self.assert_same(nodes)
        nodes.close()

    def check_node(self, role, kinds):
        for kind, how in rows_of(LASTING):
            if kind in kinds:
                self.sweep(role, kind, how, role == "primary")
        for kind, how in rows_of(PASSING):
            if kind in kinds:
                self.sweep(role, kind, how, False)

    def test_the_primary(self):
        self.check_node("primary", ("send", "recv", "accept"))

    def test_the_standby(self):
        """No client loses its connection, whatever becomes of the link."""
        self.check_node("standby", ("send", "recv", "accept"))

    def test_links_that_do_not_come_up(self):
        """The standby starts anew each time."""
        self.KINDS = ["connect"]
        nodes = self.faulty_pair(LINES)
        faults, bystander = self.by_role["primary"], nodes.client()
        for how in LASTING["connect"]:
            with self.case("connect", how=name_of(how)):
                faults.refuse("connect", 1, 3, how=how)
                nodes.restart(nodes.standby)
                self.assert_stands_by(bystander)
                self.assertEqual(faults.refused("connect"), 3)
        self.assert_same(nodes)


class ImageFiles(FaultyPair):
    """Of the images of a pair that runs, and of one that starts."""

    ITEMS = read(TRANSACTION + HASHES).items

    def serve(self, client, replies):
        """Asks for one thing after another, as far as the connection is there."""
        with contextlib.suppress(Ended, OSError):
            for item in self.ITEMS:
                replies.append(client.ask(*item))

    def check_node(self, role):
        for kind in ("pwrite", "fdatasync"):
            for how in OF_IMAGES[kind] + PASSING_OF_IMAGES[kind]:
                self.sweep(role, kind, how)

    def sweep(self, role, kind, how):
        nodes, counted = self.faulty_pair(LINES), {}
        node, faults = getattr(nodes, role), self.by_role[role]
        faults.refuse(kind, FOR_EVER)
        with nodes.client() as client:
            self.serve(client, [])
        count = faults.calls(kind)
        for number in drawn(f"{role} {kind} {how}", range(1, count + 1), least=3):
            with self.case("call", role=role, kind=kind, how=name_of(how), number=number):
                with nodes.client() as client:
                    client.ask("DEL", "a", "b", "c", "h")
                faults.refuse(kind, number, how=how)
                has_ended = self.fail_once(nodes, node, faults, kind, how in OF_IMAGES[kind])
                found = "ended the node" if has_ended else "were made good" if faults.refused(kind) else "came too late"
                self.assertFalse(has_ended and how in PASSING_OF_IMAGES[kind], found)
                self.assertFalse(found == "were made good" and how in OF_IMAGES[kind], found)
                counted[found] = counted.get(found, 0) + 1
        tell(f"the image of a {role}, {kind} with {name_of(how)}, of {count} calls", counted)
        self.assert_same(nodes)
        nodes.close()

    def fail_once(self, nodes, node, faults, kind, is_lasting):
        """One client, and a node of whose image a call may fail, which is started again then: what was answered is there. Whether it ended, as it has to where that
        is for good."""
        replies = []
        with nodes.client() as client:
            thread = threading.Thread(target=self.serve, args=[client, replies], daemon=True)
            thread.start()
            wait_until(lambda: not node.is_running() or not thread.is_alive(), "the end of the node or of the replies")
            # (one that fails while the last reply is on its way ends soon)
            has_ended = not node.is_running() or bool(faults.refused(kind)) and self.ends_within(node, PATIENCE if is_lasting else 0.2)
            if has_ended:
                self.assertEqual(self.ended(node), (FAILED, FAULT))
                self.start_again(nodes, node, faults, kind)
            faults.end(kind)
            thread.join(PATIENCE)
        if node is nodes.standby or not has_ended:
            self.assertEqual(len(replies), len(self.ITEMS))
        self.assert_holds(nodes, replies)
        return has_ended

    def ends_within(self, node, seconds):
        with contextlib.suppress(TakesTooLong):
            return wait_until(lambda: not node.is_running(), "the end of the node", seconds)
        return False

    def start_again(self, nodes, node, faults, kind):
        faults.end(kind)
        node.errors.unlink()
        node.start(nodes.descriptors)
        self.wait_for(node)

    def assert_holds(self, nodes, replies):
        """Each reply is right, and the map is that of the requests that were answered, and perhaps of some more."""
        pair, maps = Settled(), []
        for number, item in enumerate(self.ITEMS):
            if number >= len(replies):
                maps.append(told(pair.map))
            reply = pair.serve(item)
            if number < len(replies):
                self.assertEqual(replies[number], reply)
        with nodes.client() as client:
            self.assertIn(map_of(client), [*maps, told(pair.map)])

    def test_the_primary(self):
        self.check_node("primary")

    def test_the_standby(self):
        """The client waits until it was started again, and is answered all."""
        self.check_node("standby")

    def test_a_node_that_starts(self):
        for role in ("primary", "standby"):
            nodes = self.faulty_pair(FEW_LINES)
            self.fill(nodes)
            for kind, how in rows_of(OF_IMAGES):
                self.sweep_starts(nodes, role, kind, 12, FAULT, how, is_final=True)
            for kind, how in rows_of(PASSING_OF_IMAGES):
                self.sweep_starts(nodes, role, kind, 12, None, how)
            self.assert_same(nodes)
            nodes.close()


class Programs(FaultyCases, Cases):
    """Of the server without arguments and of the client program."""

    def test_the_client(self):
        """It ends with 1 where a call fails for good; what it printed begins what it would print."""
        faults = self.faults()
        for kind, how in [*rows_of(LASTING), *rows_of(PASSING)]:
            faults.refuse(kind, FOR_EVER)
            whole = run_client(faults)
            count = faults.calls(kind)
            for number in range(1, count + 1):
                with self.case("call", kind=kind, how=name_of(how), number=number):
                    faults.refuse(kind, number, how=how)
                    found = run_client(faults)
                    # (how many reads there are depends on how much comes at a time)
                    if how in PASSING.get(kind, []) or not faults.refused(kind):
                        self.assertEqual(found, whole)
                    else:
                        self.assertEqual(found.status, status_after(found.errors))
                        self.assertTrue(found.errors.startswith(WHY.get(kind, b"broken connection\n")) and found.errors.count(b"\n") == 1, found.errors)
                        self.assertTrue(whole.output.startswith(found.output), found.output)
                faults.end(kind)

    def test_the_server_without_arguments(self):
        """It ends with 1 where a call fails for good, with what it printed before, and tells of no memory, or serves all. (It does not open its link again.)"""
        faults = self.faults()
        run = lambda: run_program("server", stdin=TRANSACTION, env=os.environ | faults.settings())
        whole = run()
        for kind, how in [*rows_of(LASTING), *rows_of(PASSING)]:
            faults.refuse(kind, FOR_EVER)
            run()
            count, counted = faults.calls(kind), {}
            for number in range(1, count + 1):
                with self.case("call", kind=kind, how=name_of(how), number=number):
                    faults.refuse(kind, number, how=how)
                    found = run()
                    if found != whole:
                        self.assertNotIn(how, PASSING.get(kind, []))
                        self.assertEqual((found.status, found.errors.count(b"\n")), (PASSING_STATUS if found.errors == NO_MEMORY else FAILED, 1))
                        self.assertTrue(how == errno.ENOMEM or found.errors != NO_MEMORY)
                        self.assertTrue(whole.output.startswith(found.output), found.output)
                    what = "ended" if found.status else "made good"
                    counted[what] = counted.get(what, 0) + 1
            faults.end(kind)
            tell(f"the server without arguments, {kind} with {name_of(how)}", counted)
