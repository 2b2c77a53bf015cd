"""A pair whose standby is lost and replaced by a newcomer, with no restart of the primary: what the tests of full copies share."""

from between import put_between
from copy_link import CopyLink
from pair import Node, PairCases, inspected, number_in, run, wait_until
from plain_keyspace import Put
from plain_replies import OK
from plain_wire import MOST_VALUE

# An image that has room for values of a mebibyte, of which each takes 16,385 lines.
LINES = 2**17
# Values of which each is a part of its own.
LONG = {f"long{number}": MOST_VALUE * (b"%d" % number) for number in range(3)}


def put_bytes(key, value):
    """How many bytes a part has of this record."""
    return Put((key.encode(),), value).text_bytes()


class Replacing(PairCases):
    """Tests over a pair between whose nodes a CopyLink stands."""

    LINES = LINES
    # The epoch of the primary.
    epoch = 1
    # How many newcomers there have been.
    made = 0
    # How many changes were made beside those of a load.
    changes = 0

    def setUp(self):
        super().setUp()
        self.nodes = self.pair(lines=self.LINES)
        self.between = CopyLink(self.nodes.link.number)
        self.addCleanup(self.between.close)
        put_between(self.nodes, self.between)

    def fill(self, values):
        """Sets these strings."""
        with self.nodes.client() as client:
            for key, value in values.items():
                self.assertEqual(client.ask("SET", key, value), OK)
        self.changes += len(values)

    def lose_standby(self):
        """The standby is killed, and its image is gone. Returns the position at which that stood: nothing above it is answered without another standby."""
        self.nodes.standby.end()
        position = self.nodes.standby.inspect()["position"]
        self.nodes.standby.image.unlink()
        return position

    def newcomer(self, epoch=None, lines=None, port=None):
        """A newcomer over a new image, which does not run yet, at the standby's address or at this port."""
        self.made += 1
        image = self.nodes.folder / f"newcomer{self.made}.img"
        words = ["--role", "newcomer", "--epoch", str(epoch or self.epoch), "--lines", str(lines or self.LINES)]
        run("format", "--image", str(image), *words)
        node = Node("standby", image, port or self.nodes.link)
        self.addCleanup(node.close)
        return node

    def put_newcomer(self, **options):
        """A newcomer is the pair's standby from now on, and runs."""
        self.nodes.standby = self.newcomer(**options)
        self.start(self.nodes.standby)

    def start(self, *nodes):
        for node in nodes:
            node.start()
        for node in nodes:
            wait_until(node.is_listening, f"a {node.role} that listens")

    def told(self, node):
        """What a node told in its last run."""
        return node.errors.read_bytes()[node.began:]

    def wait_for_line(self, node, text):
        """Waits until the node has told a line with these words."""
        wait_until(lambda: text in self.told(node), f"{text!r} of the {node.role}")

    def wait_for_copy(self):
        """Waits until the newcomer is a standby, and the primary knows it."""
        self.wait_for_line(self.nodes.standby, b": this node is a standby now\n")
        self.wait_for_line(self.nodes.primary, b"it is the standby now")

    def position(self):
        """The position of the primary's image, which may run."""
        return inspected(self.nodes.primary.image)["position"]

    def assert_newcomer(self, node):
        """The node, which has ended, is a newcomer's that holds nothing."""
        found = node.inspect()
        self.assertEqual((found["role"], found["position"], found["live"]), ("newcomer", 0, 0))

    def assert_silent(self, clients, seconds=0.2):
        """None of them is answered."""
        self.assertTrue(clients[0].is_silent(seconds))
        self.assertTrue(all(client.is_silent(0) for client in clients))

    def assert_replies(self, clients, count=1, wanted=(OK,)):
        """Each of them is answered so many times, each time by one of these."""
        for client in clients:
            found = {client.reply() for _ in range(count)}
            self.assertLessEqual(found, set(wanted))

    def assert_equal(self):
        """Once a write was answered both nodes end, and both images stand at the same position, with the same keyspace, of one pair. Returns the position."""
        self.fill({"even": b"1"})
        number = number_in(self.nodes.primary.image)
        wait_until(lambda: number_in(self.nodes.standby.image) == number, "a standby that has the number of its pair")
        primary, standby = self.assert_positions(self.nodes)
        self.assertEqual(primary, standby)
        found, wanted = (node.read_image().map for node in (self.nodes.standby, self.nodes.primary))
        self.assertEqual(found.keys(), wanted.keys())
        self.assertEqual([key for key in found if found[key] != wanted[key]], [])
        return primary

    def fail_over(self):
        """The primary, which has ended, is lost with its image, and the standby's image is promoted and goes on, with a newcomer behind it."""
        image = self.nodes.standby.image
        self.nodes.primary.image.unlink()
        self.epoch += 1
        self.assertEqual(run("promote", "--image", str(image), "--old-primary-stopped"), b"promoted to epoch %d\n" % self.epoch)
        self.nodes.primary = self.nodes.primary_over(image)
        words = self.nodes.primary.words
        words[words.index("--link") + 1] = self.between.port.address()
        self.start(self.nodes.primary)
        self.put_newcomer()

    def finish(self, load=None):
        """Both nodes hold the same, and the newcomer's image has it all once the primary is lost."""
        position = self.assert_equal()
        if load:
            self.assertEqual(position, self.changes + load.answered())
        self.fail_over()
        if load:
            load.check("once the newcomer was promoted")
        self.assert_equal()
