"""A node of the plain machine: its image, whether it runs, and fences of its device that fail."""

from plain_device import Device, Fault
from plain_writer import Writer


class Node:
    """A node over a new image. `fail` is the number of the fence that fails unasked, 0 for none. One whose fence failed as it was asked to has stopped: it
    does nothing until it has crashed."""

    def __init__(self, lines, role, fail=0):
        self.device = Device()
        self.runs = True
        self.has_stopped = False
        self.is_over = False
        # whether it was asked to fail the fence that fails next
        self.is_asked = False
        # frames that joined on and were not taken
        self.refused = 0
        self.device.fail_in = fail
        self.image = Writer(lines, role, self.device)

    @property
    def position(self):
        return self.image.record.position

    @property
    def gaps(self):
        return len(self.image.record.gaps)

    def take(self, changes, positions, is_told):
        """A standby takes a frame, and frees what that ended. What an earlier life left is freed by the same fences, where the frame has room beside it, and
        else before it. Where it has to make room for the frame, it is what was told of the run that says whether that could be done. Whether it was taken."""
        is_taken = not self.image.places_may_differ and self.image.take_beside(changes, positions)
        if not is_taken and not self.take_alone(changes, positions, is_told):
            return False
        self.free_ended()
        return True

    def take_alone(self, changes, positions, is_told):
        """The same, where what has ended is freed before."""
        self.free_ended()
        if (self.image.places_may_differ or not self.image.room.take_at_once(changes)) and not self.make_room(changes, is_told):
            self.refused += 1
            return False
        self.image.commit_parts([self.image.part(changes)], positions)
        return True

    def make_room(self, changes, is_told):
        """Whether there is room for a frame once versions were moved; it is taken then."""
        if self.device.fail_in:
            raise ValueError("how many fences moves make is not known, so none may fail behind them")
        if not self.image.make_room(changes) or not is_told:
            return False
        self.image.pack()
        return self.image.room.take(changes)

    def free_ended(self):
        if self.image.ended:
            self.image.free_ended()

    def fail(self, number):
        """The fence of this number, counted from the next one, is asked to fail; 0: none."""
        self.device.fail_in, self.is_asked = number, True

    def stop(self):
        """A fence failed."""
        self.runs, self.has_stopped = False, True

    def crash(self, picks=()):
        """Whether it ran or had stopped. Its image is what the picks leave."""
        if self.is_over or self.has_crashed:
            return False
        self.runs = self.has_stopped = False
        self.image.crash(picks)
        return True

    def crash_in(self, does, count, picks):
        """It crashes in the middle of this call, after so many stores, flushes and fences."""
        self.device.keep(count)
        try:
            does()
        except Fault:
            pass
        self.runs = self.has_stopped = False
        self.image.crash(picks)

    @property
    def has_crashed(self):
        return not (self.runs or self.has_stopped or self.is_over)

    def reopen(self):
        """Whether it had crashed."""
        if not self.has_crashed:
            return False
        self.image.reopen()
        self.runs = True
        return True

    def promote(self):
        """Its image is a primary's, which is opened again."""
        self.image.promote()
        self.image.read()
        self.image.reopen()

    def end(self):
        """Whether anything could happen to it until then. Its device stays as it is."""
        was_over, self.is_over, self.runs = self.is_over, True, False
        return not was_over
