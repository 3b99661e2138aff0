"""What the tests of sampled descriptors share."""
import contextlib
import os
import time
import unittest
from unittest import mock

import kqsim
from kqsim.world import world

READ, WRITE = kqsim.KQ_FILTER_READ, kqsim.KQ_FILTER_WRITE
VNODE, TIMER = kqsim.KQ_FILTER_VNODE, kqsim.KQ_FILTER_TIMER
USER = -11
ADD, DELETE, CLEAR, ONESHOT = kqsim.KQ_EV_ADD, kqsim.KQ_EV_DELETE, kqsim.KQ_EV_CLEAR, kqsim.KQ_EV_ONESHOT
DISABLE, ERROR, EOF = kqsim.KQ_EV_DISABLE, kqsim.KQ_EV_ERROR, kqsim.KQ_EV_EOF
TRIGGER = 0x01000000
# Seconds for what happens at once, on a busy machine.
LONG = 60


class KqueueCase(unittest.TestCase):
    """A test with a kqueue."""

    def setUp(self):
        self.kq = kqsim.kqueue()
        self.addCleanup(self.kq.close)

    def change(self, ident, *filters, flags=ADD, **more):
        self.kq.control([kqsim.kevent(ident, it, flags, **more) for it in filters], 0)

    def events(self, seconds=0):
        return [(it.ident, it.filter, it.data) for it in self.kq.control(None, 8, seconds)]

    def data(self, seconds=0):
        """The data of each event."""
        return [it.data for it in self.kq.control(None, 8, seconds)]

    def made(self, *things):
        """Closes them at the end of the test."""
        for it in things:
            self.addCleanup(it.close)
        return things

    def wait_for_waiters(self, count=1):
        """Returns once so many threads wait in a call."""
        end = time.monotonic() + LONG
        while world().waiters(self.kq.fileno()) < count and time.monotonic() < end:
            time.sleep(0.01)

    def pipe(self):
        reader, writer = os.pipe()
        for fd in (reader, writer):
            os.set_blocking(fd, False)
            self.addCleanup(closed, fd)
        return reader, writer


def closed(fd):
    with contextlib.suppress(OSError):
        os.close(fd)


@contextlib.contextmanager
def records():
    """Gives a list of the records that are sent to kqstep meanwhile."""
    sim, sent = world().sim, []
    send = sim.record

    def kept(**members):
        sent.append(members)
        return send(**members)

    with mock.patch.object(sim, "record", kept):
        yield sent
