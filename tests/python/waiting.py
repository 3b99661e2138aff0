"""Tests of calls that wait: what wakes them, and how few records they send."""
import os
import socket
import tempfile
import threading
import time

import kqsim
from kqueue_case import (
    ADD, CLEAR, LONG, ONESHOT, READ, TIMER, TRIGGER, USER, VNODE, WRITE, KqueueCase, records,
)

# Records of a call that waits, and of which nothing is told: its own, and a clock.
FEW = 5


class Idle(KqueueCase):
    """A call that waits a second while nothing happens."""

    def check(self):
        with records() as sent:
            start = time.monotonic()
            self.assertEqual(self.events(1), [])
            self.assertGreaterEqual(time.monotonic() - start, 0.99)
        self.assertLessEqual(len(sent), FEW)

    def test_descriptors(self):
        near, _ = self.made(*socket.socketpair())
        reader, _ = self.pipe()
        self.change(near, READ)
        self.change(reader, READ)
        self.check()

    def test_timer_far_away(self):
        self.change(1, TIMER, data=1000 * LONG)
        self.check()

    def test_file(self):
        with tempfile.NamedTemporaryFile() as file:
            self.change(file, VNODE, fflags=127)
            self.check()

    def test_nothing(self):
        self.check()

    def test_bytes_that_were_told(self):
        """They wait, CLEAR has told of them, and the processor rests."""
        near, far = self.made(*socket.socketpair())
        self.change(near, READ, WRITE, flags=ADD | CLEAR)
        far.send(b"left")
        self.assertEqual(len(self.data(LONG)), 2)
        before = time.process_time()
        self.check()
        self.assertLess(time.process_time() - before, 0.5)

    def test_timer_that_is_disabled(self):
        self.change(1, TIMER, flags=ADD | kqsim.KQ_EV_DISABLE, data=10)
        self.check()


class Woken(KqueueCase):
    """What another thread does meanwhile ends the wait."""

    def after(self, act):
        """Acts once a call waits; returns what that call gave."""

        def late():
            self.wait_for_waiters()
            act()

        thread = threading.Thread(target=late)
        thread.start()
        self.addCleanup(thread.join)
        return self.kq.control(None, 8, LONG)

    def test_bytes(self):
        near, far = self.made(*socket.socketpair())
        self.change(near, READ)
        with records() as sent:
            self.assertEqual([it.data for it in self.after(lambda: far.send(b"abc"))], [3])
        self.assertEqual([it["op"] for it in sent], ["kevent", "rx", "kevent"])

    def test_space(self):
        near, far = self.made(*socket.socketpair())
        near.setblocking(False)
        while True:
            try:
                near.send(b"x" * 65536)
            except BlockingIOError:
                break
        self.change(near, WRITE)
        self.assertEqual([it.filter for it in self.after(lambda: far.recv(1 << 24))], [WRITE])

    def test_file(self):
        with tempfile.NamedTemporaryFile(buffering=0) as file:
            self.change(file, VNODE, flags=ADD | CLEAR, fflags=2)
            self.assertEqual([it.fflags for it in self.after(lambda: file.write(b"abc"))], [2])

    def test_user_event(self):
        self.change(1, USER, flags=ADD | CLEAR)
        found = self.after(lambda: self.change(1, USER, flags=0, fflags=TRIGGER))
        self.assertEqual([it.filter for it in found], [USER])

    def test_descriptor_that_is_added(self):
        near, far = self.made(*socket.socketpair())
        far.send(b"abc")
        self.assertEqual([it.data for it in self.after(lambda: self.change(near, READ))], [3])

    def test_timer_that_is_added(self):
        found = self.after(lambda: self.change(1, TIMER, flags=ADD | ONESHOT, data=5))
        self.assertEqual([it.data for it in found], [1])

    def test_close(self):
        with self.assertRaises(OSError):
            self.after(self.kq.close)

    def test_each_waiter(self):
        """Two events are triggered, and each of two threads has room for one."""
        found = []
        threads = [threading.Thread(target=lambda: found.extend(self.kq.control(None, 1, LONG))) for _ in "ab"]
        for thread in threads:
            thread.start()
        self.wait_for_waiters(2)
        changes = [kqsim.kevent(ident, USER, ADD | ONESHOT, TRIGGER) for ident in (1, 2)]
        self.kq.control(changes, 0)
        for thread in threads:
            thread.join()
        self.assertEqual(sorted(it.ident for it in found), [1, 2])


class Threads(KqueueCase):
    """Loops whose other side is another thread: nothing is lost."""

    def test_exact_reads(self):
        """A loop reads as many bytes as it was told, and no more, while others come."""
        near, far = self.made(*socket.socketpair())
        self.change(near, READ, flags=ADD | CLEAR)

        def send():
            for n in range(2000):
                far.sendall(b"x" * (n % 7 + 1))
            far.shutdown(socket.SHUT_WR)

        thread = threading.Thread(target=send)
        thread.start()
        self.addCleanup(thread.join)
        got, is_over = 0, False
        while not is_over:
            [event] = self.kq.control(None, 1, LONG)
            got += len(near.recv(event.data)) if event.data else 0
            is_over = event.flags & kqsim.KQ_EV_EOF
        self.assertEqual(got, sum(n % 7 + 1 for n in range(2000)))

    def test_workers(self):
        """Four threads share a kqueue; each socket is one's at a time, by ONESHOT."""
        ends = dict((near.fileno(), (near, far)) for near, far in (self.made(*socket.socketpair()) for _ in range(10)))
        self.change(0, USER, flags=ADD)
        for fd in ends:
            self.change(fd, READ, flags=ADD | ONESHOT)
        got = []

        def work():
            while True:
                [event] = self.kq.control(None, 1, LONG)
                if event.filter == USER:
                    return
                got.append(ends[event.ident][0].recv(event.data))
                self.change(event.ident, READ, flags=ADD | ONESHOT)

        threads = [threading.Thread(target=work) for _ in range(4)]
        for thread in threads:
            thread.start()
        for _ in range(30):
            for _, far in ends.values():
                far.sendall(b"12345")
        end = time.monotonic() + LONG
        while sum(map(len, got)) < 1500 and time.monotonic() < end:
            time.sleep(0.01)
        self.change(0, USER, flags=0, fflags=TRIGGER)
        for thread in threads:
            thread.join()
        self.assertEqual(sum(map(len, got)), 1500)


class Periods(KqueueCase):
    def test_a_timer_is_told_each_time(self):
        """A call is sent when it is due, and not before."""
        self.change(1, TIMER, data=50)
        count = 0
        with records() as sent:
            for _ in range(4):
                count += self.data(LONG)[0]
        self.assertGreaterEqual(count, 4)
        self.assertLessEqual(len(sent), 4 * FEW)

    def test_two_timers(self):
        self.change(1, TIMER, flags=ADD | ONESHOT, data=120)
        self.change(2, TIMER, flags=ADD | ONESHOT, data=20)
        self.assertEqual([it.ident for it in self.kq.control(None, 1, LONG)], [2])
        self.assertEqual([it.ident for it in self.kq.control(None, 1, LONG)], [1])
        self.assertEqual(self.data(0.2), [])


class Closed(KqueueCase):
    def test_peer(self):
        near, far = self.made(*socket.socketpair())
        reader, writer = self.pipe()
        self.change(near, READ)
        self.change(reader, READ)
        for end in (far.close, lambda: os.close(writer)):
            end()
            self.assertEqual([it.flags & kqsim.KQ_EV_EOF for it in self.kq.control(None, 1, LONG)], [kqsim.KQ_EV_EOF])
