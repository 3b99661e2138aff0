"""Tests of SIGNAL, which tells of the signals of this process: what is done, and what is told."""
import os
import signal
import threading
import unittest

import kqsim
from kqueue_case import ADD, CLEAR, DELETE, DISABLE, LONG, ONESHOT, KqueueCase

SIGNAL, ENABLE, DISPATCH = kqsim.KQ_FILTER_SIGNAL, kqsim.KQ_EV_ENABLE, 0x80
ONE, OTHER = signal.SIGUSR1, signal.SIGUSR2


def send(*numbers):
    """What sends these signals to the process, one after the other."""

    def done():
        for number in numbers:
            os.kill(os.getpid(), number)

    return done


def send_to_thread():
    signal.pthread_kill(threading.main_thread().ident, ONE)


def send_twice_blocked():
    """As on Linux, one that is blocked waits once."""
    signal.pthread_sigmask(signal.SIG_BLOCK, [ONE])
    send(ONE, ONE)()
    signal.pthread_sigmask(signal.SIG_UNBLOCK, [ONE])


def send_in_a_child():
    pid = os.fork()
    if pid == 0:
        send(ONE)()
        os._exit(0)
    os.waitpid(pid, 0)


def send_with_another_handler():
    """The program has another handler since the last call, which calls the one that was there."""
    before = signal.getsignal(ONE)
    signal.signal(ONE, lambda number, frame: before(number, frame))
    send(ONE)()


def nothing():
    pass


# The flags of the first change; then what is done, with the flags of a change behind it, and the counts that are told.
TABLE = [
    (ADD, [(nothing, 0, [])]),
    (ADD, [(send(ONE), 0, [1]), (nothing, 0, [])]),
    (ADD, [(send(ONE, ONE, ONE), 0, [3]), (send(ONE), 0, [1])]),
    (ADD | CLEAR, [(send(ONE), 0, [1]), (nothing, 0, [])]),
    (ADD, [(send(OTHER), 0, [])]),
    (ADD, [(send(OTHER, ONE, OTHER), 0, [1])]),
    (ADD | DISABLE, [(send(ONE, ONE), 0, []), (send(ONE), ENABLE, [3]), (nothing, 0, [])]),
    (ADD, [(send(ONE), DISABLE, []), (send(ONE), ENABLE, [2])]),
    (ADD | DISPATCH, [(send(ONE, ONE), 0, [2]), (send(ONE), 0, []), (nothing, ENABLE, [1])]),
    (ADD | ONESHOT, [(send(ONE, ONE), 0, [2]), (send(ONE), 0, [])]),
    (ADD, [(send(ONE), DELETE, []), (send(ONE), ADD, []), (send(ONE), 0, [1])]),
    (ADD, [(send(ONE), ADD, [1])]),
    (ADD, [(send_to_thread, 0, [1])]),
    (ADD, [(send_twice_blocked, 0, [1])]),
    (ADD, [(send_in_a_child, 0, [])]),
    (ADD, [(send_with_another_handler, 0, [1]), (send(ONE), 0, [1])]),
]


class Signals(KqueueCase):
    def setUp(self):
        super().setUp()
        self.heard = []
        for number in (ONE, OTHER, signal.SIGCHLD):
            self.addCleanup(signal.signal, number, signal.getsignal(number))
        for number in (ONE, OTHER):
            signal.signal(number, lambda number, frame: self.heard.append(number))

    def counts(self, seconds=0):
        return [it.data for it in self.kq.control(None, 8, seconds)]

    def test_table(self):
        for number, (flags, steps) in enumerate(TABLE):
            with self.subTest(number=number):
                self.change(OTHER, SIGNAL, flags=ADD | DISABLE)
                self.change(ONE, SIGNAL, flags=flags)
                for done, later, told in steps:
                    done()
                    if later:
                        self.change(ONE, SIGNAL, flags=later)
                    self.assertEqual(self.counts(), told)
                self.kq.close()
                self.setUp()

    def test_what_an_event_says(self):
        self.change(ONE, SIGNAL, udata=7)
        send(ONE)()
        events = self.kq.control(None, 8, 0)
        self.assertEqual(events, [kqsim.kevent(ONE, SIGNAL, CLEAR, 0, 1, 7)])

    def test_the_handler_is_called(self):
        self.change(ONE, SIGNAL)
        send(ONE, ONE, OTHER)()
        self.assertEqual(self.heard, [ONE, ONE, OTHER])

    def test_ignored(self):
        """It is told all the same, but for SIGCHLD."""
        for number, told in ((ONE, [1]), (signal.SIGCHLD, [])):
            signal.signal(number, signal.SIG_IGN)
            self.change(number, SIGNAL)
            send(number)()
            self.assertEqual(self.counts(), told)

    def test_a_child_that_exits(self):
        signal.signal(signal.SIGCHLD, signal.SIG_DFL)
        self.change(signal.SIGCHLD, SIGNAL)
        pid = os.posix_spawn("/bin/sh", ["sh", "-c", "exit 0"], {})
        self.assertEqual(self.counts(LONG), [1])
        os.waitpid(pid, 0)

    def test_default(self):
        """One that ends the process does so."""
        pid = os.fork()
        if pid == 0:
            os.dup2(os.open(os.devnull, os.O_WRONLY), 2)  # kqstep says that nobody reads
            signal.signal(ONE, signal.SIG_DFL)
            kq = kqsim.kqueue()
            kq.control([kqsim.kevent(ONE, SIGNAL, ADD)], 0)
            send(ONE)()
            os._exit(0)
        self.assertEqual(os.WTERMSIG(os.waitpid(pid, 0)[1]), ONE)

    def test_handler_that_raises(self):
        def fail(number, frame):
            raise InterruptedError

        signal.signal(ONE, fail)
        self.change(ONE, SIGNAL)
        with self.assertRaises(InterruptedError):
            send(ONE)()
        self.assertEqual(self.counts(), [1])

    def test_two_kqueues(self):
        other = kqsim.kqueue()
        self.addCleanup(other.close)
        self.change(ONE, SIGNAL)
        send(ONE)()
        other.control([kqsim.kevent(ONE, SIGNAL, ADD)], 0)
        send(ONE)()
        self.assertEqual(self.counts(), [2])
        self.assertEqual([it.data for it in other.control(None, 8, 0)], [1])

    def test_a_call_that_waits(self):
        self.change(ONE, SIGNAL)
        timer = threading.Timer(0.2, send(ONE))
        timer.start()
        self.addCleanup(timer.join)
        self.assertEqual(self.counts(LONG), [1])

    def test_a_thread_that_waits(self):
        self.change(ONE, SIGNAL)
        found = []
        thread = threading.Thread(target=lambda: found.extend(self.counts(LONG)))
        thread.start()
        self.wait_for_waiters()
        send(ONE)()
        thread.join()
        self.assertEqual(found, [1])

    def test_refused(self):
        for number, error in ((0, 22), (129, 22), (signal.SIGKILL, 0)):
            receipt = kqsim.kevent(number, SIGNAL, ADD | 0x40)
            self.assertEqual([it.data for it in self.kq.control([receipt], 8, 0)], [error])


if __name__ == "__main__":
    unittest.main()
