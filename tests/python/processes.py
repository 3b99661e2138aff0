"""Tests of PROC: the exit of other processes."""
import errno
import os
import signal
import subprocess
import unittest

import kqsim
from kqueue_case import ADD, EOF, ERROR, LONG, KqueueCase

PROC, EXIT = kqsim.KQ_FILTER_PROC, kqsim.KQ_NOTE_EXIT


class Processes(KqueueCase):
    def child(self, status):
        """A process that exits with a status once its input ends."""
        process = subprocess.Popen(["sh", "-c", f"read line; exit {status}"], stdin=subprocess.PIPE)
        self.addCleanup(process.wait)
        self.addCleanup(process.stdin.close)
        return process

    def exits(self, kq, seconds=LONG):
        return [(it.ident, it.fflags, it.data, it.flags & EOF) for it in kq.control(None, 8, seconds)]

    def test_exit(self):
        process = self.child(7)
        self.change(process.pid, PROC, fflags=EXIT)
        self.assertEqual(self.exits(self.kq, 0), [])
        process.stdin.close()
        self.assertEqual(self.exits(self.kq), [(process.pid, EXIT, 7 << 8, EOF)])
        self.assertEqual(self.exits(self.kq, 0), [])
        self.assertEqual(process.wait(), 7)

    def test_signal(self):
        process = self.child(0)
        self.change(process.pid, PROC, fflags=EXIT)
        process.kill()
        self.assertEqual(self.exits(self.kq), [(process.pid, EXIT, int(signal.SIGKILL), EOF)])

    def test_one_that_was_not_waited_for(self):
        process = self.child(3)
        process.stdin.close()
        os.waitid(os.P_PID, process.pid, os.WEXITED | os.WNOWAIT)
        added = self.kq.control([kqsim.kevent(process.pid, PROC, ADD, EXIT)], 8, LONG)
        self.assertEqual([(it.ident, it.data) for it in added], [(process.pid, 3 << 8)])

    def test_absent(self):
        process = self.child(0)
        process.stdin.close()
        process.wait()
        entries = self.kq.control([kqsim.kevent(process.pid, PROC, ADD, EXIT)], 8, 0)
        self.assertEqual([(it.flags, it.data) for it in entries], [(ERROR, errno.ESRCH)])

    def test_two_kqueues(self):
        other = kqsim.kqueue()
        self.addCleanup(other.close)
        process = self.child(1)
        change = kqsim.kevent(process.pid, PROC, ADD, EXIT)
        self.kq.control([change], 0)
        other.control([change], 0)
        process.stdin.close()
        for kq in (self.kq, other):
            self.assertEqual(self.exits(kq), [(process.pid, EXIT, 1 << 8, EOF)])


if __name__ == "__main__":
    unittest.main()
