"""Tests of how processes end: forked children, and loops that are still open at exit."""
import os
import signal
import subprocess
import sys
import tempfile
import unittest

from kqueue_case import LONG

CHILD_LIVES = """
import os
import kqsim
kq = kqsim.kqueue()
kq.control([kqsim.kevent(1, -11, kqsim.KQ_EV_ADD)], 0)
if os.fork() == 0:
    os.read(0, 1)
    os._exit(0)
kq.control([kqsim.kevent(1, -11, kqsim.KQ_EV_DELETE)], 0)
"""

CHILD_ENDS = """
import os
import sys
import kqsim
kq = kqsim.kqueue()
kq.control([kqsim.kevent(1, -11, kqsim.KQ_EV_ADD)], 0)
number = kq.fileno()
pid = os.fork()
if pid == 0:
    assert kq.closed
    try:
        os.fstat(number)
    except OSError:
        pass
    else:
        os._exit(1)
    own = kqsim.kqueue()
    own.control([kqsim.kevent(2, -11, kqsim.KQ_EV_ADD, 0x01000000)], 0)
    assert len(own.control(None, 4, 0)) == 1
    sys.exit(0)
assert os.waitpid(pid, 0)[1] == 0
assert kq.control(None, 4, 0) == []
"""

OPEN_LOOP = """
import kqsim
kqsim.install()
import asyncio
loop = asyncio.SelectorEventLoop()
loop.run_until_complete(asyncio.sleep(0))
"""

INTERRUPTED = """
import kqsim
kq = kqsim.kqueue()
try:
    print("waits", flush=True)
    kq.control(None, 4, None)
except KeyboardInterrupt:
    print(kq.control(None, 4, 0))
"""

AFTER_THE_END = """
import atexit
import socket
def late():
    try:
        kq.control(None, 4, 0)
    except OSError as error:
        print(error.errno)
atexit.register(late)
import kqsim
kq = kqsim.kqueue()
"""


class Exit(unittest.TestCase):
    def script(self, text, **how):
        """Runs a script in a process of its own."""
        return subprocess.run([sys.executable, "-c", text], capture_output=True, text=True, timeout=LONG, **how)

    def test_parent_ends_while_a_child_lives(self):
        words = [sys.executable, "-c", CHILD_LIVES]
        with subprocess.Popen(words, stdin=subprocess.PIPE) as process:
            try:
                self.assertEqual(process.wait(LONG), 0)
            finally:
                process.stdin.close()
                process.kill()

    def test_child_leaves_the_trace_alone(self):
        """Each process has a trace of its own, and a child writes nothing of its parent's."""
        with tempfile.TemporaryDirectory() as folder:
            ran = self.script(CHILD_ENDS, env={**os.environ, "KQSIM_TRACE": f"{folder}/log"})
            self.assertEqual((ran.returncode, ran.stderr), (0, ""))
            traces = []
            for name in os.listdir(folder):
                with open(f"{folder}/{name}", encoding="utf-8") as file:
                    traces.append(file.read().splitlines())
        self.assertEqual(sorted(len(it) for it in traces), [5, 5])
        self.assertEqual([it.count('{"kqsim":1}') for it in traces], [1, 1])

    def test_open_loop_at_exit(self):
        ran = self.script(OPEN_LOOP)
        self.assertEqual((ran.returncode, ran.stderr), (0, ""))

    def test_interrupt_of_the_group(self):
        """A terminal interrupts all processes of a group; kqstep is in another."""
        words = [sys.executable, "-c", INTERRUPTED]
        with subprocess.Popen(words, stdout=subprocess.PIPE, text=True, start_new_session=True) as process:
            self.assertEqual(process.stdout.readline(), "waits\n")
            os.killpg(process.pid, signal.SIGINT)
            self.assertEqual(process.communicate(timeout=LONG)[0], "[]\n")

    def test_call_after_the_end(self):
        """The kqueue is closed: EBADF."""
        ran = self.script(AFTER_THE_END)
        self.assertEqual((ran.returncode, ran.stdout, ran.stderr), (0, "9\n", ""))


if __name__ == "__main__":
    unittest.main()
