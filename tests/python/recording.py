"""Tests of what docs/RECORDING.md says of a send buffer: no record is impossible, and WRITE is as poll(2) says."""
import array
import fcntl
import select
import socket
import termios
import time
import unittest

import kqsim
from kqueue_case import LONG

MOST = 2147483647


class Buffer:
    """A socket whose sends are recorded, and its send buffer sampled."""

    def __init__(self, sim, near):
        self.sim, self.near = sim, near
        self.unsent, self.is_full = 0, False
        near.setblocking(False)
        sim.socket(1, 4, MOST, MOST)
        sim.connect(1, 4)

    def send(self):
        """Sends until EAGAIN. While a sample has filled the buffer, a send has no record."""
        try:
            while True:
                n = self.near.send(b"x" * 65536)
                if not self.is_full:
                    self.sim.write(1, 4, n)
                    self.unsent += n
        except BlockingIOError:
            pass

    def sample(self):
        """Tells what differs; whether poll(2) said POLLOUT."""
        poll = select.poll()
        poll.register(self.near, select.POLLOUT)
        self.is_full = not poll.poll(0)
        now = MOST if self.is_full else self.queued()
        if now > self.unsent:
            self.sim.write(1, 4, now - self.unsent)
        elif now < self.unsent:
            self.sim.tx(1, 4, self.unsent - now)
        self.unsent = now
        return not self.is_full

    def queued(self):
        """SIOCOUTQ, which is TIOCOUTQ; of a unix socket it counts other memory too."""
        count = array.array("i", [0])
        fcntl.ioctl(self.near, termios.TIOCOUTQ, count)
        return 0 if self.near.family == socket.AF_UNIX else count[0]


class SendBuffer(unittest.TestCase):
    def check(self, near, far):
        far.setblocking(False)
        with kqsim.Sim() as sim:
            sim.proc(1)
            sim.kqueue(1, 9)
            buffer = Buffer(sim, near)
            sim.kevent(1, 9, [{"ident": 4, "filter": "WRITE", "flags": ["ADD"]}])
            for _ in range(3):
                self.until(sim, buffer, False, buffer.send)
                self.until(sim, buffer, True, lambda: self.drain(far))

    def until(self, sim, buffer, wanted, act):
        """Acts until the socket can be written, or cannot; each time WRITE is as the sample."""
        end = time.monotonic() + LONG
        can = not wanted
        while can != wanted and time.monotonic() < end:
            act()
            can = buffer.sample()
            self.assertEqual(bool(sim.kevent(1, 9, room=1)), can)
        self.assertEqual(can, wanted)

    def drain(self, far):
        try:
            while far.recv(1 << 20):
                pass
        except BlockingIOError:
            pass

    def test_unix(self):
        near, far = socket.socketpair()
        with near, far:
            self.check(near, far)

    def test_tcp(self):
        with socket.create_server(("127.0.0.1", 0)) as server:
            with socket.create_connection(server.getsockname()) as near, server.accept()[0] as far:
                self.check(near, far)


if __name__ == "__main__":
    unittest.main()
