"""Tests of what CLEAR tells where as much came as was taken between two samples: the counts do not show it."""
import os
import socket
import unittest

import kqsim
from kqueue_case import ADD, CLEAR, LONG, READ, WRITE, KqueueCase


def filled(write):
    """Writes until there is no space, and returns how much."""
    n = 0
    while True:
        try:
            n += write(b"x" * 65536)
        except BlockingIOError:
            return n


class Arrivals(KqueueCase):
    """READ with CLEAR."""

    def check(self, fd, send, receive):
        """(bytes that wait, taken, bytes that come): what is left is told each time, and once."""
        self.change(fd, READ, flags=ADD | CLEAR)
        send(b"12345")
        self.assertEqual(self.data(LONG), [5])
        left = 5
        for taken, came in ((5, 5), (3, 1), (3, 3), (2, 5), (6, 1)):
            receive(taken)
            send(b"x" * came)
            left += came - taken
            self.assertEqual(self.data(LONG), [left], (taken, came))
            self.assertEqual(self.data(), [])
        receive(left)
        self.assertEqual(self.data(), [])

    def test_socketpair(self):
        near, far = self.made(*socket.socketpair())
        self.check(near, far.sendall, near.recv)

    def test_tcp(self):
        server = self.made(socket.create_server(("127.0.0.1", 0)))[0]
        far = self.made(socket.create_connection(server.getsockname()))[0]
        far.setsockopt(socket.IPPROTO_TCP, socket.TCP_NODELAY, 1)
        near = self.made(server.accept()[0])[0]
        self.change(near, READ, flags=ADD | CLEAR)
        far.sendall(b"12345")
        self.assertEqual(self.data(LONG), [5])
        near.recv(5)
        far.sendall(b"54321")
        self.assertEqual(self.data(LONG), [5])

    def test_pipe(self):
        reader, writer = self.pipe()
        self.check(reader, lambda data: os.write(writer, data), lambda n: os.read(reader, n))

    def test_datagrams(self):
        """FIONREAD tells of the first one."""
        near, far = self.made(*socket.socketpair(socket.AF_UNIX, socket.SOCK_DGRAM))
        self.change(near, READ, flags=ADD | CLEAR)
        far.send(b"one")
        self.assertEqual(self.data(LONG), [3])
        far.send(b"two")
        self.assertEqual(self.data(LONG), [3])
        self.assertEqual(self.data(), [])

    def test_listener(self):
        server = self.made(socket.create_server(("127.0.0.1", 0)))[0]
        self.change(server, READ, flags=ADD | CLEAR)
        self.made(socket.create_connection(server.getsockname()))
        self.assertEqual(self.data(LONG), [1])
        server.accept()[0].close()
        self.made(socket.create_connection(server.getsockname()))
        self.assertEqual(self.data(LONG), [1])

    def test_two_kqueues(self):
        """Each hears of an arrival, and hears once."""
        other = kqsim.kqueue()
        self.addCleanup(other.close)
        near, far = self.made(*socket.socketpair())
        self.change(near, READ, flags=ADD | CLEAR)
        other.control([kqsim.kevent(near, READ, ADD | CLEAR)], 0)
        for _ in range(3):
            far.sendall(b"12345")
            self.assertEqual(self.data(LONG), [5])
            self.assertEqual([it.data for it in other.control(None, 8, LONG)], [5])
            self.assertEqual(self.data(), [])
            self.assertEqual(other.control(None, 8, 0), [])
            near.recv(5)


class Space(KqueueCase):
    """WRITE with CLEAR: the buffer was full, and is free again, between two samples."""

    def test_socketpair(self):
        near, far = self.made(*socket.socketpair())
        near.setblocking(False)
        self.change(near, WRITE, flags=ADD | CLEAR)
        self.assertEqual(len(self.data(LONG)), 1)
        self.assertEqual(self.data(), [])
        n = filled(near.send)
        while n:
            n -= len(far.recv(n))
        self.assertEqual(len(self.data(LONG)), 1)
        self.assertEqual(self.data(), [])

    def test_pipe(self):
        reader, writer = self.pipe()
        self.change(writer, WRITE, flags=ADD | CLEAR)
        self.assertEqual(self.data(LONG), [65536])
        self.assertEqual(filled(lambda data: os.write(writer, data)), 65536)
        os.read(reader, 65536)
        self.assertEqual(self.data(LONG), [65536])
        self.assertEqual(self.data(), [])

    def test_input_is_no_edge(self):
        near, far = self.made(*socket.socketpair())
        self.change(near, WRITE, flags=ADD | CLEAR)
        self.assertEqual(len(self.data(LONG)), 1)
        far.send(b"x")
        far.shutdown(socket.SHUT_WR)
        self.assertEqual(self.data(), [])


if __name__ == "__main__":
    unittest.main()
