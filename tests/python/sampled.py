"""Tests of kqueue and kevent over the descriptors of this process: what a sample tells."""
import errno
import os
import select
import socket
import struct
import tempfile
import time
import unittest

import kqsim
from kqueue_case import (
    ADD, CLEAR, DELETE, EOF, ERROR, LONG, ONESHOT, READ, TIMER, TRIGGER, USER, WRITE, KqueueCase, records,
)


class Bytes(KqueueCase):
    """Sockets, pipes and files, and how much waits."""

    def test_socketpair(self):
        near, far = self.made(*socket.socketpair())
        self.change(near, READ)
        self.assertEqual(self.events(), [])
        far.send(b"hello")
        self.assertEqual(self.events(), [(near.fileno(), READ, 5)])
        near.recv(2)
        self.assertEqual(self.events(), [(near.fileno(), READ, 3)])
        near.recv(3)
        far.close()
        self.assertEqual([it.flags & EOF for it in self.kq.control(None, 8, 0)], [EOF])

    def test_pipe_and_clear(self):
        reader, writer = self.pipe()
        self.change(reader, READ, flags=ADD | CLEAR)
        os.write(writer, b"abc")
        self.assertEqual(self.events(), [(reader, READ, 3)])
        self.assertEqual(self.events(), [])
        os.write(writer, b"d")
        self.assertEqual(self.events(), [(reader, READ, 4)])
        os.close(writer)
        self.assertEqual(len(self.events()), 1)

    def test_writing_end(self):
        reader, writer = self.pipe()
        self.change(writer, READ, WRITE)
        size = os.write(writer, b"x" * 5000)
        self.assertEqual(self.events(), [(writer, WRITE, 65536 - size)])
        os.close(reader)
        found = {it.filter: it.flags & EOF for it in self.kq.control(None, 8, LONG)}
        self.assertEqual(found, {READ: EOF, WRITE: EOF})

    def test_file(self):
        with tempfile.TemporaryFile(buffering=0) as file:
            self.change(file, READ)
            file.write(b"abcdef")
            file.seek(2)
            self.assertEqual(self.events(), [(file.fileno(), READ, 4)])

    def test_datagrams(self):
        near, far = self.made(*socket.socketpair(socket.AF_UNIX, socket.SOCK_DGRAM))
        self.change(near, READ)
        far.send(b"")
        self.assertEqual(self.events(), [(near.fileno(), READ, 1)])
        near.recv(1)
        self.assertEqual(self.events(), [])
        far.send(b"abc")
        self.assertEqual(self.events(), [(near.fileno(), READ, 3)])

    def test_bad_number(self):
        reader, writer = self.pipe()
        os.close(writer)
        os.close(reader)
        with self.assertRaises(OSError) as caught:
            self.change(reader, READ)
        self.assertEqual(caught.exception.errno, errno.EBADF)

    def test_number_that_names_another(self):
        """A close removes what watched the number, also where it is another's at once."""
        reader, writer = self.pipe()
        self.change(reader, READ)
        near, far = self.made(*socket.socketpair())
        os.dup2(near.fileno(), reader)
        far.send(b"x")
        self.assertEqual(self.events(), [])
        self.change(reader, READ)
        self.assertEqual(self.events(), [(reader, READ, 1)])

    def test_number_that_names_the_other_end(self):
        """Both ends of a pipe have one inode."""
        reader, writer = self.pipe()
        self.change(reader, READ)
        os.dup2(writer, reader)
        self.change(reader, WRITE)
        self.assertEqual([(it.ident, it.filter) for it in self.kq.control(None, 8, 0)], [(reader, WRITE)])


class Listening(KqueueCase):
    """Connections that wait, and those that fail."""

    def server(self):
        return self.made(socket.create_server(("127.0.0.1", 0)))[0]

    def test_listener(self):
        server = self.server()
        self.change(server, READ)
        self.assertEqual(self.events(), [])
        self.made(socket.create_connection(server.getsockname()))
        self.assertEqual([it[0] for it in self.events(LONG)], [server.fileno()])
        server.accept()[0].close()
        self.assertEqual(self.events(), [])

    def test_count(self):
        """TCP tells how many wait."""
        server = self.server()
        self.change(server, READ)
        for _ in range(3):
            self.made(socket.create_connection(server.getsockname()))
        self.assertEqual(self.waiting(server, 3), 3)
        server.accept()[0].close()
        self.assertEqual(self.waiting(server, 2), 2)

    def waiting(self, server, wanted):
        """The count, once it is the one that is wanted: a connection is made at this end a little later."""
        end = time.monotonic() + LONG
        while self.data(LONG) != [wanted] and time.monotonic() < end:
            time.sleep(0.01)
        return self.data()[0]

    def test_listen_after_add(self):
        server = self.made(socket.socket())[0]
        server.bind(("127.0.0.1", 0))
        self.change(server, READ)
        server.listen()
        self.made(socket.create_connection(server.getsockname()))
        self.assertEqual(self.events(LONG), [(server.fileno(), READ, 1)])

    def test_refused(self):
        """The error is told, and stays the program's to take."""
        with socket.create_server(("127.0.0.1", 0)) as server:
            address = server.getsockname()
        client = self.made(socket.socket())[0]
        client.setblocking(False)
        self.assertEqual(client.connect_ex(address), errno.EINPROGRESS)
        self.change(client, WRITE)
        found = [(it.flags & EOF, it.fflags) for it in self.kq.control(None, 8, LONG)]
        self.assertEqual(found, [(EOF, errno.ECONNREFUSED)])
        self.assertEqual(client.getsockopt(socket.SOL_SOCKET, socket.SO_ERROR), errno.ECONNREFUSED)

    def test_reset(self):
        server = self.server()
        client = self.made(socket.create_connection(server.getsockname()))[0]
        accepted = self.made(server.accept()[0])[0]
        self.change(client, READ)
        accepted.setsockopt(socket.SOL_SOCKET, socket.SO_LINGER, struct.pack("ii", 1, 0))
        accepted.close()
        found = [(it.flags & EOF, it.fflags) for it in self.kq.control(None, 8, LONG)]
        self.assertEqual(found, [(EOF, errno.ECONNRESET)])
        with self.assertRaises(ConnectionResetError):
            client.recv(1)


class Entries(KqueueCase):
    """Entries for changes."""

    def test_filters_without_a_name(self):
        """Each is refused, and its entry has its own number; -8, -12 and -13 have names, and are refused too."""
        numbers = [-8, -20, -12, 5, -13, -32768]
        changes = [kqsim.kevent(ident, number, ADD) for ident, number in enumerate(numbers)]
        changes.insert(2, kqsim.kevent(77, USER, ADD | 0x40))
        found = [(it.ident, it.filter, it.flags, it.data) for it in self.kq.control(changes, 16, 0)]
        wanted = [(ident, number, ERROR, errno.EINVAL) for ident, number in enumerate(numbers)]
        wanted.insert(2, (77, USER, ERROR, 0))
        self.assertEqual(found, wanted)

    def test_numbers_that_no_descriptor_has(self):
        for ident in (1 << 40, (1 << 64) - 1, -1):
            entries = self.kq.control([kqsim.kevent(ident, READ, ADD)], 1, 0)
            self.assertEqual([(it.flags, it.data) for it in entries], [(ERROR, errno.EBADF)])

    def test_more_changes_than_a_record_takes(self):
        self.kq.control([kqsim.kevent(ident, USER, ADD, TRIGGER) for ident in range(2500)], 0)
        self.assertEqual(sorted(it.ident for it in self.kq.control(None, 3000, 0)), list(range(2500)))

    def test_failed_call_keeps_what_is_watched(self):
        """A DELETE behind the change that failed was not made, so the bytes are still told."""
        near, far = self.made(*socket.socketpair())
        self.change(near, READ)
        reader, writer = self.pipe()
        os.close(reader)
        with self.assertRaises(OSError):
            self.kq.control([kqsim.kevent(reader, READ, ADD), kqsim.kevent(near, READ, DELETE)], 0)
        far.send(b"abc")
        self.assertEqual(self.events(LONG), [(near.fileno(), READ, 3)])

    def test_what_is_deleted_is_not_sampled(self):
        near, far = self.made(*socket.socketpair())
        self.change(near, READ, WRITE)
        self.change(near, READ, WRITE, flags=DELETE)
        far.send(b"abc")
        with records() as sent:
            self.assertEqual(self.events(), [])
        self.assertEqual([it["op"] for it in sent], ["kevent"])


class Timer(KqueueCase):
    def test_timer(self):
        self.change(1, TIMER, flags=ADD | ONESHOT, data=20)
        start = time.monotonic()
        self.assertEqual(self.events(LONG), [(1, TIMER, 1)])
        self.assertGreaterEqual(time.monotonic() - start, 0.015)


class Module(unittest.TestCase):
    def test_default_selector(self):
        import selectors

        self.assertIs(selectors.DefaultSelector, selectors.KqueueSelector)
        self.assertIs(select.kqueue, kqsim.kqueue)


if __name__ == "__main__":
    unittest.main()
