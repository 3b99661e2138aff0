"""Sockets, sampled; and what is no socket, and is played as one."""
from __future__ import annotations

import contextlib
import errno
import select
import socket
import struct
from typing import Container, Dict, Iterator, Optional

from .sim import Sim
from .things import MOST_SIZE, READ, WRITE, Thing, ready, to_read

# Where tcpi_unacked stands in struct tcp_info.
UNACKED = struct.Struct("=24xI")


@contextlib.contextmanager
def borrowed(fd: int) -> Iterator[socket.socket]:
    """A socket object over a number that stays its owner's."""
    it = socket.socket(fileno=fd)
    try:
        yield it
    finally:
        it.detach()


def option(fd: int, name: int) -> int:
    """An option of a socket, 0 where it has none of that name. It is never SO_ERROR: to read that clears it."""
    with borrowed(fd) as it:
        try:
            return it.getsockopt(socket.SOL_SOCKET, name)
        except OSError:
            return 0


def is_listening(fd: int) -> bool:
    return bool(option(fd, socket.SO_ACCEPTCONN))


def is_stream(fd: int) -> bool:
    """Whether a socket is of a kind that connects, and ends."""
    return option(fd, socket.SO_TYPE) in (socket.SOCK_STREAM, socket.SOCK_SEQPACKET)


def has_peer(fd: int) -> bool:
    with borrowed(fd) as it:
        try:
            it.getpeername()
        except OSError:
            return False
        return True


def connections(fd: int, found: int) -> int:
    """How many connections wait at a listening socket. TCP counts them; of another kind one does, or none."""
    with borrowed(fd) as it:
        if it.family in (socket.AF_INET, socket.AF_INET6):
            with contextlib.suppress(OSError):
                info = it.getsockopt(socket.IPPROTO_TCP, socket.TCP_INFO, UNACKED.size)
                return int(UNACKED.unpack(info)[0])
    return 1 if found & select.POLLIN else 0


class Socket(Thing):
    """A socket that does not listen.

    Of its send buffer all is free, or nothing. Its error is a guess by when it came.
    """

    def __init__(self, sim: Sim, pid: int, fd: int, far: int) -> None:
        super().__init__(sim, pid, fd)
        self.far, self.is_stream = far, self.is_stream_now()
        self.size = max(1, min(MOST_SIZE, self.size_now()))
        self.is_connected = False
        self.is_shut: Dict[str, bool] = {READ: False, WRITE: False}
        self.waiting = self.unsent = 0
        sim.socket(pid, fd, MOST_SIZE, self.size)
        if not self.is_stream:
            self.connect()

    def is_stream_now(self) -> bool:
        return is_stream(self.fd)

    def size_now(self) -> int:
        return option(self.fd, socket.SO_SNDBUF)

    def now(self) -> Optional[Thing]:
        if self.is_connected or not is_listening(self.fd):
            return self
        return Listener(self.sim, self.pid, self.fd, self.far)

    def connect(self) -> None:
        self.sim.connect(self.pid, self.fd)
        self.is_connected = True
        self.heard(WRITE)

    def shut(self, side: str, error: int = 0) -> None:
        if not self.is_shut[side]:
            self.sim.shut(self.pid, self.fd, side, error)
            self.is_shut[side] = True
            self.heard(side)

    def sample(self, news: Container[str]) -> None:
        found = ready(self.fd)
        if not self.is_connected:
            self.sample_connecting(found)
        if self.is_connected:
            self.sample_waiting(self.waiting_now(found), READ in news)
            self.sample_unsent(found, WRITE in news)
            self.sample_ends(found)

    def sample_connecting(self, found: int) -> None:
        """Tells that it is connected, or was refused. One that never connected shows POLLHUP, and no POLLRDHUP."""
        is_failed = bool(found & select.POLLERR)
        if has_peer(self.fd) or (found & select.POLLRDHUP and not is_failed):
            self.connect()
        elif is_failed:
            self.shut(READ, errno.ECONNREFUSED)
            self.shut(WRITE, errno.ECONNREFUSED)

    def waiting_now(self, found: int) -> int:
        """How many bytes wait; an empty datagram, and an error of a socket without an end, are one."""
        waiting = to_read(self.fd)
        if waiting == 0 and not self.is_stream and found & (select.POLLIN | select.POLLERR):
            return 1
        return waiting

    def sample_waiting(self, waiting: int, is_news: bool) -> None:
        if is_news and not self.is_shut[READ] and 0 < waiting <= self.waiting:
            self.take(self.waiting)
        if waiting < self.waiting:
            self.take(self.waiting - waiting)
        if waiting > self.waiting and not self.is_shut[READ]:
            self.sim.rx(self.pid, self.fd, waiting - self.waiting)
            self.waiting = waiting
            self.heard(READ)

    def take(self, n: int) -> None:
        self.sim.read(self.pid, self.fd, n)
        self.waiting -= n

    def unsent_now(self, found: int) -> int:
        """How much of the send buffer is taken."""
        return 0 if found & (select.POLLOUT | select.POLLERR | select.POLLHUP) else self.size

    def sample_unsent(self, found: int, is_news: bool) -> None:
        """Tells what was written and sent. An edge says that both were meanwhile, unless it is that of an end."""
        if self.is_shut[WRITE]:
            return
        unsent = self.unsent_now(found)
        is_end = bool(found & (select.POLLERR | select.POLLHUP)) or (
            bool(found & select.POLLRDHUP) and not self.is_shut[READ]
        )
        if is_news and not is_end and self.unsent <= unsent < self.size:
            self.put(self.size - self.unsent)
        if unsent > self.unsent:
            self.put(unsent - self.unsent)
        if unsent < self.unsent:
            self.sim.tx(self.pid, self.fd, self.unsent - unsent)
            self.unsent = unsent
            self.heard(WRITE)

    def put(self, n: int) -> None:
        self.sim.write(self.pid, self.fd, n)
        self.unsent += n

    def sample_ends(self, found: int) -> None:
        if not self.is_stream:
            return
        if found & select.POLLERR:
            self.shut(READ, errno.ECONNRESET)
            self.shut(WRITE, errno.ECONNRESET)
        if found & (select.POLLRDHUP | select.POLLHUP):
            self.shut(READ)
        if found & select.POLLHUP:
            self.shut(WRITE)


class Other(Socket):
    """A terminal, an eventfd and the like, as a connected socket: a byte waits where poll(2) says so."""

    def is_stream_now(self) -> bool:
        return False

    def size_now(self) -> int:
        return MOST_SIZE

    def waiting_now(self, found: int) -> int:
        return 1 if found & select.POLLIN else 0

    def sample_ends(self, found: int) -> None:
        if found & select.POLLHUP:
            self.shut(READ)


class Listener(Thing):
    """A listening socket, and how many connections wait. far is a number that none has: that of what is accepted."""

    def __init__(self, sim: Sim, pid: int, fd: int, far: int) -> None:
        super().__init__(sim, pid, fd)
        self.far, self.waiting = far, 0
        sim.listen(pid, fd, MOST_SIZE)

    def now(self) -> Optional[Thing]:
        return self if is_listening(self.fd) else None

    def sample(self, news: Container[str]) -> None:
        waiting = connections(self.fd, ready(self.fd))
        is_more = READ in news and 0 < waiting <= self.waiting
        while self.waiting > (waiting - 1 if is_more else waiting):
            self.sim.accept(self.pid, self.fd, self.far, 1, 1)
            self.sim.close(self.pid, self.far)
            self.waiting -= 1
        while self.waiting < waiting:
            self.sim.arrive(self.pid, self.fd)
            self.waiting += 1
            self.heard(READ)
