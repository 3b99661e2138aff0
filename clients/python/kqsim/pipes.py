"""Pipes, sampled."""
from __future__ import annotations

import fcntl
import os
import select
from typing import Container, Optional

from .sim import Sim
from .sockets import Socket
from .things import READ, WRITE, Thing, ready, to_read

# F_GETPIPE_SZ
PIPE_SIZE = 1032
# From so much space on a pipe is ready for WRITE.
WRITE_MARK = 512


def size_of(fd: int) -> int:
    return fcntl.fcntl(fd, PIPE_SIZE)


def is_reader(fd: int) -> bool:
    return fcntl.fcntl(fd, fcntl.F_GETFL) & os.O_ACCMODE != os.O_WRONLY


class Reader(Thing):
    """The reading end of a pipe; the other has a number that no descriptor has."""

    def __init__(self, sim: Sim, pid: int, fd: int, far: int) -> None:
        super().__init__(sim, pid, fd)
        self.far, self.waiting, self.has_far = far, 0, True
        self.size = size_of(fd)
        sim.pipe(pid, fd, far, self.size)

    def now(self) -> Optional[Thing]:
        return self if is_reader(self.fd) else None

    def end(self) -> None:
        super().end()
        if self.has_far:
            self.sim.close(self.pid, self.far)

    def sample(self, news: Container[str]) -> None:
        found = ready(self.fd)
        waiting = min(self.size, to_read(self.fd))
        if READ in news and self.has_far and 0 < waiting <= self.waiting:
            self.take(self.waiting)
        if waiting < self.waiting:
            self.take(self.waiting - waiting)
        if waiting > self.waiting and self.has_far:
            self.sim.write(self.pid, self.far, waiting - self.waiting)
            self.waiting = waiting
            self.heard(READ)
        if found & select.POLLHUP and self.has_far:
            self.sim.close(self.pid, self.far)
            self.has_far = False
            self.heard(READ)

    def take(self, n: int) -> None:
        self.sim.read(self.pid, self.fd, n)
        self.waiting -= n


class Writer(Socket):
    """The writing end of a pipe, as a connected socket.

    So it can be watched for READ, as on FreeBSD, which then tells that the reading end was closed.
    """

    def __init__(self, sim: Sim, pid: int, fd: int, far: int) -> None:
        super().__init__(sim, pid, fd, far)
        sim.lowat(pid, fd, WRITE, min(WRITE_MARK, self.size))

    def now(self) -> Optional[Thing]:
        return None if is_reader(self.fd) else self

    def is_stream_now(self) -> bool:
        return False

    def size_now(self) -> int:
        return size_of(self.fd)

    def waiting_now(self, found: int) -> int:
        return 0

    def unsent_now(self, found: int) -> int:
        return min(self.size, to_read(self.fd)) if found & select.POLLOUT else self.size

    def sample_ends(self, found: int) -> None:
        if found & select.POLLERR:
            self.shut(READ)
            self.shut(WRITE)
