"""What a kqueue watches of the real descriptors, and how a thread waits for news of them."""
from __future__ import annotations

import contextlib
import dataclasses
import os
import select
from typing import Any, Dict, List, Mapping, Optional, Set

from .things import READ, WRITE
from .timers import Timers

# The filters of a change whose ident is a descriptor.
OF_DESCRIPTORS = ("READ", "WRITE", "VNODE")
READ_MASK = select.EPOLLIN | select.EPOLLRDHUP | select.EPOLLET
WRITE_MASK = select.EPOLLOUT | select.EPOLLET
# How many edges are taken at once.
BATCH = 1023
# Seconds between two samples of files, which an epoll does not take.
FILE_PAUSE = 0.05
# Seconds of one wait at most.
MOST_SECONDS = 3600


class Bell:
    """A pipe by which one thread wakes another."""

    def __init__(self) -> None:
        self.reader, self.writer = os.pipe()
        os.set_blocking(self.reader, False)
        os.set_blocking(self.writer, False)

    def ring(self) -> None:
        with contextlib.suppress(BlockingIOError):
            os.write(self.writer, b"!")

    def hush(self) -> None:
        with contextlib.suppress(BlockingIOError):
            os.read(self.reader, 4096)

    def close(self) -> None:
        os.close(self.reader)
        os.close(self.writer)


@dataclasses.dataclass(eq=False)
class Waiter:
    """A thread that waits: its bell, and the count of records and the moment of the clock at its last call."""

    bell: Bell
    told: int
    asked: int


class Watches:
    """The descriptors that one kqueue watches, in two epolls, edge triggered.

    There are two so that input is no edge of WRITE; that for WRITE stands in the other, whose number the kqueue has.
    told and asked are the count of records and the moment of the clock at the last call of any thread.
    """

    def __init__(self) -> None:
        self.reads, self.writes = select.epoll(), select.epoll()
        self.reads.register(self.writes, select.EPOLLIN | select.EPOLLET)
        self.filters: Dict[int, Set[str]] = {}
        self.edges: Dict[int, Set[str]] = {}
        self.files: Set[int] = set()
        self.timers = Timers()
        self.told = self.asked = 0
        self.is_open = True
        self._waiting: List[Waiter] = []
        self._spare: List[Bell] = []

    def fileno(self) -> int:
        return self.reads.fileno()

    # ---- what is watched

    def change(self, change: Mapping[str, Any]) -> None:
        """Follows a change of a descriptor: what no filter watches is not sampled."""
        fd, name = change["ident"], change["filter"]
        if "DELETE" in change["flags"]:
            self._unwatch(fd, name)
        elif "ADD" in change["flags"]:
            self._watch(fd, name)

    def _watch(self, fd: int, name: str) -> None:
        self.filters.setdefault(fd, set()).add(name)
        epoll, mask = (self.writes, WRITE_MASK) if name == "WRITE" else (self.reads, READ_MASK)
        try:
            epoll.register(fd, mask)
        except FileExistsError:
            pass
        except PermissionError:
            self.files.add(fd)
        except (OSError, OverflowError):
            del self.filters[fd]

    def watch_other(self, fd: Optional[int]) -> None:
        """Wakes those who wait at an edge of what is no descriptor of the program: a process has exited, or a signal
        was delivered."""
        if fd is not None:
            with contextlib.suppress(FileExistsError):
                self.reads.register(fd, select.EPOLLIN | select.EPOLLET)

    def _unwatch(self, fd: int, name: str) -> None:
        filters = self.filters.get(fd)
        if filters is None:
            return
        filters.discard(name)
        if name == "WRITE" or not filters - {"WRITE"}:
            with contextlib.suppress(OSError):
                (self.writes if name == "WRITE" else self.reads).unregister(fd)
        if not filters:
            self.forget(fd)

    def delivered(self, event: Mapping[str, Any]) -> None:
        """Follows an event."""
        if event["filter"] == "TIMER":
            self.timers.delivered(event)
        elif event["filter"] in OF_DESCRIPTORS and "ONESHOT" in event["flags"]:
            self._unwatch(event["ident"], event["filter"])

    def forget(self, fd: int) -> None:
        """The descriptor was closed, or no filter watches it."""
        if fd not in self.filters:
            return
        del self.filters[fd]
        self.edges.pop(fd, None)
        self.files.discard(fd)
        for epoll in (self.reads, self.writes):
            with contextlib.suppress(OSError):
                epoll.unregister(fd)

    # ---- edges

    def drain(self) -> None:
        """Takes the edges that the kernel has reported."""
        while True:
            found = self.reads.poll(0, BATCH)
            for fd, _ in found:
                if fd == self.writes.fileno():
                    self._drain_writes()
                elif fd in self.filters:
                    self.edges.setdefault(fd, set()).add(READ)
            if len(found) < BATCH:
                break

    def _drain_writes(self) -> None:
        while True:
            found = self.writes.poll(0, BATCH)
            for fd, _ in found:
                if fd in self.filters:
                    self.edges.setdefault(fd, set()).add(WRITE)
            if len(found) < BATCH:
                break

    # ---- waiting

    @property
    def waiters(self) -> int:
        return len(self._waiting)

    def enter(self) -> Waiter:
        """A thread has called, and begins to wait."""
        waiter = Waiter(self._spare.pop() if self._spare else Bell(), self.told, self.asked)
        self._waiting.append(waiter)
        return waiter

    def leave(self, waiter: Waiter) -> None:
        self._waiting.remove(waiter)
        if self.is_open:
            waiter.bell.hush()
            self._spare.append(waiter.bell)
        else:
            waiter.bell.close()

    def wake(self) -> None:
        """Wakes all who wait."""
        for waiter in self._waiting:
            waiter.bell.ring()

    def wait(self, bell: Bell, seconds: Optional[float]) -> None:
        """Waits for an edge or the bell, no longer than this; a little while only where files are watched."""
        poll = select.poll()
        poll.register(bell.reader, select.POLLIN)
        with contextlib.suppress(ValueError):  # another thread has closed it, and rung
            poll.register(self.reads, select.POLLIN)
        most = FILE_PAUSE if self.files else MOST_SECONDS
        poll.poll(1000 * (most if seconds is None else min(most, seconds)))

    # ---- the end

    def close(self) -> None:
        """Those who wait are woken, and close their own bells."""
        self.is_open = False
        self.wake()
        for bell in self._spare:
            bell.close()
        self._close_epolls()

    def close_in_child(self) -> None:
        """Nobody waits in a child of fork."""
        self.is_open = False
        for bell in [*self._spare, *(waiter.bell for waiter in self._waiting)]:
            bell.close()
        self._close_epolls()

    def _close_epolls(self) -> None:
        self.writes.close()
        self.reads.close()
