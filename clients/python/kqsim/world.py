"""The descriptors of this process, and what the simulated system has been told of each."""
from __future__ import annotations

import atexit
import contextlib
import errno
import os
import stat
import time
from typing import Any, Dict, List, Mapping, Optional, Sequence

from .files import OTHERS, File
from .pipes import Reader, Writer, is_reader
from .processes import Processes
from .signals import Signals
from .sim import Ended, Sim
from .sockets import Other, Socket
from .things import Thing
from .watches import OF_DESCRIPTORS, Waiter, Watches

Record = Dict[str, Any]

# A number that no descriptor has is this one and a descriptor's.
FAR = 1 << 24


class CountingSim(Sim):
    """A Sim that counts what it was told: every record but polls and the clock."""

    told = 0

    def record(self, **members: Any) -> Record:
        if members["op"] != "clock" and members.get("changes") != []:
            self.told += 1
        return super().record(**members)


class World:
    """A Sim, told before each call what the kernel says of the descriptors that the call concerns."""

    def __init__(self, log: Optional[str] = None) -> None:
        self.pid = os.getpid()
        self.sim = CountingSim(log)
        self.sim.proc(self.pid)
        self._processes = Processes(self.sim, self.pid)
        self._signals = Signals(self.sim, self.pid)
        self._start = time.monotonic_ns()
        self._things: Dict[int, Thing] = {}
        self._kqueues: Dict[int, Watches] = {}
        self._files = 0
        self._is_over = False

    # ---- kqueues

    def open_kqueue(self) -> int:
        with self.sim.held():
            watches = Watches()
            number = watches.fileno()
            self._forget(number)
            self.sim.kqueue(self.pid, number)
            self._kqueues[number] = watches
            return number

    def close_kqueue(self, number: int) -> None:
        with self.sim.held():
            watches = self._kqueues.pop(number, None)
            if watches is None:
                return
            watches.close()
            for thing in self._things.values():
                for kqueues in thing.quiet.values():
                    kqueues.discard(number)
            if not self._is_over:
                self.sim.close(self.pid, number)

    def _watches(self, number: int) -> Watches:
        watches = self._kqueues.get(number)
        if watches is None or self._is_over:
            raise closed_error()
        return watches

    def waiters(self, number: int) -> int:
        """How many threads wait for this kqueue."""
        with self.sim.held():
            return self._watches(number).waiters

    # ---- calls

    def call(self, number: int, changes: Sequence[Record], room: int, timeout: Optional[float]) -> List[Record]:
        """A call of kevent(2): its events."""
        end = None if timeout is None else time.monotonic() + timeout
        with self.sim.held():
            watches = self._watches(number)
            self._sample_before(watches, number, changes, room)
            events = self._ask(watches, number, changes, room)
            if events or room == 0 or timeout == 0:
                return events
            waiter = watches.enter()
        try:
            return self._wait(watches, number, room, end, waiter)
        finally:
            with self.sim.held():
                watches.leave(waiter)

    def _wait(self, watches: Watches, number: int, room: int, end: Optional[float], waiter: Waiter) -> List[Record]:
        """Waits, and makes the call anew each time that it may have something to tell."""
        while True:
            left = None if end is None else end - time.monotonic()
            if left is not None and left <= 0:
                return []
            due = watches.timers.next(waiter.asked)
            if due is not None:
                until = max(0, due - self._now()) / 1e9
                left = until if left is None else min(until, left)
            watches.wait(waiter.bell, left)
            with self.sim.held():
                waiter.bell.hush()
                if self._watches(number) is not watches:
                    raise closed_error()
                self._sample_signals()
                self._sample_all(watches, number)
                due = watches.timers.next(waiter.asked)
                if self.sim.told == waiter.told and (due is None or due > self._now()):
                    continue
                events = self._ask(watches, number, [], room)
                waiter.told, waiter.asked = watches.told, watches.asked
            if events:
                return events

    def _now(self) -> int:
        """The clock of the trace."""
        return time.monotonic_ns() - self._start

    def _ask(self, watches: Watches, number: int, changes: Sequence[Record], room: int) -> List[Record]:
        """The record of the call, and what its answer means for what is watched."""
        if watches.timers or any(it["filter"] == "TIMER" for it in changes):
            watches.asked = self._now()
            self.sim.clock(watches.asked)
        made = changes
        try:
            events = self.sim.kevent(self.pid, number, changes, room)
        except OSError:
            # It is not told which changes were made before the one that failed: what may be watched still is.
            made = [it for it in changes if "DELETE" not in it["flags"]]
            raise
        finally:
            for change in made:
                self._changed(watches, change)
            if self.sim.told != watches.told:
                watches.told = self.sim.told
                watches.wake()
        for event in events:
            if "ERROR" not in event["flags"]:
                self._delivered(watches, number, event)
        return events

    def _changed(self, watches: Watches, change: Mapping[str, Any]) -> None:
        if change["filter"] == "TIMER":
            watches.timers.change(change, watches.asked)
        elif change["filter"] in OF_DESCRIPTORS and change["ident"] in self._things:
            watches.change(change)

    def _delivered(self, watches: Watches, number: int, event: Mapping[str, Any]) -> None:
        watches.delivered(event)
        thing = self._things.get(event["ident"])
        side = event["filter"].lower()
        if thing and side in thing.quiet and "CLEAR" in event["flags"]:
            thing.quiet[side].add(number)

    # ---- descriptors

    def _sample_before(self, watches: Watches, number: int, changes: Sequence[Record], room: int) -> None:
        """Samples what the changes are about, and where there is room all that the kqueue watches."""
        self._sample_signals()
        touched = sorted({it["ident"] for it in changes if it["filter"] in OF_DESCRIPTORS})
        for fd in touched:
            self._meet(fd)
        for change in changes:
            if change["filter"] in OF_DESCRIPTORS and "DELETE" not in change["flags"]:
                self._changed(watches, change)
        if room:
            self._sample_all(watches, number)
        for fd in touched:
            if not room or fd not in watches.filters:
                self._sample(watches, number, fd)
        # Behind the samples, so that one that has exited, and was not waited for, is added, and then its exit told.
        for change in changes:
            if change["filter"] == "PROC" and "ADD" in change["flags"]:
                watches.watch_other(self._processes.meet(change["ident"]))
            if change["filter"] == "SIGNAL" and "ADD" in change["flags"]:
                watches.watch_other(self._signals.meet(change["ident"]))

    def _sample_signals(self) -> None:
        if self._signals.sample():
            self._wake_all()

    def _wake_all(self) -> None:
        for each in self._kqueues.values():
            each.wake()

    def _sample_all(self, watches: Watches, number: int) -> None:
        if self._processes.sample():
            self._wake_all()
        watches.drain()
        for fd in sorted(watches.filters):
            self._sample(watches, number, fd)

    def _sample(self, watches: Watches, number: int, fd: int) -> None:
        """Tells what changed of a descriptor."""
        thing = self._meet(fd)
        if thing:
            edges = watches.edges.pop(fd, set())
            with contextlib.suppress(OSError):  # another thread has closed it: the next sample tells
                thing.sample({side for side in edges if number in thing.quiet[side]})

    def _meet(self, fd: int) -> Optional[Thing]:
        """What a number names, told to the simulated system; none where it is not open, or a kqueue's."""
        if fd in self._kqueues:
            return None
        try:
            status = os.fstat(fd)
        except (OSError, OverflowError):
            self._forget(fd)
            return None
        key = (status.st_dev, status.st_ino)
        before = self._things.get(fd)
        thing = before.now() if before and before.key == key else None
        if thing is None:
            self._forget(fd)
            thing = self._thing_of(fd, status.st_mode)
        thing.key = key
        self._things[fd] = thing
        return thing

    def _thing_of(self, fd: int, mode: int) -> Thing:
        if stat.S_ISSOCK(mode):
            made = Socket(self.sim, self.pid, fd, FAR + fd)
            return made.now() or made
        if stat.S_ISFIFO(mode):
            kind = Reader if is_reader(fd) else Writer
            return kind(self.sim, self.pid, fd, FAR + fd)
        if stat.S_ISREG(mode) or stat.S_ISDIR(mode):
            self._files += 1
            if self._files == 1:
                self.sim.proc(OTHERS)
            return File(self.sim, self.pid, fd, self._files)
        return Other(self.sim, self.pid, fd, FAR + fd)

    def _forget(self, fd: int) -> None:
        """The number was closed, or names another thing now: no kqueue watches it."""
        thing = self._things.pop(fd, None)
        if thing:
            thing.end()
        for watches in self._kqueues.values():
            watches.forget(fd)

    # ---- the end

    def end(self) -> None:
        """The process ends; a call from here on finds its kqueue closed."""
        self._is_over = True
        with contextlib.suppress(Ended, OSError):
            self.sim.end()

    def leave(self) -> None:
        """In a child of fork: closes what belongs to the parent's kqueues."""
        self._processes.leave()
        self._signals.leave()
        for watches in self._kqueues.values():
            watches.close_in_child()


def closed_error() -> OSError:
    return OSError(errno.EBADF, os.strerror(errno.EBADF))


_world: Optional[World] = None


def world() -> World:
    """That of this process: a child begins with none. KQSIM_TRACE names a file for its trace."""
    global _world
    if _world is None:
        log = os.environ.get("KQSIM_TRACE")
        _world = World(f"{log}.{os.getpid()}" if log else None)
    return _world


def end_world() -> None:
    if _world is not None:
        _world.end()


def leave_world() -> None:
    global _world
    if _world is not None:
        _world.leave()
    _world = None


atexit.register(end_world)
os.register_at_fork(after_in_child=leave_world)
