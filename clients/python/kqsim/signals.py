"""The signals of this process, as they are delivered."""
from __future__ import annotations

import contextlib
import os
import signal
import threading
from collections import deque
from types import FrameType
from typing import Any, Deque, Iterator, Optional, Set

from .sim import Sim
from .watches import Bell

# What does nothing where the program has said nothing of it.
IGNORED_BY_DEFAULT = (signal.SIGCHLD, signal.SIGURG, signal.SIGWINCH, signal.SIGCONT)


class Ear:
    """The handler of a signal: it counts a delivery, and does what was done before."""

    def __init__(self, signals: Signals, before: Any) -> None:
        self._signals, self._before = signals, before

    def __call__(self, number: int, frame: Optional[FrameType]) -> None:
        with self._signals.heard(number):
            if callable(self._before):
                self._before(number, frame)
            elif self._before == signal.SIG_DFL and number not in IGNORED_BY_DEFAULT:
                signal.signal(number, signal.SIG_DFL)
                os.kill(os.getpid(), number)

    def take_out(self, number: int) -> None:
        signal.signal(number, self._before)


class Signals:
    """The signals that a change has named. Its bell rings at each delivery of one."""

    def __init__(self, sim: Sim, pid: int) -> None:
        self._sim, self._pid = sim, pid
        self._bell: Optional[Bell] = None
        self._named: Set[int] = set()
        self._heard: Deque[int] = deque()
        self._inside = 0

    def meet(self, number: int) -> Optional[int]:
        """A descriptor that has an edge at each delivery of this signal; none where there is no such signal."""
        if number not in signal.valid_signals():
            return None
        if self._bell is None:
            self._bell = Bell()
        self._named.add(number)
        self._listen(number)
        return self._bell.reader

    def _listen(self, number: int) -> None:
        """Puts an ear where the program's handler is. Python lets the main thread alone do so."""
        if threading.current_thread() is not threading.main_thread():
            return
        now = signal.getsignal(number)
        is_unheard = number == signal.SIGCHLD and now == signal.SIG_IGN
        if now is not None and not isinstance(now, Ear) and not is_unheard:
            with contextlib.suppress(OSError):  # SIGKILL and SIGSTOP have no handlers
                signal.signal(number, Ear(self, now))

    @contextlib.contextmanager
    def heard(self, number: int) -> Iterator[None]:
        """Counts a delivery, but not within another ear, which the program's handler may have kept and called."""
        if not self._inside and self._bell is not None:
            self._heard.append(number)
            self._bell.ring()
        self._inside += 1
        try:
            yield
        finally:
            self._inside -= 1

    def sample(self) -> bool:
        """Tells what was delivered; whether anything was. The program may have another handler by now."""
        if self._bell is None:
            return False
        self._bell.hush()
        is_any = bool(self._heard)
        while self._heard:
            self._sim.sig(self._pid, self._heard.popleft())
        for number in self._named:
            self._listen(number)
        return is_any

    def leave(self) -> None:
        """In a child of fork: what it is sent is not the parent's."""
        if self._bell is not None:
            self._bell.close()
            self._bell = None
        for number in self._named:
            ear = signal.getsignal(number)
            if isinstance(ear, Ear) and threading.current_thread() is threading.main_thread():
                ear.take_out(number)
