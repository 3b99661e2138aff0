"""Other processes, of which it is seen that they exit."""
from __future__ import annotations

import os
import select
from typing import Dict, Optional, Set

from .sim import Sim
from .things import ready


def status_of(pidfd: int) -> int:
    """The status of wait(2) of a process that has exited, which stays to be waited for; 0 where it is not told."""
    try:
        found = os.waitid(os.P_PIDFD, pidfd, os.WEXITED | os.WNOHANG | os.WNOWAIT)
    except OSError:
        return 0
    if found is None:
        return 0
    if found.si_code == os.CLD_EXITED:
        return (found.si_status & 0xFF) << 8
    return found.si_status | (0x80 if found.si_code == os.CLD_DUMPED else 0)


class Processes:
    """The processes that a change has named. A pid that is used again by the machine is not known again."""

    def __init__(self, sim: Sim, own: int) -> None:
        self._sim = sim
        self._used: Set[int] = {own}
        self._pidfds: Dict[int, int] = {}

    def meet(self, pid: int) -> Optional[int]:
        """A number that is readable once this process has exited, and is told to the simulated system; none where
        there is no such process."""
        if pid not in self._used:
            try:
                pidfd = os.pidfd_open(pid)
            except (AttributeError, OSError, OverflowError):
                return None
            self._sim.proc(pid)
            self._used.add(pid)
            self._pidfds[pid] = pidfd
        return self._pidfds.get(pid)

    def sample(self) -> bool:
        """Tells who has exited; whether anybody has."""
        gone = [pid for pid, pidfd in self._pidfds.items() if ready(pidfd) & select.POLLIN]
        for pid in gone:
            pidfd = self._pidfds.pop(pid)
            self._sim.exit(pid, status_of(pidfd))
            os.close(pidfd)
        return bool(gone)

    def leave(self) -> None:
        """In a child of fork: they are the parent's."""
        for pidfd in self._pidfds.values():
            os.close(pidfd)
        self._pidfds.clear()
