"""What a descriptor is of: each thing tells the simulated system what the kernel says of it since before."""
from __future__ import annotations

import array
import fcntl
import select
import termios
from typing import Container, Dict, Optional, Set, Tuple

from .sim import Sim

MOST_SIZE = (1 << 31) - 1
READ, WRITE = "read", "write"


def ready(fd: int) -> int:
    """What poll(2) says of a descriptor."""
    poll = select.poll()
    poll.register(fd, select.POLLIN | select.POLLOUT | select.POLLRDHUP)
    found = poll.poll(0)
    return found[0][1] if found else 0


def to_read(fd: int) -> int:
    """How many bytes wait, by FIONREAD; 0 where the kernel does not count them."""
    count = array.array("i", [0])
    try:
        fcntl.ioctl(fd, termios.FIONREAD, count)
    except OSError:
        return 0
    return max(0, count[0])


class Thing:
    """A descriptor that was met.

    key is what fstat(2) tells apart. quiet has, by side, the kqueues that took an event with CLEAR, and for which
    nothing was told since.
    """

    key: Tuple[int, int] = (0, 0)

    def __init__(self, sim: Sim, pid: int, fd: int) -> None:
        self.sim, self.pid, self.fd = sim, pid, fd
        self.quiet: Dict[str, Set[int]] = {READ: set(), WRITE: set()}

    def now(self) -> Optional[Thing]:
        """The thing that stands for the descriptor now: itself, another in its place, or none of that kind."""
        return self

    def sample(self, news: Container[str]) -> None:
        """Tells what changed.

        A side is in news where the kernel reported an edge to a kqueue that is quiet there. Then something came,
        also where the counts do not show it: as much was taken as came.
        """
        raise NotImplementedError

    def heard(self, side: str) -> None:
        """Something was told of this side, to all kqueues."""
        self.quiet[side].clear()

    def end(self) -> None:
        """The descriptor was closed, or is of another thing now."""
        self.sim.close(self.pid, self.fd)
