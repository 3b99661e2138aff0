"""Files and directories, sampled."""
from __future__ import annotations

import os
import stat
from typing import Container, Tuple

from .sim import Sim
from .things import MOST_SIZE, Thing

# The process that does what is done to a file. It has a description of each, whose number is the file's.
OTHERS = 4_000_000_000


class File(Thing):
    """An open file or directory: its size, its offset, and what fstat(2) tells of the rest.

    A size that grew is a `write` behind the end, one that shrank a `truncate`. A directory has no size here.
    """

    def __init__(self, sim: Sim, pid: int, fd: int, number: int) -> None:
        super().__init__(sim, pid, fd)
        self.number, self.is_deleted = number, False
        self.status, self.path = os.fstat(fd), path_of(fd)
        self.is_directory = stat.S_ISDIR(self.status.st_mode)
        self.size, self.offset = self.size_of(self.status), 0
        sim.file(number, self.size)
        sim.open(OTHERS, number, number, "rw")
        sim.open(pid, fd, number, "rw")

    def end(self) -> None:
        super().end()
        self.sim.close(OTHERS, self.number)

    def size_of(self, status: os.stat_result) -> int:
        return 0 if self.is_directory else status.st_size

    def sample(self, news: Container[str]) -> None:
        status, path = os.fstat(self.fd), path_of(self.fd)
        before, self.status = self.status, status
        is_renamed = path != self.path and status.st_ctime_ns != before.st_ctime_ns
        self.path = path
        size = self.size_of(status)
        if size > self.size:
            self.append(size - self.size)
        elif size < self.size and not self.is_deleted:
            self.sim.truncate(self.number, size)
            self.size = size
        elif status.st_mtime_ns != before.st_mtime_ns and not is_set(before, status):
            self.append(0)
        elif status.st_ctime_ns != before.st_ctime_ns and is_same_link(before, status) and not is_renamed:
            self.note("attrib")
        if owner_of(status) != owner_of(before):
            self.note("attrib")
        if status.st_nlink != before.st_nlink:
            self.note("link" if status.st_nlink else "delete")
        elif is_renamed:
            self.note("rename")
        self.sample_offset()

    def sample_offset(self) -> None:
        offset = 0 if self.is_directory else os.lseek(self.fd, 0, os.SEEK_CUR)
        if offset != self.offset:
            self.sim.seek(self.pid, self.fd, offset)
            self.offset = offset

    def append(self, n: int) -> None:
        """Somebody wrote so many bytes behind the end; with 0, somewhere before it."""
        self.sim.seek(OTHERS, self.number, self.size)
        while True:
            part = min(n, MOST_SIZE)
            self.sim.write(OTHERS, self.number, part)
            self.size += part
            n -= part
            if n == 0:
                break

    def note(self, note: str) -> None:
        if not self.is_deleted:
            self.sim.note(self.number, note)
            self.is_deleted = note == "delete"


def path_of(fd: int) -> str:
    """The name of an open file; another one after rename(2)."""
    try:
        return os.readlink(f"/proc/self/fd/{fd}")
    except OSError:
        return ""


def owner_of(status: os.stat_result) -> Tuple[int, int, int]:
    return status.st_mode, status.st_uid, status.st_gid


def is_same_link(before: os.stat_result, status: os.stat_result) -> bool:
    return status.st_nlink == before.st_nlink and owner_of(status) == owner_of(before)


def is_set(before: os.stat_result, status: os.stat_result) -> bool:
    """Whether its time was set by utime(2), not by a write, which gives both times the same moment."""
    return status.st_mtime_ns != status.st_ctime_ns and is_same_link(before, status)
