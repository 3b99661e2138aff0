"""Sockets, pipes, files and processes, as far as a filter sees them (docs/MODEL.md, The world)."""
from __future__ import annotations

from typing import Any, Dict, List, Optional, Set, Tuple

# A descriptor: a process, and a number in it.
Holder = Tuple[int, int]


class Thing:
    """What a descriptor names, with the descriptors that name it."""

    def __init__(self) -> None:
        self.holders: Set[Holder] = set()

    def targets(self) -> List[object]:
        """What the kevents of such a descriptor watch: its bytes, and of a file the file."""
        return [self]

    def related(self) -> List[Thing]:
        """All whose text changes where this changes."""
        return [self]

    def text(self) -> str:
        raise NotImplementedError


class Socket(Thing):
    def __init__(self, rcv: int, snd: int, is_connected: bool) -> None:
        super().__init__()
        self.rcv, self.snd, self.is_connected = rcv, snd, is_connected
        self.waiting = self.unsent = 0
        self.backlog: Optional[int] = None
        self.pending = 0
        self.marks = {"read": 1, "write": min(2048, snd)}
        self.errors: Dict[str, Optional[int]] = {"read": None, "write": None}

    @property
    def space(self) -> int:
        return self.snd - self.unsent

    def text(self) -> str:
        if self.backlog is not None:
            return f"listens: {self.pending}/{self.backlog} wait"
        parts = [f"{self.waiting} to read", f"{self.space}/{self.snd} free"]
        parts += [f"{side} mark {mark}" for side, mark in self.marks.items() if mark != self._usual(side)]
        for side, error in self.errors.items():
            if error is not None:
                parts.append(f"{side} side shut" + (f" (error {error})" if error else ""))
        return ("" if self.is_connected else "not connected, ") + ", ".join(parts)

    def _usual(self, side: str) -> int:
        return 1 if side == "read" else min(2048, self.snd)


class Pipe:
    """What both ends share."""

    def __init__(self, cap: int) -> None:
        self.cap, self.waiting = cap, 0
        self.reader, self.writer = PipeEnd(self, False), PipeEnd(self, True)


class PipeEnd(Thing):
    def __init__(self, pipe: Pipe, is_writer: bool) -> None:
        super().__init__()
        self.pipe, self.is_writer = pipe, is_writer

    @property
    def other(self) -> PipeEnd:
        return self.pipe.reader if self.is_writer else self.pipe.writer

    def targets(self) -> List[object]:
        return [self.pipe]

    def related(self) -> List[Thing]:
        return [self.pipe.reader, self.pipe.writer]

    def text(self) -> str:
        does, other = ("writes", "reader") if self.is_writer else ("reads", "writer")
        lost = "" if self.other.holders else f", no {other}"
        return f"{does} a pipe: {self.pipe.waiting}/{self.pipe.cap}{lost}"


class File:
    def __init__(self, number: int, size: int) -> None:
        self.number, self.size, self.is_deleted = number, size, False
        self.descriptions: List[Description] = []

    def text(self) -> str:
        return f"{self.size} bytes" + (", deleted" if self.is_deleted else "")


class Description(Thing):
    """An open file, with its offset."""

    def __init__(self, file: File, mode: str) -> None:
        super().__init__()
        self.file, self.mode, self.offset = file, mode, 0
        file.descriptions.append(self)

    def targets(self) -> List[object]:
        return [self, self.file]

    def related(self) -> List[Thing]:
        return list(self.file.descriptions)

    def text(self) -> str:
        lost = ", deleted" if self.file.is_deleted else ""
        return f"file {self.file.number} ({self.mode}): at {self.offset}/{self.file.size}{lost}"


class Process:
    """A process with its open descriptors; status is that with which it is gone."""

    def __init__(self, pid: int) -> None:
        self.pid = pid
        self.table: Dict[int, Any] = {}
        self.ignored: Set[int] = set()
        self.status: Optional[int] = None

    def text(self) -> str:
        if self.status is not None:
            return f"gone with status {self.status}"
        return "lives" + (f", ignores {', '.join(map(str, sorted(self.ignored)))}" if self.ignored else "")
