"""What a kqueue keeps of a registered kevent, and what a look at it finds (docs/MODEL.md, The filters)."""
from __future__ import annotations

import dataclasses
from typing import Any, Callable, Dict, Hashable, Mapping, Optional, Tuple

from ..timers import MOST_NANOSECONDS, UNITS
from .objects import Description, Pipe, PipeEnd, Process, Socket
from .world import EXIT

LOWAT, TRACK, CHILD, ABSTIME = 1, 1, 4, 16
TRIGGER, USER_BITS = 1 << 24, (1 << 24) - 1
PIPE_MARK = 512
MOST_COUNT = (1 << 63) - 1

# A filter and an ident.
Key = Tuple[str, int]
# What an event says: fflags, data, and whether with EOF.
Seen = Tuple[int, int, bool]


def key_of(it: Mapping[str, Any]) -> Key:
    return it["filter"], it["ident"]


def name_of(key: Key) -> str:
    return f"{key[0]} {key[1]}"


def nanoseconds(fflags: int, data: int) -> Optional[int]:
    """What a TIMER's data is in nanoseconds; none where it is refused."""
    unit = UNITS.get(fflags)
    if unit is None or data < 0 or data * unit > MOST_NANOSECONDS:
        return None
    return data * unit


@dataclasses.dataclass(eq=False)
class Knote:
    key: Key
    # What is watched, and that of which it is read: the end of a pipe, the description of a file.
    target: Hashable
    thing: Any
    sequence: int
    is_oneshot: bool
    is_clear: bool
    is_dispatch: bool
    fflags: int = 0
    data: int = 0
    udata: int = 0
    is_enabled: bool = True
    is_active: bool = False
    # What it heard since its last reset: notes, or how many deliveries or expirations.
    heard: int = 0
    start: int = 0
    # Of a TIMER; none is at a moment.
    period: Optional[int] = None
    moment: int = 0
    # The number of its alarm: an earlier one is passed over.
    alarm: int = 0
    bits: int = 0
    is_triggered: bool = False
    # The parent of a child that is followed, until that was told.
    notice: Optional[int] = None

    @property
    def is_waiting(self) -> bool:
        return self.is_active and self.is_enabled

    def look(self) -> Optional[Seen]:
        return LOOKS[self.key[0]](self)

    def flags(self) -> Tuple[str, ...]:
        has = {"ONESHOT": self.is_oneshot, "CLEAR": self.is_clear, "DISPATCH": self.is_dispatch}
        return tuple(name for name, is_set in has.items() if is_set)

    def event(self, seen: Seen) -> Dict[str, Any]:
        fflags, data, is_end = seen
        flags = [*self.flags(), *(["EOF"] if is_end else [])]
        name, ident = self.key
        return {"data": data, "fflags": fflags, "filter": name, "flags": flags, "ident": ident, "udata": self.udata}

    def settings(self) -> Tuple[Any, ...]:
        """What a change sets, as kqcheck compares it."""
        own = (self.data, self.udata, self.fflags, self.start, self.period, self.moment)
        return (self.is_active, *own, self.bits, self.is_triggered)

    def next_expiration(self, after: int) -> Optional[int]:
        """The first moment behind this one at which a TIMER expires."""
        if self.period is None:
            return self.moment if self.moment > after else None
        count = max(0, after - self.start) // self.period + 1
        at = self.start + count * self.period
        return None if (self.is_oneshot and count > 1) or at > MOST_NANOSECONDS else at

    def expirations(self, first: int, until: int) -> int:
        """How many there are from this first one to a moment."""
        if self.period is None or self.is_oneshot:
            return 1
        return (min(until, MOST_NANOSECONDS) - first) // self.period + 1

    def text(self) -> str:
        """How it stands, for a reader."""
        parts = [*self.flags()]
        parts += [f"{name} {value}" for name, value in (("fflags", self.fflags), ("data", self.data)) if value]
        parts += [f"udata {self.udata}"] if self.udata else []
        if self.key[0] == "USER":
            parts.append(f"bits {self.bits}" + (", triggered" if self.is_triggered else ""))
        parts += [f"heard {self.heard}"] if self.heard else []
        parts += [f"notice of parent {self.notice}"] if self.notice is not None else []
        return ", ".join(parts)


def look_at_read(it: Knote) -> Optional[Seen]:
    thing = it.thing
    if isinstance(thing, Description):
        data = thing.file.size - thing.offset
        return (0, data, False) if data else None
    if isinstance(thing, PipeEnd):
        is_end = not thing.pipe.writer.holders
        return (0, thing.pipe.waiting, is_end) if thing.pipe.waiting or is_end else None
    if thing.backlog is not None:
        return (0, thing.pending, False) if thing.pending else None
    return look_at_side(it, thing, "read", thing.waiting, True)


def look_at_side(it: Knote, socket: Socket, side: str, count: int, can_be: bool) -> Optional[Seen]:
    mark, error = it.data if it.fflags & LOWAT else socket.marks[side], socket.errors[side]
    if error is not None:
        return error, count, True
    return (0, count, False) if can_be and count >= mark else None


def look_at_write(it: Knote) -> Optional[Seen]:
    thing = it.thing
    if isinstance(thing, PipeEnd):
        pipe: Pipe = thing.pipe
        space, is_end = pipe.cap - pipe.waiting, not pipe.reader.holders
        return (0, space, is_end) if space >= min(PIPE_MARK, pipe.cap) or is_end else None
    if thing.backlog is not None:
        return None
    return look_at_side(it, thing, "write", thing.space, thing.is_connected)


def look_at_proc(it: Knote) -> Optional[Seen]:
    process: Process = it.thing
    if it.notice is not None:
        return CHILD, it.notice, False
    if not it.heard:
        return None
    return it.heard, (process.status or 0) if it.heard & EXIT else 0, process.status is not None


def look_at_count(it: Knote) -> Optional[Seen]:
    return (0, min(it.heard, MOST_COUNT), False) if it.heard else None


LOOKS: Dict[str, Callable[[Knote], Optional[Seen]]] = {
    "READ": look_at_read,
    "WRITE": look_at_write,
    "VNODE": lambda it: (it.heard, 0, False) if it.heard else None,
    "PROC": look_at_proc,
    "SIGNAL": look_at_count,
    "TIMER": look_at_count,
    "USER": lambda it: (it.bits, it.data, False) if it.is_triggered else None,
}
