"""One kqueue: its knotes and its queue, and what changes, calls and hints make of them (docs/MODEL.md)."""
from __future__ import annotations

import copy
import errno
import itertools
from typing import Any, Dict, Hashable, Iterable, List, Mapping, Optional, Tuple

from .knotes import ABSTIME, TRACK, TRIGGER, USER_BITS, Key, Knote, key_of, nanoseconds
from .objects import Description, PipeEnd, Thing
from .timing import Alarms
from .words import ENTRIES, FAILED, READ
from .world import EXIT, World

OF_DESCRIPTORS = ("READ", "WRITE", "VNODE")
SIMULATED = (*OF_DESCRIPTORS, "PROC", "SIGNAL", "TIMER", "USER")
ALWAYS_CLEAR = ("PROC", "SIGNAL", "TIMER")

Event = Dict[str, Any]
sequences = itertools.count(1)


class Kqueue(Thing):
    """watching has the knotes of each target, of all kqueues. touched has each key that a part of a record touched,
    with a copy of its knote before; moved those that left the queue or came to its back."""

    def __init__(self, place: int, pid: int, fd: int, system: System) -> None:
        super().__init__()
        self.place, self.pid, self.fd, self.system = place, pid, fd, system
        self.knotes: Dict[Key, Knote] = {}
        self.queue: Dict[Key, None] = {}
        self.touched: Dict[Key, Optional[Knote]] = {}
        self.moved: Dict[Key, None] = {}
        self.is_closed = False

    def targets(self) -> List[object]:
        return []

    def text(self) -> str:
        return "kqueue"

    # ---- the queue

    def touch(self, key: Key) -> None:
        if key not in self.touched:
            knote = self.knotes.get(key)
            self.touched[key] = copy.copy(knote) if knote else None
            self.system.touched_kqueues[self] = None

    def to_back(self, key: Key) -> None:
        self.moved[key] = self.queue[key] = None

    def out(self, key: Key) -> None:
        if key in self.queue:
            del self.queue[key]
            self.moved[key] = None

    def attach(self, knote: Knote) -> None:
        self.touch(knote.key)
        self.knotes[knote.key] = knote
        self.system.watching.setdefault(knote.target, {})[knote] = self

    def remove(self, knote: Knote) -> None:
        self.touch(knote.key)
        self.out(knote.key)
        del self.knotes[knote.key]
        watching = self.system.watching[knote.target]
        del watching[knote]
        if not watching:
            del self.system.watching[knote.target]

    def activate_where_it_holds(self, knote: Knote) -> None:
        """Looks at it: where its condition holds it becomes active, and goes to the back unless it is in the queue."""
        if not knote.is_active and knote.look() is not None:
            knote.is_active = True
        if knote.is_waiting and knote.key not in self.queue:
            self.to_back(knote.key)

    # ---- one change

    def refusal(self, change: Mapping[str, Any], flags: frozenset[str]) -> int:
        """The error of a change that is refused, else 0."""
        name, ident = key = key_of(change)
        table = self.system.world.processes[self.pid].table
        is_present = key in self.knotes
        if name not in SIMULATED or {"ENABLE", "DISABLE"} <= flags:
            return errno.EINVAL
        if name in OF_DESCRIPTORS and ident not in table:
            return errno.EBADF
        if "ADD" not in flags and not is_present:
            return errno.ENOENT
        if "ADD" not in flags or ("DELETE" in flags and is_present):
            return 0
        if name in OF_DESCRIPTORS:
            return 0 if takes(name, table[ident]) else errno.EINVAL
        if name == "PROC":
            return self.refusal_of_process(change, is_present)
        if name == "SIGNAL":
            return 0 if 1 <= ident <= 128 else errno.EINVAL
        if name == "TIMER":
            fflags = change.get("fflags", 0)
            fflags &= ~ABSTIME if self.system.version > 1 else -1
            return errno.EINVAL if nanoseconds(fflags, change.get("data", 0)) is None else 0
        return 0

    def refusal_of_process(self, change: Mapping[str, Any], is_present: bool) -> int:
        if change.get("fflags", 0) & TRACK and self.system.version == 1:
            return errno.EINVAL
        process = self.system.world.processes.get(change["ident"])
        is_live = process is not None and process.status is None
        return 0 if is_present or is_live else errno.ESRCH

    def register(self, change: Mapping[str, Any]) -> int:
        """Makes a change, and returns the error of one that is refused."""
        flags, key = frozenset(change["flags"]), key_of(change)
        error = self.refusal(change, flags)
        if error:
            return error
        knote = self.knotes.get(key)
        self.touch(key)
        if knote is not None and "DELETE" in flags:
            self.remove(knote)
            return 0
        is_new = knote is None
        if knote is None:
            knote = self.made(key, flags)
            self.attach(knote)
        self.set(knote, change, flags, is_new)
        if "DISABLE" in flags:
            knote.is_enabled = False
            self.out(key)
        elif "ENABLE" in flags or "ADD" in flags:
            knote.is_enabled = True
        if knote.is_enabled:
            self.activate_where_it_holds(knote)
        return 0

    def made(self, key: Key, flags: Iterable[str]) -> Knote:
        name, ident = key
        thing: Any = None
        target: Hashable = (self, key)
        if name in OF_DESCRIPTORS:
            thing = self.system.world.at(self.pid, ident)
            target = thing.file if name == "VNODE" else thing.targets()[0]
        elif name == "PROC":
            target = thing = self.system.world.processes[ident]
        elif name == "SIGNAL":
            target = (self.system.world.processes[self.pid], ident)
        is_clear = "CLEAR" in flags or name in ALWAYS_CLEAR
        return Knote(key, target, thing, next(sequences), "ONESHOT" in flags, is_clear, "DISPATCH" in flags)

    def set(self, knote: Knote, change: Mapping[str, Any], flags: Iterable[str], is_new: bool) -> None:
        """Takes over what a change sets."""
        name = knote.key[0]
        fflags, data = change.get("fflags", 0), change.get("data", 0)
        knote.udata = change.get("udata", 0)
        if "ADD" in flags:
            knote.fflags = fflags
        if "ADD" in flags or name == "USER":
            knote.data = data
        if name == "USER":
            knote.bits = fflags & USER_BITS if is_new else controlled(knote.bits, fflags)
            knote.is_triggered = knote.is_triggered or bool(fflags & TRIGGER)
        if name == "TIMER" and "ADD" in flags:
            self.start(knote)

    def start(self, knote: Knote) -> None:
        """A TIMER starts anew."""
        now = self.system.world.clock
        knote.heard, knote.is_active = 0, False
        self.out(knote.key)
        given = nanoseconds(knote.fflags & ~ABSTIME, knote.data)
        assert given is not None
        if knote.fflags & ABSTIME:
            knote.start, knote.period, knote.moment = 0, None, given
            knote.heard = 1 if given <= now else 0
        else:
            unit = nanoseconds(knote.fflags, 1) or 1
            knote.start, knote.period, knote.moment = now, given or unit, 0
        self.system.alarms.set(self, knote, now)

    # ---- one call

    def change_all(self, changes: Iterable[Mapping[str, Any]], room: int) -> Tuple[str, List[Event], int]:
        """Makes all changes: how the call goes on, its entries, and its error where it failed."""
        entries: List[Event] = []
        for change in changes:
            error = self.register(change)
            if not error and "RECEIPT" not in change["flags"]:
                continue
            if len(entries) >= room:
                return (FAILED, [], error) if error else (ENTRIES, entries, 0)
            name, ident = key_of(change)
            told = {"data": error, "fflags": change.get("fflags", 0), "filter": name, "flags": ["ERROR"]}
            entries.append({**told, "ident": ident, "udata": change.get("udata", 0)})
        return (ENTRIES if entries else READ), entries, 0

    def looked_at(self, room: int) -> List[Key]:
        """The keys at which a retrieval looks."""
        looked: List[Key] = []
        for key in self.queue:
            if room == 0:
                break
            looked.append(key)
            room -= self.knotes[key].look() is not None
        return looked

    def retrieve(self, looked: Iterable[Key]) -> List[Event]:
        """Looks at these keys, which stand in front, and delivers their events."""
        events: List[Event] = []
        for key in looked:
            knote = self.knotes[key]
            self.touch(key)
            self.out(key)
            seen = knote.look()
            if seen is None:
                knote.is_active = False
                continue
            events.append(knote.event(seen))
            self.deliver(knote)
        return events

    def deliver(self, knote: Knote) -> None:
        """What becomes of a knote whose event was delivered."""
        if knote.notice is not None:
            knote.notice = None
            knote.is_active = knote.look() is not None
        elif knote.is_oneshot:
            self.remove(knote)
            return
        elif knote.is_clear or knote.is_dispatch:
            knote.is_active = False
            if knote.is_clear:
                knote.heard, knote.is_triggered = 0, False
            if knote.is_dispatch:
                knote.is_enabled = False
        if knote.is_waiting:
            self.to_back(knote.key)

    # ---- what is told

    def hear(self, knote: Knote, value: int) -> None:
        """A hint for it: notes, of which it keeps what it asks for, or one delivery."""
        self.touch(knote.key)
        name = knote.key[0]
        if name in ("VNODE", "PROC"):
            knote.heard |= value & knote.fflags
            knote.is_oneshot = knote.is_oneshot or (name == "PROC" and bool(value & EXIT))
        elif name == "SIGNAL":
            knote.heard += 1

    def look_after_hints(self, knote: Knote, has_exited: bool) -> None:
        self.activate_where_it_holds(knote)
        if has_exited and not knote.heard and knote.notice is None:
            self.remove(knote)

    def follow(self, parent: Knote, child: int) -> None:
        """Makes the knote of a child."""
        key = ("PROC", child)
        if key in self.knotes:
            return
        knote = copy.copy(parent)
        knote.key, knote.sequence = key, next(sequences)
        knote.target = knote.thing = self.system.world.processes[child]
        knote.is_enabled = knote.is_active = True
        knote.heard, knote.notice = 0, parent.key[1]
        self.attach(knote)
        self.to_back(key)


class System:
    """What all kqueues of a trace share."""

    def __init__(self, version: int) -> None:
        self.version, self.world, self.alarms = version, World(), Alarms()
        self.kqueues: Dict[int, Kqueue] = {}
        self.watching: Dict[Hashable, Dict[Knote, Kqueue]] = {}
        self.touched_kqueues: Dict[Kqueue, None] = {}


def takes(name: str, thing: Thing) -> bool:
    """Whether a filter takes what a descriptor names."""
    if isinstance(thing, Kqueue):
        return False
    if name == "VNODE":
        return isinstance(thing, Description)
    if name == "WRITE" and isinstance(thing, Description):
        return False
    return not isinstance(thing, PipeEnd) or thing.is_writer == (name == "WRITE")


def controlled(bits: int, fflags: int) -> int:
    """The bits of a USER behind a later change."""
    given = fflags & USER_BITS
    return (bits, bits & given, bits | given, given)[fflags >> 30]
