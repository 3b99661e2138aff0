"""What a record does to the processes and what they have open, and whom it tells (docs/TRACE.md, Records)."""
from __future__ import annotations

import dataclasses
from typing import Any, Dict, Hashable, List, Mapping, Tuple

from .objects import Description, File, Pipe, PipeEnd, Process, Socket, Thing

NOTES = {"delete": 1, "write": 2, "extend": 4, "attrib": 8, "link": 16, "rename": 32, "revoke": 64}
OPEN, CLOSE, CLOSE_WRITE, READ = 128, 256, 512, 1024
EXIT, FORK, EXEC = 1 << 31, 1 << 30, 1 << 29
SIGCHLD = 20


@dataclasses.dataclass
class Hint:
    """What a record tells the kevents of a target: of which filters, and notes or the pid of a child."""

    target: Hashable
    filters: Tuple[str, ...]
    value: int = 0
    is_child: bool = False


@dataclasses.dataclass
class Effect:
    """What a record leaves to tell: descriptors that it closed, hints, and things that are otherwise than before."""

    closed: List[Tuple[int, int, Thing]] = dataclasses.field(default_factory=list)
    hints: List[Hint] = dataclasses.field(default_factory=list)
    touched: Dict[Thing, None] = dataclasses.field(default_factory=dict)

    def tell(self, target: Hashable, *filters: str, value: int = 0) -> None:
        self.hints.append(Hint(target, filters, value))

    def touch(self, *things: Thing) -> None:
        for thing in things:
            self.touched.update(dict.fromkeys(thing.related()))


class World:
    """Each method that ends in an underscore carries out the record of that name, which is known to be possible."""

    def __init__(self) -> None:
        self.processes: Dict[int, Process] = {}
        self.files: Dict[int, File] = {}
        self.clock = 0

    def apply(self, record: Mapping[str, Any]) -> Effect:
        effect = Effect()
        members = {name: value for name, value in record.items() if name != "op"}
        getattr(self, f"{record['op']}_")(effect, **members)
        return effect

    def at(self, pid: int, fd: int) -> Any:
        return self.processes[pid].table[fd]

    def open(self, effect: Effect, pid: int, fd: int, thing: Thing) -> None:
        self.processes[pid].table[fd] = thing
        thing.holders.add((pid, fd))
        effect.touch(thing)

    def close(self, effect: Effect, pid: int, fd: int) -> None:
        thing = self.processes[pid].table.pop(fd)
        effect.touch(thing)
        thing.holders.discard((pid, fd))
        effect.closed.append((pid, fd, thing))
        if thing.holders:
            return
        if isinstance(thing, PipeEnd):
            effect.tell(thing.pipe, "READ" if thing.is_writer else "WRITE")
        elif isinstance(thing, Description):
            thing.file.descriptions.remove(thing)
            effect.tell(thing.file, "VNODE", value=CLOSE_WRITE if "w" in thing.mode else CLOSE)

    # ---- processes

    def proc_(self, effect: Effect, pid: int) -> None:
        self.processes[pid] = Process(pid)

    def fork_(self, effect: Effect, pid: int, child: int) -> None:
        parent, made = self.processes[pid], Process(child)
        self.processes[child] = made
        made.ignored = set(parent.ignored)
        for fd, thing in parent.table.items():
            if isinstance(thing, (Socket, PipeEnd, Description)):
                self.open(effect, child, fd, thing)
        effect.tell(parent, "PROC", value=FORK)
        effect.hints.append(Hint(parent, ("PROC",), child, True))

    def exec_(self, effect: Effect, pid: int) -> None:
        effect.tell(self.processes[pid], "PROC", value=EXEC)

    def exit_(self, effect: Effect, pid: int, status: int) -> None:
        process = self.processes[pid]
        for fd in sorted(process.table):
            self.close(effect, pid, fd)
        process.status = status
        effect.tell(process, "PROC", value=EXIT)

    def sigset_(self, effect: Effect, pid: int, sig: int, ignore: bool) -> None:
        ignored = self.processes[pid].ignored
        ignored.add(sig) if ignore else ignored.discard(sig)

    def sig_(self, effect: Effect, pid: int, sig: int) -> None:
        if sig != SIGCHLD or sig not in self.processes[pid].ignored:
            effect.tell((self.processes[pid], sig), "SIGNAL")

    # ---- descriptors

    def dup_(self, effect: Effect, pid: int, fd: int, to: int) -> None:
        if fd == to:
            return
        thing = self.at(pid, fd)
        if to in self.processes[pid].table:
            self.close(effect, pid, to)
        self.open(effect, pid, to, thing)

    def close_(self, effect: Effect, pid: int, fd: int) -> None:
        self.close(effect, pid, fd)

    # ---- sockets

    def socket_(self, effect: Effect, pid: int, fd: int, rcv: int, snd: int) -> None:
        self.open(effect, pid, fd, Socket(rcv, snd, False))

    def listen_(self, effect: Effect, pid: int, fd: int, backlog: int) -> None:
        it = self.at(pid, fd)
        it.backlog = backlog
        effect.touch(it)

    def arrive_(self, effect: Effect, pid: int, fd: int) -> None:
        it = self.at(pid, fd)
        it.pending += 1
        effect.touch(it)
        effect.tell(it, "READ")

    def accept_(self, effect: Effect, pid: int, fd: int, to: int, rcv: int, snd: int) -> None:
        it = self.at(pid, fd)
        it.pending -= 1
        effect.touch(it)
        self.open(effect, pid, to, Socket(rcv, snd, True))

    def connect_(self, effect: Effect, pid: int, fd: int) -> None:
        it = self.at(pid, fd)
        it.is_connected = True
        effect.touch(it)
        effect.tell(it, "WRITE")

    def rx_(self, effect: Effect, pid: int, fd: int, n: int) -> None:
        it = self.at(pid, fd)
        it.waiting += n
        effect.touch(it)
        effect.tell(it, "READ")

    def tx_(self, effect: Effect, pid: int, fd: int, n: int) -> None:
        it = self.at(pid, fd)
        it.unsent -= n
        effect.touch(it)
        effect.tell(it, "WRITE")

    def shut_(self, effect: Effect, pid: int, fd: int, side: str, error: int) -> None:
        it = self.at(pid, fd)
        it.errors[side] = error
        effect.touch(it)
        effect.tell(it, side.upper())

    def lowat_(self, effect: Effect, pid: int, fd: int, side: str, n: int) -> None:
        it = self.at(pid, fd)
        it.marks[side] = n
        effect.touch(it)
        effect.tell(it, side.upper())

    # ---- pipes and files

    def pipe_(self, effect: Effect, pid: int, rfd: int, wfd: int, cap: int) -> None:
        pipe = Pipe(cap)
        self.open(effect, pid, rfd, pipe.reader)
        self.open(effect, pid, wfd, pipe.writer)

    def file_(self, effect: Effect, file: int, size: int) -> None:
        self.files[file] = File(file, size)

    def open_(self, effect: Effect, pid: int, fd: int, file: int, mode: str) -> None:
        it = self.files[file]
        self.open(effect, pid, fd, Description(it, mode))
        effect.tell(it, "VNODE", value=OPEN)

    def seek_(self, effect: Effect, pid: int, fd: int, offset: int) -> None:
        it = self.at(pid, fd)
        it.offset = offset
        effect.touch(it)
        effect.tell(it, "READ")

    def truncate_(self, effect: Effect, file: int, size: int) -> None:
        self._resize(effect, self.files[file], size, NOTES["attrib"])

    def _resize(self, effect: Effect, it: File, size: int, note: int) -> None:
        for description in it.descriptions:
            effect.touch(description)
            effect.tell(description, "READ")
        effect.tell(it, "VNODE", value=note | (NOTES["extend"] if size > it.size else 0))
        it.size = size

    def note_(self, effect: Effect, file: int, note: str) -> None:
        it = self.files[file]
        it.is_deleted = it.is_deleted or note == "delete"
        effect.touch(*it.descriptions)
        effect.tell(it, "VNODE", value=NOTES[note])

    # ---- reading and writing

    def read_(self, effect: Effect, pid: int, fd: int, n: int) -> None:
        it = self.at(pid, fd)
        effect.touch(it)
        if isinstance(it, Socket):
            it.waiting -= n
        elif isinstance(it, PipeEnd):
            it.pipe.waiting -= n
            effect.tell(it.pipe, "WRITE")
        else:
            it.offset += n
            effect.tell(it.file, "VNODE", value=READ)

    def write_(self, effect: Effect, pid: int, fd: int, n: int) -> None:
        it = self.at(pid, fd)
        effect.touch(it)
        if isinstance(it, Socket):
            it.unsent += n
        elif isinstance(it, PipeEnd):
            it.pipe.waiting += n
            effect.tell(it.pipe, "READ")
        else:
            it.offset += n
            end = max(it.file.size, it.offset) if n else it.file.size
            self._resize(effect, it.file, end, NOTES["write"])

    # ---- the clock

    def clock_(self, effect: Effect, ns: int) -> None:
        self.clock = ns
