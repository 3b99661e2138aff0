"""A trace carried out record by record beside kqstep, and drawn into a picture.

kqstep's answers decide. What this module keeps besides them is derived by the rules of docs/MODEL.md, and each event
that it expects is held against the answer.
"""
from __future__ import annotations

from typing import Any, Dict, List, Mapping, Optional, Set, Tuple

from . import words
from .knotes import Key, Knote, name_of
from .kqueues import OF_DESCRIPTORS, Kqueue, System
from .objects import Description, File, Thing
from .picture import ACTIVE, DISABLED, HOLDS, QUEUED, REGISTERED, Picture
from .world import EXIT, Effect, Hint

Record = Mapping[str, Any]


class Run:
    def __init__(self, version: int, picture: Picture) -> None:
        self.system, self.picture = System(version), picture
        self.place, self.op = 0, ""
        self._clock = picture.line(picture.lane("clock", "the clock"), "text", "clock")
        self._lanes: Dict[int, int] = {}
        self._of_process: Dict[int, int] = {}
        self._of_descriptor: Dict[Tuple[int, int], int] = {}
        self._of_kevent: Dict[Tuple[Kqueue, Key], int] = {}
        self._of_file: Dict[int, int] = {}
        self._lane_of_files: Optional[int] = None
        # Of each kqueue the kevents whose last verdict may be wrong by now, and how its last call went on.
        self._stale: Dict[Kqueue, Dict[Key, None]] = {}
        self._outcomes: Dict[Kqueue, str] = {}
        picture.say(self._clock, 0, "0 ns")

    # ---- one record

    def step(self, record: Record, answer: Mapping[str, Any]) -> None:
        """Carries out a record that has this answer."""
        self.place, self.op = self.place + 1, record["op"]
        if "impossible" in answer:
            return
        if self.op == "kevent":
            self._call(record, answer)
        elif self.op == "kqueue":
            self._open_kqueue(record["pid"], record["fd"])
        else:
            self._tell(self.system.world.apply(record), record)

    def _open_kqueue(self, pid: int, fd: int) -> None:
        kq = Kqueue(self.place, pid, fd, self.system)
        self.system.kqueues[self.place] = kq
        self._lanes[self.place] = self.picture.lane("kqueue", f"kqueue {fd} of process {pid}, made at {self.place}")
        self.picture.lanes[-1].update(pid=pid, fd=fd, at=self.place)
        effect = Effect()
        self.system.world.open(effect, pid, fd, kq)
        self._say_things(effect)

    # ---- what a record tells

    def _tell(self, effect: Effect, record: Record) -> None:
        for pid, fd, thing in effect.closed:
            self._close(pid, fd, thing)
        self._hint(effect.hints)
        if self.op == "clock":
            self._expire(record["ns"])
        self._flush(words.RECORD, ())
        self._say_processes(record)
        self._say_things(effect)
        self._say_files(effect, record)
        for thing in effect.touched:
            for target in thing.targets():
                for knote, kq in self.system.watching.get(target, {}).items():
                    self._say_kevent(kq, knote.key)

    def _close(self, pid: int, fd: int, thing: Thing) -> None:
        for target in thing.targets():
            for knote, kq in list(self.system.watching.get(target, {}).items()):
                if kq.pid == pid and knote.key[1] == fd and knote.key[0] in OF_DESCRIPTORS:
                    kq.remove(knote)
        if isinstance(thing, Kqueue):
            thing.is_closed = True
            for knote in list(thing.knotes.values()):
                thing.remove(knote)
            del self.system.kqueues[thing.place]

    def _hint(self, hints: List[Hint]) -> None:
        heard: Dict[Knote, Kqueue] = {}
        exited: Set[Knote] = set()
        for hint in hints:
            if hint.is_child:
                continue
            for knote, kq in self.system.watching.get(hint.target, {}).items():
                if knote.key[0] in hint.filters:
                    kq.hear(knote, hint.value)
                    heard[knote] = kq
                    if knote.key[0] == "PROC" and hint.value & EXIT:
                        exited.add(knote)
        for knote in sorted(heard, key=lambda it: it.sequence):
            heard[knote].look_after_hints(knote, knote in exited)
        for hint in hints:
            if hint.is_child and self.system.version > 1:
                for knote, kq in list(self.system.watching.get(hint.target, {}).items()):
                    if knote.key[0] == "PROC" and knote.fflags & 1:
                        kq.follow(knote, hint.value)

    def _expire(self, until: int) -> None:
        for kq, knote, count in self.system.alarms.due(until):
            kq.touch(knote.key)
            knote.heard += count
            kq.activate_where_it_holds(knote)

    # ---- a call

    def _call(self, record: Record, answer: Mapping[str, Any]) -> None:
        kq = self.system.world.at(record["pid"], record["fd"])
        room = record["room"]
        outcome, events, error = kq.change_all(record["changes"], room)
        self._flush(words.CHANGES, ())
        looked = kq.looked_at(room) if outcome == words.READ else []
        named = [(it["filter"], it["ident"]) for it in record["changes"]]
        self._say_verdicts(kq, outcome, looked, named)
        if outcome == words.READ:
            events = kq.retrieve(looked)
            self._flush(words.READING, {(it["filter"], it["ident"]) for it in events})
        wanted = {"at": self.place, **({"failed": error} if outcome == words.FAILED else {"events": events})}
        if wanted != answer and self.picture.differs is None:
            self.picture.differs = self.place

    def _say_verdicts(self, kq: Kqueue, outcome: str, looked: List[Key], named: List[Key]) -> None:
        """Says of each kevent whose verdict may be another one what becomes of it in this call."""
        stale = self._stale.pop(kq, {})
        keys = dict.fromkeys([*stale, *looked, *named])
        if outcome != self._outcomes.get(kq):
            keys.update(kq.queue)
        self._outcomes[kq] = outcome
        looked_at = set(looked)
        for key in keys:
            text = words.verdict(kq.knotes.get(key), outcome, key in looked_at)
            self.picture.lines[self._kevent(kq, key)].verdict(self.place, self.picture.texts.number(text))
        self._stale[kq] = dict.fromkeys(looked)

    # ---- what is drawn

    def _flush(self, part: str, returned: Any) -> None:
        """Draws what a part of a record did to the kevents that it touched."""
        touched, self.system.touched_kqueues = self.system.touched_kqueues, {}
        for kq in touched:
            for key, before in kq.touched.items():
                step = words.step_of(part, before, kq.knotes.get(key), key in returned)
                if kq.is_closed:
                    step = words.KQUEUE_CLOSED
                if step:
                    self.picture.mark(self._kevent(kq, key), self.place, *step, self.op)
                self._say_kevent(kq, key)
            kq.touched = {}
            self._say_queue(kq)

    def _say_kevent(self, kq: Kqueue, key: Key) -> None:
        knote = kq.knotes.get(key)
        line = self.picture.lines[self._kevent(kq, key)]
        self._stale.setdefault(kq, {})[key] = None
        if knote is None:
            line.state(self.place, 0, self.picture.texts.number(""), line.order)
            return
        line.order = knote.sequence
        bits = REGISTERED | (0 if knote.is_enabled else DISABLED) | (ACTIVE if knote.is_active else 0)
        bits |= (QUEUED if key in kq.queue else 0) | (HOLDS if knote.look() is not None else 0)
        line.state(self.place, bits, self.picture.texts.number(knote.text()), knote.sequence)

    def _say_queue(self, kq: Kqueue) -> None:
        if not kq.moved:
            return
        back: List[int] = []
        for key in reversed(kq.queue):
            if key not in kq.moved:
                break
            back.append(self._kevent(kq, key))
        out = [self._kevent(kq, key) for key in kq.moved]
        self.picture.queues[self._lanes[kq.place]].move(self.place, out, back[::-1])
        kq.moved = {}

    def _kevent(self, kq: Kqueue, key: Key) -> int:
        if (kq, key) not in self._of_kevent:
            self._of_kevent[kq, key] = self.picture.line(self._lanes[kq.place], "kevent", name_of(key))
        return self._of_kevent[kq, key]

    def _say_things(self, effect: Effect) -> None:
        """The descriptors whose things are otherwise than before, and those that were closed."""
        for pid, fd, _ in effect.closed:
            self.picture.say(self._descriptor(pid, fd), self.place, "")
        for thing in effect.touched:
            for pid, fd in thing.holders:
                self.picture.say(self._descriptor(pid, fd), self.place, thing.text())

    def _descriptor(self, pid: int, fd: int) -> int:
        if (pid, fd) not in self._of_descriptor:
            self._of_descriptor[pid, fd] = self.picture.line(self._of_process[pid], "text", f"fd {fd}")
        return self._of_descriptor[pid, fd]

    def _say_processes(self, record: Record) -> None:
        """Processes and what was done to them, and the clock."""
        if self.op == "clock":
            self.picture.say(self._clock, self.place, time_text(record["ns"]))
        for pid in [record[name] for name in ("pid", "child") if name in record]:
            if pid not in self._of_process:
                self._of_process[pid] = self.picture.lane("process", f"process {pid}")
                self._of_descriptor[pid, -1] = self.picture.line(self._of_process[pid], "text", "process")
            process = self.system.world.processes[pid]
            self.picture.say(self._of_descriptor[pid, -1], self.place, process.text())
        marked = {"sig": "signal {sig}", "fork": "fork of {child}", "exec": "exec", "exit": "exit"}.get(self.op)
        if marked:
            text = marked.format(**record)
            self.picture.mark(self._of_descriptor[record["pid"], -1], self.place, "done", text, self.op)

    def _say_files(self, effect: Effect, record: Record) -> None:
        files: Set[File] = {it.file for it in effect.touched if isinstance(it, Description)}
        if "file" in record:
            files.add(self.system.world.files[record["file"]])
        for file in files:
            self.picture.say(self._file(file.number), self.place, file.text())
        if self.op in ("note", "truncate"):
            self.picture.mark(self._file(record["file"]), self.place, "done", record.get("note", self.op), self.op)

    def _file(self, number: int) -> int:
        if self._lane_of_files is None:
            self._lane_of_files = self.picture.lane("files", "files")
        if number not in self._of_file:
            self._of_file[number] = self.picture.line(self._lane_of_files, "text", f"file {number}")
        return self._of_file[number]


def time_text(ns: int) -> str:
    """A moment in its largest unit that keeps it whole."""
    for unit, size in (("s", 10**9), ("ms", 10**6), ("us", 10**3)):
        if ns and ns % size == 0:
            return f"{ns // size} {unit}"
    return f"{ns} ns"
