"""What a page shows: lanes of lines, each with its states and marks by place."""
from __future__ import annotations

from typing import Any, Dict, List, Optional, Sequence

# How many marks of a line from before the first place are kept.
KEPT_MARKS = 8
REGISTERED, DISABLED, ACTIVE, QUEUED, HOLDS = 1, 2, 4, 8, 16

Row = List[Any]


class Texts:
    """Texts by number, each once."""

    def __init__(self) -> None:
        self.all: List[str] = []
        self._numbers: Dict[str, int] = {}

    def number(self, text: str) -> int:
        if text not in self._numbers:
            self._numbers[text] = len(self.all)
            self.all.append(text)
        return self._numbers[text]


class Line:
    """A line of the picture. A state, a verdict or a mark stands with its place; of what came before the first place
    of the picture the last state and verdict are kept, and a few marks."""

    def __init__(self, lane: int, kind: str, name: str, first: int) -> None:
        self.lane, self.kind, self.name, self._first = lane, kind, name, first
        # Of a kevent its rank in the order of registration.
        self.order = 0
        self.states: List[Row] = []
        self.verdicts: List[Row] = []
        self.marks: List[Row] = []

    def state(self, place: int, *state: int) -> None:
        self._put(self.states, place, state)

    def verdict(self, place: int, text: int) -> None:
        self._put(self.verdicts, place, (text,))

    def _put(self, rows: List[Row], place: int, values: Sequence[int]) -> None:
        if rows and rows[-1][1:] == list(values):
            return
        if rows and (rows[-1][0] == place or place < self._first):
            rows.pop()
        rows.append([place, *values])

    def mark(self, place: int, kind: str, text: int, op: str) -> None:
        self.marks.append([place, kind, text, op])
        if place < self._first and len(self.marks) > KEPT_MARKS:
            del self.marks[0]

    def is_seen(self) -> bool:
        """Whether something is said of it in the picture."""
        return any(row[1] for row in self.states) or bool(self.marks or self.verdicts)


class Queue:
    """The queue of one kqueue, by what a record took out and what it put at the back."""

    def __init__(self, first: int) -> None:
        self._first = first
        self.start: List[int] = []
        self.moves: List[Row] = []

    def move(self, place: int, out: List[int], back: List[int]) -> None:
        if place < self._first:
            gone = set(out)
            self.start = [it for it in self.start if it not in gone] + back
        else:
            self.moves.append([place, out, back])


class Picture:
    """The lines from one place to another."""

    def __init__(self, first: int, last: int) -> None:
        self.first, self.last = first, last
        self.texts = Texts()
        self.lanes: List[Dict[str, Any]] = []
        self.lines: List[Line] = []
        self.queues: Dict[int, Queue] = {}
        self.records: List[Row] = []
        self.differs: Optional[int] = None

    def lane(self, kind: str, title: str) -> int:
        self.lanes.append({"kind": kind, "title": title})
        if kind == "kqueue":
            self.queues[len(self.lanes) - 1] = Queue(self.first)
        return len(self.lanes) - 1

    def line(self, lane: int, kind: str, name: str) -> int:
        self.lines.append(Line(lane, kind, name, self.first))
        return len(self.lines) - 1

    def mark(self, line: int, place: int, kind: str, text: str, op: str) -> None:
        self.lines[line].mark(place, kind, self.texts.number(text), op)

    def say(self, line: int, place: int, text: str, *more: int) -> None:
        """A text as the state of a line; none is the empty one."""
        self.lines[line].state(place, self.texts.number(text) + 1 if text else 0, *more)

    def data(self) -> Dict[str, Any]:
        """All of it, for the page."""
        shown = [it for it, line in enumerate(self.lines) if line.is_seen()]
        numbers = {old: new for new, old in enumerate(shown)}
        lines = [line_data(self.lines[it]) for it in shown]
        queues = {lane: queue_data(queue, numbers) for lane, queue in self.queues.items()}
        return {
            "first": self.first,
            "texts": self.texts.all,
            "lanes": self.lanes,
            "lines": lines,
            "queues": queues,
            "records": self.records,
            "differs": self.differs,
        }


def line_data(line: Line) -> Dict[str, Any]:
    members = {"lane": line.lane, "kind": line.kind, "name": line.name, "states": line.states, "marks": line.marks}
    return {**members, "verdicts": line.verdicts} if line.kind == "kevent" else members


def queue_data(queue: Queue, numbers: Dict[int, int]) -> Dict[str, Any]:
    def renumbered(lines: List[int]) -> List[int]:
        return [numbers[it] for it in lines if it in numbers]

    moves = [[place, renumbered(out), renumbered(back)] for place, out, back in queue.moves]
    return {"start": renumbered(queue.start), "moves": moves}
