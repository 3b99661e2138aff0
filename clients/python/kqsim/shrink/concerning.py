"""What of a trace concerns the kqueue of its last call: its private list, and the records that lead there."""
from __future__ import annotations

import re
from typing import Any, Callable, Dict, Iterable, List, NamedTuple, Optional, Set, Tuple

from .entries import Entries, Entry

AT = re.compile(rb'^\{"at":(\d+)', re.MULTILINE)
# Which records make what stands at a number, and the member that has the number.
MAKERS = {"kqueue": ("fd",), "socket": ("fd",), "pipe": ("rfd", "wfd"), "open": ("fd",), "accept": ("to",)}
# Filters whose ident is a number of the process.
NUMBERED = ("READ", "WRITE", "VNODE")


class Whole(NamedTuple):
    """What is known of the whole trace: the places of records that are impossible, and the private list of the kqueue
    that was made at a place, a line for each item, where it is known."""

    impossible: Set[int]
    private_list: Callable[[int], Optional[bytes]]


# A process, a file, or what numbers name: the places of the records that made it or used it, by number.
Thing = List[int]


class Uses:
    """Which things each record of a trace uses, in the order of the trace."""

    def __init__(self) -> None:
        self.of_record: List[List[Thing]] = [[]]
        self.processes: Dict[int, Thing] = {}
        self.files: Dict[int, Thing] = {}
        self.numbers: Dict[Tuple[int, int], List[Thing]] = {}

    def skip(self) -> None:
        """A record more that uses nothing."""
        self.of_record.append([])

    def add(self, record: Dict[str, Any]) -> None:
        """A record more."""
        place, op, pid = len(self.of_record), record["op"], record.get("pid")
        used = list(self.numbers.get((pid, record.get("fd")), [])) if op not in MAKERS or op == "accept" else []
        if "file" in record:
            used.append(self.files.setdefault(record["file"], []))
        made: Thing = []
        if op in MAKERS:
            for member in MAKERS[op]:
                self.numbers[pid, record[member]] = [made, *(used if op == "open" else [])]
            used.append(made)
        for thing in used:
            thing.append(place)
        self.of_record.append([*self._processes_of(place, record), *used, *self._named(record)])
        self._move(record)

    def _processes_of(self, place: int, record: Dict[str, Any]) -> Iterable[Thing]:
        """The process that a record is of, and that which it makes. What makes one and what it ignores matters."""
        op, pid = record["op"], record.get("pid")
        if pid is None:
            return
        process = self.processes.setdefault(pid, [])
        if op in ("proc", "sigset"):
            process.append(place)
        yield process
        if op == "fork":
            self.processes[record["child"]] = [place]

    def _named(self, record: Dict[str, Any]) -> Iterable[Thing]:
        """What the changes of a call name."""
        for change in record.get("changes", []):
            if change["filter"] in NUMBERED:
                yield from self.numbers.get((record["pid"], change["ident"]), [])
            elif change["filter"] == "PROC" and change["ident"] in self.processes:
                yield self.processes[change["ident"]]

    def _move(self, record: Dict[str, Any]) -> None:
        """Numbers that name something else from here on."""
        op, pid = record["op"], record.get("pid")
        if op == "close":
            self.numbers.pop((pid, record["fd"]), None)
        elif op == "dup" and (pid, record["fd"]) in self.numbers:
            self.numbers[pid, record["to"]] = self.numbers[pid, record["fd"]]
        elif op == "fork":
            copies = {(record["child"], fd): it for (owner, fd), it in self.numbers.items() if owner == pid}
            self.numbers.update(copies)

    def behind(self, places: Set[int]) -> Set[int]:
        """These places, and those of all records on what the records there use, and on what these use in turn."""
        found, pending = set(places), sorted(places)
        seen: Set[int] = set()
        while pending:
            for thing in self.of_record[pending.pop()]:
                if id(thing) not in seen:
                    seen.add(id(thing))
                    pending += [it for it in thing if it not in found]
                    found.update(thing)
        return found


def kqueue_of(uses: Uses, record: Dict[str, Any]) -> Optional[int]:
    """The place that made the kqueue of a call."""
    things = uses.numbers.get((record.get("pid"), record.get("fd")), [])
    return things[0][0] if record["op"] == "kevent" and things else None


def concerning(entries: Entries, whole: Whole) -> Optional[List[Entry]]:
    """Those entries that concern the kqueue of the last one, a call, in their order; none where no list is known."""
    uses = Uses()
    record: Dict[str, Any] = {"op": "none"}
    for place, entry in enumerate(entries, 1):
        if place in whole.impossible:
            uses.skip()
        else:
            record = entry.record()
            uses.add(record)
    kqueue = kqueue_of(uses, record) if len(entries) not in whole.impossible else None
    items = whole.private_list(kqueue) if kqueue is not None else None
    if items is None:
        return None
    places = uses.behind({len(entries), *(it for it in map(int, AT.findall(items)) if it < len(entries))})
    return [entry for place, entry in enumerate(entries, 1) if place in places]
