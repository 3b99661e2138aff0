"""What is tried, so that little is left of a trace: each result is tested, and kept where the test passes."""
from __future__ import annotations

from typing import Any, Callable, Iterator, List, Optional, Sequence, TypeVar

from .concerning import Whole, concerning
from .entries import Entries, Entry

Item = TypeVar("Item")
# What is left where a test passes, which may be less than was tested; else none.
Test = Callable[[List[Entry]], Optional[List[Entry]]]
# The rooms that are tried for a call, the first one that will do.
ROOMS = (0, 1, 2, 4, 8, 16, 64, 256)


def without_parts(items: List[Item], test: Callable[[List[Item]], Optional[List[Item]]]) -> List[Item]:
    """Takes out parts, of half of all items and then of fewer, until none can be spared."""
    size = max(1, len(items) // 2)
    while items:
        start, is_less = 0, False
        while start < len(items):
            left = test([*items[:start], *items[start + size :]])
            if left is None:
                start += size
            else:
                items, is_less = left, True
        if size == 1 and not is_less:
            break
        size = max(1, min(size // 2, len(items) // 2))
    return items


def put(entries: Entries, at: int, entry: Entry) -> List[Entry]:
    return [*entries[:at], entry, *entries[at + 1 :]]


def within(entries: List[Entry], test: Test) -> List[Entry]:
    """The same of what single records have: their changes, their room, and the events of their answers."""
    at = 0
    while at < len(entries):
        for step in (fewer_changes, less_room, fewer_events):
            entries = step(entries, at, test)
        at += 1
    return entries


def parts_of(
    entries: List[Entry], at: int, test: Test, items: List[Any], made: Callable[[List[Any]], Entry]
) -> List[Entry]:
    """Spares some of a list within one record. The entries around it stay as they are."""

    def tested(left: List[Any]) -> Optional[List[Any]]:
        return left if test(put(entries, at, made(left))) is not None else None

    left = without_parts(items, tested)
    return put(entries, at, made(left)) if len(left) < len(items) else entries


def fewer_changes(entries: List[Entry], at: int, test: Test) -> List[Entry]:
    entry = entries[at]
    changes = entry.record().get("changes", [])
    return parts_of(entries, at, test, changes, lambda left: entry.with_members(changes=left))


def fewer_events(entries: List[Entry], at: int, test: Test) -> List[Entry]:
    entry = entries[at]
    events = (entry.answer or {}).get("events", [])
    return parts_of(entries, at, test, events, lambda left: entry._replace(answer={"events": left}))


def less_room(entries: List[Entry], at: int, test: Test) -> List[Entry]:
    room = entries[at].record().get("room", 0)
    for less in ROOMS:
        if less >= room:
            break
        tried = put(entries, at, entries[at].with_members(room=less))
        if test(tried) is not None:
            return tried
    return entries


def without_answers(entries: Entries) -> List[Entry]:
    """No answers but that of the last entry; a call without one is answered by the rules."""
    return [*(it._replace(answer=None) for it in entries[:-1]), *entries[-1:]]


def first_tried(entries: List[Entry], wrong: int, whole: Whole) -> Iterator[List[Entry]]:
    """What is tried first, the least of it at the start: what concerns the kqueue of the wrong call, and all before."""
    until = entries[:wrong]
    concerned = concerning(until, whole)
    if concerned is not None and len(concerned) < len(until):
        yield without_answers(concerned)
        yield concerned
    yield without_answers(until)
    yield until


def shrunk(entries: List[Entry], wrong: Optional[int], whole: Whole, test: Test) -> List[Entry]:
    """What is left of entries that pass the test. wrong is the place of the wrong answer, where one is known."""
    if wrong is not None:
        entries = next(filter(None, map(test, first_tried(entries, wrong, whole))), entries)
        # An answer that names few kevents is wrong for the same reason after more other records.
        entries = fewer_events(entries, len(entries) - 1, test)
    while True:
        before: Sequence[Entry] = entries
        entries = within(without_parts(entries, test), test)
        if entries == before:
            return entries
