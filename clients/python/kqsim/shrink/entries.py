"""A trace with its answers, from which parts are taken."""
from __future__ import annotations

import json
from typing import Any, Dict, Iterable, List, NamedTuple, Optional, Sequence, Tuple

from ..view.programs import Stopped, lines_of


class Entry(NamedTuple):
    """A record as its line has it, and the answer that was recorded, without its place."""

    line: bytes
    answer: Optional[Dict[str, Any]] = None

    def record(self) -> Dict[str, Any]:
        record: Dict[str, Any] = json.loads(self.line)
        return record

    def with_members(self, **members: Any) -> Entry:
        """The same record with these members."""
        return self._replace(line=text_of({**self.record(), **members}))


Entries = Sequence[Entry]


def text_of(value: Any) -> bytes:
    return json.dumps(value, separators=(",", ":")).encode()


def read(trace: str, answers: Optional[str]) -> Tuple[bytes, List[Entry]]:
    """The header of a trace, and its entries."""
    header, *lines = lines_of(trace)
    entries = [Entry(line) for line in lines]
    for number, line in enumerate(lines_of(answers) if answers is not None else [], 1):
        try:
            answer = json.loads(line)
            place = answer.pop("at", None)
            if place is not None:
                entries[place - 1] = entries[place - 1]._replace(answer=answer)
        except (ValueError, AttributeError, TypeError, IndexError):
            raise Stopped(4, f"answers: line {number} is none of this trace") from None
    return header, entries


def trace_text(header: bytes, entries: Iterable[Entry]) -> bytes:
    return b"\n".join([header, *(it.line for it in entries), b""])


def answers_text(entries: Iterable[Entry]) -> bytes:
    """The answers, each at the place that its record has now."""
    placed = ((place, it.answer) for place, it in enumerate(entries, 1) if it.answer is not None)
    return b"".join(text_of({"at": place, **answer}) + b"\n" for place, answer in placed)
