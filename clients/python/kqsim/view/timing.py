"""The TIMER kevents of all kqueues, by the moment at which each expires next."""
from __future__ import annotations

import heapq
import itertools
from typing import TYPE_CHECKING, List, Tuple

from .knotes import Knote

if TYPE_CHECKING:
    from .kqueues import Kqueue


class Alarms:
    """A heap of moments; one whose timer has gone or started anew is passed over."""

    def __init__(self) -> None:
        self._heap: List[Tuple[int, int, Kqueue, Knote]] = []
        self._numbers = itertools.count(1)

    def set(self, kq: Kqueue, knote: Knote, after: int) -> None:
        at, knote.alarm = knote.next_expiration(after), next(self._numbers)
        if at is not None:
            heapq.heappush(self._heap, (at, knote.alarm, kq, knote))

    def due(self, until: int) -> List[Tuple[Kqueue, Knote, int]]:
        """The timers that expire up to a moment, in the order in which they first do, and how often."""
        found = []
        while self._heap and self._heap[0][0] <= until:
            at, alarm, kq, knote = heapq.heappop(self._heap)
            if kq.knotes.get(knote.key) is knote and knote.alarm == alarm:
                found.append((at, kq.place, knote.sequence, kq, knote))
        found.sort(key=lambda it: it[:3])
        for _, _, _, kq, knote in found:
            self.set(kq, knote, until)
        return [(kq, knote, knote.expirations(at, until)) for at, _, _, kq, knote in found]
