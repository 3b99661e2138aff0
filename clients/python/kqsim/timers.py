"""The TIMER kevents of one kqueue: when the next one expires.

kqstep tells what has expired, and cannot be asked when the next timer will, so a call that waits would not know for
how long. This is a shadow of what kqstep knows, and used for nothing but that.
"""
from __future__ import annotations

import dataclasses
from typing import Any, Dict, Mapping, Optional

# The unit of data in nanoseconds, by fflags.
UNITS = {0: 10**6, 1: 10**9, 2: 10**6, 4: 10**3, 8: 1}
MOST_NANOSECONDS = (1 << 63) - 1


def period_of(change: Mapping[str, Any]) -> Optional[int]:
    """The period that a change asks for, in nanoseconds; none where it is refused."""
    unit = UNITS.get(change["fflags"])
    if unit is None or change["data"] < 0:
        return None
    period = (change["data"] or 1) * unit
    return period if period <= MOST_NANOSECONDS else None


@dataclasses.dataclass
class Timer:
    """It expires at the moments start + k * period, k from 1; only the first where it is for once."""

    start: int
    period: int
    is_once: bool
    is_enabled: bool = True

    def next(self, after: int) -> Optional[int]:
        """The first moment behind this one at which it expires, and can be told."""
        count = max(0, after - self.start) // self.period + 1
        if not self.is_enabled or (self.is_once and count > 1):
            return None
        return self.start + count * self.period


class Timers:
    """Timers by their idents."""

    def __init__(self) -> None:
        self._timers: Dict[int, Timer] = {}

    def __bool__(self) -> bool:
        return bool(self._timers)

    def change(self, change: Mapping[str, Any], now: int) -> None:
        """Follows a change of a TIMER, made at this moment."""
        ident, flags = change["ident"], change["flags"]
        if "DELETE" in flags:
            self._timers.pop(ident, None)
            return
        if "ADD" in flags:
            period = period_of(change)
            if period is None:
                return
            before = self._timers.get(ident)
            is_once = before.is_once if before else "ONESHOT" in flags
            self._timers[ident] = Timer(now, period, is_once)
        timer = self._timers.get(ident)
        if timer and "DISABLE" in flags:
            timer.is_enabled = False
        elif timer and "ENABLE" in flags:
            timer.is_enabled = True

    def delivered(self, event: Mapping[str, Any]) -> None:
        """Follows an event of a TIMER."""
        if "ONESHOT" in event["flags"]:
            self._timers.pop(event["ident"], None)
        elif "DISPATCH" in event["flags"] and event["ident"] in self._timers:
            self._timers[event["ident"]].is_enabled = False

    def next(self, after: int) -> Optional[int]:
        """The first moment behind this one at which any expires."""
        moments = [timer.next(after) for timer in self._timers.values()]
        return min((moment for moment in moments if moment is not None), default=None)
