"""What became of a kevent, in the words of kqcheck --explain."""
from __future__ import annotations

from typing import Optional, Tuple

from .knotes import Knote

CHANGES, READING, RECORD = "changes", "reading", "record"
FAILED, ENTRIES, READ = "failed", "entries", "read"

RETURNED = "returned"
NOT_REGISTERED, DISABLED = "not registered", "disabled"
IDLE = "in the queue, but its condition holds no more"
NOT_ACTIVE = "not active; its condition does not hold"
SINCE_RESET = "not active; its condition holds, but nothing was told since CLEAR reset it"
SINCE_LOOKED_AT = "not active; its condition holds, but nothing was told since it was looked at"
IN_QUEUE = {
    READ: "in the queue, but the room was full",
    ENTRIES: "in the queue, but entries were placed",
    FAILED: "in the queue, but the call failed",
}

# A kind of mark, and what is said of it.
Step = Tuple[str, str]

# These kqcheck does not tell: nothing became of the kevent, or its kqueue is no more.
TOLD_AGAIN = ("heard", "told again, it was active already")
TOLD_IN_VAIN = ("heard", "told, the condition did not hold")
KQUEUE_CLOSED = ("gone", "deleted, its kqueue was closed")


def step_of(part: str, before: Optional[Knote], after: Optional[Knote], is_returned: bool) -> Optional[Step]:
    """What a part of a record made of a kevent; none where nothing."""
    if before is None:
        return None if after is None else registered(part, after)
    if after is None:
        return removed(part, before)
    if part == CHANGES:
        return changed(before, after)
    if part == READING:
        return read(before, after, is_returned)
    return told(before, after)


def registered(part: str, after: Knote) -> Step:
    if part == RECORD:
        return "registered", "registered for the child, with a notice: put at the back"
    if not after.is_enabled:
        return "registered", "registered, disabled"
    return "registered", f"registered, the condition {'held: put at the back' if after.is_active else 'did not hold'}"


def removed(part: str, before: Knote) -> Step:
    if part == CHANGES:
        return "gone", "deleted by DELETE"
    if part == READING:
        return "oneshot", "returned, deleted by ONESHOT"
    if before.key[0] == "PROC":
        return "gone", "deleted, the process exited and there was nothing to tell"
    return "gone", "deleted, its number was closed"


def changed(before: Knote, after: Knote) -> Optional[Step]:
    if before.is_enabled != after.is_enabled:
        if not after.is_enabled:
            return "disabled", "disabled"
        return "enabled", f"enabled, the condition {'held: put at the back' if after.is_active else 'did not hold'}"
    if after.is_waiting and not before.is_waiting:
        return "changed", "changed, the condition held: put at the back"
    return None if before.settings() == after.settings() else ("changed", "changed")


def read(before: Knote, after: Knote, is_returned: bool) -> Optional[Step]:
    if not is_returned:
        gone = before.is_waiting and not after.is_waiting
        return ("idle", "looked at, its condition held no more: left the queue") if gone else None
    if before.notice is not None:
        return "returned", "returned, its notice was told"
    if not after.is_enabled:
        return "dispatched", "returned, disabled by DISPATCH"
    if not after.is_active:
        return "cleared", "returned, reset by CLEAR"
    return "returned", "returned, put at the back"


def told(before: Knote, after: Knote) -> Optional[Step]:
    if before.is_active:
        return TOLD_AGAIN
    if not after.is_active:
        return TOLD_IN_VAIN
    how = "put at the back" if after.is_enabled else ""
    return "told", f"told, the condition held: {how}" if how else "told, the condition held, but it was disabled"


def verdict(knote: Optional[Knote], outcome: str, is_looked_at: bool) -> str:
    """What became of a kevent in a call, as its changes left it."""
    if knote is None:
        return NOT_REGISTERED
    if not knote.is_enabled:
        return DISABLED
    holds = knote.look() is not None
    if not knote.is_active:
        return (SINCE_RESET if knote.is_clear else SINCE_LOOKED_AT) if holds else NOT_ACTIVE
    if outcome != READ or not is_looked_at:
        return IN_QUEUE[outcome]
    return RETURNED if holds else IDLE
