"""kqueue and kevent in the form of Python's select, over the real descriptors of this process."""
from __future__ import annotations

import contextlib
import importlib
import os
import select
import sys
from types import ModuleType
from typing import Any, Dict, Iterable, Iterator, List, Optional, Protocol, Tuple, Union

from .constants import CONSTANTS, FILTER_NAMES, FILTERS, FLAGS, flag_bits, flag_names
from .world import World, world

# The room of one call at most.
MOST_ROOM = 65536
# The changes of one call at most.
MOST_CHANGES = 1024
# What stands for a filter that has no name: it is refused, as that is.
UNNAMED = "EMPTY"


class HasFileno(Protocol):
    def fileno(self) -> int: ...


class kevent:
    """A change or an event, as select.kevent."""

    __slots__ = ("ident", "filter", "flags", "fflags", "data", "udata")

    def __init__(
        self,
        ident: Union[int, HasFileno],
        filter: int = FILTERS["READ"],
        flags: int = FLAGS["ADD"],
        fflags: int = 0,
        data: int = 0,
        udata: int = 0,
    ) -> None:
        self.ident = ident if isinstance(ident, int) else ident.fileno()
        self.filter, self.flags, self.fflags, self.data, self.udata = filter, flags, fflags, data, udata

    def _key(self) -> Tuple[int, ...]:
        return tuple(getattr(self, name) for name in self.__slots__)

    def __repr__(self) -> str:
        members = (f"{name}={getattr(self, name)}" for name in self.__slots__)
        return f"<select.kevent {' '.join(members)}>"

    def __eq__(self, other: object) -> bool:
        if not isinstance(other, kevent):
            return NotImplemented
        return self._key() == other._key()

    def __lt__(self, other: object) -> bool:
        if not isinstance(other, kevent):
            return NotImplemented
        return self._key() < other._key()

    def __le__(self, other: object) -> bool:
        if not isinstance(other, kevent):
            return NotImplemented
        return self._key() <= other._key()

    def __gt__(self, other: object) -> bool:
        if not isinstance(other, kevent):
            return NotImplemented
        return self._key() > other._key()

    def __ge__(self, other: object) -> bool:
        if not isinstance(other, kevent):
            return NotImplemented
        return self._key() >= other._key()

    __hash__ = None  # type: ignore[assignment]


def change_of(it: kevent) -> Dict[str, Any]:
    """The change of a trace that a kevent is."""
    if not isinstance(it, kevent):
        raise TypeError("changelist must be an iterable of select.kevent objects")
    return {
        "ident": it.ident & (1 << 64) - 1,
        "filter": FILTER_NAMES.get(it.filter, UNNAMED),
        "flags": flag_names(it.flags),
        "fflags": it.fflags & (1 << 32) - 1,
        "data": it.data,
        "udata": it.udata & (1 << 64) - 1,
    }


def event_of(event: Dict[str, Any], unnamed: Iterator[int]) -> kevent:
    """The kevent that an event of a report is. unnamed has the filters without a name, as they stand in the changes:
    each was refused, so their entries stand in that order."""
    name = event["filter"]
    return kevent(
        event["ident"],
        next(unnamed) if name == UNNAMED else FILTERS[name],
        flag_bits(event["flags"]),
        event["fflags"],
        event["data"],
        event["udata"],
    )


class kqueue:
    """A kqueue as select.kqueue. Its number is that of an epoll, in which stands what it watches."""

    def __init__(self) -> None:
        self._world: World = world()
        self._is_own = True
        self._number: Optional[int] = self._world.open_kqueue()

    @classmethod
    def fromfd(cls, fd: int) -> kqueue:
        it = cls.__new__(cls)
        it._number, it._is_own, it._world = fd, False, world()
        return it

    @property
    def closed(self) -> bool:
        """As on FreeBSD, a child has none of its parent's kqueues."""
        return self._number is None or self._world.pid != os.getpid()

    def fileno(self) -> int:
        if self._number is None or self.closed:
            raise ValueError("I/O operation on closed kqueue object")
        return self._number

    def close(self) -> None:
        if self._number is None or self.closed:
            return
        number, self._number = self._number, None
        if self._is_own:
            self._world.close_kqueue(number)

    def __del__(self) -> None:
        with contextlib.suppress(Exception):
            self.close()

    def control(
        self, changelist: Optional[Iterable[kevent]], max_events: int, timeout: Optional[float] = None
    ) -> List[kevent]:
        """As select.kqueue.control. Descriptors are sampled at each call, and again as the kernel reports edges."""
        number = self.fileno()
        if max_events < 0:
            raise ValueError(f"Length of eventlist must be 0 or positive, got {max_events}")
        if timeout is not None and timeout < 0:
            raise ValueError("timeout must be positive or None")
        kevents = list(changelist or ())
        changes = [change_of(it) for it in kevents]
        unnamed = iter([it.filter for it, change in zip(kevents, changes) if change["filter"] == UNNAMED])
        while len(changes) > MOST_CHANGES:
            # Without room: a change that is refused ends the call, so there are no entries to put together.
            self._world.call(number, changes[:MOST_CHANGES], 0, 0)
            changes = changes[MOST_CHANGES:]
        events = self._world.call(number, changes, min(max_events, MOST_ROOM), timeout)
        return [event_of(event, unnamed) for event in events]


def install() -> ModuleType:
    """Gives the module select a kqueue, and returns selectors, loaded anew, whose default is then KqueueSelector."""
    names: Dict[str, Any] = {"kqueue": kqueue, "kevent": kevent, **CONSTANTS}
    for name, value in names.items():
        setattr(select, name, value)
    sys.modules.pop("selectors", None)
    selectors = importlib.import_module("selectors")
    setattr(selectors, "DefaultSelector", selectors.KqueueSelector)
    return selectors
