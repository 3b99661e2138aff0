"""The names of the trace, and the numbers of FreeBSD's <sys/event.h> for them."""
from __future__ import annotations

from typing import Dict, Iterable, List

FILTERS: Dict[str, int] = {
    "READ": -1,
    "WRITE": -2,
    "AIO": -3,
    "VNODE": -4,
    "PROC": -5,
    "SIGNAL": -6,
    "TIMER": -7,
    "PROCDESC": -8,
    "FS": -9,
    "LIO": -10,
    "USER": -11,
    "SENDFILE": -12,
    "EMPTY": -13,
}

FLAGS: Dict[str, int] = {
    "ADD": 0x0001,
    "DELETE": 0x0002,
    "ENABLE": 0x0004,
    "DISABLE": 0x0008,
    "ONESHOT": 0x0010,
    "CLEAR": 0x0020,
    "RECEIPT": 0x0040,
    "DISPATCH": 0x0080,
    "ERROR": 0x4000,
    "EOF": 0x8000,
}

FILTER_NAMES: Dict[int, str] = {number: name for name, number in FILTERS.items()}

# What select has where there is a kqueue.
CONSTANTS: Dict[str, int] = {
    **{f"KQ_FILTER_{name}": FILTERS[name] for name in ("READ", "WRITE", "AIO", "VNODE", "PROC", "SIGNAL", "TIMER")},
    **{f"KQ_EV_{name}": bits for name, bits in FLAGS.items() if name not in ("RECEIPT", "DISPATCH")},
    "KQ_EV_SYSFLAGS": 0xF000,
    "KQ_EV_FLAG1": 0x2000,
    "KQ_NOTE_LOWAT": 0x0001,
    "KQ_NOTE_DELETE": 0x0001,
    "KQ_NOTE_WRITE": 0x0002,
    "KQ_NOTE_EXTEND": 0x0004,
    "KQ_NOTE_ATTRIB": 0x0008,
    "KQ_NOTE_LINK": 0x0010,
    "KQ_NOTE_RENAME": 0x0020,
    "KQ_NOTE_REVOKE": 0x0040,
    "KQ_NOTE_EXIT": 0x80000000,
    "KQ_NOTE_FORK": 0x40000000,
    "KQ_NOTE_EXEC": 0x20000000,
    "KQ_NOTE_PCTRLMASK": 0xF0000000,
    "KQ_NOTE_PDATAMASK": 0x000FFFFF,
    "KQ_NOTE_TRACK": 0x00000001,
    "KQ_NOTE_CHILD": 0x00000004,
    "KQ_NOTE_TRACKERR": 0x00000002,
}


def flag_names(bits: int) -> List[str]:
    """The names of the flags among bits; those that have none do nothing in a change."""
    return [name for name, bit in FLAGS.items() if bits & bit]


def flag_bits(names: Iterable[str]) -> int:
    return sum(FLAGS[name] for name in names)
