"""Traces at random, of all kinds of records, by a seed."""
import json
import random

FLAGS = ["ADD"] * 6 + ["DELETE", "ENABLE", "DISABLE", "ONESHOT", "CLEAR", "DISPATCH", "RECEIPT"]
FFLAGS = {
    "READ": [0, 0, 1],
    "WRITE": [0, 0, 1],
    "VNODE": [0x7FF, 0x7FF, 1, 6, 768],
    "PROC": [0xE0000000, 1 << 31, 1 << 30, 0xE0000001, 1 | 1 << 31],
    "SIGNAL": [0],
    "TIMER": [0, 8, 8, 4, 24, 16, 3],
    "USER": [0, 1 << 24, 1 << 24 | 5, 0xC0000003, 1 << 31 | 1 << 24 | 6, 1 << 30 | 3],
    "AIO": [0],
}
PIDS, NUMBERS, FILES = (1, 1, 1, 2, 3), range(3, 10), range(3)


class Maker:
    def __init__(self, seed):
        self.some, self.now = random.Random(seed), 0

    def one(self, values):
        return self.some.choice(list(values))

    def change(self):
        name = self.one(FFLAGS)
        idents = {"PROC": PIDS, "SIGNAL": (1, 20), "USER": (1, 2, 3), "TIMER": (1, 2, 3)}.get(name, NUMBERS)
        flags = sorted({self.one(FLAGS) for _ in range(self.some.randint(0, 3))})
        data = self.one((0, 1, 2, 5, 700)) if name != "TIMER" else self.one((0, 1, 3, 7, 50, -1))
        members = {"ident": self.one(idents), "filter": name, "flags": flags, "udata": self.one((0, 9))}
        return {**members, "fflags": self.one(FFLAGS[name]), "data": data}

    def call(self):
        changes = [self.change() for _ in range(self.one((0, 0, 1, 1, 2, 4)))]
        return {"fd": self.one((3, 4)), "changes": changes, "room": self.one((0, 1, 2, 8))}

    def clock(self):
        self.now += self.one((0, 1, 5, 40, 10**6, 7 * 10**6))
        return {"ns": self.now}

    def record(self):
        """A record that may be impossible, as most numbers are open at times."""
        size = {"rcv": 20, "snd": self.one((20, 4000))}
        fd, n = {"fd": self.one(NUMBERS)}, {"n": self.one((0, 1, 1, 2, 5))}
        file, side = {"file": self.one(FILES)}, {"side": self.one(("read", "write"))}
        members = {
            "fork": {"child": self.one(range(2, 8))},
            "exit": {"status": self.one((0, 256))},
            "exec": {},
            "sigset": {"sig": 20, "ignore": self.one((True, False))},
            "sig": {"sig": self.one((1, 20))},
            "kqueue": fd,
            "dup": {**fd, "to": self.one(NUMBERS)},
            "close": fd,
            "socket": {**fd, **size},
            "listen": {**fd, "backlog": 3},
            "arrive": fd,
            "accept": {**fd, "to": self.one(NUMBERS), **size},
            "connect": fd,
            "rx": {**fd, **n},
            "tx": {**fd, **n},
            "shut": {**fd, **side, "error": self.one((0, 54))},
            "lowat": {**fd, **side, "n": self.one((1, 3, 20))},
            "pipe": {"rfd": self.one(NUMBERS), "wfd": self.one(NUMBERS), "cap": self.one((4, 600))},
            "open": {**fd, **file, "mode": self.one(("r", "w", "rw"))},
            "seek": {**fd, "offset": self.one((0, 2, 9))},
            "read": {**fd, **n},
            "write": {**fd, **n},
        }
        alone = {"clock": self.clock, "kevent": self.call}
        others = {
            "file": {**file, "size": self.one((0, 5))},
            "truncate": {**file, "size": self.one((0, 3, 9))},
            "note": {**file, "note": self.one(("attrib", "link", "rename", "revoke", "attrib", "link", "delete"))},
        }
        op = self.one([*members, *others, "read", "write", "rx", "tx", *["clock"] * 3, *["kevent"] * 12])
        if op in others:
            return {"op": op, **others[op]}
        if op == "clock":
            return {"op": op, **self.clock()}
        if op == "exit" and self.some.random() < 0.7:
            op = "exec"
        pid = self.one(PIDS) if op != "exit" else self.one((2, 3, 4, 5))
        return {"op": op, "pid": pid, **(alone[op]() if op in alone else members[op])}


def trace(seed, count):
    """The bytes of a trace of so many records, of either version."""
    maker = Maker(seed)
    start = [{"op": "proc", "pid": 1}, {"op": "kqueue", "pid": 1, "fd": 3}, {"op": "fork", "pid": 1, "child": 2}]
    records = [{"kqsim": 1 + seed % 2}, *start, *(maker.record() for _ in range(count - len(start)))]
    return b"".join(json.dumps(it, separators=(",", ":")).encode() + b"\n" for it in records)
