"""Tests of kqcheck where a call could have returned other kevents: without an answer, at random, and among many."""
import json
import random
import time

import judge
from loop import TRIGGER, Loop, call, change, lines_of, ran, trace_of

SEED, TRACES = 20261201, 400
START = [{"op": "proc", "pid": 1}, {"op": "kqueue", "pid": 1, "fd": 9}]


def clear(ident):
    return {"ident": ident, "filter": "USER", "flags": ["CLEAR"]}


def two(*flags):
    return [change("USER", ident, "ADD", *flags, fflags=TRIGGER) for ident in (1, 2)]


def left_open(kqcheck, kqsim, folder):
    """A call without an answer, with less room than waits, leaves the order of its kqueue open, and of no other."""

    def said(*records, **answers):
        loop = Loop(kqcheck, kqsim, folder, trace_of(*START, *records))
        rows = [{"at": int(at[1:]), "events": events} for at, events in answers.items()]
        return ran(kqcheck, lines_of(rows), loop.path, "-")[:2]

    why = ": an earlier one has no answer, and could have returned others\n"
    pair = (call(*two("CLEAR"), room=0), call(room=1), call(room=4))
    status, text = said(*pair, _5=[clear(1)])
    yield "another order gives it", status == 8 and text.startswith(f"unknown: the call at 5 (line 6){why}  yours   USER 1")
    yield "this order gives it", said(*pair, _5=[clear(2)]) == (0, "equal\n")
    status, text = said(*pair, _4=[clear(1)], _5=[clear(1)])
    yield "with its answer none does", status == 1 and text.startswith("not allowed: the call at 5 (line 6)\n")
    gone = (*pair[:2], call(change("USER", 2, "DELETE"), room=0), call())
    yield "open, though nothing waits", said(*gone, _6=[clear(1)])[0] == 8
    for name, room in (("room for none", 0), ("room for all", 2), ("room for more", 3)):
        records = (call(*two("CLEAR"), room=0), call(room=room), call(), call())
        answers = {} if room else {"_5": [clear(1), clear(2)]}
        yield f"{name} leaves it known", said(*records, **answers, _6=[clear(1)])[0] == 1
    other = {"op": "kqueue", "pid": 1, "fd": 8}
    records = (*pair, other, {**call(*two(), room=8), "fd": 8})
    yield "another kqueue is known", said(*records, _7=[])[1].startswith("not allowed: the call at 7 (line 8)\n")
    again = (*pair, {"op": "close", "pid": 1, "fd": 9}, START[1], call(*two(), room=8))
    yield "a new one of its number is known", said(*again, _8=[])[1].startswith("not allowed: the call at 8 (line 9)\n")


def at_random(kqcheck, kqsim, folder):
    """Altered answers to random traces are judged as by all orders; where each call has an answer, to the place."""
    chance = random.Random(SEED)
    told = {"equal": 0, "allowed": 0, "not allowed": 0, "unknown": 0}
    for number in range(TRACES):
        records = judge.records_of(chance)
        loop = Loop(kqcheck, kqsim, folder, trace_of(*records))
        whole = loop.answers()
        yield f"trace {number}", judge.judged(records, whole) is None
        answers = judge.altered(chance, whole)
        text = loop.check(answers)[1]
        name = text.split(":")[0].strip()
        told[name] += 1
        wrong = judge.judged(records, answers)
        place = int(text.split(" at ")[1].split()[0]) if " at " in text else None
        right = {
            "equal": wrong is None,
            "allowed": wrong is None,
            "not allowed": wrong == place,
            "unknown": len(answers) < len(whole) and (wrong is None or wrong >= place),
        }
        yield f"altered {number}: {json.dumps(list(answers.values()))}: {text}", right[name]
    yield f"each was said {told}", min(told.values()) > 5


def at_length(kqcheck, kqsim, folder):
    """With many kevents a call with little room takes no longer than with few, and so does what is explained."""
    many, polls = 30_000, 60_000
    users = [change("USER", ident, "ADD", fflags=TRIGGER) for ident in range(many)]
    calls = [call(*users[at : at + 1_000], room=0) for at in range(0, many, 1_000)]
    loop = Loop(kqcheck, kqsim, folder, trace_of(*START, *calls, *[call(room=1)] * polls))
    began = time.monotonic()
    yield "equal", loop.check(loop.answers()) == (0, "equal\n", "")
    status, text, _ = ran(kqcheck, b"", "--explain", str(2 + len(calls) + polls), loop.path)
    yield "explained", status == 0 and text.count("in the queue, but the room was full\n") == many - 1
    yield "soon", time.monotonic() - began < 10
    often = trace_of(*START, call(*two(), room=0), *[call(room=2)] * 20)
    text = ran(kqcheck, often, "--explain", "23", "-")[1]
    last = "".join(f"          at {place} (kevent): returned, put at the back\n" for place in range(16, 24))
    yield "the last eight moments", text.count(f"returned\n          (13 earlier)\n{last}") == 2
