#!/usr/bin/env python3
"""A small event loop that writes a trace of itself: python3 examples/record.py [ANSWERS]

The trace goes to standard output. Where a file is named, what the loop answered by itself goes there, in the
form of a report. So this compares the loop with kevent(2), call by call, and prints `equal` where they agree:

    python3 examples/record.py own.report > own.trace
    crates/kqcheck/out/kqcheck own.trace own.report

It needs Python 3 and no kqueue. To record a loop of your own, take Recorder, and call it while you hold the lock
that puts your calls into an order.
"""
import contextlib
import json
import sys
import threading

NOTE_TRIGGER = 0x01000000
ENOENT = 2


class Recorder:
    """Writes a trace, and beside it a report of what the recorded program answered."""

    def __init__(self, trace, answers):
        self.trace, self.answers = trace, answers
        self.records = self.calls = self.events = 0
        write(trace, {"kqsim": 1})

    def record(self, **members):
        write(self.trace, members)
        self.records += 1

    def process(self, pid):
        self.record(op="proc", pid=pid)

    def kqueue(self, pid, fd):
        self.record(op="kqueue", pid=pid, fd=fd)

    def kevent(self, pid, fd, changes, room, events=(), failed=None):
        """A call of kevent(2): its changes, the room for events that it had, and the events that it returned.

        failed is the error number of a call that failed, which has made the changes before the one that failed. One
        that was interrupted has made all of them: its room is 0, and it returned no events.
        """
        self.record(op="kevent", pid=pid, fd=fd, changes=changes, room=room)
        if failed is None:
            write(self.answers, {"at": self.records, "events": list(events)})
            self.events += len(events)
        else:
            write(self.answers, {"at": self.records, "failed": failed})
        self.calls += 1

    def end(self):
        write(self.answers, {"calls": self.calls, "events": self.events, "records": self.records})


def write(out, line):
    out.write(json.dumps(line, separators=(",", ":")) + "\n")


class Loop:
    """Bells that any thread may ring, each with a number, and that one thread waits for.

    Over a kqueue each bell would be a USER kevent with CLEAR, and the number of its last ring the kevent's data.
    """

    def __init__(self, recorder, pid, fd):
        self.recorder, self.pid, self.fd = recorder, pid, fd
        self.changed = threading.Condition()
        self.is_waiting = threading.Event()
        self.bells = set()
        self.rung = {}  # the number of each bell that rings, in the order in which they began to
        recorder.process(pid)
        recorder.kqueue(pid, fd)

    def add(self, bell):
        with self.changed:
            self.call([{"ident": bell, "filter": "USER", "flags": ["ADD", "CLEAR"]}], 0)
            self.bells.add(bell)

    def ring(self, bell, number):
        """Rings a bell. One that was not added is ENOENT, and that call has a record too."""
        change = {"ident": bell, "filter": "USER", "flags": [], "fflags": NOTE_TRIGGER, "data": number}
        with self.changed:
            if bell not in self.bells:
                self.call([change], 0, failed=ENOENT)
                raise KeyError(bell)
            self.call([change], 0)
            self.rung[bell] = number
            self.changed.notify()

    def poll(self, room):
        """Takes at most so many bells, the first that began to ring. The lock is held."""
        bells = list(self.rung)[:room]
        rings = [(bell, self.rung.pop(bell)) for bell in bells]
        self.call([], room, [event(*ring) for ring in rings])
        return rings

    def wait(self, room):
        """Takes at most so many bells, once there is one.

        A call that waits is two records: a poll where it begins to wait, and one where it returns.
        """
        with self.changed:
            rings = self.poll(room)
            if not rings:
                self.is_waiting.set()
                self.changed.wait_for(lambda: self.rung)
                self.is_waiting.clear()
                rings = self.poll(room)
            return rings

    def call(self, changes, room, events=(), failed=None):
        self.recorder.kevent(self.pid, self.fd, changes, room, events, failed)


def event(bell, number):
    """An event as a report has it, members in the order of their names."""
    return {"data": number, "fflags": 0, "filter": "USER", "flags": ["CLEAR"], "ident": bell, "udata": 0}


def work(loop):
    """Rings two bells, and one that is not there, takes them, and then waits for one that another thread rings."""
    mail, disk, door = 1, 2, 3
    loop.add(mail)
    loop.add(disk)
    with contextlib.suppress(KeyError):
        loop.ring(door, 5)
    loop.ring(disk, 7)
    loop.ring(mail, 1)
    loop.ring(disk, 8)
    loop.wait(1)
    loop.wait(4)

    def ring_later():
        loop.is_waiting.wait()
        loop.ring(mail, 2)

    ringer = threading.Thread(target=ring_later)
    ringer.start()
    loop.wait(4)
    ringer.join()


def main():
    with open(sys.argv[1] if len(sys.argv) > 1 else "/dev/null", "w", encoding="ascii") as answers:
        recorder = Recorder(sys.stdout, answers)
        work(Loop(recorder, pid=1, fd=9))
        recorder.end()


if __name__ == "__main__":
    main()
