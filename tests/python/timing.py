"""Tests of the client's table of timers, against kqstep: no timer expires before the moment that the table tells."""
import random
import unittest

import kqsim
from kqsim.timers import Timers

FLAGS = [["ADD"], ["ADD", "ONESHOT"], ["ADD", "DISABLE"], ["ADD", "DISPATCH"], ["DISABLE"], ["ENABLE"], ["DELETE"], []]
UNITS = [0, 1, 2, 4, 8, 3, 16]
CHANGES = 400


def change_by(choice):
    """A change of one of three timers; some are refused."""
    return {
        "ident": choice.randrange(3),
        "filter": "TIMER",
        "flags": choice.choice(FLAGS),
        "fflags": choice.choice(UNITS),
        "data": choice.choice([0, 1, 2, 3, 7, 1000, -1, (1 << 63) - 1]),
        "udata": 0,
    }


class Table(unittest.TestCase):
    def test_moments(self):
        """(change, moment of the clock): when the table says that a timer expires next."""
        ms = 1_000_000
        rows = [
            ({"flags": ["ADD"], "data": 10}, 0, 10 * ms),
            ({"flags": ["ADD"], "data": 10}, 9 * ms, 10 * ms),
            ({"flags": ["ADD"], "data": 10}, 10 * ms, 20 * ms),
            ({"flags": ["ADD"], "data": 10}, 25 * ms, 30 * ms),
            ({"flags": ["ADD"], "data": 0}, 0, ms),
            ({"flags": ["ADD"], "data": 2, "fflags": 1}, 0, 2000 * ms),
            ({"flags": ["ADD"], "data": 2, "fflags": 4}, 0, 2000),
            ({"flags": ["ADD"], "data": 2, "fflags": 8}, 0, 2),
            ({"flags": ["ADD"], "data": 2, "fflags": 3}, 0, None),
            ({"flags": ["ADD"], "data": -1}, 0, None),
            ({"flags": ["ADD", "ONESHOT"], "data": 10}, 9 * ms, 10 * ms),
            ({"flags": ["ADD", "ONESHOT"], "data": 10}, 10 * ms, None),
            ({"flags": ["ADD", "DISABLE"], "data": 10}, 0, None),
            ({"flags": ["ENABLE"], "data": 10}, 0, None),
        ]
        for change, after, wanted in rows:
            with self.subTest(change=change, after=after):
                timers = Timers()
                timers.change({"ident": 1, "fflags": 0, **change}, 0)
                self.assertEqual(timers.next(after), wanted)

    def test_random_changes(self):
        """At the moment told by the table a timer expires, and a nanosecond before it none does."""
        choice = random.Random(7)
        timers, now, told = Timers(), 0, 0
        with kqsim.Sim() as sim:
            sim.proc(1)
            sim.kqueue(1, 9)
            for _ in range(CHANGES):
                change = change_by(choice)
                try:
                    sim.kevent(1, 9, [change])
                except OSError:
                    pass
                timers.change(change, now)
                self.drain(sim, timers)
                due = timers.next(now)
                if due is None or due > 1 << 60:
                    now += choice.randrange(1000)
                    sim.clock(now)
                    self.assertEqual(self.drain(sim, timers), [])
                    continue
                if due - 1 > now:
                    sim.clock(due - 1)
                    self.assertEqual(self.drain(sim, timers), [])
                now = due
                sim.clock(now)
                self.assertNotEqual(self.drain(sim, timers), [])
                told += 1
        self.assertGreater(told, CHANGES // 4)

    def drain(self, sim, timers):
        events = sim.kevent(1, 9, room=8)
        for event in events:
            timers.delivered(event)
        return events


if __name__ == "__main__":
    unittest.main()
