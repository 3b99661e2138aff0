"""What the runs of one program took, as the kernel counts it."""
import os
import subprocess
import sys
import time

import traces


class Measure:
    """The shortest time, in seconds, by the processor and by the clock, and the greatest peak memory, in bytes, of
    some runs of one program, which may use these processors alone (all, where none are given).

    What a timed run writes goes to /dev/null: to put it on a disk is no work of the program's.
    """

    def __init__(self, words, given, taken, processors=None):
        self.words, self.given, self.taken, self.processors = words, given, taken, processors
        self.seconds, self.clock, self.peak = float("inf"), float("inf"), 0

    def _keep_to_processors(self):
        os.sched_setaffinity(0, self.processors)

    def _ended(self, taken):
        with open(self.given, "rb") as source, open(taken, "wb") as sink:
            child = subprocess.Popen(self.words, stdin=source, stdout=sink, preexec_fn=self.processors and self._keep_to_processors)
            _, status, used = os.wait4(child.pid, 0)
        child.returncode = os.waitstatus_to_exitcode(status)
        if child.returncode:
            sys.exit(f"{self.words[0]} ended with status {child.returncode}")
        return used

    def write(self):
        """Runs the program once untimed, and leaves what it writes in the file."""
        self._ended(self.taken)

    def run(self):
        """Runs the program once more, timed."""
        begun = time.perf_counter()
        used = self._ended(os.devnull)
        self.clock = min(self.clock, time.perf_counter() - begun)
        self.seconds = min(self.seconds, used.ru_utime + used.ru_stime)
        self.peak = max(self.peak, used.ru_maxrss * 1024)


def last_line(path):
    with open(path, "rb") as file:
        file.seek(max(0, os.path.getsize(path) - 200))
        return file.read().splitlines()[-1]


def marginal(room, kqsim, lines, before, lengths, repeats, version=1):
    """Returns what a record costs, in seconds, behind the first `before` of a trace that is cut at each of these
    lengths, and the run itself.

    `lines` is called for the lines of the trace. The runs go by turns, and the shortest time of each counts.
    """
    def ran(records):
        each = Measure([kqsim, "replay", "-"], f"{room}/{records}", f"{room}/{records}.report")
        traces.write(each.given, lines(), records, version)
        each.write()
        with open(each.taken, "rb") as report:
            is_possible = b'"impossible"' not in report.read(1 << 20)
        if not is_possible or not last_line(each.taken).endswith(b'"records":%d}' % records):
            sys.exit("what the program wrote is not what this trace gives")
        return each

    start, *others = map(ran, (before, *lengths))
    for _ in range(repeats):
        for each in (start, *others):
            each.run()
    return [((each.seconds - start.seconds) / (records - before), each) for each, records in zip(others, lengths)]


def bar(what, has, most):
    print(f"bar: {what}: {has:.2f}, at most {most}: {'met' if has <= most else 'NOT MET'}", flush=True)
