"""What the tests of kqcheck share: a run of a program, lines of JSON, and a trace with its answers."""
import json
import os
import subprocess

HERE = os.path.dirname(os.path.abspath(__file__))
TOP = os.path.dirname(os.path.dirname(HERE))
SECONDS = 120
TRIGGER = 16777216


def ran(program, given, *words, **how):
    """The status, standard output and standard error of a run."""
    streams = {"stdout": subprocess.PIPE, "stderr": subprocess.PIPE}
    it = subprocess.run([program, *words], input=given, timeout=SECONDS, **streams, **how)
    return it.returncode, it.stdout.decode(), it.stderr.decode()


def contents(path):
    with open(path, "rb") as file:
        return file.read()


def lines_of(values):
    return b"".join(json.dumps(it, separators=(",", ":")).encode() + b"\n" for it in values)


def trace_of(*records, version=1):
    return lines_of([{"kqsim": version}, *records])


def call(*changes, room=8):
    return {"op": "kevent", "pid": 1, "fd": 9, "changes": list(changes), "room": room}


def change(filter_name, ident, *flags, **members):
    return {"ident": ident, "filter": filter_name, "flags": list(flags), **members}


class Loop:
    """A trace in a file, with the answers that kqsim gives."""

    def __init__(self, kqcheck, kqsim, folder, trace):
        self.kqcheck, self.path, self.trace = kqcheck, f"{folder}/trace", trace
        with open(self.path, "wb") as file:
            file.write(trace)
        self.report = [json.loads(line) for line in ran(kqsim, trace, "replay", "-")[1].splitlines()]

    def answers(self):
        """The answers by place, to plant something in."""
        return {row["at"]: json.loads(json.dumps(row)) for row in self.report if "at" in row}

    def check(self, answers, *words):
        """What is said of the answers, by place."""
        return ran(self.kqcheck, lines_of(answers.values()), *words, self.path, "-")
