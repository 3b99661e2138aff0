"""The proved programs that say what a trace answers, and whether recorded answers are right."""
from __future__ import annotations

import json
import os
import re
import shutil
import subprocess
from typing import Any, Dict, Iterator, List, NamedTuple, Optional, Sequence

PLACE = re.compile(r"^(?:not allowed: the call|unknown: the call|impossible: the record) at (\d+) ")
# kqcheck ends with one of these where it has judged: all are right, one is wrong, or one may be.
JUDGED = (0, 1, 8)
# The line of the first kevent that is wrong.
BLAME = re.compile(r"^  (extra|missing|twice|beyond|differs) +([A-Z]+ \d+): (.*)$", re.MULTILINE)


class Stopped(Exception):
    """Why there is no page: the status with which the program ends, and what it says."""

    def __init__(self, status: int, text: str) -> None:
        super().__init__(text)
        self.status, self.text = status, text


def found(name: str) -> str:
    """The program of this name: that which the variable names, as KQCHECK, or the one on the PATH."""
    program = os.environ.get(name.upper()) or shutil.which(name)
    if not program:
        raise Stopped(6, f"{name} is not on the PATH; name it in {name.upper()}")
    return program


def beside(name: str, other: str) -> Optional[str]:
    """The program that the variable of this name names, that beside the other program, or the one on the PATH."""
    near = os.path.join(os.path.dirname(os.path.abspath(found(other))), name)
    return os.environ.get(name.upper()) or shutil.which(near) or shutil.which(name)


def lines_of(path: str) -> List[bytes]:
    """The lines of a file; one that ends with LF has none behind it."""
    try:
        with open(path, "rb") as file:
            lines = file.read().split(b"\n")
    except OSError as error:
        raise Stopped(3, f"cannot read {path}: {error.strerror}") from None
    return lines[:-1] if len(lines) > 1 and not lines[-1] else lines


def answers_to(path: str) -> Iterator[Dict[str, Any]]:
    """What kqstep answers to each record of a trace."""
    words = [found("kqstep")]
    with open(path, "rb") as trace:
        process = subprocess.Popen(words, stdin=trace, stdout=subprocess.PIPE, stderr=subprocess.PIPE)
    assert process.stdout and process.stderr
    with process:
        for line in process.stdout:
            answer = json.loads(line)
            if "fault" in answer:
                process.kill()
                raise Stopped(4, f"line {answer['line']}: {answer['fault']}")
            if "records" not in answer:
                yield answer
        said = process.stderr.read().decode().strip()
    if process.returncode:
        raise Stopped(4 if process.returncode == 4 else 6, said.replace("kqstep: ", ""))


class Verdict(NamedTuple):
    """What kqcheck says: its text, the place that is wrong, and the kevent that is, with how and why."""

    text: str
    place: Optional[int] = None
    fault: Optional[str] = None
    kevent: Optional[str] = None
    why: Optional[str] = None


def verdict_on(words: Sequence[str]) -> Verdict:
    """What kqcheck says of these words: options, a trace and answers."""
    run = subprocess.run([found("kqcheck"), *words], stdout=subprocess.PIPE, stderr=subprocess.PIPE, text=True)
    if run.returncode not in JUDGED:
        raise Stopped(4 if run.returncode == 4 else 6, run.stderr.strip())
    place, blame = PLACE.match(run.stdout), BLAME.search(run.stdout)
    return Verdict(run.stdout, int(place.group(1)) if place else None, *(blame.groups() if blame else ()))
