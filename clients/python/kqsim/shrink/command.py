"""The command kqshrink: kqshrink [OPTIONS] TRACE [ANSWERS]"""
from __future__ import annotations

import argparse
import re
import subprocess
import sys
import tempfile
from typing import List, NamedTuple, Optional, Sequence, Set, Tuple

from ..view.programs import Stopped, Verdict, answers_to, beside, found, verdict_on
from .concerning import Whole
from .entries import Entry, answers_text, read, trace_text
from .progress import Line
from .shrinking import shrunk

# What an answer says that has no events.
NO_EVENTS = re.compile(r"failed|impossible: \w+")
IMPOSSIBLE = re.compile(rb'^\{"at":(\d+),"impossible"', re.MULTILINE)


class Kind(NamedTuple):
    """What is wrong, without its places and numbers: it has to stay the same."""

    verdict: str
    fault: Optional[str]
    filter: Optional[str]
    why: str


def kind_of(verdict: Verdict) -> Kind:
    first, *others = verdict.text.split("\n")
    why = verdict.why
    if why is None:  # no kevent is to blame: one of the answers, or both, failed or was impossible
        why = "; ".join(" ".join(NO_EVENTS.findall(line)) or "events" for line in others[:2])
    name = verdict.kevent.split()[0] if verdict.kevent else None
    return Kind(re.sub(r"\d+", "N", first), verdict.fault, name, re.sub(r"-?\d+|\[.*?\]", "N", why))


class Shrinker:
    """Tests what is tried. A command decides, or kqcheck: that what it says is of one kind."""

    def __init__(self, folder: str, header: bytes, command: Optional[str], has_answers: bool, line: Line) -> None:
        self.header, self.command, self.line = header, command, line
        self.trace, self.answers = f"{folder}/trace", f"{folder}/answers"
        self.files = [self.trace, self.answers] if has_answers else [self.trace]
        self.whole = ""
        self.impossible: Set[int] = set()
        self.options = ["--permit-impossible"]
        self.kind: Optional[Kind] = None
        self.place: Optional[int] = None
        self.tries = 0

    def _write(self, entries: Sequence[Entry]) -> None:
        with open(self.trace, "wb") as file:
            file.write(trace_text(self.header, entries))
        with open(self.answers, "wb") as file:
            file.write(answers_text(entries))

    def begin(self, files: Sequence[str]) -> None:
        """Looks at the whole, as these files have it: its lines are good, and it passes."""
        self.whole = files[0]
        for place, answer in enumerate(answers_to(files[0]), 1):
            self.line.show(f"{place} records read")
            if "impossible" in answer:
                self.impossible.add(place)
        if self.command is None:
            verdict = self._verdict(files)
            if verdict.place is None:
                self.options = []
                verdict = self._verdict(files)
            self.kind, self.place = kind_of(verdict), verdict.place
            if verdict.place is None:
                raise Stopped(1, f"nothing is wrong: {verdict.text.strip()}")
        elif not self._passes(files):
            raise Stopped(1, "the command does not end with 0 for the whole trace")

    def _verdict(self, files: Sequence[str]) -> Verdict:
        return verdict_on([*self.options, *files])

    def _passes(self, files: Sequence[str]) -> bool:
        self.tries += 1
        if self.command is not None:
            return subprocess.run(["sh", "-c", f'{self.command} "$@"', "sh", *files]).returncode == 0
        return kind_of(self._verdict(files)) == self.kind

    def private_list(self, kqueue: int) -> Optional[bytes]:
        """What kqsplit says of the kqueue that was made at this place; none where it is not there, or fails."""
        program = beside("kqsplit", "kqcheck")
        if program is None:
            return None
        try:
            ran = subprocess.run([program, "--kqueue", str(kqueue), self.whole], capture_output=True)
        except OSError:
            return None
        return ran.stdout if ran.returncode == 0 else None

    def test(self, entries: List[Entry]) -> Optional[List[Entry]]:
        """What is left of entries that pass: those that are impossible by now are spared too, where that passes."""
        self.line.show(f"{len(entries)} records, {self.tries} tries")
        self._write(entries)
        if not self._passes(self.files):
            return None
        with open(self.trace, "rb") as file:
            told = subprocess.run([found("kqstep")], stdin=file, stdout=subprocess.PIPE, check=True).stdout
        gone = {int(place) for place in IMPOSSIBLE.findall(told)}
        if not gone:
            return entries
        left = [it for place, it in enumerate(entries, 1) if place not in gone]
        self._write(left)
        return left if self._passes(self.files) else entries


def words_of(given: Sequence[str]) -> argparse.Namespace:
    parser = argparse.ArgumentParser(
        prog="kqshrink",
        description="Takes from a trace, and the answers recorded to it, what can be spared while the fault stays.",
        epilog="The programs kqstep and kqcheck are those that KQSTEP and KQCHECK name, or on the PATH; kqsplit, where "
        "it is there, that of KQSPLIT, beside kqcheck or on the PATH.",
    )
    parser.add_argument("--test", metavar="COMMAND", help="in place of kqcheck: status 0 where the fault is there")
    parser.add_argument("--out", metavar="NAME", default="small", help="write NAME.trace and NAME.answers")
    parser.add_argument("trace", metavar="TRACE")
    parser.add_argument("answers", metavar="ANSWERS", nargs="?")
    asked = parser.parse_args(given)
    if asked.test is None and asked.answers is None:
        parser.error("there is neither a command nor answers to test")
    return asked


def write_out(name: str, texts: Sequence[Tuple[str, bytes]]) -> None:
    for ending, text in texts:
        try:
            with open(f"{name}.{ending}", "wb") as file:
                file.write(text)
        except OSError as error:
            raise Stopped(7, f"cannot write {name}.{ending}: {error.strerror}") from None


def carried_out(asked: argparse.Namespace, line: Line) -> None:
    header, entries = read(asked.trace, asked.answers)
    with tempfile.TemporaryDirectory() as folder:
        shrinker = Shrinker(folder, header, asked.test, asked.answers is not None, line)
        shrinker.begin([asked.trace, asked.answers] if asked.answers is not None else [asked.trace])
        whole = Whole(shrinker.impossible, shrinker.private_list)
        left = shrunk(entries, shrinker.place, whole, shrinker.test)
    line.clear()
    texts = [("trace", trace_text(header, left))]
    write_out(asked.out, texts + ([("answers", answers_text(left))] if asked.answers is not None else []))
    print(f"{len(entries)} records, {len(left)} are left, by {shrinker.tries} tries")


def run() -> None:
    """The command, as it is installed."""
    asked, line = words_of(sys.argv[1:]), Line("kqshrink")
    try:
        carried_out(asked, line)
    except Stopped as stopped:
        line.clear()
        print(f"kqshrink: {stopped.text}", file=sys.stderr)
        sys.exit(stopped.status)
