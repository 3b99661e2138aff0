"""The command kqview: kqview [OPTIONS] TRACE [ANSWERS] > page.html"""
from __future__ import annotations

import argparse
import json
import os
import sys
from typing import Any, Dict, List, Optional, Sequence, Tuple

from .page import page_of
from .picture import Picture
from .programs import Stopped, Verdict, answers_to, lines_of, verdict_on
from .run import Run

# The most records of one page.
MOST_RECORDS = 20_000


def words_of(given: Sequence[str]) -> argparse.Namespace:
    parser = argparse.ArgumentParser(
        prog="kqview",
        description="Writes a page that shows a kqueue trace, to standard output.",
        epilog=f"Without --from and --to it shows {MOST_RECORDS} records: those round the first wrong answer, or the "
        "first ones. The programs kqstep and kqcheck are those that KQSTEP and KQCHECK name, or on the PATH.",
    )
    parser.add_argument("--from", dest="first", type=int, metavar="P", help="the first place to show")
    parser.add_argument("--to", dest="last", type=int, metavar="P", help="the last place to show")
    parser.add_argument("--ignore", action="append", default=[], metavar="FILTER.MEMBER", help="as for kqcheck")
    parser.add_argument("--permit-impossible", action="store_true", help="as for kqcheck")
    parser.add_argument("trace", metavar="TRACE")
    parser.add_argument("answers", metavar="ANSWERS", nargs="?")
    return parser.parse_args(given)


def window(asked: argparse.Namespace, count: int, wrong: Optional[int]) -> Tuple[int, int]:
    """The places to show of a trace of so many records."""
    first, last = asked.first, asked.last
    if first is None and last is None and wrong is not None:
        first = max(1, min(wrong - MOST_RECORDS // 2, count - MOST_RECORDS + 1))
    if first is None:
        first = 1 if last is None else max(1, last - MOST_RECORDS + 1)
    if last is None:
        last = first + MOST_RECORDS - 1
    last = min(last, count)
    if not 1 <= first <= max(1, last):
        raise Stopped(2, f"there are no such places: the trace has {count} records")
    return first, last


def judged(asked: argparse.Namespace) -> Optional[Verdict]:
    if asked.answers is None:
        return None
    options = ["--permit-impossible"] if asked.permit_impossible else []
    options += [word for it in asked.ignore for word in ("--ignore", it)]
    return verdict_on([*options, asked.trace, asked.answers])


def given_answers(path: Optional[str], picture: Picture) -> Dict[int, str]:
    """The lines of the recorded answers, by place."""
    lines = [line.decode() for line in lines_of(path)] if path is not None else []
    placed = [(json.loads(line).get("at"), line) for line in lines]
    return {at: line for at, line in placed if at is not None and picture.first <= at <= picture.last}


def drawn(path: str, lines: List[bytes], picture: Picture) -> None:
    """Carries out the trace up to the last place of the picture, and draws it."""
    run: Optional[Run] = None
    for at, answer in enumerate(answers_to(path), 1):
        if at > picture.last:
            continue
        if run is None:
            run = Run(json.loads(lines[0])["kqsim"], picture)
        record = json.loads(lines[at])
        run.step(record, answer)
        if at >= picture.first:
            text = answer if len(answer) > 1 else None
            picture.records.append([record["op"], lines[at].decode(), text])


def data_of(asked: argparse.Namespace) -> Dict[str, Any]:
    lines = lines_of(asked.trace)
    verdict = judged(asked)
    picture = Picture(*window(asked, len(lines) - 1, verdict.place if verdict else None))
    drawn(asked.trace, lines, picture)
    if verdict and verdict.place is not None and verdict.kevent:
        mark_wrong(picture, verdict)
    return {
        **picture.data(),
        "name": os.path.basename(asked.trace),
        "total": len(lines) - 1,
        "verdict": verdict._asdict() if verdict else None,
        "given": given_answers(asked.answers, picture),
    }


def mark_wrong(picture: Picture, verdict: Verdict) -> None:
    """Marks the kevent that kqcheck names, in the lane of the kqueue that was called."""
    place = verdict.place or 0
    if not picture.first <= place <= picture.last:
        return
    record = json.loads(picture.records[place - picture.first][1])
    lanes = [n for n, it in enumerate(picture.lanes) if (it.get("pid"), it.get("fd")) == (record["pid"], record["fd"])]
    lanes = [n for n in lanes if picture.lanes[n]["at"] < place]
    found = [n for n, it in enumerate(picture.lines) if it.lane == lanes[-1] and it.name == verdict.kevent]
    line = found[0] if found else picture.line(lanes[-1], "kevent", str(verdict.kevent))
    picture.mark(line, place, "wrong", f"{verdict.fault}: {verdict.why}", "kevent")
    picture.lines[line].marks.sort(key=lambda mark: int(mark[0]))


def main() -> int:
    asked = words_of(sys.argv[1:])
    try:
        text = page_of(data_of(asked))
    except Stopped as stopped:
        print(f"kqview: {stopped.text}", file=sys.stderr)
        return stopped.status
    try:
        sys.stdout.write(text)
        sys.stdout.flush()
    except OSError as error:
        print(f"kqview: cannot write the page: {error.strerror}", file=sys.stderr)
        return 7
    return 0


def run() -> None:
    """The command, as it is installed."""
    sys.exit(main())
