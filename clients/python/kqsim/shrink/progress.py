"""How far a long run is, on a terminal."""
from __future__ import annotations

import sys
import time

# Seconds: from when on a run is a long one, and how far apart its lines are.
LONG, APART = 1.0, 0.2
CLEAR = "\r\x1b[K"


class Line:
    """A line on standard error, where that is a terminal, which is rewritten where it stands."""

    def __init__(self, name: str) -> None:
        self.name, self.is_terminal, self.stands = name, sys.stderr.isatty(), False
        self.due = time.monotonic() + LONG

    def show(self, text: str) -> None:
        """Says how far the run is, where a line is due."""
        if self.is_terminal and time.monotonic() >= self.due:
            print(f"\r{self.name}: {text}\x1b[K", end="", file=sys.stderr, flush=True)
            self.stands, self.due = True, time.monotonic() + APART

    def clear(self) -> None:
        """No line stands on the terminal."""
        if self.stands:
            print(CLEAR, end="", file=sys.stderr, flush=True)
            self.stands = False
