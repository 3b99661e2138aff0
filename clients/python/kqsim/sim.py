"""A simulated system, which answers each record as it comes."""
from __future__ import annotations

import contextlib
import io
import json
import os
import shutil
import signal
import subprocess
import threading
import weakref
from typing import Any, Dict, Iterator, List, Mapping, Optional, Sequence, TextIO, Union, cast

ALL_SIGNALS = signal.valid_signals()


class Fault(ValueError):
    """The line is no record: nothing has changed. Its arguments are the fault's name and the members of the line."""


class Impossible(Exception):
    """The record cannot be: nothing has changed but the place. Its arguments are the reason and the members."""


class Ended(Exception):
    """kqstep has ended. The argument is its exit status."""


def program_of(program: Optional[str]) -> str:
    found = program or os.environ.get("KQSTEP") or shutil.which("kqstep")
    if not found:
        raise FileNotFoundError("kqstep is not on the PATH; name it by program= or in KQSTEP")
    return found


@contextlib.contextmanager
def signals_blocked() -> Iterator[None]:
    """Holds signals back from this thread."""
    before = signal.pthread_sigmask(signal.SIG_BLOCK, ALL_SIGNALS)
    try:
        yield
    finally:
        signal.pthread_sigmask(signal.SIG_SETMASK, before)


class Sim:
    """A system in which happens what its records say and nothing else: exact and virtual.

    Each method is a record of docs/TRACE.md, with its members. log is a path, or a file open for writing text, to
    which the trace goes; `kqsim replay` gives it the answers that it had here. version is that of the format.
    """

    def __init__(
        self,
        log: Union[str, "os.PathLike[str]", TextIO, None] = None,
        version: int = 1,
        program: Optional[str] = None,
    ) -> None:
        self._lock, self._depth = threading.RLock(), 0
        self._own_log: Optional[TextIO] = None
        self._log: Optional[TextIO] = None
        words = [program_of(program)]
        if isinstance(log, (str, os.PathLike)):
            self._log = self._own_log = open(log, "w", buffering=1, encoding="utf-8")
        else:
            self._log = log
        # In a session of its own, where a terminal's signals for this process do not end it.
        self._process = subprocess.Popen(
            words, stdin=subprocess.PIPE, stdout=subprocess.PIPE, start_new_session=True
        )
        self._into = cast(io.BufferedWriter, self._process.stdin)
        self._out = cast(io.BufferedReader, self._process.stdout)
        self._counts: Optional[Dict[str, int]] = None
        _sims.add(self)
        self._send({"kqsim": version})

    # ---- lines

    @contextlib.contextmanager
    def held(self) -> Iterator[None]:
        """Keeps other threads out, and signals back, so that a handler that raises parts nothing of what is inside."""
        with self._lock:
            with contextlib.nullcontext() if self._depth else signals_blocked():
                self._depth += 1
                try:
                    yield
                finally:
                    self._depth -= 1

    def _send(self, members: Mapping[str, Any]) -> str:
        """Sends a line; behind the header each has an answer."""
        line = json.dumps(members, separators=(",", ":"))
        try:
            self._into.write(line.encode() + b"\n")
            self._into.flush()
        except (BrokenPipeError, ValueError):
            raise Ended(self._process.poll()) from None
        if "kqsim" in members:
            self._note(line)
        return line

    def _note(self, line: str) -> None:
        if self._log:
            self._log.write(line + "\n")

    def record(self, **members: Any) -> Dict[str, Any]:
        """Writes a record, and returns its answer: at, and events or failed where it has them."""
        with self.held():
            line = self._send(members)
            text = self._out.readline()
            if not text.endswith(b"\n"):
                raise Ended(self._process.wait())
            answer: Dict[str, Any] = json.loads(text)
            if "fault" in answer:
                raise Fault(answer["fault"], members)
            self._note(line)
        if "impossible" in answer:
            raise Impossible(answer["impossible"], members)
        return answer

    def end(self) -> Dict[str, int]:
        """Ends the system, and returns what the report's last line counts: calls, events and records."""
        with self._lock:
            if self._counts is not None:
                return self._counts
            with contextlib.suppress(BrokenPipeError):
                self._into.close()
            text = self._out.read()
            self._out.close()
            status = self._process.wait()
            if self._own_log:
                self._own_log.close()
        if status != 0:
            raise Ended(status)
        self._counts = json.loads(text)
        return self._counts

    def leave(self) -> None:
        """In a child of fork: lets go of the pipes and the log, so that they are the parent's alone.

        What their buffers have is the parent's to write, so the descriptors below them are closed.
        """
        self._lock, self._depth = threading.RLock(), 0
        self._process.returncode = 0
        self._into.raw.close()
        self._out.raw.close()
        if self._own_log:
            cast(io.BufferedWriter, self._own_log.buffer).raw.close()

    def __enter__(self) -> Sim:
        return self

    def __exit__(self, kind: Optional[type], error: object, trace: object) -> None:
        if kind is None:
            self.end()
        else:
            self._process.kill()
            self._process.communicate()
            if self._own_log:
                self._own_log.close()

    # ---- processes

    def proc(self, pid: int) -> None:
        self.record(op="proc", pid=pid)

    def fork(self, pid: int, child: int) -> None:
        self.record(op="fork", pid=pid, child=child)

    def exec(self, pid: int) -> None:
        self.record(op="exec", pid=pid)

    def exit(self, pid: int, status: int = 0) -> None:
        self.record(op="exit", pid=pid, status=status)

    def sigset(self, pid: int, sig: int, ignore: bool) -> None:
        self.record(op="sigset", pid=pid, sig=sig, ignore=ignore)

    def sig(self, pid: int, sig: int) -> None:
        self.record(op="sig", pid=pid, sig=sig)

    # ---- descriptors

    def kqueue(self, pid: int, fd: int) -> None:
        self.record(op="kqueue", pid=pid, fd=fd)

    def dup(self, pid: int, fd: int, to: int) -> None:
        self.record(op="dup", pid=pid, fd=fd, to=to)

    def close(self, pid: int, fd: int) -> None:
        self.record(op="close", pid=pid, fd=fd)

    # ---- sockets

    def socket(self, pid: int, fd: int, rcv: int, snd: int) -> None:
        self.record(op="socket", pid=pid, fd=fd, rcv=rcv, snd=snd)

    def listen(self, pid: int, fd: int, backlog: int) -> None:
        self.record(op="listen", pid=pid, fd=fd, backlog=backlog)

    def arrive(self, pid: int, fd: int) -> None:
        self.record(op="arrive", pid=pid, fd=fd)

    def accept(self, pid: int, fd: int, to: int, rcv: int, snd: int) -> None:
        self.record(op="accept", pid=pid, fd=fd, to=to, rcv=rcv, snd=snd)

    def connect(self, pid: int, fd: int) -> None:
        self.record(op="connect", pid=pid, fd=fd)

    def rx(self, pid: int, fd: int, n: int) -> None:
        self.record(op="rx", pid=pid, fd=fd, n=n)

    def tx(self, pid: int, fd: int, n: int) -> None:
        self.record(op="tx", pid=pid, fd=fd, n=n)

    def shut(self, pid: int, fd: int, side: str, error: int = 0) -> None:
        self.record(op="shut", pid=pid, fd=fd, side=side, error=error)

    def lowat(self, pid: int, fd: int, side: str, n: int) -> None:
        self.record(op="lowat", pid=pid, fd=fd, side=side, n=n)

    # ---- pipes and files

    def pipe(self, pid: int, rfd: int, wfd: int, cap: int) -> None:
        self.record(op="pipe", pid=pid, rfd=rfd, wfd=wfd, cap=cap)

    def file(self, file: int, size: int = 0) -> None:
        self.record(op="file", file=file, size=size)

    def open(self, pid: int, fd: int, file: int, mode: str) -> None:
        self.record(op="open", pid=pid, fd=fd, file=file, mode=mode)

    def seek(self, pid: int, fd: int, offset: int) -> None:
        self.record(op="seek", pid=pid, fd=fd, offset=offset)

    def truncate(self, file: int, size: int) -> None:
        self.record(op="truncate", file=file, size=size)

    def note(self, file: int, note: str) -> None:
        self.record(op="note", file=file, note=note)

    def read(self, pid: int, fd: int, n: int) -> None:
        self.record(op="read", pid=pid, fd=fd, n=n)

    def write(self, pid: int, fd: int, n: int) -> None:
        self.record(op="write", pid=pid, fd=fd, n=n)

    # ---- the clock and calls

    def clock(self, ns: int) -> None:
        self.record(op="clock", ns=ns)

    def kevent(
        self, pid: int, fd: int, changes: Sequence[Mapping[str, Any]] = (), room: int = 0
    ) -> List[Dict[str, Any]]:
        """A call of kevent(2) that never waits; returns its events. A call that fails raises OSError."""
        answer = self.record(op="kevent", pid=pid, fd=fd, changes=list(changes), room=room)
        if "failed" in answer:
            raise OSError(answer["failed"], os.strerror(answer["failed"]))
        events: List[Dict[str, Any]] = answer["events"]
        return events


_sims: weakref.WeakSet[Sim] = weakref.WeakSet()


def leave_sims() -> None:
    for sim in list(_sims):
        sim.leave()


os.register_at_fork(after_in_child=leave_sims)
