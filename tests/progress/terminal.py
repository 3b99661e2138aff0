"""A program whose standard error is a terminal."""
import os
import pty
import subprocess
import termios
import threading
import time


def drain(end, shown):
    """All that a terminal gets, until nobody has it open."""
    while True:
        try:
            piece = os.read(end, 4096)
        except OSError:
            return
        if not piece:
            return
        shown.append(piece)


def fed(stream, pieces):
    """Writes pieces, each after so many seconds."""
    try:
        with stream:
            for seconds, piece in pieces:
                time.sleep(seconds)
                stream.write(piece)
                stream.flush()
    except BrokenPipeError:
        pass


def run(words, pieces=(), typed=False, **how):
    """Its status, what it wrote to standard output, which is a pipe, and what the terminal got. The pieces, each with
    the seconds to wait before it, come by standard input: a pipe, or typed on the terminal, which shows them not."""
    ours, theirs = pty.openpty()
    modes = termios.tcgetattr(theirs)
    modes[3] &= ~termios.ECHO
    termios.tcsetattr(theirs, termios.TCSANOW, modes)
    streams = {"stdin": theirs if typed else subprocess.PIPE, "stdout": subprocess.PIPE, "stderr": theirs}
    process = subprocess.Popen(words, **streams, **how)
    os.close(theirs)
    keys = open(os.dup(ours), "wb") if typed else process.stdin
    shown = []
    threads = [
        threading.Thread(target=drain, args=(ours, shown)),
        threading.Thread(target=fed, args=(keys, pieces)),
    ]
    for thread in threads:
        thread.start()
    with process.stdout:
        out = process.stdout.read()
    status = process.wait()
    for thread in threads:
        thread.join()
    os.close(ours)
    return status, out, b"".join(shown)
