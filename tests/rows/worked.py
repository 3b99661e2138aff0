"""The worked rows of this folder, and one run of a program beside what a row wants."""
import os
import subprocess

HERE = os.path.dirname(os.path.abspath(__file__))
WORDS = (["replay", "-"], *(["replay", "--workers", count, "-"] for count in ("1", "2", "256")))
SECONDS = 60


def contents(path):
    with open(path, "rb") as file:
        return file.read()


def rows():
    """Yields the name, the lists of words, the input of each row, and what is wanted: stdout, stderr, status."""
    for name in sorted(it[: -len(".trace")] for it in os.listdir(HERE) if it.endswith(".trace")):
        path = f"{HERE}/{name}"
        words = WORDS
        if os.path.exists(f"{path}.args"):
            words = (contents(f"{path}.args").decode().splitlines(),)
        wanted = (contents(f"{path}.stdout"), contents(f"{path}.stderr"), int(contents(f"{path}.status")))
        yield name, words, contents(f"{path}.trace"), wanted


def shown(text):
    return repr(text) if isinstance(text, int) or len(text) <= 300 else f"{text[:300]!r}.. of {len(text)} bytes"


def is_well(program, name, words, given, wanted, **streams):
    """Runs the program once, says what differs from what is wanted, and returns whether nothing does."""
    how = {"stdout": subprocess.PIPE, "stderr": subprocess.PIPE, **streams}
    if given is not None:
        how["input"] = given
    try:
        ran = subprocess.run([program, *words], cwd=HERE, timeout=SECONDS, **how)
    except subprocess.TimeoutExpired:
        print(f"row {name} {words}: not ended after {SECONDS} seconds")
        return False
    gave = (ran.stdout or b"", ran.stderr, ran.returncode)
    for what, has, right in zip(("standard output", "standard error", "status"), gave, wanted):
        if has != right:
            print(f"row {name} {words}: {what} {shown(has)}\n  wanted {shown(right)}")
    return gave == wanted
