"""Running a program with one allocation of the C library, or one start of a thread, refused."""
import os
import subprocess

HERE = os.path.dirname(os.path.abspath(__file__))
ROWS = f"{os.path.dirname(HERE)}/rows"
MOST = 100_000
SECONDS = 20


def contents(path):
    with open(path, "rb") as file:
        return file.read()


def built(room):
    """Builds what is preloaded, refuse.c, in this folder, and returns its path."""
    library = f"{room}/refuse.so"
    subprocess.run(["cc", "-O2", "-Wall", "-shared", "-fPIC", "-o", library, f"{HERE}/refuse.c"], check=True)
    return library


def run(library, command, given, at, what="REFUSE_AT"):
    """Runs the command on this input with the allocation number `at` refused, or what else is named, and returns what
    it gave, that is standard output, standard error and status, and whether one was refused."""
    says = os.memfd_create("says")
    try:
        environment = {"LD_PRELOAD": library, what: str(at), "REFUSE_SAYS": str(says)}
        how = {"capture_output": True, "timeout": SECONDS, "pass_fds": [says], "env": environment}
        ran = subprocess.run(command, input=given, **how)
        return (ran.stdout, ran.stderr, ran.returncode), os.fstat(says).st_size > 0
    finally:
        os.close(says)
