"""Runs programs, and returns their status and output."""
import os
import subprocess
import sys
from typing import NamedTuple

from lib.files import HOME

# Before a command: it gets SIGTERM when the process that began it ends, however that ends. PR_SET_PDEATHSIG is 1.
BOUND = "import ctypes, os, sys; ctypes.CDLL(None).prctl(1, 15); "
BOUND += "os.getppid() == int(sys.argv[1]) and os.execvp(sys.argv[2], sys.argv[2:])"
BOUND = [sys.executable, "-ISc", BOUND, str(os.getpid())]
# The checks are of the proved program, whatever the shell has set.
os.environ.pop("DINE_UNPROVED", None)


class Answer(NamedTuple):
    """The status of a program, None if it did not end, and what it wrote to standard output and to standard error."""
    status: int
    output: str
    error: str


def answer_of(words, program=f"{HOME}/dine", seconds=600, **how):
    """Runs a program with arguments, passing `how` to subprocess.run, and returns its status and output."""
    # A build has no limit of time, and starts programs of its own, which end with it.
    bound = BOUND if seconds is None else []
    try:
        ran = subprocess.run([*bound, program, *words], capture_output=True, timeout=seconds, check=False, **how)
    except subprocess.TimeoutExpired:
        return Answer(None, "", f"no end within {seconds} seconds")
    # A byte that is not UTF-8 becomes a character of its own, so that texts are the same only if all bytes are.
    return Answer(ran.returncode, *(it.decode(errors="surrogateescape") for it in (ran.stdout, ran.stderr)))
