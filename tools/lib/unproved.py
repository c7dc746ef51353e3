"""Runs and builds programs without any proof, for a first look and for tools that try many programs. `rt try` compiles
a program, runs it once and deletes it. To build one, it is copied while it runs."""
import contextlib
import os
import shutil
import signal
import subprocess
import threading
import time
from pathlib import Path

from lib.process import BOUND, Answer

# The input while the program is caught: a plan whose one site is at work for a second or two.
BUSY = 'version = 1\n[[site]]\nname = "a"\njobs = [' + '{ name = "x", turns = 1000000 }, ' * 30 + "]\n"
RUN = {"dine_trace": ["--run"], "dine_bench": ["ring", "1"], "dine_stress": []}
# What a program reads before the plan.
HEAD = {"dine_stress": "ring greedy\n"}


def end_hint(rt):
    """Ends the check that `rt try`, this process, runs beside the try, for a hint that nobody reads here: it takes half
    as long again. Returns whether it was there."""
    with contextlib.suppress(OSError):
        for child in Path(f"/proc/{rt}/task/{rt}/children").read_text("ascii").split():
            if b"--start\0no function" in Path(f"/proc/{child}/cmdline").read_bytes():
                os.kill(int(child), signal.SIGKILL)
                return True
    return False


def answer_of_try(words, crate, given=b""):
    """Runs `rt try` with arguments in the folder of a crate, and this on its standard input. Returns how it ended."""
    is_over = threading.Event()

    def watch(rt):
        while not end_hint(rt) and not is_over.wait(0.1):
            pass

    how = {"stdin": subprocess.PIPE, "stdout": subprocess.PIPE, "stderr": subprocess.PIPE, "cwd": crate}
    with subprocess.Popen([*BOUND, "rt", "try", *words], **how) as rt:
        watcher = threading.Thread(target=watch, args=(rt.pid,))
        watcher.start()
        said = rt.communicate(given)
        is_over.set()
        watcher.join()
    return Answer(rt.returncode, *(it.decode(errors="surrogateescape") for it in said))


def catch(room):
    """Keeps the program that rt try runs below this folder, where it is stored beside its standard input."""
    for it in room.glob("*/*/program"):
        if it.with_name("stdin").exists() and not (room / "caught").exists():
            with contextlib.suppress(FileNotFoundError):
                (room / "caught").hardlink_to(it)


def build_unproved(crate, to, given=BUSY):
    """Builds the program of the crate in this folder, which is at work for a second or two on this standard input, and
    puts it at this path. Returns 0 and an empty text, or else a status that is not 0 and the output of `rt try`."""
    room, name = Path(to).parent / "building", os.path.basename(crate)
    # What a build that was stopped has left there goes.
    shutil.rmtree(room, ignore_errors=True)
    room.mkdir(parents=True)
    (room / "plan").write_text(HEAD.get(name, "") + given, "utf-8")
    words = [*BOUND, "rt", "try", name, "--", *RUN.get(name, ["run"])]
    # A second signal, from the terminal, would stop rt try in the middle of ending what it began: it gets a session of
    # its own.
    how = {"cwd": crate, "env": {**os.environ, "TMPDIR": str(room)}, "start_new_session": True}
    with open(room / "plan", "rb") as plan, open(room / "said", "wb") as said:
        with subprocess.Popen(words, stdin=plan, stdout=said, stderr=said, **how) as ran:
            has_hint = True
            while ran.poll() is None:
                has_hint = has_hint and not end_hint(ran.pid)
                catch(room)
                time.sleep(0.02)
    text, is_caught = (room / "said").read_text("utf-8", "replace"), (room / "caught").exists()
    if is_caught and ran.returncode == 0:
        os.replace(room / "caught", to)
    shutil.rmtree(room)
    return (0, "") if is_caught and ran.returncode == 0 else (ran.returncode or 1, text)
