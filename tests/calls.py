"""How the tests call the programs and ./show, and what the heads of plans and the pages show."""
import functools
import json
import os
import re
import shutil
import signal
import subprocess
import time
from contextlib import contextmanager
from pathlib import Path

import pytest
from lib import stamps
from lib.crates import program_of
from lib.files import HOME, lock_folder, paths, text_of
from lib.process import Answer, answer_of

TWO_SITES = 'version = 1\n[[site]]\nname = "a"\n[[site]]\nname = "b"\n'
REFUSED = "dine: plan refused: "
# How the programs are built: pytest --unproved sets it.
HOW = {"is_unproved": False}
# Whether the kit is here, which builds them. Without it the tests call those that come with the repository.
HAS_KIT = bool(shutil.which("rt"))


@functools.cache
def fault_of_build(crate, is_unproved=False):
    """Has tools/build build what is missing or older than a source. Returns its output if it can't."""
    # Who needs a program that is there does not wait for another one.
    if stamps.is_current(crate, program_of(crate, is_unproved)):
        return ""
    # The processes of pytest -n take turns.
    held = lock_folder(os.path.dirname(__file__))
    built = answer_of([*["--unproved"] * is_unproved, crate], f"{HOME}/tools/build", None, stdin=subprocess.DEVNULL)
    os.close(held)
    return built.error if built.status else ""


@functools.cache
def called(crate):
    """Returns the path of the program of a crate that the tests call. Skips the test if it can't be had here."""
    if HAS_KIT:
        return program_of(crate, **HOW)
    try:
        found = crate in stamps.COMMITTED and stamps.committed(crate)
    except stamps.Stale as fault:
        pytest.skip(str(fault))
    return found or pytest.skip(f"there is no kit to build {crate}")


def dine(*words, **how):
    """Calls dine with arguments, and returns its status and output. `how` goes to subprocess.run, such as an input."""
    return answer_of(words, called("dine_cli"), **how)


def trace(*words, **how):
    """Calls dine_trace in the same way."""
    return answer_of(words, called("dine_trace"), **how)


def printed(*words, given):
    """Returns the values in the lines that dine_trace prints."""
    answer = trace(*words, input=given.encode())
    assert (answer.status, answer.error, answer.output[-1:]) == (0, "", "\n")
    return [json.loads(line) for line in answer.output.splitlines()]


def state_after(text, choices):
    (state,) = printed("--json", *[",".join(map(str, choices))] * bool(choices), given=text)
    return state


def check_replay(text, choices, state):
    """Tries that 'dine replay' prints the logs of a state for a plan with choices."""
    words = ["--choices", ",".join(map(str, choices))] if choices else []
    assert dine("replay", *words, input=text.encode()) == answer_with(
        *state["logs"], f"events {state['events']} of {state['bound']}")


def check_whole_run(text, choices):
    """Tries that choices are those of a whole run of a plan, and returns the state after them."""
    state = state_after(text, choices)
    assert (state["enabled"], state["done"]) == ([], choices)
    check_replay(text, choices, state)
    return state


def answer_with(*lines):
    """Returns the status and output that lines of a plan's head ask for: a refusal, or lines on standard output."""
    text = "".join(f"{line}\n" for line in lines)
    return Answer(3, "", text) if text.startswith(REFUSED) else Answer(0, text, "")


def stored_texts():
    """Yields the name of the file, the line and the text of each text of tests/texts/. Of a file that ends in
    'behind_two_sites' two sites, a and b, are put before each text."""
    for path in paths("tests/texts/*.txt"):
        name = Path(path).stem
        for part in ("\n" + text_of(path)).split("\n# check> ")[1:]:
            line, _, text = part.partition("\n")
            yield name, line, TWO_SITES * name.endswith("behind_two_sites") + text


def copy_repository(folder, *without):
    """Copies the repository to a folder, without git's part, what is built, and what has one of these names."""
    names = {".git", "out", "target", "__pycache__", ".pytest_cache", *without}

    def left_out(at, _):
        return names | {"lib"} if at == f"{HOME}/bindings" else names

    shutil.copytree(HOME, folder, ignore=left_out)


@contextmanager
def shown(*words, program=f"{HOME}/show", **how):
    """Yields the process of a server of ./show, with its address and its port, and ends it by Ctrl-C."""
    with subprocess.Popen([program, *words], stdout=subprocess.PIPE, text=True, **how) as child:
        try:
            child.address = child.stdout.readline().strip()
            child.port = int(child.address.removeprefix("http://127.0.0.1:").removesuffix("/"))
            yield child
        finally:
            child.send_signal(signal.SIGINT)
            child.wait(20)


def until(what, seconds=15):
    """Waits until a call returns something that counts as true, and returns what it returns at last."""
    end = time.monotonic() + seconds
    while not (found := what()) and time.monotonic() < end:
        time.sleep(0.05)
    return found


def lists(name):
    """Returns the lists of arguments of a file of tests/words/, which are below its first line."""
    return text_of(f"tests/words/{name}.txt").splitlines()[1:]


def blocks(page):
    """Returns the indented blocks of a page, without the indent."""
    found = re.findall(r"(?:^    .*\n|^\n(?=    ))+", text_of(page), re.MULTILINE)
    return [re.sub(r"^    ", "", it, flags=re.MULTILINE).strip("\n") + "\n" for it in found]
