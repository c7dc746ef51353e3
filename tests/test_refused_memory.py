"""Lets each allocation of a call fail in turn: each run has to end with a result that tests/tables/refused_memory.toml
allows. A run that goes well although an allocation failed, hangs or ends by a signal has no such result. The same of
the program that comes with the repository is tried in tests/test_programs.py."""
import itertools
import os
import tomllib
from pathlib import Path

import calls
import pytest
from lib.crates import program_of
from lib.files import HOME, text_of
from lib.process import Answer, answer_of

pytestmark = [pytest.mark.built("dine_refusals", "dine_cli"), pytest.mark.kit, pytest.mark.slow,
              pytest.mark.timeout(900)]
# How often all allocations are gone through if a result has not occurred: the order of the threads differs each time.
SWEEPS = 5
PAIR = text_of("plans/pair.toml").encode()
CASES = [pytest.param(case, words, id=words)
         for case in tomllib.loads(text_of("tests/tables/refused_memory.toml"))["case"] for words in case["calls"]]


def result(text):
    status, _, line = text.partition(" ")
    line += "\n" * bool(line)
    return Answer(0, line, "") if status == "0" else Answer(int(status), "", line)


@pytest.fixture(scope="module")
def library(tmp_path_factory):
    """The path of refuse.c as the clang of the kit compiles it."""
    made = str(tmp_path_factory.mktemp("refused") / "refuse.so")
    clang = Path(answer_of(["doc"], "rt").output.split("\n")[0]).parent / "toolchain" / "bin" / "clang"
    words = ["-shared", "-fPIC", "-O1", "-fuse-ld=lld", "-nostdlib", "-o", made, f"{HOME}/tests/refuse.c"]
    answer = answer_of(words, clang)
    assert answer.status == 0, answer.error
    return made


def with_refused(number, library, program, words):
    """Runs the program so that this allocation fails. Returns whether there was such an allocation, and the result."""
    end, pipe = os.pipe()
    added = {"LD_PRELOAD": library, "DINE_REFUSED_CALL": str(number), "DINE_REFUSED_PIPE": str(pipe)}
    answer = answer_of(words, program, 60, input=PAIR, env={**os.environ, **added}, pass_fds=[pipe])
    os.close(pipe)
    came = os.read(end, 1) == b"!"
    os.close(end)
    return came, answer


@pytest.mark.parametrize(("case", "words"), CASES)
def test_call(library, case, words):
    whole, program = result(case["whole"]), program_of(case["program"], **calls.HOW)
    come, may_come, seen = set(map(result, case["come"])), set(map(result, case.get("may_come", []))), set()
    for _ in range(SWEEPS):
        for number in itertools.count(1):
            came, answer = with_refused(number, library, program, words.split())
            assert answer in (come | may_come if came else {whole}), f"allocation {number}"
            seen.add(answer)
            if not came:
                break
        if seen >= come:
            return
    assert seen >= come
