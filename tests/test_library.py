"""Tries dine as a library: in a repository that tools/vendor has made, each program of docs/LIBRARY.md
prints what the page says. A program is run by 'rt try', which proves nothing: ./verify proves the crates below."""
import os
from pathlib import Path

import pytest
from calls import blocks
from lib.crates import add_program
from lib.files import HOME
from lib.process import Answer, answer_of
from lib.unproved import answer_of_try

pytestmark = pytest.mark.early
VENDOR = f"{HOME}/tools/vendor"
BLOCKS = blocks("docs/LIBRARY.md")
# The programs of the page, each with what it prints, which is the next block.
PROGRAMS = [two for two in zip(BLOCKS, BLOCKS[1:]) if two[0].startswith("#![")]


def test_front_page():
    """The code on the front page is in the program of the page, in this order."""
    left = iter([line.strip() for line in PROGRAMS[0][0].split("\n")])
    lines = [line.strip() for line in next(it for it in blocks("README.md") if "impl Job" in it).split("\n")]
    assert [line for line in lines if line and not line.startswith("//") and line not in left] == []


@pytest.fixture(scope="module")
def repository(tmp_path_factory):
    """Returns the folder of a new repository that tools/vendor has made."""
    folder = tmp_path_factory.mktemp("library")
    # A repository that has nothing but its .git is as good as an empty folder.
    answer_of(["init", "-q", str(folder)], program="git")
    made = answer_of([str(folder)], VENDOR)
    assert (made.status, made.error) == (0, "")
    return folder


def test_build_of_a_new_repository(repository):
    asked = answer_of(["--help"], f"{repository}/tools/build")
    assert asked.status == 0, asked.error


@pytest.mark.kit
@pytest.mark.slow
@pytest.mark.timeout(3000)
@pytest.mark.parametrize("number", range(len(PROGRAMS)))
def test_program(repository, number):
    (source, prints), name = PROGRAMS[number], f"program_{number + 1}"
    mine = add_program(name, "may_wait=1: dine_run anyhow", source, repository)
    ran = answer_of_try([name], mine)
    # After the output of the program, rt says how it ended.
    assert (ran.status, ran.output.partition("checked: ")[0]) == (0, prints), ran.error


def test_repository_of_a_lower_crate(tmp_path):
    """It gets the crate that is named and those below it, with their lines of crates.txt, and no others."""
    made = answer_of([f"{tmp_path}/mine", "dine_graph"], VENDOR)
    assert (made.status, made.error) == (0, "")
    assert made.output.startswith(f"2 crates are in {tmp_path}/mine.") and ": dine_graph anyhow'" in made.output
    assert sorted(os.listdir(f"{tmp_path}/mine/crates")) == ["dine_graph", "dine_token"]
    lines = Path(tmp_path, "mine/crates.txt").read_text("utf-8").splitlines()
    assert [it.partition(":")[0] for it in lines if ":" in it] == ["dine_token", "dine_graph"]


@pytest.mark.parametrize(("words", "line"), [
    ("DEST dine_run more", "unrecognized arguments: more; usage: vendor [-h] DEST [CRATE]"),
    (f"{HOME}/docs", f"{HOME}/docs is not empty"),
    ("DEST cups", "there is no crate cups"),
    (VENDOR, f"{VENDOR} is no folder"),
    (f"{VENDOR}/mine", f"{VENDOR}/mine can't be written: Not a directory"),
])
def test_refused_arguments(tmp_path, words, line):
    dest = f"{tmp_path}/other"
    assert answer_of(words.replace("DEST", dest).split(), VENDOR) == Answer(2, "", f"vendor: {line}\n")
    assert not os.path.exists(dest)
