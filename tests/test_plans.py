"""Tries the plans of plans/ and tests/: for each the program prints what the head of the plan says, and no more. A line
'# COMMAND> LINE' of a head is a line that 'dine COMMAND' prints; 'no words' stands for dine without arguments. And it
tries random plans: it has to print what the plan says, whatever the threads did."""
import re
from pathlib import Path

import pytest
from calls import answer_with, dine
from lib.files import HOME, paths
from lib.process import Answer
from random_plans import plan_of

pytestmark = pytest.mark.built("dine_cli")
# A line of a plan's head: a command, and a line that it prints.
EXPECTED = re.compile(r"^# ((?:no words|check|replay|run)[\w ,=-]*)> (.*)$", re.M)
HEADS = {path: EXPECTED.findall(Path(HOME, path).read_text("utf-8", "replace"))
         for folder in ("plans", "tests/cases", "tests/refused") for path in paths(f"{folder}/*.toml")}


@pytest.mark.parametrize("path", HEADS)
def test_head_says_what_is_printed(path):
    assert HEADS[path]


@pytest.mark.parametrize(("path", "command"), sorted({(path, it) for path, lines in HEADS.items() for it, _ in lines}))
def test_plan(path, command):
    words = [] if command == "no words" else command.split()
    wanted = answer_with(*(line for it, line in HEADS[path] if it == command))
    assert dine(*words, input=Path(HOME, path).read_bytes()) == wanted


@pytest.mark.parametrize("seed", range(25))
def test_random_plan(seed):
    """Each random plan runs 20 times with both tables, every second time over channels."""
    text, edges, sites = plan_of(seed)
    for turn in range(20):
        links = ["--links", "channel"] if turn % 2 else []
        assert dine("run", *links, input=text.encode()) == Answer(0, edges, "")
        assert dine("run", "--table", "sites", *links, input=text.encode()) == Answer(0, sites, "")
