"""Tries what needs no build: the planted bugs and the mutants are changes of the sources as they are now, the models of
waking name functions that are there, the lists that tools/words writes are those of the crates, the crates are laid
out, flake8, shellcheck and tidy find no fault, and what needs no browser of the modules of page/ is right, as `node
--test tests/page` says."""
import os
import re
import shutil
from pathlib import Path

import pytest
from lib.bugs import BUGS, OPEN_BUGS, changes_of
from lib.crates import copy_crates, crates
from lib.files import HOME, paths, text_of
from lib.mutants import applied, mutant
from lib.process import Answer, answer_of

pytestmark = pytest.mark.early
# What tidy reports although HTML has it.
KNOWN = ('<form> attribute "method" has invalid value "dialog"', '<textarea> proprietary attribute "autocomplete"')
FILES = [it for it in (".ci/run", "dine", "show", "verify", *paths("bindings/build"), *paths("tests/kit/*"),
                       *paths("tools/**"), *paths("features/*"), *paths("bench/*"), *paths("tests/*"))
         if os.path.isfile(f"{HOME}/{it}")]
FIRST = {it: Path(HOME, it).read_bytes().partition(b"\n")[0] for it in FILES}
PYTHON = [it for it in FILES if it.endswith(".py") or FIRST[it] == b"#!/usr/bin/env python3"]
SHELL = [it for it in FILES if FIRST[it] in (b"#!/usr/bin/env bash", b"#!/bin/sh")]
PLANTED = {name: [name] for name in BUGS} | {"those of open runs": OPEN_BUGS}


@pytest.mark.parametrize("name", PLANTED)
def test_planted_bug_changes_the_sources(name):
    applied(changes_of(PLANTED[name]), f"{HOME}/crates")


@pytest.mark.parametrize("path", paths("crates/*/misuse/*.edit") + paths("crates/*/mutants/*.edit"))
def test_mutant_changes_the_sources(path):
    it, is_misuse = mutant(text_of(path)), "/misuse/" in path
    applied(it.changes, f"{HOME}/{os.path.dirname(os.path.dirname(path))}")
    assert bool(it.refused) == is_misuse, "a text of the error belongs to misuse/"
    is_wide = any(not file.startswith("src/") for file, *_ in it.changes)
    assert not it.fails or is_wide and not is_misuse, "the functions that fail are said of definitions and proofs alone"


def test_what_is_unsafe_is_told():
    """docs/BELIEVE.md leads to each file of the crates that has something unsafe beside the marks of exports."""
    told = text_of("docs/BELIEVE.md")
    mark = re.compile(r"^ *[^/\n]*\bunsafe (?:impl|fn|\{)", re.M)
    found = [it for it in paths("crates/*/src/**/*.rt") if mark.search(text_of(it))]
    assert found and [it for it in found if f"(../{it})" not in told] == []


def test_borders():
    """What two of tools/, tests/, bench/ and features/ need is in tools/lib. Else only features/ is imported."""
    homes = {Path(it).stem: os.path.dirname(it) for it in paths("tests/*.py") + paths("bench/*.py")}
    homes |= {"lib": "tools/lib", "features": "features"}
    strange = []
    for path in PYTHON:
        own = os.path.dirname(path)
        may = {own, "tools/lib", "features"} if own not in ("bench", "tools/lib") else {own, "tools/lib"}
        names = re.findall(r"^ *(?:from|import) (\w+)", text_of(path), re.M)
        strange += [f"{path}: {it}" for it in names if homes.get(it, own) not in may]
    assert strange == []


def ran(tool, *words, at=HOME):
    """Runs a tool in this folder. Skips the test if this machine does not have it."""
    if not shutil.which(tool):
        pytest.skip(f"{tool} is not installed")
    # They run beside the proofs, at a lower priority.
    return answer_of(words, tool, 280, cwd=at)


def test_flake8():
    assert ran("flake8", "--jobs", "1", *PYTHON) == Answer(0, "", "")


def test_shellcheck():
    assert ran("shellcheck", "-x", *SHELL) == Answer(0, "", "")


@pytest.mark.parametrize("path", ["page/index.html", "page/article.html", "lessons/handout.html"])
def test_tidy(path):
    _, output, error = ran("tidy", "-quiet", "-errors", "--drop-empty-elements", "no", path)
    assert [it for it in (output + error).splitlines() if not it.endswith(KNOWN)] == []


def test_no_links():
    """rt ci refuses a repository with a link."""
    assert [it for it in paths("**") if os.path.islink(f"{HOME}/{it}")] == []


def test_layout_of_the_crates(tmp_path):
    copy_crates(" ".join(crates()), tmp_path)
    changed = [it for it in crates() if ran("rt", "fmt", at=f"{tmp_path}/crates/{it}") != Answer(0, "", "")]
    assert changed == [], "run rt fmt in the folder of the crate"


@pytest.mark.parametrize("words", [[f"{HOME}/tools/model", "--sources"], [f"{HOME}/tools/words"],
                                   *(["node", "--test", it] for it in paths("tests/page/*.test.mjs"))], ids=" ".join)
def test_models_lists_and_modules(words):
    status, output, error = ran(*words)
    assert status == 0, output + error
