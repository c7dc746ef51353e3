"""What all tests share: the programs that they call are built first, and at the end the results are counted by file."""
import collections
import os
import shlex
import sys
import tempfile
from pathlib import Path

import pytest

import calls
from lib.files import text_of, write

# Its fixtures are for all tests, and its assertions say what differs.
pytest_plugins = ["chromium"]
KINDS = ("passed", "failed", "skipped")


def pytest_addoption(parser):
    parser.addoption("--unproved", action="store_true", help="call programs that are built without any proof")
    parser.addoption("--write", action="store_true", help="write tests/explained.txt and tests/states.txt anew")
    parser.addoption("--rounds", type=int, default=5,
                     help="how often tests/test_many_runs.py runs each plan; tests/test_open_runs.py: twenty times; 5")


def pytest_configure(config):
    # The processes of pytest -n have the path of the one that begins them.
    if not hasattr(config, "workerinput"):
        config.add_cleanup(put_python_on_the_path())
    calls.HOW["is_unproved"] = config.getoption("unproved")
    # With -n the tests of a group are done by one process. Those processes get the arguments alone, which lack this.
    if getattr(config.option, "dist", "") == "load":
        config.option.dist = "loadgroup"
    if hasattr(config, "workerinput"):
        config.option.loadgroup = True


def put_python_on_the_path():
    """Has the tools run by the Python that runs the tests, which has what they need, and not by one that looks for a
    Python first. Returns what takes that back."""
    folder = tempfile.TemporaryDirectory(prefix="python-")
    program = Path(folder.name, "python3")
    program.write_text(f'#!/bin/sh\nexec {shlex.quote(sys.executable)} "$@"\n', "utf-8")
    program.chmod(0o755)
    os.environ["PATH"] = f"{folder.name}:{os.environ['PATH']}"
    return folder.cleanup


def pytest_collection_modifyitems(items):
    for it in items:
        if not calls.HAS_KIT and it.get_closest_marker("kit"):
            it.add_marker(pytest.mark.skip(reason="rt of the Rattle kit is not on the path"))


@pytest.fixture(autouse=True)
def programs(request):
    """Builds the programs that the mark `built` names. Where there is no kit, those of programs/ are called."""
    for crate in [it for mark in request.node.iter_markers("built") for it in mark.args]:
        if not calls.HAS_KIT:
            calls.called(crate)
        elif fault := calls.fault_of_build(crate, **calls.HOW):
            pytest.fail(fault, pytrace=False)


@pytest.fixture
def is_as_written(request):
    """Returns a call that tries that a file has a text, or writes the file anew with --write."""
    def tries(path, text):
        if request.config.getoption("write"):
            write(path, text)
        assert text == text_of(path)

    return tries


def pytest_terminal_summary(terminalreporter):
    """Prints which tests were skipped, the results of each file, and the count of all, as verify reads them."""
    counts, seconds = collections.Counter(), collections.Counter()
    for kind, found in terminalreporter.stats.items():
        for report in (it for it in found if hasattr(it, "duration")):
            file, _, name = report.nodeid.partition("::")
            group = os.path.basename(file).removeprefix("test_").removesuffix(".py")
            seconds[group] += report.duration
            counts[group, {"error": "failed"}.get(kind, kind)] += 1
            if kind == "skipped":
                terminalreporter.line(f"{group} {name}: skipped: {report.longrepr[2].removeprefix('Skipped: ')}")
    terminalreporter.section("results by file")
    for group in sorted(seconds):
        told = ", ".join(f"{counts[group, kind]} {kind}" for kind in KINDS)
        terminalreporter.line(f"{group}: {told}, {seconds[group]:.0f} seconds")
    passed, failed, skipped = (sum(counts[it, kind] for it in seconds) for kind in KINDS)
    terminalreporter.line(f"{passed} passed, {failed} failed" + f", {skipped} skipped" * bool(skipped))
