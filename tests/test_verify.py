"""Tries what verify counts and prints, with checks that only print, and what .ci/run installs."""
import os
import re
import shutil

import pytest
from lib.files import HOME
from lib.process import answer_of

pytestmark = pytest.mark.early
TESTS = "plans: 3 passed, 0 failed, 0 skipped, 2 seconds\n3 passed, 0 failed"


def script(path, prints, status=0):
    """Writes a program that only prints, except that as python3 it does what -c says and prints nothing."""
    path.parent.mkdir(exist_ok=True)
    path.write_text(f"#!/bin/bash\n[[ ${{1:-}} == -c ]] && exit\nprintf '%s\\n' '{prints}'\nexit {status}\n", "utf-8")
    path.chmod(0o755)


@pytest.fixture
def verified(tmp_path):
    """Calls verify with arguments in a folder whose checks only print, and returns its status and its lines."""
    shutil.copy(f"{HOME}/verify", tmp_path)
    for it in os.listdir(f"{HOME}/tools"):
        script(tmp_path / "tools" / it, "1 passed, 0 failed")
    script(tmp_path / "tools/model", "model: skipped: no spin\n4 passed, 0 failed, 1 skipped")
    script(tmp_path / "bin/python3", TESTS)
    script(tmp_path / "bin/rt", "")

    def call(*words, path=os.environ["PATH"]):
        how = {"env": {**os.environ, "PATH": f"{tmp_path}/bin:{path}"}}
        ran = answer_of(words, f"{tmp_path}/verify", **how)
        return ran.status, [" ".join(line.split()) for line in ran.output.splitlines()]

    return call


def test_table(verified):
    status, lines = verified()
    end = lines[lines.index("group passed failed skipped seconds") - 2:]
    assert (status, end[0]) == (0, "model: skipped: no spin")
    assert re.fullmatch(r"\d+ passed, 0 failed, 1 skipped", end[-1])
    assert any(re.fullmatch(r"model 4 0 1 \d+", it) for it in end) and end.count("plans 3 0 0 2") == 2


@pytest.mark.parametrize(("words", "last"), [
    ([], "7 passed, 0 failed"), (["--quick"], "7 passed, 0 failed"),
])
def test_without_kit(verified, tmp_path, words, last):
    """Nothing is built, and the last line says what was left out."""
    (tmp_path / "bin/rt").unlink()
    for it in ("build", "mutants", "schedules", "model"):
        script(tmp_path / "tools" / it, f"{it} was called", 1)
    status, lines = verified(*words, path="/usr/bin:/bin")
    left = "without rt of the Rattle kit these were left out: proofs, mutants, schedules, models, and tests that build"
    assert (status, lines[-1]) == (0, f"{last}; {left}") and not any("was called" in it for it in lines)


@pytest.mark.parametrize(("words", "status", "last"), [
    (["--no-skips"], 1, r"\d+ passed, 1 failed"), (["--quick"], 0, "6 passed, 0 failed"),
    (["--slow"], 2, ""), (["--quick", "--no-skips"], 2, ""), ([""], 2, ""),
])
def test_arguments(verified, words, status, last):
    found, lines = verified(*words)
    assert found == status and re.fullmatch(last, "".join(lines[-1:]))


@pytest.mark.slow
@pytest.mark.parametrize(("prints", "ends"), [("1 passed, 0 failed", 3), ("nothing", 0), ("1 passed, 1 failed", 1)])
@pytest.mark.parametrize("check", ["bin/python3", "tools/believe", "tools/build", "tools/mutants", "tools/wasm"])
def test_failure(verified, tmp_path, check, prints, ends):
    script(tmp_path / check, prints, ends)
    status, lines = verified()
    # The tests are run twice.
    assert status == 1 and re.fullmatch(rf"\d+ passed, {1 + (check == 'bin/python3')} failed, 1 skipped", lines[-1])


def test_ci_installs_what_is_missing(tmp_path):
    """On a machine without Chromium and spin."""
    shutil.copytree(f"{HOME}/.ci", tmp_path / ".ci")
    (tmp_path / "bin").mkdir()
    for it in ("bash", "dirname", "env"):
        (tmp_path / "bin" / it).symlink_to(shutil.which(it))
    for path in ("bin/apt-get", "verify"):
        (tmp_path / path).write_text(f'#!/bin/bash\necho {path} "$@" >>{tmp_path}/called\n', "utf-8")
        (tmp_path / path).chmod(0o755)
    ran = answer_of([f"{tmp_path}/.ci/run"], "bash", env={"PATH": f"{tmp_path}/bin"})
    wanted = r"bin/apt-get update\nbin/apt-get install -y .*\bflake8 .*\bspin chromium .*\nverify --no-skips\n"
    assert ran.status == 0 and re.fullmatch(wanted, (tmp_path / "called").read_text("utf-8"))
