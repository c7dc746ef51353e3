"""Tries which mutants tools/mutants takes for refused, mostly by checks of a simulated kit, tests/kit/checks.py."""
import os
import re
import shutil
import subprocess
import time
import types
from concurrent.futures import ThreadPoolExecutor
from pathlib import Path

import pytest
from lib.files import HOME
from lib.functions import Function, functions

RT = shutil.which("rt")
pytestmark = [pytest.mark.early, pytest.mark.slow, pytest.mark.kit]
KIT = Path(os.path.realpath(RT or "")).parent.parent
SOURCE = """//! Numbers.
#![tactic(auto)]
ghost use Rattle.std.specs.Prelude.{◌≡◌};

/// Returns one.
pub fn one() -> u32
    ensures { result ≡ 1 }
{
    1
}

/// Returns two.
pub fn two() -> u32
    ensures { result ≡ 2 }
{
    let number = one();
    number + 1
}

/// Returns three.
pub fn three() -> u32
    ensures { result ≡ 3 }
{
    3
}
"""
# What is put in place of a line, by the name of the mutant.
WRONG = {"one_is_wrong": ("    1", "    4 - 4 /* wrong */"), "three_is_wrong": ("    3", "    5 /* wrong */")}
MASKED = {**WRONG, "two_is_wrong": ("    number + 1", "    number + 2 /* wrong */")}


class Place:
    """A repository of two crates, of which `numbers` has these mutants and depends on `low`, and a kit."""

    def __init__(self, folder, is_simulated=True):
        self.folder, self.home, self.notes = folder, folder / "home", folder / "calls"
        shutil.copytree(f"{HOME}/tools", self.home / "tools", ignore=shutil.ignore_patterns("__pycache__"))
        (self.home / "crates.txt").write_text("low:\nnumbers: low\n")
        for it in ("HANDLES", "rattle-logic"):
            shutil.copy(f"{HOME}/{it}", self.home)
        for it in ("low", "numbers"):
            (self.home / "crates" / it / "src").mkdir(parents=True)
            (self.home / "crates" / it / "mutants").mkdir()
        (self.home / "crates/low/src/lib.rt").write_text("//! Nothing.\n#![tactic(auto)]\n")
        self.write(SOURCE)
        kit = folder / "kit" if is_simulated else KIT
        if is_simulated:
            shutil.copytree(f"{HOME}/tests/kit", kit / "bin")
            for it in set(os.listdir(KIT)) - {"bin"}:
                (kit / it).symlink_to(KIT / it)
            for it in ("rt", "rtlib.py"):
                shutil.copy(KIT / "bin" / it, kit / "bin")
        self.how = {**os.environ, "PATH": f"{kit}/bin:{os.environ['PATH']}", "XDG_CACHE_HOME": str(folder / "cache"),
                    "DINE_KIT": str(KIT), "DINE_CALLS": str(self.notes), "DINE_CHECKS": f"{HOME}/tests/kit/checks.py"}

    def write(self, source):
        (self.home / "crates/numbers/src/lib.rt").write_text(source)

    def tries(self, mutants, *words, fails=""):
        """Tries these mutants alone, which say of these functions that their proofs fail. Returns the status, the lines
        by the mutant's name, and the last one."""
        folder = self.home / "crates/numbers/mutants"
        for it in folder.iterdir():
            it.unlink()
        for name, (old, new, *more) in mutants.items():
            top = f"fails: {fails}\n" if fails else ""
            (folder / f"{name}.edit").write_text("".join([f"{top}file: src/lib.rt\nold: {old}\nnew: {new}\n", *more]))
        ran = subprocess.run([self.home / "tools/mutants", *words], env=self.how, capture_output=True, text=True,
                             check=False)
        *lines, last = ran.stdout.splitlines() or [ran.stderr]
        return ran.returncode, dict(re.findall(r"^mutant numbers/(\w+)\.edit: (.*)$", "\n".join(lines), re.M)), last

    def checks(self):
        """Returns of each check since this was last asked what it proves, and which functions it refuses."""
        found = [it.removeprefix("check ") for it in self.notes.read_text().splitlines() if it[:5] == "check"]
        self.notes.write_text("")
        return found

    def build(self):
        subprocess.run([self.home / "tools/build", "numbers"], env=self.how, capture_output=True, check=True)


@pytest.fixture
def place(tmp_path):
    return Place(tmp_path)


@pytest.mark.parametrize("lanes", ["1", "3"])
def test_wrong_ones_share_a_check(place, lanes):
    assert place.tries(WRONG, "--lanes", lanes) == (0, dict.fromkeys(WRONG, "ok"), "2 passed, 0 failed")
    # The first check is of the crate as it stands.
    assert place.checks() == ["all: ", "one,three: one,three"]


def test_crate_that_is_built_is_not_proved_again(place):
    place.build()
    assert place.tries(MASKED, "--lanes", "1")[::2] == (0, "3 passed, 0 failed")
    assert place.checks() == ["one,three,two: one,two,three", "two: two"]


def test_static_library_is_built_first(place):
    (place.home / "crates.txt").write_text("low:\nnumbers staticlib: low\n")
    assert place.tries(WRONG)[::2] == (0, "2 passed, 0 failed")
    assert (place.home / "crates/numbers/out/libnumbers.a").is_file()
    assert place.checks() == ["one,three: one,three"]


@pytest.mark.parametrize(("new", "why"), [
    ("    4 - 1", "it is proved"),
    ("    broken", "it did not reach the prover: src/lib.rt:4:5: error[parse]: a word that it does not know"),
    ("    unread", "it cannot be read: src/lib.rt:4:5: error: `returns`: `unread` is not in scope"),
    ("    untold", "it did not reach the prover: rattle: no verdict: it ran out of steps"),
    ("    killed", "it did not reach the prover: "),
])
def test_one_that_is_not_refused_is_found_among_others(place, new, why):
    mutants = {**MASKED, "three_is_wrong": ("    3", new)}
    status, lines, last = place.tries(mutants)
    wanted = {**dict.fromkeys(mutants, "ok"), "three_is_wrong": f"FAILED: {why}"}
    assert (status, lines, last) == (1, wanted, "2 passed, 1 failed")


def test_masked_one_is_tried_again_alone(place):
    assert place.tries(MASKED, "--lanes", "1") == (0, dict.fromkeys(MASKED, "ok"), "3 passed, 0 failed")
    assert place.checks() == ["all: ", "one,three,two: one,two,three", "two: two"]


def test_harmless_caller_of_one_that_is_refused_is_found(place):
    mutants = {**WRONG, "two_is_right": ("    number + 1", "    1 + number")}
    status, lines, _ = place.tries(mutants)
    assert (status, lines["two_is_right"]) == (1, "FAILED: it is proved")


@pytest.mark.parametrize(("old", "new", "only"), [
    ("    ensures { result ≡ 3 }", "    ensures { result ≡ 4 }", "three"),
    ("pub fn three() -> u32", "pub fn three() -> u64", "three"), ("/// Returns three.", "/// Returns four.", "all"),
    ("    1", "    1 /* wrong, as another mutant of the function */", "one"),
])
def test_others_have_a_check_of_their_own(place, old, new, only):
    place.tries({**WRONG, "other": (old, new)}, "--lanes", "1")
    checks = place.checks()
    assert checks[:2] == ["all: ", "one,three: one,three"] and checks[2].startswith(f"{only}: ")


@pytest.mark.parametrize(("function", "checks"), [
    ("three", ["one,three: one,three"]), ("one", ["one: one", "all: three"]),
])
def test_changed_proof_is_of_its_function(place, function, checks):
    """One that changes the proof of another function than its own has a check of its own."""
    path = f"proofs/{function}/Answers.antt"
    (place.home / "crates/numbers" / path).parent.mkdir(parents=True)
    (place.home / "crates/numbers" / path).write_text("-- proved\n")
    more = f"file: {path}\nold: -- proved\nnew: -- not proved\n"
    mutants = {**WRONG, "three_is_wrong": (*WRONG["three_is_wrong"], more)}
    assert place.tries(mutants, "--lanes", "1")[::2] == (0, "2 passed, 0 failed")
    assert place.checks()[1:] == checks


@pytest.mark.parametrize(("fails", "checks"), [
    ("one", ["one: one"]), ("two", ["two: one"]), ("three", ["three: ", "all: one"]), ("four", ["four: ", "all: one"]),
])
def test_functions_that_are_said_to_fail(place, fails, checks):
    """One that changes a definition is tried on these alone, and on all if they are proved or not there."""
    (place.home / "crates/numbers/specs").mkdir()
    (place.home / "crates/numbers/specs/Numbers.antt").write_text("number = 1\n")
    place.build()
    more = "file: specs/Numbers.antt\nold: number = 1\nnew: number = 2\n"
    ran = place.tries({"one_is_wrong": (*WRONG["one_is_wrong"], more)}, fails=fails)
    assert (ran[::2], place.checks()) == ((0, "1 passed, 0 failed"), checks)


@pytest.mark.parametrize("kind", ["", " staticlib"])
def test_crate_is_tried_once_it_is_built(place, kind):
    """A library at once, and another crate when nothing else builds crates any more."""
    (place.home / "crates.txt").write_text(f"low:\nnumbers{kind}: low\n")
    over, calls = place.folder / "over", ["one,three: one,three"]
    with ThreadPoolExecutor() as pool:
        try:
            ran = pool.submit(place.tries, WRONG, "--beside", str(over))
            time.sleep(4)
            assert not place.notes.exists()
            place.build()
            ends = time.time() + (8 if kind else 60)
            while not (found := place.checks()) and time.time() < ends:
                time.sleep(0.5)
            assert found == ([] if kind else calls)
        finally:
            over.touch()
        assert (ran.result()[::2], place.checks()) == ((0, "2 passed, 0 failed"), calls if kind else [])


def test_many_share_several_checks(place):
    place.write("//! Numbers.\n" + "".join(f"pub fn f{it}() -> u32\n{{\n    {it} + 0\n}}\n" for it in range(101)))
    mutants = {f"wrong_{it}": (f"    {it} + 0", f"    {it} /* wrong */") for it in range(101)}
    assert place.tries(mutants, "--lanes", "1")[::2] == (0, "101 passed, 0 failed")
    assert [it.count(",") // 2 + 1 for it in place.checks()] == [1, 100, 1]


def test_changes_of_one_that_cancel_out(place):
    """One that holds a text back while it changes another one like it changes the other function alone."""
    held = "old:     3\nnew:     5 /* wrong */\nold:     HELD\nnew:     1\n"
    mutants = {**WRONG, "three_is_wrong": ("    1", "    HELD", held)}
    assert place.tries(mutants, "--lanes", "1")[::2] == (0, "2 passed, 0 failed")
    assert place.checks() == ["all: ", "one,three: one,three"]


def test_text_behind_the_brace_of_a_head_is_in_the_body(place):
    place.write(SOURCE.replace("-> u32\n    ensures { result ≡ 1 }\n{", "-> u32 {"))
    mutants = {**WRONG, "one_is_wrong": ("pub fn one() -> u32 {", "pub fn one() -> u32 { /* wrong */")}
    assert place.tries(mutants, "--lanes", "1")[::2] == (0, "2 passed, 0 failed")
    assert place.checks() == ["all: ", "one,three: one,three"]


def test_names_of_functions(tmp_path):
    """Those that rattle gives them."""
    (tmp_path / "src").mkdir()
    (tmp_path / "src/plans.rt").write_text("pub struct Plan {\n    sites: u32,\n}\n")
    crate = types.SimpleNamespace(name="low", folder=str(tmp_path))
    text = """impl<T: Drop, J: Job<T>> Plan<T, J> {
    pub fn of(
        sites: u32,
    ) -> Plan
        requires { sites ≤ 8 }
    {
        Plan { sites }
    }
}

impl Error for Fault {}

impl<D: Diner> From<&RunFault<D, Part>>
    for Fault<'_>
{
    fn from(fault: &RunFault<D, Part>) -> Fault {
        Fault
    }
}

pub trait Lane {
    fn put(&self) -> u32;
}

fn alone() -> u32 {
    3
}
"""
    lines = zip(text.split("\n"), functions(crate, "src/dots/edges.rt", text))
    inside = {line.strip(): function.path() for line, (function, is_inside) in lines if is_inside}
    assert inside == {"Plan { sites }": "plans::Plan::of", "Fault": "dots::edges::FaultFromRefRunFaultPart::from",
                      "3": "dots::edges::alone"}
    of = Function(("low", "dots"), "Plan", "of")
    assert of.is_named("low::dots::Plan::of") and of.is_named("low::dots::fn::Plan::of::map")
    assert not any(of.is_named(it) for it in ("low::Plan::of", "low::dots::PlanDisplay::of", "low::dots::Plan::offer"))


def test_refused_ones_are_kept_until_something_changes(place):
    place.tries(WRONG)
    place.checks()
    status, lines, last = place.tries(WRONG, "--show")
    goals = {it: f"ok: numbers::{it.partition('_')[0]}: `returns`: no proof of it" for it in WRONG}
    assert (status, lines, last, place.checks()) == (0, goals, "2 passed, 0 failed", [])
    place.tries(WRONG, "--anew")
    assert len(place.checks()) == 2
    place.write(SOURCE.replace("Numbers.", "Three numbers."))
    place.tries(WRONG)
    assert len(place.checks()) == 2
    (place.home / "crates/low/src/lib.rt").write_text("//! Nothing at all.\n#![tactic(auto)]\n")
    place.tries(WRONG)
    assert len(place.checks()) == 2


def test_one_that_is_not_refused_is_not_kept(place):
    for _ in range(2):
        assert place.tries({"harmless": ("    3", "    4 - 1")})[::2] == (1, "0 passed, 1 failed")


def test_source_that_changes_meanwhile(place):
    place.build()
    place.how["DINE_TOUCHES"] = str(place.home / "crates/low/src/lib.rt")
    wanted = "FAILED: it did not reach the prover: a source was changed meanwhile"
    assert place.tries(WRONG) == (1, dict.fromkeys(WRONG, wanted), "0 passed, 2 failed")


def test_crate_that_is_not_proved(place):
    place.write(SOURCE.replace("    number + 1", "    number /* wrong */"))
    status, lines, last = place.tries(WRONG)
    assert (status, last) == (1, "0 passed, 2 failed")
    assert all(it.startswith("FAILED: numbers itself is not proved") for it in lines.values())


@pytest.mark.timeout(3000)
def test_by_the_prover(tmp_path):
    mutants = {"one_is_wrong": ("    1", "    4 - 4"), "two_is_right": ("    number + 1", "    1 + number"),
               "three_is_broken": ("    3", "    3 +")}
    place = Place(tmp_path, is_simulated=False)
    (place.home / "crates.txt").write_text("numbers:\n")
    status, lines, last = place.tries(mutants)
    assert (status, last) == (1, "1 passed, 2 failed")
    assert lines["three_is_broken"].startswith("FAILED: it did not reach the prover: ")
    assert (lines["one_is_wrong"], lines["two_is_right"]) == ("ok", "FAILED: it is proved")
