"""Tries the bindings in C, Rust and Python: their files are up to date, they print what the program prints, bad letters
and misused handles change nothing, and the examples over MPI and with processes that are killed find an order of all
events.

All but the first is done twice, each time in a copy of bindings/, examples/ and the licences: with the proved library,
which `rt lib` makes, and as a user without the kit, where neither rt nor the folder of the kit can be seen. With
pytest -n 2 each way is tried by one process."""
import functools
import os
import random
import shutil
import sys
import tempfile
from concurrent.futures import ThreadPoolExecutor
from pathlib import Path

import pytest
from calls import blocks, dine, fault_of_build
from lib import bindings
from lib.files import HOME, text_of
from lib.process import Answer, answer_of

pytestmark = pytest.mark.timeout(3000)
PLANS = ("plans/pair.toml", "plans/ring_of_five.toml", "plans/resigning_site.toml", "tests/cases/values.toml",
         "tests/cases/triangle.toml")
# How many lists of choices are replayed of each plan.
LISTS = 200
RT = shutil.which("rt")
KIT = os.path.dirname(os.path.dirname(os.path.realpath(RT))) if RT else ""
# Before a command: it runs where the kit cannot be seen.
HIDDEN = ["unshare", "-rm", "sh", "-euc", 'mount -t tmpfs none "$0"; if command -v rt; then exit 1; fi; exec "$@"', KIT]
# Each crate is compiled once, and nobody looks at it by a debugger: what is for that takes half of the time.
CARGO = {"CARGO_INCREMENTAL": "0", "CARGO_PROFILE_DEV_DEBUG": "0", "CARGO_PROFILE_TEST_DEBUG": "0"}
# Four ranks on any machine, as any user, which give way while they wait.
MPI = {"OMPI_ALLOW_RUN_AS_ROOT": "1", "OMPI_ALLOW_RUN_AS_ROOT_CONFIRM": "1", "OMPI_MCA_mpi_yield_when_idle": "1",
       "OMPI_MCA_rmaps_base_oversubscribe": "1", "OMPI_MCA_btl_vader_single_copy_mechanism": "none"}


# A compiler for bindings/build: gcc, but of the rules as C, four megabytes, it makes one object for all builds.
COMPILER = """#!/bin/bash
words=("$@")
for it in "${!words[@]}"; do
    case ${words[it]} in -c) source=${words[it + 1]} ;; -o) made=${words[it + 1]} ;; esac
done
[[ ${source:-} == */module.c ]] || exec gcc "$@"
kept=$(dirname "$0")/$(sha256sum <"$source" | cut -d" " -f1).o
[[ -e $kept ]] || gcc "${words[@]:0:${#words[@]} - 1}" "$kept" || exit
cp "$kept" "$made"
"""


# ---- Files


@pytest.mark.early
def test_written_files():
    """They are up to date: if not, run tools/bindings --write. The cargo of rustc 1.63 reads no newer lock file."""
    assert [path for path in bindings.PARTS if text_of(path) != bindings.written(path)] == []
    assert bindings.faults_of_header() == [] and "\nversion = 3\n" in text_of("bindings/rust/Cargo.lock")


@pytest.mark.early
def test_module_as_c(tmp_path):
    """It is up to date: if not, run tools/bindings --write. If this wasm2c is not the noted one, the note counts."""
    noted, here = text_of(bindings.MADE).split("\n"), bindings.makers().split("\n")
    assert noted[1] == here[1]
    needs("wasm2c")
    if noted[0] == here[0]:
        bindings.module_as_c(tmp_path)
        for path in bindings.MODULE:
            # Not compared by assert, which would look for a while for what differs in four megabytes.
            is_same = text_of(tmp_path / os.path.basename(path)) == text_of(path)
            assert is_same, path


# ---- A copy with a library


def needs(*tools):
    """Skips a test if this machine does not have these tools."""
    if missing := [it for it in tools if not shutil.which(it)]:
        pytest.skip(f"no {missing[0]}")


class Place:
    """A copy of bindings/, examples/ and the licences, the library in it, and commands that are run there."""

    def __init__(self, folder, is_hidden):
        self.folder, self.before = folder, HIDDEN if is_hidden and KIT else []
        self.environment = {**os.environ, **MPI, **CARGO, "CARGO_TARGET_DIR": f"{folder}/target",
                            "PYTHONPATH": f"{folder}/bindings/python", **({"DINE_NOKIT": "1"} if is_hidden else {})}
        for name in ("bindings", "examples"):
            shutil.copytree(f"{HOME}/{name}", f"{folder}/{name}", ignore=shutil.ignore_patterns(
                "lib", "target", "libdine.so", "__pycache__"))
        for name in ("LICENSE-APACHE", "LICENSE-MIT"):
            shutil.copy(f"{HOME}/{name}", folder)
        if is_hidden:
            compiler = Path(folder, "compiler/cc")
            compiler.parent.mkdir()
            compiler.write_text(COMPILER, "utf-8")
            compiler.chmod(0o755)
            self.environment["CC"] = str(compiler)

    def ran(self, *words, at=".", **more):
        """Runs a command in a folder, and returns its status and output."""
        environment = {**self.environment, **more.pop("env", {})}
        program, *words = [*self.before, *words]
        return answer_of(words, program, 600, cwd=f"{self.folder}/{at}", env=environment, **more)

    def output(self, *words, **how):
        """Runs a command, which has to end well, and returns its output."""
        ran = self.ran(*words, **how)
        assert ran.status == 0, ran.output + ran.error
        return ran.output

    @functools.cache
    def program(self, source, compiler="gcc"):
        """Compiles a program in C, and returns it."""
        to = f"{self.folder}/{os.path.basename(source)[:-2]}"
        self.output(compiler, "-O2", "-Wall", "-Wextra", "-Werror", "-Ibindings/c", source, "bindings/lib/libdine.a",
                    "-lpthread", "-o", to)
        return to

    def rust(self, *words):
        """Has cargo build the crate with the library that is there, and returns what it prints."""
        needs("cargo")
        how = {"at": "bindings/rust", "env": {"DINE_LIB": f"{self.folder}/bindings/lib"}}
        return self.output("cargo", words[0], "-q", "--offline", *words[1:], **how)


WAYS = [pytest.param(it, marks=[pytest.mark.slow, pytest.mark.xdist_group(it)]) for it in ("with kit", "without kit")]
# A test of what does not depend on the library.
ONCE = pytest.mark.parametrize("place", WAYS[1:], indirect=True)


@pytest.fixture(scope="module", params=WAYS)
def place(request):
    is_hidden = request.param == "without kit"
    needs("gcc", *[] if is_hidden else ["rt"])
    if is_hidden and KIT and answer_of(["-rm", "true"], "unshare").status:
        pytest.skip("no unshare that makes a namespace")
    with tempfile.TemporaryDirectory(prefix="bindings-") as folder:
        it = Place(folder, is_hidden)
        if not is_hidden:
            os.makedirs(f"{folder}/crates/dine_ffi/out")
            assert fault_of_build("dine_ffi") == ""
            os.symlink(f"{HOME}/crates/dine_ffi/out/libdine_ffi.a", f"{folder}/crates/dine_ffi/out/libdine_ffi.a")
        assert it.output("bindings/build") == f"libdine is made of {'c/nokit' if is_hidden else 'crates/dine_ffi'}\n"
        yield it


# ---- Programs and tests of the bindings


def test_c(place):
    """The programs in C: the last one is refused memory by its limit."""
    assert place.output(place.program("bindings/c/pair.c")).endswith("\nevents 22 of 22\n")
    assert place.output(place.program("bindings/c/misuse.c"))
    for name in ("statuses", "built"):
        assert place.output(place.program(f"bindings/c/{name}.c")) == "0 wrong\n"
    assert place.output("sh", "-c", 'ulimit -v 120000 && exec "$0"', place.program("bindings/c/memory.c"))


def test_rounds(place):
    """A million handles are opened and closed in 400 MB, or a quarter of that by the slower rules as C: no call is out
    of memory while there is memory, and after memory was used up by small worlds and all were closed, the largest plan
    is read."""
    count = 250_000 if "DINE_NOKIT" in place.environment else 1_000_000
    rounds = place.program("bindings/c/rounds.c")
    ran = place.output("sh", "-c", f'ulimit -v 400000 && exec "$0" {count}', rounds)
    assert ran.endswith(f"\n{count * 11 // 10} rounds\n")


def test_names_of_the_library(place):
    """libdine.so exports the calls of dine.h, and no other name."""
    needs("nm")
    names = place.output("nm", "-D", "--defined-only", "bindings/lib/libdine.so").split("\n")
    there = {line.split()[-1] for line in names if line}
    calls = {name for name, _ in bindings.exports()}
    assert {it for it in there if not it.startswith("dine_raw_")} == {f"dine_{name}" for name in calls}
    assert there - {f"dine_{name}" for name in calls} <= {f"dine_raw_{name}" for name in calls}


def test_rust(place):
    needs("cargo")
    """The tests of the crate, a file each, and the examples of its documentation."""
    files = len(list(Path(HOME, "bindings/rust/tests").glob("*.rs")))
    printed = place.output("cargo", "test", "-q", "--offline", at="bindings/rust")
    assert printed.count("test result: ok.") == files + 2


def test_python(place):
    """The package as pip installs it, and its tests."""
    site = f"{place.folder}/site"
    pytest.importorskip("pip")
    place.output(sys.executable, "-m", "pip", "install", "-q", "--no-index", "--no-build-isolation", "--target",
                 site, "bindings/python")
    tests = [sys.executable, "-m", "pytest", "-q", "-p", "no:cacheprovider", "bindings/python/tests"]
    assert " passed" in place.output(*tests, env={"PYTHONPATH": site})


@ONCE
def test_packages(place):
    """What cargo and pip make of the two packages works in an empty folder, where nothing else of the repository is."""
    needs("cargo")
    pytest.importorskip("pip")
    crate, sdist = f"{place.folder}/target/package/dine-0.1.0.crate", f"{place.folder}/alone/dine-0.1.0.tar.gz"
    place.output("bindings/package", "-q", "--offline", "--no-verify")
    os.makedirs(f"{place.folder}/alone/python")
    place.output("tar", "xf", crate, "-C", "alone")
    files = os.listdir(f"{place.folder}/alone/dine-0.1.0")
    assert {"LICENSE-MIT", "LICENSE-APACHE", "README.md", "c", "build"} <= set(files)
    here = {"at": "alone/dine-0.1.0", "env": {"CARGO_TARGET_DIR": f"{place.folder}/alone/target"}}
    assert place.output("cargo", "run", "-q", "--offline", "--example", "bank", **here).startswith("bob ate 8000 times")
    makes = f"import build_dine; print(build_dine.build_sdist({place.folder + '/alone'!r}))"
    place.output(sys.executable, "-c", makes, at="bindings/python")
    place.output("tar", "xf", sdist, "-C", "alone/python")
    place.output(sys.executable, "-m", "pip", "install", "-q", "--no-index", "--no-build-isolation", "--target",
                 f"{place.folder}/alone/site", "alone/python/dine-0.1.0")
    assert any(it.startswith("dine-0.1.0") for it in os.listdir(f"{place.folder}/alone/site"))
    readme = [sys.executable, "-m", "doctest", f"{place.folder}/bindings/python/README.md"]
    assert place.output(*readme, env={"PYTHONPATH": f"{place.folder}/alone/site"}) == ""


@ONCE
def test_lints(place):
    """The crate has no warning of clippy or rustdoc; the types of the Python package and of its examples fit."""
    needs("cargo")
    if shutil.which("cargo-clippy"):
        place.rust("clippy", "--all-targets", "--", "-D", "warnings")
    place.rust("doc", "--no-deps")
    if answer_of(["-m", "mypy", "--version"], sys.executable).status == 0:
        words = [sys.executable, "-m", "mypy", "--strict", "dine", "examples"]
        assert "no issues found" in place.output(*words, at="bindings/python")


def test_page(place):
    """What docs/BINDINGS.md shows is so."""
    shown = blocks("docs/BINDINGS.md")
    page = [line.removeprefix("    ") for line in text_of("docs/BINDINGS.md").splitlines() if line]
    for path, heads in (("bindings/rust/examples/scheduler.rs", 1), ("bindings/python/examples/scheduler.py", 0)):
        program = [line for line in text_of(path).splitlines()[heads:] if line]
        at = page.index(program[1]) - 1
        assert page[at:at + len(program)] == program
    tasks = "5000 tasks, 10000 uses, half of them done within "
    assert place.rust("run", "--release", "--example", "scheduler").startswith(tasks)
    assert place.output(sys.executable, "bindings/python/examples/scheduler.py").startswith(tasks)
    assert place.rust("run", "--example", "bank") == "bob ate 8000 times, the sum is 400\n"
    watch = next(it for it in shown if "impl dine::Watch" in it)
    c = next(it for it in shown if it.startswith("dine_handle plan"))
    assert watch in text_of("bindings/rust/examples/progress.rs")
    assert " meals ended\n" in place.rust("run", "--example", "progress")
    plan = 'version = 1\\n[[site]]\\nname = \\"a\\"\\njobs = []\\n'
    main = f'#include "dine.h"\n#include <string.h>\nint main(void) {{ const char *PLAN = "{plan}";\n{c}return 0; }}\n'
    Path(place.folder, "shown.c").write_text(main, "utf-8")
    place.output(place.program("shown.c"))
    assert place.output(sys.executable, "-m", "doctest", f"{HOME}/docs/BINDINGS.md") == ""


def test_sites_of_the_page(place):
    """The loop of docs/BINDINGS.md runs two sites in two threads, and that of sites.rs over a pair of sockets."""
    loop = next(it for it in blocks("docs/BINDINGS.md") if it.startswith("from dine import Kind, Site"))
    Path(place.folder, "loop.py").write_text(loop, "utf-8")
    ran = "import queue, runpy, sys, threading; from dine import PAIR; inboxes = [queue.Queue(), queue.Queue()]\n"
    ran += "def run(n): runpy.run_path('loop.py', {'text': PAIR, 'number': n, 'random': 7, 'receive': inboxes[n].get, "
    ran += "'send': lambda to, letter: inboxes[to].put(letter), 'work': lambda: print('ate', n)})\n"
    ran += "threads = [threading.Thread(target=run, args=[n]) for n in (0, 1)]\n"
    ran += "[it.start() for it in threads]; [it.join(60) for it in threads]\n"
    lines = place.output(sys.executable, "-c", ran, env={"PYTHONPATH": "bindings/python"}).splitlines()
    assert sorted(lines) == ["ate 0", "ate 1"]
    assert place.rust("run", "--example", "sites").startswith("site 0 ate 2 times")


# ---- Replays


@functools.cache
def replays(plan):
    """Returns random lists of choices, the same each time, and what the program prints of them."""
    some, text = random.Random(plan), text_of(plan).encode()
    lists = [",".join(str(some.randrange(12)) for _ in range(some.randrange(1, 40))) for _ in range(LISTS)]
    with ThreadPoolExecutor(os.cpu_count()) as pool:
        printed = pool.map(lambda it: dine("replay", "--choices", it, input=text).output, lists)
        return "\n".join(lists).encode() + b"\n", "".join(printed)


@pytest.mark.built("dine_cli")
@pytest.mark.parametrize("language", ["C", "Rust", "Python"])
def test_replays(place, language):
    """Each language prints what the proved program prints."""
    words = [sys.executable, "bindings/python/examples/replay.py"]
    if language == "C":
        words = [place.program("bindings/c/replay.c")]
    if language == "Rust":
        place.rust("build", "--release", "--example", "replay")
        words = [f"{place.folder}/target/release/examples/replay"]
    for plan in PLANS:
        lists, wanted = replays(plan)
        assert place.ran(*words, f"{HOME}/{plan}", input=lists) == Answer(0, wanted, "")


# ---- Sites as processes


def test_restart(place):
    journals = f"{place.folder}/journals"
    assert "is accepted" in place.output(sys.executable, "examples/restart/restart.py", "30", journals)


def test_two_processes(place):
    place.output(sys.executable, "bindings/python/examples/two_processes.py")


@pytest.fixture(params=["C", "Python"])
def ranks(place, request):
    """Returns the words that run the example over MPI on four ranks."""
    needs("mpirun")
    if request.param == "Python":
        pytest.importorskip("mpi4py")
        return ["mpirun", "-n", "4", sys.executable, "examples/mpi/dine_mpi.py"]
    needs("mpicc")
    return ["mpirun", "-n", "4", place.program("examples/mpi/dine_mpi.c", "mpicc")]


@pytest.mark.parametrize("plan", [[], [f"{HOME}/plans/grid.toml"]], ids=["its own plan", "grid"])
def test_mpi(place, ranks, plan):
    assert "is accepted" in place.output(*ranks, *plan)


def test_rank_that_dies(place, ranks):
    """The job ends with a line about the rank, which would get more letters: Done and Close of each neighbour alone are
    104."""
    ran = place.ran(*ranks, env={"DINE_MPI_DIE_AFTER": "100"})
    assert ran.status and "rank 3" in ran.error and "is accepted" not in ran.output
