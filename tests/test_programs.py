"""Tries the programs that come with the repository: which one ./dine and ./show take, and what they say if none can be
used; that tools/programs makes the same bytes again; and that a newcomer without the kit, a compiler, Python and the
network can run them."""
import hashlib
import json
import os
import re
import shutil
import subprocess
import sys
import tomllib
from pathlib import Path

import pytest
from calls import HAS_KIT, answer_with, called, copy_repository, fault_of_build
from lib import stamps
from lib.crates import crates, with_those_below
from lib.files import HOME, paths, text_of
from lib.process import Answer, answer_of

RAN = 'echo committed "$@"; cat'
MADE = Path("programs/made")
# Where rt and its kit are not on the path, nor is Python.
BASE = "/usr/bin:/bin"
NO_RT = "there is no rt to build it: DINE_COMMITTED=1 takes the one from before\n"


def sum_of(data):
    return hashlib.sha256(data).hexdigest()


# ---- Which program ./dine runs, in a small repository


class Place:
    """A small repository, whose programs only print. It has neither git nor a kit."""

    def __init__(self, home):
        self.home = home
        shutil.copytree(f"{HOME}/tools/lib", home / "tools/lib", ignore=shutil.ignore_patterns("__pycache__"))
        for it in ("dine", "tools/made", "tools/build", "rattle-logic", "CHANGELOG.md"):
            shutil.copy(f"{HOME}/{it}", home / it)
        self.write("crates.txt", "# crates\nlow:\nother:\ndine_cli may_wait=1: low\n")
        for crate in ("low", "other", "dine_cli"):
            self.write(f"crates/{crate}/src/{'main' if crate == 'dine_cli' else 'lib'}.rt", f"//! {crate}\n")
        self.write("crates/low/specs/deep/Way.antt", "-- a definition\n")
        self.write("crates/low/proofs/Proof.antt", "-- a proof\n")
        self.write("programs/dine", f"#!/bin/sh\n{RAN}\n")
        (home / "programs/dine").chmod(0o755)
        self.note()

    def write(self, path, text):
        (self.home / path).parent.mkdir(parents=True, exist_ok=True)
        (self.home / path).write_text(text, "utf-8")

    def sources(self, *paths):
        """Returns the sum of tools/made --sum, as its first lines say it."""
        lines = [it for it in (self.home / "crates.txt").read_text("utf-8").splitlines(True)
                 if it.partition(":")[0].split(" ")[0] in [path.removeprefix("crates/") for path in paths]]
        found = [it for path in paths for it in (self.home / path).rglob("*") if it.is_file()
                 and it.relative_to(self.home / path).parts[0] in ("src", "specs", "proofs")]
        for it in sorted(found, key=lambda it: bytes(it.relative_to(self.home))):
            lines.append(f"{sum_of(it.read_bytes())}  {it.relative_to(self.home)}\n")
        return sum_of("".join(lines).encode())

    def note(self):
        """Writes programs/made."""
        both = ("crates/low", "crates/dine_cli")
        lines = [f"program dine {sum_of((self.home / 'programs/dine').read_bytes())}",
                 f"sources dine {self.sources(*both)} {' '.join(both)}"]
        lines += [f"part {it} {self.sources(it)}" for it in both]
        self.write("programs/made", "".join(f"{it}\n" for it in lines))

    def ran(self, *words, before=(), **more):
        """Runs ./dine with a path on which there is no kit."""
        program, *rest = [*before, f"{self.home}/dine", *words]
        return answer_of(rest, program, input=b"input", env={"PATH": BASE, **more})


@pytest.fixture
def place(tmp_path):
    return Place(tmp_path)


@pytest.mark.early
def test_program_of_the_sources(place):
    """It runs with its arguments and its input, from any folder, and nothing is printed beside."""
    assert place.ran("a b", "c") == Answer(0, "committed a b c\ninput", "")
    assert answer_of([], "../dine", cwd=place.home / "crates", env={"PATH": BASE}, stdin=subprocess.DEVNULL) == Answer(
        0, "committed\n", "")


def changes(place):
    """Yields changes of the sources by their names: how each is made, and what is said of it, or None if it is none."""
    def line(old, new):
        return lambda: place.write("crates.txt", (place.home / "crates.txt").read_text("utf-8").replace(old, new))

    low, both = "crates/low", "crates/low and 1 more of its sources"
    yield "nothing", lambda: None, None
    yield "a file", lambda: place.write("crates/low/src/lib.rt", "//! Low\n"), low
    yield "a proof", lambda: place.write("crates/low/proofs/Proof.antt", "-- another\n"), low
    yield "a new file", lambda: place.write("crates/low/specs/New.antt", ""), low
    yield "a file that is gone", lambda: (place.home / "crates/low/specs/deep/Way.antt").unlink(), low
    yield "a file of another name", lambda: (place.home / "crates/low/src/lib.rt").rename(
        place.home / "crates/low/src/lob.rt"), low
    yield "what is below", line("low:", "low: other"), low
    yield "two crates", lambda: [line("low", "other")(), place.write("crates/low/src/more.rt", "")], both
    yield "another crate", lambda: place.write("crates/other/src/lib.rt", "//! more\n"), None
    yield "a line of another crate", line("other:", "other: low"), None
    yield "a mutant", lambda: place.write("crates/low/mutants/x.edit", ""), None
    yield "what is built", lambda: place.write("crates/low/out/x.o", ""), None


@pytest.mark.early
@pytest.mark.parametrize("name", [it[0] for it in changes(None)])
def test_change(place, name):
    """A program of other sources runs only if that is asked for, and says so."""
    _, change, part = next(it for it in changes(place) if it[0] == name)
    change()
    if part is None:
        assert place.ran() == Answer(0, "committed\ninput", "")
        return
    said = f"dine: {part} changed since programs/dine was built, and "
    assert place.ran("a") == Answer(1, "", said + NO_RT)
    assert place.ran("a", DINE_COMMITTED="1") == Answer(
        0, "committed a\ninput", f"{said}DINE_COMMITTED is 1: so this is the one from before\n")


@pytest.mark.early
def test_program_that_is_built_here(place):
    """With rt a program is built by the kit as soon as a source was changed, and also if DINE_PROVE is 1."""
    rt = place.home / "bin/rt"
    place.write("bin/rt", f"#!/bin/sh\necho rt \"$@\"; [ \"$1\" = run ] || exit 0\nd={place.home}/crates/dine_cli/out\n"
                          "echo '#!/bin/sh' >$d/dine_cli && echo 'echo built \"$@\"; cat' >>$d/dine_cli\n"
                          "chmod +x $d/dine_cli\n")
    rt.chmod(0o755)
    kit = {"PATH": f"{place.home}/bin:{os.path.dirname(sys.executable)}:{BASE}"}
    assert place.ran("a", **kit) == Answer(0, "committed a\ninput", "")
    assert place.ran("a", DINE_PROVE="1", **kit)[:2] == (0, "built a\ninput")
    # It is proved here, so it goes first.
    assert place.ran("a") == Answer(0, "built a\ninput", "")
    assert place.ran("a", DINE_COMMITTED="1") == Answer(0, "committed a\ninput", "")
    place.write("crates/low/src/lib.rt", "//! Low\n")
    assert place.ran("a", **kit)[:2] == (0, "built a\ninput")


def faults(place):
    """Yields what is wrong with the program, how it comes to be so, and what is said of it."""
    program = place and place.home / "programs/dine"
    other = "programs/dine is not the file that programs/made notes: "
    other += "git checkout programs, or DINE_PROVE=1 to build another"
    yield "other bytes", lambda: program.write_text(f"#!/bin/sh\n{RAN} \n"), other
    yield "cut off", lambda: program.write_text(""), other
    yield "missing", lambda: program.unlink(), (
        "programs/dine is missing, which programs/made notes: take it from the repository again")
    yield "no run bit", lambda: program.chmod(0o644), (
        "programs/dine may not be run: chmod +x programs/dine, and on a disk without the right to run files copy the "
        "repository")
    yield "a note that is cut off", lambda: place.write("programs/made", MADE_CUT), (
        "dine_cli can't be built: rt of the Rattle kit is not on the path")
    yield "no note", lambda: (place.home / MADE).unlink(), (
        "dine_cli can't be built: rt of the Rattle kit is not on the path")


MADE_CUT = "# How the programs beside this file were made\nprogram"


@pytest.mark.early
@pytest.mark.parametrize("name", [it[0] for it in faults(None)])
def test_program_that_cannot_be_used(place, name):
    """One line says why, and what to do, also if DINE_COMMITTED is 1."""
    _, spoil, said = next(it for it in faults(place) if it[0] == name)
    spoil()
    for more in ({}, {"DINE_COMMITTED": "1"}):
        assert place.ran(**more) == Answer(1, "", f"dine: {said}\n")
    assert place.ran("--help").status == 0


@pytest.mark.early
@pytest.mark.parametrize(("before", "said"), [
    (["setarch", "i686"], r"for Linux on x86-64, and this is Linux on i686"),
    (["setarch", "x86_64", "--uname-2.6"], r"needs Linux 3\.2, and this is 2\.6\.\d+.*"),
])
def test_other_machine(place, before, said):
    ran = place.ran(before=before)
    assert ran[:2] == (1, "")
    assert re.fullmatch(rf"dine: programs/dine (is )?{said}: docs/index\.html runs plans in any browser\n", ran.error)


@pytest.mark.early
@pytest.mark.parametrize("crate", stamps.COMMITTED)
def test_sum_of_the_sources(crate):
    """The sum of tools/made is the one that its first lines say."""
    place = Place.__new__(Place)
    place.home = Path(HOME)
    paths = [f"crates/{it}" for it in crates() if it in with_those_below(crate, crates())]
    assert answer_of(["--sum", *paths], f"{HOME}/tools/made") == Answer(0, f"{place.sources(*paths)}\n", "")


@pytest.mark.early
@pytest.mark.parametrize("words", [[], ["--sum"], ["a", "b"], ["--other"]])
def test_refused_arguments(words):
    ran = answer_of(words, f"{HOME}/tools/made")
    assert ran.status == 2 and ran.output.startswith("usage: tools/made PROGRAM | ")


# ---- The programs themselves


@pytest.fixture(scope="module")
def clone(tmp_path_factory):
    """A copy of the repository, in which nothing is built, with programs/ as tools/programs makes it now. Where there
    is no kit, with programs/ as it is."""
    folder = tmp_path_factory.mktemp("clone") / "dine"
    for crate in stamps.COMMITTED:
        if HAS_KIT:
            assert fault_of_build(crate) == ""
        else:
            called(crate)
    copy_repository(folder)
    if HAS_KIT:
        made = answer_of(["--write", f"{folder}/programs"], f"{HOME}/tools/programs", None)
        assert (made.status, made.error) == (0, "")
    return folder


def slow(test):
    """Marks a slow test. All of them are done by one process, which makes one clone."""
    return pytest.mark.slow(pytest.mark.xdist_group("programs")(test))


def bytes_of(folder):
    return {it: Path(folder, it).read_bytes() for it in (*stamps.COMMITTED.values(), "made")}


@pytest.mark.kit
@slow
def test_same_bytes(clone, tmp_path):
    """They are made alike in another folder, static, and small."""
    assert answer_of(["--write", f"{tmp_path}/more"], f"{HOME}/tools/programs", None).status == 0
    found = bytes_of(clone / "programs")
    assert found == bytes_of(tmp_path / "more") and sorted(os.listdir(tmp_path / "more")) == sorted(found)
    for name in ("dine", "dine_trace"):
        head = answer_of(["-lW", f"{clone}/programs/{name}"], "readelf")
        assert head.status == 0 and "INTERP" not in head.output and len(found[name]) < 2_000_000
    assert (clone / "programs/dine").stat().st_mode & 0o777 == 0o755


@pytest.fixture
def workshop(clone, tmp_path):
    """A copy of the clone in which the three crates are built."""
    shutil.copytree(clone, tmp_path / "dine")
    for crate, name in stamps.COMMITTED.items():
        out = tmp_path / "dine/crates" / crate / "out"
        out.mkdir()
        of = [f"lib{crate}.a", f"lib{crate}.a.made"] if name.endswith(".a") else [crate, f"{crate}.o", f"{crate}.made"]
        for it in of:
            shutil.copy(f"{HOME}/crates/{crate}/out/{it}", out)
    return tmp_path / "dine"


def faulty(home):
    """Yields what is done to programs/, by its name, and the line that tools/programs --check prints of it then."""
    dine, made = home / "programs/dine", home / MADE

    def turn():
        data = bytearray(dine.read_bytes())
        data[99] ^= 1
        dine.write_bytes(data)

    def turn_and_note():
        old = sum_of(dine.read_bytes())
        turn()
        made.write_text(made.read_text().replace(old, sum_of(dine.read_bytes())))

    def change():
        file = next((home / "crates/dine_cli/src").glob("*.rt"))
        file.write_text(file.read_text() + "// more\n")

    def by_another_kit():
        made.write_text(re.sub("^kit .*$", "kit rattle-kit-1a", made.read_text(), flags=re.M))

    yield "nothing", lambda: None, "6 passed, 0 failed", 0
    yield "a byte", turn, "programs/dine: FAILED: programs/dine is not the file that programs/made notes: git ", 1
    yield "a byte that is noted", turn_and_note, (
        "bytes of programs/dine: FAILED: made again it has other bytes from byte 99 on"), 1
    yield "a source", change, (
        "programs/dine: FAILED: crates/dine_cli changed since programs/dine was built (tools/programs --write "), 1
    yield "another kit", by_another_kit, "bytes of programs/: ok: nothing was compared, since here is kit rattle-", 0
    yield "no programs", made.unlink, "programs: ok: there is no programs/made, so nothing is checked", 0


@pytest.mark.kit
@slow
@pytest.mark.parametrize("name", [it[0] for it in faulty(Path())])
def test_check(workshop, name):
    _, spoil, line, status = next(it for it in faulty(workshop) if it[0] == name)
    spoil()
    ran = answer_of(["--check"], f"{workshop}/tools/programs", None)
    assert ran.status == status and any(it.startswith(line) for it in ran.output.splitlines()), ran.output


@slow
def test_check_without_kit(clone):
    """The sums are tried, and it is said why no more is."""
    ran = answer_of(["--check"], f"{clone}/tools/programs", env={"PATH": f"{os.path.dirname(sys.executable)}:{BASE}"})
    assert ran.status == 0 and ran.output.splitlines()[-2:] == [
        "bytes of programs/: skipped: they are not made again: rt of the Rattle kit is not on the path",
        "3 passed, 0 failed, 1 skipped"]


@pytest.mark.kit
@slow
def test_write_on_a_full_disk(clone, tmp_path):
    """Nothing is written, and one line says why."""
    words = ["-rm", "sh", "-euc", 'mount -t tmpfs -o size=400k none "$1" && cp "$2" "$1" && shift 2 && exec "$@"', "sh",
             str(tmp_path), str(clone / MADE), f"{HOME}/tools/programs", "--write", str(tmp_path)]
    ran = answer_of(words, "unshare")
    assert ran[:2] == (1, "") and re.fullmatch("programs: nothing was written: .*\n", ran.error)


# ---- A newcomer, in a container with Debian's programs: no kit, no network, no compiler, and no Python unless asked

CONTAINER = """
PATH=$PATH:/usr/sbin:/sbin
root=$1 clone=$2 hidden=$3
shift 3
mount -t tmpfs none "$root"
mkdir "$root/usr" "$root/proc" "$root/dev" "$root/tmp" "$root/dine"
mount --rbind /usr "$root/usr"
for it in bin sbin lib lib64; do
    if [ -L /$it ]; then ln -s usr/$it "$root/$it"; else mkdir "$root/$it"; mount --rbind /$it "$root/$it"; fi
done
mount --rbind /proc "$root/proc"
for it in null zero full urandom; do : >"$root/dev/$it"; mount --bind /dev/$it "$root/dev/$it"; done
mount --bind "$clone" "$root/dine"
mount -t tmpfs none "$root/usr/local"
for it in $hidden; do mount --bind /dev/null "$root$it"; done
exec chroot "$root" /usr/bin/env -i PATH=/usr/bin:/bin HOME=/tmp sh -euc 'cd /dine; exec "$@"' sh "$@"
"""
COMPILERS = ("cc", "gcc", "gcc-*", "x86_64-linux-gnu-gcc-*", "ld", "ld.bfd", "x86_64-linux-gnu-ld*")
PYTHONS = ("python3", "python3.*")


@pytest.fixture
def newcomer(clone, tmp_path):
    """Calls a command in the clone as a newcomer would, and returns its status and output."""
    if answer_of(["-rmn", "true"], "unshare").status:
        pytest.skip("no unshare that makes a namespace")

    def call(*words, hidden=COMPILERS + PYTHONS, **how):
        found = {os.path.realpath(it) for pattern in hidden for it in Path("/usr/bin").glob(pattern)}
        words = ["-rmn", "sh", "-euc", CONTAINER, "sh", str(tmp_path), str(clone), " ".join(sorted(found)), *words]
        return answer_of(words, "unshare", **how)

    return call


def head_of(path, command):
    return answer_with(*re.findall(rf"^# {command}> (.*)$", text_of(path), re.M))


@slow
def test_newcomer(newcomer):
    """The first command of the front page, where there is nothing but Debian's base system."""
    for tool in ("rt", "python3", "cc", "ld"):
        assert newcomer("sh", "-c", f"{tool} --version").status in (126, 127)
    heads = [(path, it, head_of(path, it)) for path in paths("plans/*.toml") for it in ("run", "check", "replay")]
    for path, command, wanted in (it for it in heads if it[2].output):
        assert newcomer("./dine", command, input=text_of(path).encode()) == wanted
    assert newcomer("./dine", input=text_of(heads[0][0]).encode()) == head_of(heads[0][0], "run")
    assert newcomer("sh", "-c", "./dine <plans/pair.toml >/dev/full") == Answer(6, "", "dine: writing failed\n")
    assert newcomer("./dine", "chek", input=b"").status == 2
    line = "needs Python 3.11 or later, as python3 on the path\n"
    assert newcomer("./dine", "explain", "plans/pair.toml") == Answer(1, "", f"dine: explain {line}")
    proving = ("/usr/bin/env", "DINE_PROVE=1", "./dine")
    assert newcomer(*proving) == Answer(1, "", f"dine: building the program {line}")
    assert newcomer("./dine", "--version").status == 0


@slow
def test_newcomer_with_a_full_disk(newcomer):
    fill = "mount -t tmpfs -o size=4k none /tmp && (cat /dev/zero >/tmp/full || :) 2>/dev/null && exec ./dine"
    ran = newcomer("sh", "-euc", f"{fill} <plans/ring_of_five.toml")
    assert ran == head_of("plans/ring_of_five.toml", "run")


@slow
def test_newcomer_with_python(newcomer, clone):
    """A run on threads by ./show."""
    ran = newcomer("./show", "plans/ring_of_five.toml", "--export", "/dine/run.json", hidden=COMPILERS)
    assert (ran.status, ran.error) == (0, "") and json.loads((clone / "run.json").read_text())["traceEvents"]
    assert newcomer("./dine", "explain", "plans/pair.toml", hidden=COMPILERS).status == 0


@slow
def test_start(clone):
    """The first answer is there in a moment. What counts is the time of processors, since others may use them too."""
    times = []
    for _ in range(10):
        before = os.times()
        assert answer_of([], f"{clone}/dine", input=text_of("plans/ring_of_five.toml").encode()).status == 0
        after = os.times()
        times.append(after.children_user + after.children_system - before.children_user - before.children_system)
    assert min(times) < 0.2


@slow
@pytest.mark.skipif(not shutil.which("gcc"), reason="gcc is not installed")
def test_library(clone):
    """C and Python take the library that comes with the repository, and it prints what the program prints."""
    built = answer_of([], f"{clone}/bindings/build", env={"PATH": BASE})
    assert built == Answer(0, "libdine is made of programs\n", "")
    words = ["-Ibindings/c", "bindings/c/pair.c", "bindings/lib/libdine.a", "-lpthread", "-o", "bindings/lib/pair"]
    assert answer_of(words, "gcc", cwd=clone).status == 0
    assert answer_of([], f"{clone}/bindings/lib/pair").output.endswith("\nevents 22 of 22\n")
    asked = ["bindings/python/examples/replay.py", "plans/ring_of_five.toml"]
    package = {**os.environ, "PYTHONPATH": "bindings/python"}
    replayed = answer_of(asked, sys.executable, cwd=clone, env=package, input=b"1,1,0,0\n3,2,5,8\n")
    ring = text_of("plans/ring_of_five.toml").encode()
    wanted = [answer_of(["replay", "--choices", it], f"{clone}/dine", input=ring) for it in ("1,1,0,0", "3,2,5,8")]
    assert replayed == Answer(0, "".join(it.output for it in wanted), "") and len(wanted[0].output) > 50


# ---- Refused memory

CASES = tomllib.loads(text_of("tests/tables/refused_memory.toml"))["case"]
ALLOCATING = [pytest.param(case, words, id=words) for case in CASES
              if case["program"] == "dine_cli" for words in case["calls"]]


@slow
@pytest.mark.timeout(3000)
@pytest.mark.parametrize(("case", "words"), ALLOCATING)
def test_refused_memory(clone, case, words):
    """Each allocation fails in turn, and each run ends with a result that tests/tables/refused_memory.toml allows."""
    (places,) = re.findall("^calls dine (.*)$", (clone / MADE).read_text(), re.M)
    asked = [f"{HOME}/tests/refusing.py", f"{clone}/programs/dine", places, *words.split()]
    ran = answer_of(asked, sys.executable, 500, input=text_of("plans/pair.toml").encode())
    assert (ran.status, ran.error) == (0, "")
    *refused, (came, *whole) = [json.loads(line) for line in ran.output.splitlines()]
    results = {f"{status} {(output + error).strip()}" for _, status, output, error in refused}
    assert not came and f"{whole[0]} {whole[1].strip()}" == case["whole"] and len(refused) > 50
    assert {"5 dine: out of memory"} <= results <= {*case["come"], *case.get("may_come", [])}
