"""Tries ./show: its arguments, the page that it serves, who may ask it and how, runs on threads, and the files that
--export writes."""
import contextlib
import glob
import json
import os
import re
import signal
import socket
import threading
import time
import tomllib
from pathlib import Path

import calls
import pytest
from calls import check_whole_run, copy_repository, shown, state_after, until
from features import catalog, server
from lib import page_file
from lib.files import HOME, text_of
from lib.graphs import graph_of, plan_of
from lib.process import Answer, answer_of

pytestmark = pytest.mark.built("dine_cli", "dine_trace")
USAGE = "usage: show [-h] [--port N] [--unproved] [--export FILE] [--choices LIST] [PLAN]\n"
GET = "GET / HTTP/1.1\nHost: 127.0.0.1:PORT\n\n"
REQUESTS = tomllib.loads(text_of("tests/tables/requests.toml"))
# How many seconds ./show may take until its page is there, where nothing is built.
BEGINS_WITHIN = 2
# A plan whose run takes longer than is waited for: one site eats at a time.
SLOW = plan_of([300] * 8, graph_of("complete:8")[1], 1_000_000).decode()


def show(*words):
    """Calls ./show, which is to end by itself."""
    return answer_of(words, f"{HOME}/show", cwd=HOME)


def how():
    return ["--unproved"] * calls.HOW["is_unproved"]


@pytest.fixture(scope="module")
def here():
    """A server in this process."""
    with server.listening(0, None, calls.HOW["is_unproved"]) as it:
        threading.Thread(target=it.serve_forever, daemon=True).start()
        yield it
        it.shutdown()


def sent(port, request):
    """Returns a connection over which a request was sent."""
    line = socket.create_connection(("127.0.0.1", port), timeout=60)
    line.sendall(request.replace("PORT", str(port)).encode())
    return line


def asked(port, request):
    """Returns the status and the text of the answer to a request, and its headers."""
    with sent(port, request) as line:
        line.shutdown(socket.SHUT_WR)
        head, _, text = line.makefile("rb").read().decode().partition("\r\n\r\n")
    return int(head.split()[1]), text, head


def run_of(plan):
    """Returns the request for a run on threads of a plan."""
    return f"POST /run HTTP/1.1\nHost: 127.0.0.1:PORT\nContent-Length: {len(plan)}\n\n{plan}"


# ---- Arguments


@pytest.mark.parametrize(("words", "fault"), [
    (["one", "two"], "unrecognized arguments: two"), (["--cups"], "unrecognized arguments: --cups"),
    (["--port"], "argument --port: expected one argument"), (["--choices", "1"], "--choices goes with --export"),
    *((["--port", it], f"argument --port: {it} is no number from 1 to 65535") for it in ("x", "0", "65536")),
    (["--export", "x"], "argument --export: x ends neither in .html nor in .json"),
    (["--choices", "1,"], "argument --choices: 1, is no list of numbers with commas between them"),
], ids=str)
def test_refused_arguments(words, fault):
    assert show(*words) == Answer(2, "", f"show: {fault}; {USAGE}")


def test_unfit_lesson_of_the_folder(tmp_path, monkeypatch, capsys):
    """A file in lessons/ that is no lesson is named, and all else is shown."""
    (tmp_path / "unfit.toml").write_text('titel = "x"\n[[moment]]\nplan = "plans/pair.toml"\n', "utf-8")
    unfit, found = os.path.relpath(tmp_path / "unfit.toml", HOME), catalog.paths
    monkeypatch.setattr(catalog, "paths", lambda it: found(it) + [unfit] * it.startswith("lessons"))
    assert [it["path"] for it in catalog.offer(None)["lessons"]] == found("lessons/*.toml")
    assert capsys.readouterr().err == f"show: left out: {HOME}/{unfit} is no lesson: there is no key titel\n"


def test_what_cannot_be_shown(tmp_path, here):
    path, strange, lesson = f"{tmp_path}/missing/x.html", f"{tmp_path}/strange.toml", f"{tmp_path}/lesson.toml"
    Path(strange).write_bytes(b"version = 1 # \xff\n")
    Path(lesson).write_text('[[moment]]\nplan = "cups.toml"\n', "utf-8")
    port = str(here.server_port)
    for words, fault in (([path], f"{path} can't be read: No such file or directory"),
                         ([strange], f"{strange} can't be read: it is no UTF-8"),
                         ([lesson], f"{lesson}: moment 1: there is no plan cups.toml"),
                         (["--export", path], f"{path} can't be written: No such file or directory"),
                         (["--port", port], f"port {port} can't be had: Address already in use")):
        assert show(*words) == Answer(1, "", f"show: {fault}\n")


# ---- Requests


@pytest.mark.parametrize("name", REQUESTS)
def test_refused_request(here, name):
    status, line = REQUESTS[name]["answer"]
    assert asked(here.server_port, REQUESTS[name]["asked"])[:2] == (status, f"{line}\n")


def test_page_is_made_anew(here, tmp_path, monkeypatch):
    """The page has the lesson as it is when the page is asked for. It is neither kept, nor a part of another page."""
    path = tmp_path / "lesson.toml"
    monkeypatch.setattr(here, "plan", str(path))
    for title in ("One", "Two"):
        path.write_text(f'title = "{title}"\n[[moment]]\nplan = "plans/pair.toml"\n', "utf-8")
        status, text, head = asked(here.server_port, GET)
        assert status == 200 and f'"title":"{title}"' in page_file.unpacked(text)
    assert all(it in head for it in ("frame-ancestors 'none'", "nosniff", "no-store", "text/html; charset=utf-8"))
    path.write_text("[[moment]]\n", "utf-8")
    assert asked(here.server_port, GET)[:2] == (500, f"{path}: moment 1: it has not one of plan and text\n")


def test_port_80(here, monkeypatch):
    """Only this machine is served. A Host without a port is refused by every server but one that has port 80."""
    address, port = here.server_address
    assert address == "127.0.0.1"
    monkeypatch.setattr(here, "server_port", 80)
    answers = [asked(port, GET.replace("127.0.0.1:PORT", name)) for name in ("127.0.0.1", "localhost", "x")]
    assert [it[0] for it in answers] == [200, 200, 403]


@pytest.mark.parametrize("part", [GET[:-1], run_of(SLOW)[:-1]], ids=["head", "body"])
def test_request_that_never_arrives(here, monkeypatch, part):
    monkeypatch.setattr(server.Handler, "timeout", server.Handler.timeout / 30)
    with sent(here.server_port, part) as line:
        assert line.recv(1) == b""


# ---- Runs. One that ends is tried in tests/test_page.py.


def programs_of(process):
    """Returns the numbers of the programs that a process has begun and that have threads."""
    found = set()
    for path in glob.glob(f"/proc/{process}/task/*/children"):
        with contextlib.suppress(OSError):
            found.update(Path(path).read_text("utf-8").split())
    return {it for it in found if len(glob.glob(f"/proc/{it}/task/*")) > 2}


@pytest.mark.parametrize("end", [signal.SIGINT, signal.SIGTERM, signal.SIGHUP])
def test_end_by_a_signal(end):
    """The server ends by Ctrl-C and the like, with the program that it has begun."""
    # One that is started by nohup, say, is not to end by the signal, and hands this on to what it starts.
    with shown(*how(), preexec_fn=lambda: signal.signal(end, signal.SIG_DFL)) as it, sent(it.port, run_of(SLOW)):
        begun = until(lambda: programs_of(it.pid), 60)
        it.send_signal(end)
        assert begun and it.wait(20) == -end
    # What has ended has no program, even if nobody asked for its status yet.
    assert until(lambda: not any(os.path.exists(f"/proc/{it}/exe") for it in begun), 4)


def test_program_that_takes_too_long(here, monkeypatch):
    monkeypatch.setattr(server, "RUN_ENDS_WITHIN", 3)
    before = programs_of(os.getpid())
    answer = asked(here.server_port, run_of(SLOW))
    assert answer[:2] == (504, "the program did not end within 3 seconds\n")
    assert programs_of(os.getpid()) <= before


def test_clean_clone(tmp_path, capfd):
    """Where no program is there and no rt, show begins at once, and says that it can't build the program."""
    copy_repository(f"{tmp_path}/clone", "programs")
    path, times = ":".join(it for it in os.environ["PATH"].split(":") if not os.path.exists(f"{it}/rt")), []
    for _ in range(3):
        begun = time.monotonic()
        with shown(program=f"{tmp_path}/clone/show", env={**os.environ, "PATH": path}) as it:
            page = asked(it.port, GET)
            times.append(time.monotonic() - begun)
            run = asked(it.port, run_of(SLOW))
    assert page[0] == 200 and "<title>Dining philosophers</title>" in page[1] and min(times) < BEGINS_WITHIN
    line = "dine_trace can't be built: rt of the Rattle kit is not on the path\n"
    assert run[:2] == (500, f"the program that runs threads can't be built: {line}")
    assert f"dine: {line}" in capfd.readouterr().err


# ---- Files


def test_page_in_one_file():
    """docs/index.html is the page as it is now, in one file that is not large and loads nothing; its runs are whole."""
    text, offered = text_of("docs/index.html"), catalog.offer(None)
    is_current = page_file.unpacked(text) == page_file.unpacked(page_file.page_of(offered))
    assert is_current, "make it anew by ./show --export docs/index.html"
    assert len(text) < 600_000
    assert not re.search(r'<link rel="stylesheet"|<script[^>]*src=|^import |^export |connect-src', text, re.M)
    for run in offered["runs"]:
        check_whole_run(run["text"], [int(it) for it in run["choices"].split(",")])


@pytest.mark.parametrize("plan", ["plans/ring_of_five.toml", "plans/failing_job.toml"])
def test_run_as_a_trace(tmp_path, plan):
    """The trace of a run of threads has its meals, those that failed, its waits and the ways of its forks."""
    path = tmp_path / "run.json"
    assert show(*how(), plan, "--export", str(path)).status == 0
    events = json.loads(path.read_text("utf-8"))["traceEvents"]
    sites = state_after(text_of(plan), [])["sites"]
    failed = [it for it in events if it.get("args", {}).get("failed")]
    assert len(failed) == text_of(plan).count("fails = true")
    assert [it["args"]["name"] for it in events if it["name"] == "thread_name"] == [it["name"] for it in sites]
    meals, waits = (sum(it["name"].startswith(name) for it in events) for name in ("meal ", "hungry"))
    assert meals == waits == sum(it["jobs"] for it in sites)
    leaves, arrives = (sorted((it["id"], it["name"]) for it in events if it["ph"] == phase) for phase in "sf")
    assert leaves == arrives and leaves
    done = [it for it in events if it["ph"] == "X" and "event" in it["args"]]
    steps = {(it["tid"], it["ts"]): it["ts"] + it["dur"] for it in done}
    arrows = {(it["tid"], it["ts"] - 500) for it in events if it["ph"] in "sf"}
    assert arrows <= set(steps) and max(steps.values()) <= 1000 * len(steps)
