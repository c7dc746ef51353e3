"""The server of ./show: the page in one file, and runs on threads, each of which is one call of dine_trace."""
import contextlib
import http.server
import re
import subprocess
import sys
import threading

from features.catalog import offer
from lib import stamps
from lib.crates import program_of
from lib.fault import Fault
from lib.files import HOME
from lib.page_file import page_of
from lib.process import BOUND

CRATE = "dine_trace"
# How many bytes a plan may have, and how many seconds the server waits for the next part of a request.
LIMIT, ARRIVES_WITHIN = 9_000_000, 30
# How many seconds a run may take, and how many there may be at a time.
RUN_ENDS_WITHIN, RUNS = 30, threading.BoundedSemaphore(2)
# Another page may not show this one as a part of it, which the policy in the page itself can't say.
HEADERS = {"Content-Security-Policy": "frame-ancestors 'none'", "X-Content-Type-Options": "nosniff",
           "Cache-Control": "no-store"}


def program_for(is_unproved):
    """Returns the program that runs threads: the one that comes with the repository, or else one that is built here. If
    it has to be built first, the lines of that go on to standard error."""
    if not is_unproved:
        try:
            if program := stamps.committed(CRATE):
                return program
        except stamps.Stale as fault:
            raise Fault(f"the program that runs threads can't be had: {fault}") from None
    how, line = {"stdin": subprocess.DEVNULL, "stderr": subprocess.PIPE, "text": True, "errors": "replace"}, ""
    # A child of BOUND ends with this thread.
    with subprocess.Popen([*BOUND, f"{HOME}/tools/build", *["--unproved"] * is_unproved, CRATE], **how) as build:
        for line in build.stderr:
            print(line, end="", file=sys.stderr, flush=True)
    if build.returncode:
        raise Fault(f"the program that runs threads can't be built: {line.strip().removeprefix('dine: ')}")
    return program_of(CRATE, is_unproved)


def called(words, given, seconds, is_unproved):
    """Calls the program that runs threads, and returns what it prints. If its status is not 0, its line is a fault."""
    words = [*BOUND, program_for(is_unproved), *words]
    try:
        ran = subprocess.run(words, input=given, capture_output=True, timeout=seconds, check=False)
    except subprocess.TimeoutExpired:
        raise Fault(f"the program did not end within {seconds} seconds", 504) from None
    if ran.returncode:
        line = ran.stderr.decode(errors="replace").strip()
        raise Fault(line or f"the program ended with status {ran.returncode}", 422)
    return ran.stdout


def listening(port, plan, is_unproved):
    """Returns a server for this machine alone. `plan` is the path of what the page begins with, or None."""
    server = http.server.ThreadingHTTPServer(("127.0.0.1", port), Handler)
    server.plan, server.is_unproved = plan, is_unproved
    return server


class Handler(http.server.BaseHTTPRequestHandler):
    """Answers one request: GET / is the page, and POST /run is a run on threads of a plan."""

    server_version, sys_version, timeout = "show", "", ARRIVES_WITHIN

    def handle(self):
        # Whoever asked may be gone.
        with contextlib.suppress(ConnectionError):
            super().handle()

    def do_GET(self):
        self.answer("/", "text/html", self.page)

    def do_POST(self):
        self.answer("/run", "text/plain", self.run)

    def answer(self, path, kind, question):
        """Sends the answer to a question, or refuses with one line."""
        names = [f"{it}:{self.server.server_port}".removesuffix(":80") for it in ("127.0.0.1", "localhost")]
        try:
            # The sender reads an answer once all is sent, so all is read.
            body = self.body() if self.command == "POST" else b""
            # Another page may ask under a name of its own that leads here (DNS rebinding), or under this one.
            if self.headers["Host"] not in names:
                raise Fault("the Host is not this one", 403)
            if self.headers["Origin"] not in (None, *(f"http://{it}" for it in names)):
                raise Fault("the Origin is another page", 403)
            if self.path != path:
                raise Fault("there is no such question", 404)
            self.send(200, kind, question(body))
        except Fault as fault:
            self.send_error(fault.status, fault.args[0])

    def body(self):
        length = self.headers["Content-Length"] or ""
        if not re.fullmatch("[0-9]{1,18}", length) or "Transfer-Encoding" in self.headers:
            raise Fault("the length is not given", 411)
        if int(length) > LIMIT:
            raise Fault(f"the body is over {LIMIT} bytes", 413)
        body = self.rfile.read(int(length))
        if len(body) < int(length):
            raise Fault("the body is cut off", 400)
        return body

    def page(self, _):
        """Returns the page, made of the files as they are now."""
        catalog = offer(self.server.plan)
        return page_of({**catalog, "unproved": self.server.is_unproved, "served": True}).encode()

    def run(self, plan):
        """Returns the choices of a run on threads of a plan."""
        with RUNS:
            return called(["--run"], plan, RUN_ENDS_WITHIN, self.server.is_unproved)

    def send(self, status, kind, body):
        self.send_response(status)
        for name, value in {"Content-Type": f"{kind}; charset=utf-8", "Content-Length": len(body), **HEADERS}.items():
            self.send_header(name, value)
        self.end_headers()
        self.wfile.write(body)

    def send_error(self, code, message=None, explain=None):
        self.send(code, "text/plain", f"{message or http.HTTPStatus(code).phrase}\n".encode())

    def log_message(self, *_):
        """Reports nothing."""
