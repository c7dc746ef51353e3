"""A headless Firefox for the tests, by Marionette, to which it listens by itself: so no geckodriver is needed, which
Debian 12 does not have. On Debian it comes by `apt-get install firefox-esr`."""
import contextlib
import json
import shutil
import socket
import subprocess
import time
from pathlib import Path

import pytest

# How long is waited for Firefox to begin, and for an answer, in seconds.
SECONDS = 120
# It asks nobody else: no updates, no first page, no reports.
PREFS = {
    "marionette.port": 0, "app.update.auto": False, "browser.startup.page": 0, "browser.aboutwelcome.enabled": False,
    "browser.startup.homepage_override.mstone": "ignore", "datareporting.policy.dataSubmissionEnabled": False,
    "toolkit.telemetry.reportingpolicy.firstRun": False, "browser.shell.checkDefaultBrowser": False,
    "network.captive-portal-service.enabled": False, "network.connectivity-service.enabled": False,
    "network.proxy.type": 1, "network.proxy.socks": "127.0.0.1", "network.proxy.socks_port": 9,
    "extensions.update.enabled": False}


class Firefox:
    """A session. Each command is a message with its length before it, and has one answer."""

    def __init__(self, port, folder):
        self.folder = folder
        self.socket = socket.create_connection(("127.0.0.1", port), SECONDS)
        self.number, self.read = 0, self.socket.makefile("rb")
        self.hear()
        self.ask("WebDriver:NewSession", capabilities={"alwaysMatch": {"timeouts": {"script": 1000 * SECONDS}}})

    def hear(self):
        length = b""
        while (letter := self.read.read(1)) != b":":
            if not letter:
                raise ConnectionError("Firefox has closed the connection")
            length += letter
        return json.loads(self.read.read(int(length)))

    def ask(self, name, **given):
        self.number += 1
        text = json.dumps([0, self.number, name, given]).encode()
        self.socket.sendall(b"%d:%s" % (len(text), text))
        _, number, fault, answer = self.hear()
        assert (number, fault) == (self.number, None), (name, fault)
        return answer

    def open(self, address, width, height):
        """Opens a page in a frame of this size, in points, since no window of Firefox is as narrow as a phone."""
        frame = f'<iframe src="{address}" style="border: 0; width: {width}px; height: {height}px"></iframe>'
        outer = Path(self.folder, "outer.html")
        outer.write_text(f"<!doctype html><title>outer</title>{frame}", "utf-8")
        self.ask("WebDriver:SwitchToFrame")
        self.ask("WebDriver:Navigate", url=outer.as_uri())
        self.ask("WebDriver:SwitchToFrame", id=0)

    def js(self, code, *given):
        """Returns the value of JavaScript in the page."""
        return self.ask("WebDriver:ExecuteScript", script=f"return {code}", args=given, newSandbox=True)["value"]

    def until(self, code):
        """Waits until JavaScript in the page is true."""
        end = time.monotonic() + SECONDS
        while not self.js(code):
            assert time.monotonic() < end, f"not true within {SECONDS} seconds: {code}"
            time.sleep(0.1)

    def quit(self):
        with contextlib.suppress(OSError, AssertionError):
            self.ask("Marionette:Quit", flags=["eForceQuit"])


@contextlib.contextmanager
def firefox(folder):
    """A Firefox with a profile of its own in this folder. Skips the test if this machine has none."""
    program = shutil.which("firefox-esr") or shutil.which("firefox")
    if not program:
        pytest.skip("Firefox is not installed")
    prefs = "".join(f"user_pref({json.dumps(name)}, {json.dumps(value)});\n" for name, value in PREFS.items())
    Path(folder, "user.js").write_text(prefs, "utf-8")
    words = [program, "--headless", "--marionette", "--no-remote", "--profile", str(folder)]
    with subprocess.Popen(words, stdin=subprocess.DEVNULL, stdout=subprocess.DEVNULL, stderr=subprocess.DEVNULL) as run:
        port, end = Path(folder, "MarionetteActivePort"), time.monotonic() + SECONDS
        while not (port.exists() and port.read_text("utf-8").strip()):
            if run.poll() is not None or time.monotonic() > end:
                run.kill()
                pytest.skip(f"Firefox does not start here: status {run.returncode}")
            time.sleep(0.2)
        it = Firefox(int(port.read_text("utf-8")), folder)
        try:
            yield it
        finally:
            it.quit()
            with contextlib.suppress(subprocess.TimeoutExpired):
                run.wait(20)
            run.kill()
