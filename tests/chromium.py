"""The page in a headless Chromium, by selenium: what a person does there and reads there.

On Debian all of it comes by `apt-get install chromium chromium-driver python3-selenium`. Each process of pytest -n has
a Chromium of its own. Each test has the page anew, or as the tests before it have left it, in a browser that has stored
nothing, and fails if the page notes a warning or an error on its console."""
import contextlib
import json
import re
import sys
import time

import pytest
from calls import HOW, called, shown, trace
from lib.checks import first_difference
from lib.files import HOME, text_of
from lib.process import Answer, answer_of

# Where Debian has its modules, for a Python that is not Debian's own and has no selenium.
sys.path.append("/usr/lib/python3/dist-packages")
with contextlib.suppress(ImportError):
    from selenium import webdriver
    from selenium.common.exceptions import WebDriverException
    from selenium.webdriver import ActionChains, Keys
    from selenium.webdriver.support.wait import WebDriverWait

# A root user gets no sandbox from Chromium, and a container little shared memory. No name leads anywhere, and no
# address but that of this machine.
WORDS = ("--headless=new", "--no-sandbox", "--disable-dev-shm-usage", "--disable-gpu", "--no-first-run",
         "--host-resolver-rules=MAP * ~NOTFOUND, EXCLUDE 127.0.0.1", "--hide-scrollbars", "--disable-sync",
         "--disable-background-networking", "--disable-component-update")
# How long is waited, in seconds: many times what anything takes on a machine with nothing else to do.
SECONDS = 120
LOOKS = text_of("tests/page/looks.js")
FILE = f"file://{HOME}/docs/index.html"
RING = "plan=plans/ring_of_five.toml"
# The choices by which on that plan all five are hungry, and all have asked.
ASKED = "0,1,2,3,4,5,5,5,4,3"


def started():
    """Returns a new Chromium. Skips the test if this machine has none."""
    pytest.importorskip("selenium", reason="selenium is not installed")
    options = webdriver.ChromeOptions()
    options.set_capability("goog:loggingPrefs", {"browser": "ALL"})
    for word in WORDS:
        options.add_argument(word)
    try:
        # selenium finds chromedriver, and that finds Chromium.
        driver = webdriver.Chrome(options=options)
    except WebDriverException as fault:
        pytest.skip(f"Chromium does not start here: {fault.msg}")
    driver.set_script_timeout(SECONDS)
    # Whether it has the page as a test has left it that took `kept`.
    driver.has_kept = False
    # Its times are those for which the processor worked on the page, so that programs beside it count little.
    driver.execute_cdp_cmd("Performance.enable", {"timeDomain": "threadTicks"})
    return driver


@pytest.fixture(scope="session")
def chromium():
    driver = started()
    yield driver
    driver.quit()


@contextlib.contextmanager
def opened(driver, address):
    """The page at an address, as in a browser that was never used."""
    page = Page(driver, address)
    driver.has_kept = False
    driver.get("about:blank")
    page.cdp("Storage.clearDataForOrigin", origin=re.match("file://|http://[^/]*", address)[0], storageTypes="all")
    driver.get_log("browser")
    page.look()
    yield page
    check_console(driver)


def check_console(driver):
    """Tries that the page has noted no warning and no error on its console."""
    assert [it["message"] for it in driver.get_log("browser") if it["level"] in ("WARNING", "SEVERE")] == []


@pytest.fixture
def page(chromium):
    """The page in one file, from the disk."""
    with opened(chromium, FILE) as it:
        yield it


@pytest.fixture
def kept(request, chromium):
    """The same as the test before has left it, with nothing stored, and with switches and fields as they are at first.
    It is loaded if the test before had another page, or has failed. A test that takes it goes to an address first."""
    failed, it = request.session.testsfailed, Page(chromium, FILE)
    if chromium.has_kept:
        it.look()
        it.wait("reset")
        chromium.get_log("browser")
    else:
        with opened(chromium, FILE):
            it.open()
    # Whatever ends the test, no other one has the page as it is then.
    chromium.has_kept = False
    yield it
    check_console(chromium)
    chromium.has_kept = request.session.testsfailed == failed


@pytest.fixture(scope="session")
def server():
    with shown(*["--unproved"] * HOW["is_unproved"]) as it:
        yield it.address


@pytest.fixture
def served(chromium, server):
    """The page of ./show."""
    with opened(chromium, server) as it:
        yield it


class Page:
    """The page at an address. Its parts are named by selectors of CSS."""

    def __init__(self, driver, address):
        self.driver, self.address = driver, address

    def cdp(self, name, **given):
        return self.driver.execute_cdp_cmd(name, given)

    def open(self, said=""):
        """Loads the page with an address. If it is there already it is loaded anew, as by a person: what one process of
        Chromium stores is there for another one only some moments later."""
        address = f"{self.address}#{said}" if said else self.address
        if self.driver.current_url.partition("#")[0].rstrip("/") == self.address.rstrip("/"):
            self.js("history.replaceState(null, '', arguments[0])", address)
            self.driver.refresh()
        else:
            self.driver.get("about:blank")
            self.driver.get(address)
        self.wait()

    def go(self, said):
        """Has the page that is loaded show another address, which takes a fifth of what a load takes. What the reader
        has set stays, such as switches and the size of letters."""
        self.wait("went", said)

    def look(self, width=1280, height=800, scheme="light", motion="reduce"):
        """Gives the page a size in points and a colour scheme, light or dark, and says whether to reduce motion. Marks
        fly only where a test asks for that by `no-preference`, since each flight is drawn frame by frame."""
        wanted = {"prefers-color-scheme": scheme, "prefers-reduced-motion": motion}
        self.cdp("Emulation.setDeviceMetricsOverride", width=width, height=height, deviceScaleFactor=1, mobile=False)
        self.cdp("Emulation.setEmulatedMedia", features=[{"name": it, "value": wanted[it]} for it in wanted])

    def js(self, code, *given):
        """Returns the value of JavaScript in the page, with the functions of tests/page/looks.js."""
        return self.driver.execute_script(f"{LOOKS}return {code}", *given)

    def until(self, code):
        """Waits until JavaScript in the page is true."""
        WebDriverWait(self.driver, SECONDS, 0.02).until(lambda _: self.js(code), code)

    def wait(self, how="rest", *given):
        """Waits until the page is at rest, or also `drawn`, and returns what was seen of a `flight`."""
        return self.driver.execute_async_script(
            f"{LOOKS}const given = [...arguments]; {how}(given.pop(), ...given)", *given)

    def __getattr__(self, name):
        """Returns what tests/page/looks.js has under this name, such as `text` and `unseen`, as a call."""
        return lambda *given: self.js(f"{name}(...arguments)", *given)

    def one(self, where):
        return self.driver.find_element("css selector", where)

    def each(self, where, code):
        """Returns the value of JavaScript for `it`, which is each of these elements."""
        return self.js(f"all(arguments[0]).map((it) => {code})", where)

    def state(self, path="plans/ring_of_five.toml"):
        """Returns the state that is shown as the program prints it."""
        given = f"{','.join(map(str, self.choices()))}\n{text_of(path)}"
        return json.loads(trace("--json", "-", input=given.encode()).output)

    def differs(self, before):
        """Returns how parts of the page differ from what they said before."""
        now = self.said()
        return [f"{it}: {first_difference(before[it], now[it])}" for it in now if before[it] != now[it]]

    def hash(self, pattern):
        """Waits until the address is written and has this in it, and returns it."""
        time.sleep(0.5)
        self.until(f"/{pattern}/.test(decodeURIComponent(location.hash))")
        return self.js("location.hash")[1:]

    def chain(self):
        return ActionChains(self.driver, duration=0)

    def do(self, *what):
        """Clicks parts of the page, which begin with #, presses keys, by their names in JavaScript, and types texts. A
        key behind ^ is pressed with Control. A click fails if its part is hidden, or if another thing covers it.
        Returns how many events are done then."""
        done = None
        for it in what:
            if re.match("#.", it):
                # A mark that flies would be elsewhere by the time of the click.
                self.wait("landed", it).click()
            else:
                chain = self.chain().key_down(Keys.CONTROL) if re.match(r"\^.", it) else self.chain()
                name = re.sub("(?<=[a-z])(?=[A-Z])", "_", it).upper()
                chain.send_keys(getattr(Keys, name, it.lstrip("^"))).key_up(Keys.CONTROL).perform()
            done = self.wait("done")
        return done

    def fill(self, where, text):
        """Types a text in the place of another."""
        self.do(where, "^a", "Backspace", text)

    def step_by_chance(self, chance):
        """Does an event by one of the buttons. Returns whether there was one."""
        listed = [f"#enabled li:nth-child({it + 1}) button" for it in range(self.count("#enabled button"))]
        return bool(listed and self.do(chance.choice(["#first", "#random", "#step", *listed])))

    def steps_by_chance(self, chance, count=999):
        """Does so many events at most by one of the buttons each, without a pointer, which takes a tenth of the time.
        Returns how many events are done then, and the checks that failed behind one of them."""
        return self.wait("stepped", [chance.random() for _ in range(count)])

    def write_plan(self, plan):
        """Puts in a plan of one's own and asks for it. Only a short one is typed: of a long one Chromium lays out line
        by line as it comes, for many seconds."""
        self.do("#own", "#text", "^a")
        if len(plan) < 2000:
            self.cdp("Input.insertText", text=plan)
        else:
            self.js("(one('#text').value = arguments[0], null)", plan)
        self.do("#use")

    def is_said_by_shell(self):
        """Compares what the page says at the end with what its own line for a shell prints."""
        line = self.text("#line").replace("./dine", called("dine_cli"), 1)
        assert answer_of(["-c", line], "sh", cwd=HOME) == Answer(0, f"{self.text('#logs')}\n", "")
