"""Tries how the page is laid out, for whom it is, and what it says of plans."""
import re
import time
import urllib.parse

import pytest
from chromium import ASKED, RING
from lib.files import text_of
from lib.graphs import graph_of, plan_of

STAR, STORY = "plans/star_of_locks.toml", "lessons/dining_without_a_waiter.toml"
HEIGHT = "one('#picture').clientHeight"
# How far the first line that is lit is below the head of its list, and how far that is scrolled.
LIT = """["#code-lines .lit", "#code-lines"].map((it) => one(it).getBoundingClientRect().top)
  .reduce((line, list) => [line - list, one("#code-lines").scrollTop])"""
# What has to have a name for who does not see the page, besides all that can have the focus.
NAMED = ("table", "progressbar", "ProgressIndicator", "img", "image", "slider", "region")


@pytest.mark.parametrize(("width", "height"), [(1280, 800), (1920, 1080)])
def test_one_window(kept, width, height):
    """The picture and the timeline are in one window, and the picture fills it if asked."""
    kept.look(width, height)
    kept.go(f"{RING}&choices={ASKED}")
    assert kept.unseen("#picture", "#timeline-scroll", "#threads", "#enabled", "#why", "#step") == []
    small = kept.js(HEIGHT)
    kept.do("v")
    assert kept.js(HEIGHT) >= max(0.7 * height, 1.2 * small) and kept.unseen("#step") == []
    assert (kept.do("ArrowRight", "Escape"), kept.js(HEIGHT)) == (11, small)


@pytest.mark.built("dine_trace")
@pytest.mark.parametrize(("width", "height"), [(1366, 650), (1280, 600), (1024, 700), (1280, 800)])
def test_marks_of_star(kept, width, height):
    """On a star in a low window each fork and token is nearer to the site that has it than to the other end, also with
    plain forks beside it. The marks of two edges of the hub don't cover each other."""
    kept.look(width, height)
    kept.go(f"plan={STAR}&choices=0,0,0,1,1,0,1,0")
    edges = kept.state(STAR)["edges"]
    for kind in ("fork", "token", "fork", "token"):
        near, least = kept.nearest(kind, [edge["ends"] for edge in edges])
        assert near == [edge[kind].get("at", it) for edge, it in zip(edges, near)] and least >= 4
        kept.do(*"n" * (kind == "token"))


@pytest.mark.parametrize("action", ["", "pan-x"])
def test_swipe_on_the_timeline(page, action):
    """A finger that goes up on the chart of the run scrolls the page. It would not if the chart took only fingers that
    go across."""
    page.look(390, 844)
    page.cdp("Emulation.setTouchEmulationEnabled", enabled=True)
    page.open(f"{RING}&choices={ASKED}")
    page.js("(one('#timeline-scroll').style.touchAction = arguments[0], null)", action)
    page.js("(one('#timeline-scroll').scrollIntoView({ block: 'center' }), null)")
    page.wait("drawn")
    begun, (x, y) = page.js("scrollY"), page.js("""(() => {
      const { left, top } = one("#timeline-scroll").getBoundingClientRect();
      return [left + 100, top + 60];
    })()""")
    page.cdp("Input.dispatchTouchEvent", type="touchStart", touchPoints=[{"x": x, "y": y}])
    for far in range(15, 151, 15):
        page.cdp("Input.dispatchTouchEvent", type="touchMove", touchPoints=[{"x": x, "y": y - far}])
    page.cdp("Input.dispatchTouchEvent", type="touchEnd", touchPoints=[])
    page.wait("drawn")
    page.cdp("Emulation.setTouchEmulationEnabled", enabled=False)
    assert (page.js("scrollY") > begun + 80) == (action == "") and page.event() == 10


def test_small_windows_show_all(kept):
    """On a telephone the algorithm comes into view once it is wanted, and a few events and edges are shown whole."""
    kept.look(390, 844)
    kept.go(RING)
    assert kept.each("#enabled, .tall", "it.scrollHeight - it.clientHeight") == [0] * 3
    kept.do("#code-on")
    kept.wait("drawn")
    assert kept.unseen("#code-lines") == []
    # What the legend of the chart says is there whole.
    assert kept.each("#timeline-note", "it.scrollWidth - it.clientWidth") == [0]
    # Where its list is cut, the line that is lit comes into view.
    kept.js("(one('#code-lines').style.maxHeight = '4rem', null)")
    kept.wait("drawn")
    places = [(kept.do("f"), kept.js(LIT))[1] for _ in range(4)]
    kept.js("(one('#code-lines').style.maxHeight = '', null)")
    assert all(0 <= line <= 48 for line, _ in places) and max(scrolled for _, scrolled in places) > 60


def test_names_of_small_sites_are_upright(kept):
    kept.look(390, 844)
    kept.go("lesson=lessons/challenges.toml&moment=3")
    assert kept.texts("#picture .beside") == [*"abcdefgh"]
    assert kept.each("#picture .beside", "it.getAttribute('transform')") == [None] * 8


@pytest.mark.parametrize("address", [
    "lesson=lessons/from_events_to_threads.toml&moment=1", f"{RING}&choices=4,4"])
@pytest.mark.parametrize("width", [390, 1280])
def test_token_on_its_way(kept, width, address):
    """A token on its way is about in the middle of its edge, and over no fork."""
    kept.look(width, 844)
    kept.go(address)
    token, fork, low, high = kept.js("""(() => {
      const lanes = [...one("#picture").children[1].children];
      const edge = lanes.findIndex((it) => it.querySelector(".lane"));
      const points = ["token", "fork"].map((kind) => markAt(all(`#picture .${kind}`)[edge]));
      const line = all("#picture .edge")[edge].querySelector(".line");
      const endOf = (end) => ({ x: line[`x${end}`].baseVal.value, y: line[`y${end}`].baseVal.value });
      return [...points, endOf(1), endOf(2)];
    })()""")
    far = [((it["x"] - token["x"]) ** 2 + (it["y"] - token["y"]) ** 2) ** 0.5 for it in (low, high, fork)]
    assert 0.6 < far[0] / far[1] < 1.67 and far[2] > 8


# The modes of the page, each with its address and with what is done there: done again, the first of that ends the mode.
HUNGRY = f"{RING}&choices={ASKED}"
GRID = f"text={urllib.parse.quote(plan_of([1] * 64, graph_of('grid:8x8')[1]).decode())}"
MODES = {
    "front": ("", []), "free": (HUNGRY, []), "question": (f"lesson={STORY}&moment=16", []),
    "plain": (f"lesson={STORY}&moment=3", []), "what if": (f"lesson={STORY}&moment=16", ["h"]),
    "challenge": ("lesson=lessons/challenges.toml&moment=1", []), "large": (HUNGRY, ["v"]),
    "large challenge": ("lesson=lessons/challenges.toml&moment=1", ["v"]), "ask me": (HUNGRY, ["q"]),
    "asked": (HUNGRY, ["q", "#quiz button"]), "algorithm": (HUNGRY, ["e"]), "grid": (GRID, ["#focus"]),
}
SIZES = [(320, 640), (390, 844), (844, 390), (768, 1024), (1280, 800), (1920, 1080)]


@pytest.mark.slow
@pytest.mark.parametrize(("width", "height"), SIZES)
def test_sizes(page, width, height):
    """In each mode no mark covers a text, no control is cut off, no part lies over another, and nothing scrolls
    sideways."""
    page.look(width, height)
    page.open()
    found = {}
    for mode, (address, done) in MODES.items():
        page.go(address)
        page.do(*done)
        page.wait("drawn")
        found[mode] = page.faultsOfLayout(width)
        page.do(*done[:1])
    assert found == {mode: [0, [], [], []] for mode in MODES}


def test_ask_me_in_one_window(kept):
    """After an answer is checked the list of what may happen has space, and so has the score."""
    kept.go(HUNGRY)
    kept.do("q", "#quiz button")
    assert kept.each("#enabled button", "it.offsetHeight > 30") == [True] * kept.count("#enabled button")
    kept.do("#enabled li:last-child button")
    assert kept.event() == 11


@pytest.mark.parametrize(("gone", "said"), [
    ("DecompressionStream", "This browser has no DecompressionStream"),
    ("WebAssembly", "This browser has no WebAssembly")])
def test_browser_that_lacks_something(page, gone, said):
    """What is missing is said in a line."""
    source = f"delete globalThis.{gone}"
    script = page.cdp("Page.addScriptToEvaluateOnNewDocument", source=source)["identifier"]
    page.driver.get("about:blank")
    page.driver.get(page.address)
    page.until("one('#fault').textContent !== ''")
    page.cdp("Page.removeScriptToEvaluateOnNewDocument", identifier=script)
    assert page.text("#fault").startswith(said) and page.unseen("#fault") == []


def test_page_without_scripts(page):
    """Without JavaScript a line says so, and in a browser that is too old another."""
    page.cdp("Emulation.setScriptExecutionDisabled", value=True)
    page.driver.get("about:blank")
    page.driver.get(page.address)
    page.cdp("Emulation.setScriptExecutionDisabled", value=False)
    page.until("getComputedStyle(one('#needs')).visibility === 'visible'")
    assert "needs JavaScript" in page.text("noscript")
    assert page.unseen("#needs") == [] and "too old" in page.text("#needs")


def test_way_back(page):
    """The way back of the browser leads to the moment before, and not through the events of one."""
    page.open(f"lesson={STORY}&moment=5")
    page.hash("moment=5")
    page.do("#next")
    page.hash("moment=6")
    page.do("#step", "#step")
    time.sleep(0.5)
    page.driver.back()
    page.until("text('#moment-count') === 'Moment 5 of 22'")
    page.driver.forward()
    page.until("text('#moment-count').endsWith('oment 6 of 22')")


def test_many_sites(kept):
    """Above 16 sites one site and its neighbours are shown, and a click on another site shows that one."""
    kept.go(RING)
    kept.write_plan(plan_of([1] * 20, graph_of("ring:20")[1]).decode())
    assert (kept.count("#picture .site"), kept.count("#enabled button")) == (3, 3)
    kept.do("#picture .site[data-site='1']")
    assert kept.each("#picture .site", "it.dataset.site") == ["0", "1", "2"]
    kept.do("#focus")
    assert kept.count("#picture .site") == 20


def test_plan_that_is_refused(kept):
    """A plan that is refused is reported in a sentence, its line is marked, and nothing that was typed is lost."""
    kept.go("plan=plans/pair.toml&choices=1,1")
    before = kept.said()
    plan = 'version = 1\n\n[[site]]\nname = "a"\n\n[[site]]\nname = "b"\n\n[[edge]]\nends = ["a", "cup"]\n'
    kept.write_plan(plan)
    assert kept.text("#plan-fault") == (
        'An end of this edge is no site\'s name. Line 10, "cup": there is "a", "b".')
    assert kept.each("#text", "it.value.slice(it.selectionStart, it.selectionEnd)") == ['"cup"']
    kept.do("Escape")
    assert kept.differs(before) == []
    kept.do("o")
    assert kept.value("#text") == plan
    kept.do("#again")
    assert kept.value("#text") == re.sub("# [a-z][^>\n]*> .*\n", "", text_of("plans/pair.toml"))


@pytest.mark.parametrize(("name", "width"), [
    ("pair", 1280), ("ring_of_five", 1280), ("grid", 1280), ("grid", 1920), ("star_of_64", 1280), ("pair", 390),
    ("ring_of_five", 390), ("grid", 390), ("star_of_64", 390)])
def test_width(kept, name, width):
    """All fits into a window, at the letter size of most readers and at twice that, and names that are cut differ."""
    kept.look(width, 844)
    kept.go(f"plan=plans/{name}.toml&choices=0,0,0")
    names = kept.texts("#picture .site .name")
    assert names and len(set(names)) == len(names), names
    assert [it for it in kept.widthsWith(16, 32) if it > width] == []


@pytest.mark.parametrize(("scheme", "is_dark"), [("light", False), ("dark", True)])
def test_scheme(page, scheme, is_dark):
    page.look(scheme=scheme)
    page.open()
    back = page.js("getComputedStyle(document.body).backgroundColor")
    assert (int(re.search(r"\d+", back)[0]) < 128) == is_dark


def test_names_for_screen_readers(kept):
    """All that can have the focus has a name, and so have the picture, the tables and the bar."""
    kept.go(f"{RING}&choices={ASKED}")
    unnamed = []
    for node in kept.cdp("Accessibility.getFullAXTree")["nodes"]:
        role, name = (node.get(it, {}).get("value") for it in ("role", "name"))
        has_focus = any(it["name"] == "focusable" and it["value"]["value"] for it in node.get("properties", []))
        if not node.get("ignored") and role not in ("RootWebArea", "document") and (has_focus or role in NAMED):
            unnamed += [role] * (not name)
    picture = kept.one("#picture").get_attribute("aria-label")
    assert unnamed == [] and "e hungry, 0 of 2 meals" in picture
    assert "d and e: dirty fork at d, token on its way to d, e goes first" in picture
