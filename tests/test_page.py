"""Tries that the page of ./show, and the page in one file, docs/index.html, step plans as the program does, by clicks
and keys in a headless Chromium. What they say is compared with what dine_trace and `dine replay` print."""
import random
import re
import time
import tomllib
import urllib.parse

import pytest
from calls import dine
from chromium import ASKED, RING
from lib.files import text_of
from lib.graphs import graph_of, plan_of
from lib.process import Answer

pytestmark = pytest.mark.built("dine_cli", "dine_trace")
# The plans that are stepped to their end, and after how many random choices.
PLAYED = [(f"plans/{name}.toml", count) for name, counts in {
    "pair": (0, 4), "pair_asked_first": (3,), "pair_one_sided": (0,), "failing_job": (0, 9), "resigning_site": (0, 9),
    "balances": (45,), "ring_of_five": (100,), "grid": (1500,), "star_of_64": (1500,)}.items() for count in counts]
PLAYED += [("tests/cases/triangle.toml", 40), ("tests/cases/values.toml", 9)]
CASES = tomllib.loads(text_of("tests/tables/page.toml"))
LONG = plan_of([3] * 40, graph_of("ring:40")[1] + [(it, (it + 7) % 40) for it in range(40)]).decode()


@pytest.mark.parametrize("name", CASES)
def test_case(request, name):
    """What is done and seen is in tests/tables/page.toml."""
    case = CASES[name]
    page = request.getfixturevalue("page" if "open" in case else "kept")
    width, height = case.get("window", (1280, 800))
    page.look(width, height, motion="no-preference" if case.get("flies") else "reduce")
    for step in [{it: case[it] for it in ("open", "go") if it in case}, *case["steps"]]:
        if "open" in step:
            page.open(step["open"])
        if "go" in step:
            page.go(step["go"])
        if "again" in step:
            page.open(page.hash(step["again"]))
        if "do" in step:
            page.do(*step["do"])
        if wanted := step.get("see"):
            assert dict(zip(wanted, page.js(f"[{', '.join(wanted)}]"))) == wanted


@pytest.mark.slow
@pytest.mark.parametrize(("path", "count"), PLAYED)
def test_schedule(kept, path, count):
    """After random choices, of which some name no event, the buttons lead to an end as the program has it. Marks fly on
    one plan alone, since each flight takes its time."""
    kept.look(motion="no-preference" if path == "plans/pair.toml" else "reduce")
    chance, plan = random.Random(path), text_of(path)
    where = f"plan={path}" if path.startswith("plans/") else f"text={urllib.parse.quote(plan)}"
    kept.go(f"{where}&seed={count}&choices={','.join(str(chance.randrange(6)) for _ in range(count))}")
    # A pointer presses the first buttons.
    for _ in range(4):
        kept.step_by_chance(chance)
    assert kept.texts("#checks .broken") == [] and kept.steps_by_chance(chance)[1] == []
    assert kept.count("#enabled button") == 0
    answer = dine("replay", "--choices", ",".join(map(str, kept.choices())), input=plan.encode())
    assert answer == Answer(0, f"{kept.text('#logs')}\n", "")
    if path.startswith("plans/"):
        kept.is_said_by_shell()


def test_double_click(kept):
    """A double click is one event, though the list moves under the pointer."""
    kept.go(RING)
    kept.chain().double_click(kept.one("#enabled li:nth-child(2) button")).perform()
    kept.wait()
    assert kept.event() == 1


# What a step has changed, in the words of tests/page/looks.js.
CHANGED = """({
  headings: headings(), words: text("#last b"), before: texts("#picture .rank text"),
  first: texts("#edges td:nth-child(6)"), dirty: texts("#edges td:nth-child(4)"),
  counted: texts("#sites td:last-child"), site: all("#picture .site.last").map((it) => Number(it.dataset.site)),
  drawn: all("#picture .edge").flatMap((it, edge) => it.classList.contains("last") ? [edge] : []),
  told: all("#edges tbody tr").flatMap((it, edge) => it.classList.contains("last") ? [edge] : []),
  fork: count("#picture .fork.last"), request: count("#picture .token.last") })"""


def test_picture_and_tables(kept):
    """Arrows, ranks, tables and marks are as the program says at each event, which is named. A meal turns arrows."""
    kept.go(RING)
    assert "".join(kept.texts("#picture .rank text")) == "43210"
    chance, turned = random.Random("marks"), set()
    while kept.step_by_chance(chance) and (kept.event() < 20 or len(turned) < 2):
        state, seen = kept.state(), kept.js(CHANGED)
        last, edges = state["last"], state["edges"]
        preferred = [edge["preferred"] for edge in edges]
        turned.add(str(preferred))
        assert seen["headings"] == preferred and seen["words"] == last["words"]
        assert [it[0] for it in seen["first"]] == ["abcde"[it] for it in preferred]
        assert [it.startswith("dirty") for it in seen["dirty"]] == [it["dirty"] for it in edges]
        assert seen["before"] == seen["counted"] and seen["site"] == [last["site"]]
        assert seen["drawn"] == seen["told"] == ([] if last["edge"] is None else [last["edge"]])
        assert last["letter"] not in ("fork", "request") or seen[last["letter"]]
    assert len(turned) > 1


@pytest.mark.parametrize("where", ["#plans", "#pick", "#lessons", "#speed"])
def test_keys_on_menus(kept, where):
    """Arrows, Home, End and space step, though a menu or the slider has the focus, and don't change it."""
    kept.go(f"{RING}&seed=2")
    before = kept.each("select, #speed", "it.value")
    kept.focus(where)
    assert [kept.do(it) for it in ("ArrowRight", "ArrowRight", "ArrowLeft", "End", "Home")] == [1, 2, 1, 2, 0]
    kept.do(" ")
    assert kept.text("#play") == "Pause"
    kept.do(" ")
    assert kept.each("select, #speed", "it.value") == before


def test_address(page):
    """The address holds the plan, all choices, how many are done, and how the steps go. A reload shows the same."""
    page.open(f"{RING}&choices=4,4,4,4,4,0,0")
    page.do("ArrowLeft", "ArrowLeft", "+", "g")
    page.fill("#seed", "77")
    page.do("Enter")
    said, before = page.hash("choices=4,4,4,4,4,0,0.*at=5.*by=first.*seed=77.*speed=2"), page.said()
    page.open(said)
    assert page.differs(before) == [] and (page.value("#seed"), page.value("#pick")) == ("77", "first")
    page.do("ArrowRight", "ArrowRight")
    assert page.choices() == [4, 4, 4, 4, 4, 0, 0]


@pytest.mark.parametrize(("plan", "said"), [
    (text_of("tests/cases/triangle.toml"), r"choices=(\d+,){7}\d+"), (LONG, "^#packed=")], ids=["short", "long"])
def test_own_plan(page, plan, said):
    """A reload shows a plan of one's own, which is packed into the address if it is long."""
    page.open("plan=plans/pair.toml&choices=1,1")
    page.write_plan(plan)
    assert (page.count("#plan-editor[open]"), page.event()) == (0, 0)
    chance = random.Random("own")
    assert all(page.step_by_chance(chance) for _ in range(3)) and page.steps_by_chance(chance, 5) == [8, []]
    said, before = page.hash(said), page.said()
    page.open(said)
    assert page.differs(before) == [] and page.event() == 8


def test_plan_that_is_too_long(page):
    """A plan that is too long for an address leaves it empty, as is said."""
    page.open(RING)
    page.write_plan(LONG + "# " + "".join(map(chr, random.Random(0).choices(range(0x4E00, 0x9FFF), k=26_000))))
    page.until("location.hash === '' && !one('#too-long').hidden")


@pytest.mark.parametrize("which", ["served", "page"])
def test_run_on_threads(request, which):
    """What the threads did, or a recorded run, is played and drawn, and kept in the address."""
    page = request.getfixturevalue(which)
    page.open(f"{RING}&speed=5")
    page.do("#threads")
    page.until("one('#play').textContent === 'Pause'")
    page.do("#play")
    held = urllib.parse.parse_qs(page.hash("choices=.*threads=1"))["choices"][0]
    page.open(f"{RING}&choices={held}&at=0&threads=1")
    assert (page.event(), page.text("#timeline-name")) == (0, "What the threads did")
    page.do("End")
    assert ",".join(map(str, page.choices())) == held
    # Each meal stands in the logs of two forks.
    logs = page.text("#logs")
    drawn = page.each("#timeline .meals, #timeline .heads", "it.getAttribute('d').split('Z').length - 1")
    assert drawn == [logs.count("#") // 2, len(re.findall(r"\bto ", logs))]
    page.is_said_by_shell()


def test_late_run(served):
    """While a run is waited for, as its program may have to be built, the page says so and steps. Then it plays it."""
    served.open(RING)
    served.js("window.fetch = () => new Promise((then) => { window.answer = (...it) => then(new Response(...it)); })")
    served.do("#threads")
    assert "the terminal says" in served.text("#building") and not served.unseen("#building")
    served.do("ArrowRight", "t")
    assert served.event() == 1
    served.js("answer('4,4,4,4,4')")
    served.until("one('#timeline-name').textContent === 'What the threads did'")
    served.do("End")
    assert served.choices() == [4] * 5 and served.unseen("#building")
    served.do("#threads")
    served.js("answer('it is refused', { status: 500 })")
    served.until("one('#fault').textContent === 'it is refused'")
    assert served.unseen("#building")


def test_undone_run(kept):
    """A run on threads that another choice or another run did away with comes back."""
    kept.go(RING)
    kept.do("4", "t", "End")
    run = kept.choices()
    kept.do("Home", "1", "2", "^z", "^z", "End")
    assert (kept.choices(), kept.text("#timeline-name")) == (run, "What the threads did")
    kept.do("^z")
    assert kept.choices() == [4]


def test_long_wait(kept):
    """A run is found in which a site waits long, shown where that site is to eat. What was shown comes back."""
    kept.go(f"{RING}&choices={ASKED}")
    kept.js("(one('#find-site').value = 4, one('#find-count').value = 60, null)")
    kept.do("#find button")
    begin, end = map(int, re.search(r": e waits, events (\d+) to (\d+)\.$", kept.text("#find-note")).groups())
    assert end - begin >= 59 and kept.event() == end and kept.state()["sites"][4]["phase"] == "hungry"
    kept.do("ArrowRight")
    assert kept.text("#last b").startswith("e begins meal") and kept.text("#find-note")
    kept.do("^z")
    assert kept.text("#find-note") == "" and kept.choices() == [int(it) for it in ASKED.split(",")]


def on_timeline(page, part, drag=0):
    """Clicks so far along the timeline, from 0 at its left to 1 at its right, and returns how many events are done. Or
    drags from there."""
    it = page.one("#timeline-scroll")
    chain = page.chain().move_to_element_with_offset(it, round((part - 0.5) * it.size["width"]), 0).click_and_hold()
    for _ in range(2 if drag else 0):
        chain.move_by_offset(round(drag * it.size["width"] / 2), 0)
    chain.release().perform()
    time.sleep(0.2)
    page.wait()
    return page.event()


def test_timeline(kept):
    """A click on the timeline goes behind its event, and says what it was. A drag goes along. What sites do is said."""
    kept.go(f"{RING}&choices={ASKED}")
    assert 1 <= on_timeline(kept, 0.04) < 4
    assert 6 <= on_timeline(kept, 0.04, 0.1) < 9 and kept.text("#timeline-hint") == "c waits, events 3 to 10"
    # An event is 16 points wide: this is the middle of the third.
    assert on_timeline(kept, 40 / kept.one("#timeline-view").size["width"]) == 3
    assert kept.text("#timeline-note") == "3 of 10 events: c grows hungry"


@pytest.mark.slow
def test_long_run(served):
    """A run of threads with over 7,000 events is drawn whole, zoomed and gone through, with words for each event."""
    served.open(RING)
    served.write_plan(plan_of([500] * 5, graph_of("ring:5")[1]).decode())
    served.one("#threads").click()
    served.until("one('#play').textContent === 'Pause'")
    count = served.do(" ", "End")
    assert count >= 7000 and not served.text("#last b").startswith(("After", "The start"))
    assert 0.4 * count < on_timeline(served, 0.5) < 0.6 * count
    width = "one('#timeline-inside').clientWidth"
    wide = served.js(width)
    served.do(*["#zoom-in"] * 4)
    assert 12 < served.js(width) / wide < 20
    steps_cost_at_most(served, 2 * 100)
    served.do("PageUp", "#zoom-all")
    assert served.js(width) == wide


# How often the page may be laid out for a step: it is once. While marks fly they are laid out in each frame, too, and
# how many frames there are depends on what else the machine does.
LAYOUTS = 3
# What a step may cost until it is drawn: milliseconds of a processor. It is twice what is aimed at, as the caches and
# the cores are shared with what runs beside. The time itself is not tried: it depends on what else the machine does.
# 16 sites in a ring with further edges, 64 sites with 512 edges, and 64 sites with 1,000 jobs each.
COSTS = {"few": (2 * 40, [2] * 16, graph_of("ring:16")[1] + [(it, it + 2) for it in range(14)]),
         "many": (2 * 120, [2] * 64, graph_of("band:64")[1]), "large": (2 * 50, [1000] * 64, graph_of("ring:64")[1])}


def cost_of_steps(page, motion, steps):
    """Returns what a step costs on average, in milliseconds of a processor, and how often it lays the page out."""
    page.look(motion=motion)
    costs = []
    for count in (0, steps):
        for _ in range(count):
            page.chain().send_keys("\ue014").perform()
            page.wait("drawn")
        found = {it["name"]: it["value"] for it in page.cdp("Performance.getMetrics")["metrics"]}
        costs.append((1000 * found["TaskDuration"], found["LayoutCount"]))
    return [(now - was) / steps for was, now in zip(*costs)]


def steps_cost_at_most(page, milliseconds):
    """Does steps, with marks that fly and with marks that don't, and looks at what they cost."""
    (cost, _), (_, layouts) = (cost_of_steps(page, *it) for it in (("no-preference", 12), ("reduce", 5)))
    assert cost <= milliseconds and layouts <= LAYOUTS


@pytest.mark.slow
@pytest.mark.parametrize(("milliseconds", "jobs", "edges"), COSTS.values(), ids=COSTS)
def test_cost_of_steps(kept, milliseconds, jobs, edges):
    kept.go(RING)
    kept.write_plan(plan_of(jobs, edges).decode())
    steps_cost_at_most(kept, milliseconds)
