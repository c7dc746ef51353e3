"""Tries that the page says nothing false: in 500 random states each text that it has is read, and held against a model
that was written from docs/MODEL.md alone. tests/page/reading.js reads, and tests/page/held.mjs compares."""
import itertools
import json
import random
import shutil
import urllib.parse

import pytest
from chromium import LOOKS
from lib.files import HOME, text_of
from lib.graphs import graph_of
from lib.process import answer_of

READING = LOOKS + text_of("tests/page/reading.js")
# How many states are read in all, how many of one run at most, and how many events lie between two.
STATES, OF_A_RUN, APART = 500, 36, (1, 2, 3)
# In one of so many states each text is altered, too, and the comparison has to find it.
ALTERED = 50
# What a run has: its graph, whether its plan has version 2, with values and jobs that fail, and of how many sites each
# state is read, all if it is None.
GRAPHS = [("pair", "path:2", True, None), ("ring", "ring:5", False, None), ("star", "star:5", True, None),
          ("path", "path:4", False, None), ("grid", "grid:3x2", True, None), ("complete", "complete:4", False, None),
          ("triangle", "ring:3", True, None), ("ring of 20", "ring:20", False, 2)]
NAMES = ["a", "b", "c", "d", "e", "f", "dora", "g-1", "h_2", "ida"]


def edges_of(graph):
    kind, _, size = graph.partition(":")
    if kind == "path":
        return int(size), [(it, it + 1) for it in range(int(size) - 1)]
    if kind == "complete":
        return int(size), list(itertools.combinations(range(int(size)), 2))
    if kind == "star":
        return int(size), [(0, it) for it in range(1, int(size))]
    return graph_of(graph)


def plan_of(name, graph, is_rich, chance):
    """Returns a plan as a table for the model."""
    count, edges = edges_of(graph)
    names = NAMES[:count] if count <= len(NAMES) else [f"s{it}" for it in range(count)]
    acts = [[{} for _ in range(chance.randrange(1, 4))] for _ in range(count)]
    for act in itertools.chain(*acts) if is_rich else ():
        act |= chance.choice([{}, {"add": 3}, {"set": 10}, {"fails": True}, {"fails": True, "add": 1}])
    if is_rich and count > 2:
        acts[chance.randrange(count)] = []
    sites = [{"name": it, "resigns": is_rich and chance.random() < 0.5, "acts": own} for it, own in zip(names, acts)]
    pairs = sorted((min(it), max(it)) for it in edges)
    return {"name": name, "sites": sites, "edges": [
        {"ends": it, "value": chance.randrange(9) if is_rich else None} for it in pairs]}


def text_of_plan(plan, is_rich):
    def table(act):
        values = {"name": "j", **act}.items()
        return f"{{ {', '.join(f'{key} = {json.dumps(value)}' for key, value in values)} }}"

    lines = [f"version = {2 if is_rich else 1}"]
    for site in plan["sites"]:
        lines += ["[[site]]", f'name = "{site["name"]}"', f"jobs = [{', '.join(map(table, site['acts']))}]"]
        lines += ['on_fault = "resign"'] * site["resigns"]
    for edge in plan["edges"]:
        lines += ["[[edge]]", f"ends = {json.dumps([plan['sites'][it]['name'] for it in edge['ends']])}"]
        lines += [f"value = {edge['value']}"] * is_rich
    return "\n".join([*lines, ""])


def read(page, plan, text, chance, most, some):
    """Returns a run of a plan: what was done, and all that was read then, until nothing may happen any more."""
    page.open(f"text={urllib.parse.quote(text)}")
    if len(plan["sites"]) % 2:
        page.js("['#code-on', '#naive'].forEach((it) => { if (!one(it).checked) one(it).click(); })")
    # To draw each state would cost more than to read it.
    page.js("(document.body.style.contentVisibility = 'hidden', null)")
    states = []
    while len(states) < most:
        steps = [chance.random() for _ in range(chance.choice(APART) if states else 0)]
        sites = chance.sample(range(len(plan["sites"])), some) if some else None
        given = [steps, sites, chance.random()]
        found = json.loads(page.driver.execute_async_script(f"{READING}readOn(...arguments)", *given))
        if states and not found["done"]:
            break
        states.append(found)
    return {"plan": plan, "states": states}


@pytest.mark.slow
@pytest.mark.timeout(900)
@pytest.mark.skipif(not shutil.which("node"), reason="node is not installed")
def test_no_sentence_is_false(page):
    page.look(1280, 800, motion="reduce")
    runs, count = [], 0
    for seed in itertools.count():
        name, graph, is_rich, some = GRAPHS[seed % len(GRAPHS)]
        chance = random.Random(f"{name} {seed}")
        plan = plan_of(f"{name} {seed}", graph, is_rich, chance)
        most = min(OF_A_RUN if some is None else OF_A_RUN // 3, STATES - count)
        runs.append(read(page, plan, text_of_plan(plan, is_rich), chance, most, some))
        count += len(runs[-1]["states"])
        if count >= STATES:
            break
    answer = answer_of([f"{HOME}/tests/page/held.mjs", "-", str(ALTERED)], "node", 300, input=json.dumps(runs).encode())
    assert (answer.status, answer.error) == (0, "")
    held = json.loads(answer.output)
    assert held["faults"][:20] == [] and held["unfound"][:20] == []
    assert held["states"] >= STATES and held["texts"] > 100 * STATES and held["altered"] > 400
