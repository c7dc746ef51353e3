"""Tries dine_trace, as docs/STATES.md has it: its states along a schedule, which tests/states.txt has; that what it
prints of random choices agrees, for each plan of plans/; its runs on threads; and its arguments."""
import json
import random
import shlex

import pytest
from calls import check_replay, check_whole_run, dine, lists, printed, state_after, trace
from lib.files import paths, text_of
from lib.graphs import plan_of
from lib.process import Answer

pytestmark = pytest.mark.built("dine_cli", "dine_trace")
USAGE = "[[--json | --events | --states PLACES] [LIST] | --run [--links channel|ring]] < PLAN"
NO_LIST = Answer(2, "", "dine_trace: the first line of the input is no LIST\n")
PLANS, PAIR = paths("plans/*.toml"), text_of("plans/pair.toml")
# Three sites, of which two quit after a job that failed, and choices after which each reason, cause and rule was seen.
TOLD = text_of("tests/cases/resigning.toml")
CHOICES = random.Random(2).choices(range(3), k=100)


def along(text, choices):
    """Returns what --events prints for choices, and the states before and after each event, by a LIST in the input."""
    given = f"{','.join(map(str, choices))}\n{text}"
    places = ",".join(map(str, range(len(choices) + 1)))
    (course,) = printed("--events", "-", given=given)
    return course, printed("--states", places, "-", given=given)[:course["events"] + 1]


def lines_of(it, path=""):
    """Returns a line for each part of a state that has no parts with parts of their own."""
    parts = dict(enumerate(it)) if isinstance(it, list) else it
    if not isinstance(parts, dict) or not any(isinstance(part, (dict, list)) for part in parts.values()):
        return [f"{path}: {json.dumps(it)}"]
    return [line for key, part in parts.items() for line in lines_of(part, f"{path} {key}".strip())]


def test_states(is_as_written):
    """Each event along CHOICES and the lines of the state after it that are new, and at the end what --events prints.
    If a name, a reason or a rule changes, write the file by --write, and read what differs."""
    course, states = along(TOLD, CHOICES)
    before, text = [], ""
    for state in states:
        last = state.pop("last") or {"words": "the start"}
        now = lines_of({**state, "enabled": {it["words"]: it for it in state["enabled"]}})
        text += "\n".join([f"# {last['words']}", *(it for it in now if it not in before)]) + "\n\n"
        before = now
    is_as_written("tests/states.txt", text + "\n".join(lines_of(course)) + "\n")


@pytest.mark.parametrize("path", PLANS)
def test_schedule(path):
    """Along random choices, of which some name no event, events and states agree, and at the end the logs do."""
    text, dice = text_of(path), random.Random(path)
    choices, done = dice.choices(range(5), k=60), []
    course, states = along(text, choices)
    for choice in choices:
        if choice < len(states[len(done)]["enabled"]):
            done.append(choice)
    events = [before["enabled"][choice] for before, choice in zip(states, done)]
    assert [it["last"] for it in states] == [None, *events] and [it["events"] for it in states] == [*range(len(states))]
    assert (course["done"], len(course["kinds"])) == (done, len(events))
    assert [*zip(course["sites"], course["edges"])] == [(it["site"], it["edge"]) for it in events]
    assert state_after(text, choices) == {**states[-1], "done": done} and course["bound"] == states[0]["bound"]
    end = state_after(text, choices + [0] * course["bound"])
    check_replay(text, choices, end)
    check_replay(text, end["done"], end)


# Two sites, of which the second fails at two of its four meals and goes on.
TWICE = """[[site]]
name = "a"
jobs = [{ name = "1" }, { name = "2" }]
[[site]]
name = "b"
jobs = [{ name = "1" }, { name = "2", fails = true }, { name = "3", fails = true }, { name = "4" }]
[[edge]]
ends = ["a", "b"]
"""


@pytest.mark.parametrize(("version", "value"), [(1, None), (2, 0)])
def test_value_by_version(version, value):
    """An edge has a value in version 2 alone, and in version 1 at no moment."""
    _, states = along(f"version = {version}\n{TWICE}", [0] * 60)
    assert len(states) > 20 and [it["edges"][0]["value"] for it in states] == [value] * len(states)


def test_each_failed_meal():
    """A site that goes on keeps all of its meals that failed, in order, from the end of each on."""
    _, states = along(f"version = 1\n{TWICE}", [0] * 60)
    failed = [[site["failed"] for site in it["sites"]] for it in states]
    ends = [(it["last"]["site"], it["last"]["meal"]) if it["last"] and it["last"]["kind"] == "end" else None
            for it in states]
    after_2, after_3 = ends.index((1, 2)), ends.index((1, 3))
    wanted = [[[], [2, 3] if n >= after_3 else [2] if n >= after_2 else []] for n in range(len(states))]
    assert failed == wanted and len(states) - 1 > after_3 > after_2 > 1


def test_large_values():
    """An edge has the value of its log, also one that is larger than a plan may begin with, and each edge its own."""
    sites = "".join(f'[[site]]\nname = "{it}"\njobs = [{{ name = "x", add = 1000000 }}]\n' for it in "abc")
    edges = "".join(f"[[edge]]\nends = {ends}\nvalue = {value}\n" for ends, value in (
        ('["a", "b"]', 1000000), ('["b", "c"]', 7)))
    _, states = along(f"version = 2\n{sites}{edges}", [0] * 60)
    values = [[edge["value"] for edge in it["edges"]] for it in states]
    assert values == [[int(line.rpartition(" = ")[2]) for line in it["logs"]] for it in states]
    assert (values[0], values[-1]) == ([1000000, 7], [3000000, 2000007])


def test_all_enabled_events():
    """A state has all events that are enabled, of however many sites and edges: a choice behind them names none."""
    edges = [(it, (it + near) % 64) for it in range(64) for near in range(1, 9)]
    text = plan_of([0] * 64, edges).decode()
    enabled = state_after(text, [])["enabled"]
    assert [it["number"] for it in enabled] == [*range(2 * len(edges))]
    assert [state_after(text, [it])["last"] for it in (len(enabled) - 1, len(enabled))] == [enabled[-1], None]


def test_long_list():
    """A LIST that is longer than the system allows for an argument."""
    given = ",".join(["0"] * 100_000) + "\n" + text_of("plans/ring_of_five.toml")
    (course,), states = printed("--events", "-", given=given), printed("--states", "5,100000", "-", given=given)
    assert [it["events"] for it in states] == [5, course["events"]] and not states[1]["enabled"]


@pytest.mark.parametrize("links", ["", "--links channel"])
@pytest.mark.parametrize("path", PLANS)
def test_run(path, links):
    """The events of a run on threads are those of a whole run, in which each site eats as often as `dine run` says."""
    text = text_of(path)
    answer = trace("--run", *links.split(), input=text.encode())
    assert (answer.status, answer.error, answer.output.count("\n")) == (0, "", 1)
    state = check_whole_run(text, [int(it) for it in answer.output.split(",")])
    meals = [f"{it['name']},{it['eaten']},{len(it['failed'])}" for it in state["sites"]]
    assert dine("run", "--table", "sites", input=text.encode()).output.splitlines()[1:] == meals


@pytest.mark.parametrize("words", ["--json -", "--events -", "--states 1 -", "-"])
@pytest.mark.parametrize("line", ["x", "1,", "1 ", "-", "1\r"])
def test_no_list(line, words):
    assert trace(*words.split(), input=f"{line}\n{PAIR}".encode()) == NO_LIST


@pytest.mark.parametrize("words", lists("trace"))
def test_refused_arguments(words):
    assert trace(*shlex.split(words), input=b"") == Answer(2, "", f"dine_trace: usage: dine_trace {USAGE}\n")


@pytest.mark.parametrize("words", [
    "", "1", "--json", "--json 1", "--events", "--states 1", "--run", "--run --links ring", "-", "--json -",
    "--events -", "--states 1 -"])
def test_refused_plan(words):
    given = "1,0\n" * words.endswith("-") + "version = 3\n"
    assert trace(*words.split(), input=given.encode()) == Answer(3, "", "dine: plan refused: 2 Version\n")
