"""Compares what page/dine.wasm answers with what dine_trace prints: by a handle 20,000 states along schedules of 500
random plans, the same by page/worker.js in any order, the events of each schedule, and 2,000 texts of which most are
refused.

The plans are those of tests/test_plans.py. A schedule has up to 120 random choices, some of them with no event. The
texts are plans with a few bytes changed, and the texts of tests/refused/. An answer has to be what dine_trace prints,
byte for byte, and a refusal its line on standard error. tests/answers.mjs asks the module, by node."""
import base64
import json
import random
import re
import shutil
from pathlib import Path

import pytest
from calls import trace
from lib.checks import first_difference
from lib.files import HOME, paths
from lib.process import answer_of
from random_plans import plan_of

HAS_NODE = pytest.mark.skipif(not shutil.which("node"), reason="node is not installed")
pytestmark = [pytest.mark.built("dine_trace"), pytest.mark.slow, HAS_NODE]
PLACES = 40
CALLS = ("dine_open", "dine_now", "dine_events")


def refusal_of(error):
    """Returns the answer that the line on standard error asks for."""
    line, fault, kind, number = re.fullmatch(r"dine: (plan refused: (\d+) \w+(?: at (\w+) (\d+).*)?)\n", error).groups()
    at = {kind: int(number)} if kind else {}
    return json.dumps({"refused": {"line": line, "fault": int(fault), "at": at}}, separators=(",", ":"))


def wanted_of(plan, choices, places):
    """Returns the answer to each call, by what dine_trace prints."""
    given, rising = ",".join(map(str, choices)).encode() + b"\n" + plan, sorted(set(places))
    states = trace("--states", ",".join(map(str, rising)), "-", input=given)
    events = trace("--events", "-", input=given)
    if states.status == 3:
        return dict.fromkeys(CALLS, refusal_of(events.error))
    assert (states.status, events.status) == (0, 0), states.error + events.error
    lines = dict(zip(rising, states.output.splitlines()))
    return {"dine_open": "{}", "dine_events": events.output.rstrip("\n"),
            "dine_now": f"[{','.join(lines[it] for it in sorted(places))}]",
            "worker": f"[{','.join(lines[it] for it in places)}]"}


def compare(cases, *calls):
    """Compares the answers to these calls for each plan, choices and places."""
    given, wanted = [], []
    for plan, choices, places in cases:
        question = {"plan": base64.b64encode(plan).decode(), "choices": choices}
        given += [{**question, "call": it, "places": places if it == "worker" else sorted(places)} for it in calls]
        answers = wanted_of(plan, choices, places)
        wanted += [answers[it] for it in calls]
    ran = answer_of([f"{HOME}/tests/answers.mjs", f"{HOME}/page/dine.wasm"], "node",
                    input="\n".join(map(json.dumps, given)).encode())
    found = ran.output.splitlines()
    assert (ran.status, len(found)) == (0, len(given)), ran.error
    for it, *pair in zip(given, wanted, found):
        if pair[0] != pair[1]:
            pytest.fail(f"{it['call']} of {base64.b64decode(it['plan'])!r}: {first_difference(*pair)}", False)


@pytest.mark.parametrize("first", range(0, 500, 50))
def test_fifty_plans(first):
    cases = []
    for seed in range(first, first + 50):
        dice = random.Random(seed)
        choices = [dice.randrange(dice.choice((4, 12, 1 << 32))) for _ in range(dice.randrange(121))]
        cases.append((plan_of(seed)[0].encode(), choices, dice.choices(range(len(choices) + 2), k=PLACES)))
    compare(cases, *CALLS, "worker")


@pytest.mark.parametrize("seed", range(5))
def test_four_hundred_texts(seed):
    dice, cases = random.Random(-1 - seed), []
    texts = [Path(HOME, it).read_bytes() for it in paths("tests/refused/*.toml")]
    for _ in range(400):
        text = bytearray(dice.choice([dice.choice(texts), plan_of(dice.randrange(500))[0].encode()]))
        for _ in range(dice.randrange(4)):
            text[dice.randrange(len(text))] = dice.choice([dice.randrange(256), *b"0123456789\"=[]{},# \n"])
        cases.append((bytes(text), [dice.randrange(3)] * 3, [0, 2]))
    compare(cases, *CALLS)
