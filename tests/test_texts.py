"""Tries the texts of tests/texts/, where each is below a line '# check> LINE' with what 'dine check' prints of it; and
texts at the limits, which are long: tests/tables/limits.toml has their parts."""
import tomllib
from itertools import combinations, cycle, islice

import pytest
from calls import REFUSED, answer_with, dine, stored_texts
from lib.files import text_of
from lib.process import Answer

pytestmark = pytest.mark.built("dine_cli")


def crowd(jobs, name="crowd", job='{{ name = "j{}" }}, '):
    """Returns the text of a site with a number of jobs."""
    return f'[[site]]\nname = "{name}"\njobs = [' + "".join(map(job.format, range(jobs))) + "]\n"


def edges(sites, count):
    pairs = islice(cycle(combinations(range(sites), 2)), count)
    return "".join(f'[[edge]]\nends = ["s{high}", "s{low}"]\n' for low, high in pairs)


PARTS = {
    "sites": lambda count: "".join(f'[[site]]\nname = "s{it}"\n' for it in range(count)),
    "edges": edges,
    "crowd": crowd,
    "turns": lambda turns: f'[[site]]\nname = "slow"\njobs = [{{ name = "x", turns = {turns} }}]\n',
    "same": lambda: '[[site]]\nname = "q"\n' * 2,
    "again": lambda: '[[edge]]\nends = ["s0", "s1"]\n' * 2,
}


@pytest.mark.parametrize(("line", "text"), [
    pytest.param(line, text, id=f"{name} {number}") for number, (name, line, text) in enumerate(stored_texts())])
def test_text(line, text):
    assert dine("check", input=text.encode()) == answer_with(line)


@pytest.mark.parametrize(("parts", "line"), tomllib.loads(text_of("tests/tables/limits.toml")).items())
def test_limit(parts, line):
    named = [it.split() for it in parts.split(", ")]
    text = "version = 1\n" + "".join(PARTS[kind](*map(int, numbers)) for kind, *numbers in named)
    assert dine("check", input=text.encode()) == answer_with(line)


def test_longest_log_of_two_sites():
    """The lower one eats all its meals, gives the fork away, and then the higher one eats."""
    text = "version = 1\n" + crowd(1000, "a") + crowd(1000, "b") + '[[edge]]\nends = ["a", "b"]\n'
    low, high = (", ".join(f"{name}#{it}" for it in range(1, 1001)) for name in "ab")
    wanted = answer_with(f"edge 0 a b: {low}, to b, {high}", "events 6012 of 14008")
    assert dine("replay", input=text.encode()) == wanted


@pytest.mark.parametrize(("length", "end", "wanted"), [
    pytest.param(8_388_608, b"", answer_with("ok: 2 sites, 1 edges, 2 jobs"), id="the most bytes"),
    pytest.param(8_388_609, b"", Answer(6, "", "dine: input too long\n"), id="one byte more"),
    pytest.param(0, b"\xff", answer_with(REFUSED + "1 NotToml"), id="a byte that is no UTF-8"),
])
def test_input(length, end, wanted):
    """The pair, padded with line feeds up to a length."""
    assert dine("check", input=text_of("plans/pair.toml").encode().ljust(length, b"\n") + end) == wanted


def test_check_does_no_job():
    """64,000 jobs of 1,000,000 turns take four processors 16 seconds and more; to read them takes a quarter of one."""
    job = '{{ name = "j{}", turns = 1000000 }}, '
    text = "version = 1\n" + "".join(crowd(1000, f"s{it}", job) for it in range(64))
    assert dine("check", input=text.encode(), seconds=10) == answer_with("ok: 64 sites, 0 edges, 64000 jobs")
