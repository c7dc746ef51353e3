"""Plans by calls: what a builder makes, and each refusal at the call that causes it."""
import copy
import doctest
import importlib
import pickle
import random
import threading

import pytest
from dine import PAIR, Cause, DineError, Plan, PlanBuilder, Site, Status, World

TEXT = """version = 2
[[site]]
name = "a"
jobs = [{ name = "1" }, { name = "2", add = 5 }]
[[site]]
name = "b"
jobs = [{ name = "1" }, { name = "2", fails = true }, { name = "3" }]
on_fault = "resign"
[[site]]
name = "c"
jobs = [{ name = "1", set = 40, turns = 1000000 }]
[[edge]]
ends = ["a", "b"]
[[edge]]
ends = ["c", "b"]
value = 7
"""


def built():
    builder = PlanBuilder()
    assert [builder.site(*it) for it in (("a", 2), ("b", 3), ("c", 1))] == [0, 1, 2]
    assert [builder.edge(*it) for it in ((0, 1), (2, 1))] == [0, 1]
    builder.value(1, 7)
    builder.resign(1)
    builder.fails(1, 2)
    builder.adds(0, 2, 5)
    builder.sets(2, 1, 40)
    builder.turns(2, 1, 1_000_000)
    return builder


def refused(call, *words):
    with pytest.raises(DineError) as error:
        call(*words)
    it = error.value
    return it.status if it.cause is None else (it.cause, it.where, it.position)


def test_the_examples_of_the_docstrings():
    tried = doctest.testmod(importlib.import_module("dine._builder"))
    assert tried.failed == 0 and tried.attempted > 5


def test_the_plan_is_that_of_the_text_that_says_the_same():
    plans = [built().finish(), Plan(TEXT)]
    plans += [copy.copy(plans[0]), pickle.loads(pickle.dumps(plans[0]))]
    for plan in plans:
        assert (plan.version, plan.sites, plan.edges) == (2, ["a", "b", "c"], [(0, 1), (1, 2)])
        assert [plan.jobs(site) for site in range(3)] == [2, 3, 1]
        for choices in ([], [1, 1, 0, 2, 0, 1], [n * 7 % 5 for n in range(40)]):
            assert World(plan).replay_text(choices) == World(TEXT).replay_text(choices)
    assert [plan.text for plan in plans] == ["", TEXT, "", ""]
    assert Site(plans[0], 1).next() == Site(TEXT, 1).next()


def test_a_site_is_refused_for_its_name_and_for_how_many_there_are():
    builder = PlanBuilder()
    assert refused(builder.finish) == (Cause.NoSite, None, None)
    for name in ("", "a b", "a.b", "ä", "\udcff", "a\0", "x" * 33):
        assert refused(builder.site, name, 1) == (Cause.BadName, "site", 0)
    for jobs in (1001, 2**32, 2**70, -1):
        assert refused(builder.site, "a", jobs) == (Cause.TooManyJobs, "site", 0)
    assert builder.site("a", 1000) == 0
    assert refused(builder.site, "a", 1001) == (Cause.SiteTwice, "site", 1)
    for n in range(1, 64):
        assert builder.site(f"{n:_>32}", 0) == n
    assert refused(builder.site, "one-more", 1001) == (Cause.TooManySites, None, None)
    assert refused(builder.site, "a", 1) == (Cause.SiteTwice, "site", 64)
    plan = builder.finish()
    assert (len(plan.sites), plan.jobs(0), plan.jobs(63)) == (64, 1000, 0)


def test_an_edge_is_refused_for_its_ends_and_for_how_many_there_are():
    builder = PlanBuilder()
    for n in range(64):
        assert refused(builder.edge, n, 0) == refused(builder.edge, 0, -1) == (Cause.UnknownEnd, "edge", 0)
        builder.site(f"s{n}", 1)
        assert refused(builder.edge, n, n) == (Cause.Loop, "edge", 0)
    pairs = [(a, b) for a in range(64) for b in range(a)][:512]
    for n, (a, b) in enumerate(pairs):
        assert builder.edge(a, b) == n
        assert refused(builder.edge, a, b) == refused(builder.edge, b, a) == (Cause.EdgeTwice, "edge", n + 1)
    assert refused(builder.edge, 63, 62) == (Cause.TooManyEdges, None, None)
    assert refused(builder.edge, 63, 64) == (Cause.UnknownEnd, "edge", 512)
    assert builder.finish().edges == [(b, a) for a, b in pairs]


def test_what_is_not_there_or_too_large_is_refused_and_changes_nothing():
    builder = built()
    for value in (1_000_001, 2**32, -1):
        assert refused(builder.value, 0, value) == (Cause.ValueTooLarge, "edge", 0)
        assert refused(builder.turns, 2, 1, value) == (Cause.TurnsTooLarge, "site", 2)
        for call in (builder.adds, builder.sets):
            assert refused(call, 0, 1, value) == (Cause.ActTooLarge, "site", 0)
    assert refused(builder.value, 2, 1) == refused(builder.resign, 3) == Status.NO_SUCH
    for site, k in ((0, 0), (0, 3), (3, 1), (-1, -1)):
        assert refused(builder.turns, site, k, 1) == refused(builder.fails, site, k) == Status.NO_SUCH
        assert refused(builder.adds, site, k, 1) == refused(builder.sets, site, k, 1) == Status.NO_SUCH
    for words in ((1, 1), ("a", "1"), ("a", 1.5)):
        with pytest.raises(TypeError):
            builder.site(*words)
    with pytest.raises(TypeError):
        builder.edge("a", "b")
    assert World(builder.finish()).replay_text([]) == World(TEXT).replay_text([])


def text_of(sites, edges):
    """The text of a plan: of each site the name and the number of jobs, of each edge the ends and the value."""
    names = [name for name, _ in sites]
    text = "version = 2\n"
    for name, jobs in sites:
        job = '{ name = "x" }'
        text += f'[[site]]\nname = "{name}"\njobs = [{", ".join([job] * jobs)}]\n'
    for a, b, value in edges:
        ends = [names[it] if it < len(names) else "nobody" for it in (a, b)]
        text += f'[[edge]]\nends = ["{ends[0]}", "{ends[1]}"]\nvalue = {value}\n'
    return text


def test_a_call_refuses_what_a_text_is_refused_for():
    chance, seen = random.Random(1), set()
    for _ in range(100):
        builder, sites, edges = PlanBuilder(), [], []
        for _ in range(chance.randrange(1, 40)):
            name, jobs = chance.choice(["a", "b", "c", "d", "e", "f g", ""]), chance.choice([0, 1, 2, 1001])
            a, b, value = chance.randrange(6), chance.randrange(6), chance.choice([0, 1_000_000, 1_000_001])
            new_sites, new_edges, words = sites, edges, None
            kind = chance.randrange(3) if sites else 0
            if kind == 0:
                new_sites, words = [*sites, (name, jobs)], (builder.site, name, jobs)
            elif kind == 1:
                new_edges, words = [*edges, (a, b, 0)], (builder.edge, a, b)
            elif edges:
                edge = chance.randrange(len(edges))
                new_edges, words = list(edges), (builder.value, edge, value)
                new_edges[edge] = (*edges[edge][:2], value)
            if not words:
                continue
            try:
                read = Plan(text_of(new_sites, new_edges))
            except DineError as error:
                wanted = (error.cause, error.where, error.position)
                assert refused(*words) == wanted
                seen.add(error.cause)
                continue
            words[0](*words[1:])
            sites, edges = new_sites, new_edges
            plan = builder.finish()
            assert (plan.sites, plan.edges) == (read.sites, read.edges)
    assert seen == {Cause.BadName, Cause.SiteTwice, Cause.TooManyJobs, Cause.UnknownEnd, Cause.Loop, Cause.EdgeTwice,
                    Cause.ValueTooLarge}


def test_a_builder_goes_on_after_it_made_a_plan_and_no_more_once_it_is_closed():
    builder = PlanBuilder()
    builder.site("a", 3)
    first = builder.finish()
    builder.site("b", 4)
    builder.edge(1, 0)
    assert (first.sites, builder.finish().sites) == (["a"], ["a", "b"])
    assert repr(builder) == "<PlanBuilder: 2 sites, 1 edges>"
    builder.close()
    builder.close()
    assert refused(builder.site, "c", 1) == refused(builder.finish) == Status.CLOSED
    assert repr(builder) == "<PlanBuilder: closed>"
    with pytest.raises(TypeError):
        copy.copy(builder)


def test_threads_that_share_a_builder_each_add_their_sites():
    builder = PlanBuilder()
    threads = [threading.Thread(target=lambda n=n: [builder.site(f"s{n}_{i}", 1) for i in range(8)]) for n in range(8)]
    for thread in threads:
        thread.start()
    for thread in threads:
        thread.join()
    assert sorted(builder.finish().sites) == sorted(f"s{n}_{i}" for n in range(8) for i in range(8))


def test_the_message_says_the_cause_and_the_place():
    builder = PlanBuilder()
    with pytest.raises(DineError, match=r"^no plan: 6 BadName at site 0 \(-106\)$"):
        builder.site("a b", 1)
    with pytest.raises(DineError, match="^no plan: 12 UnknownEnd at edge 0"):
        Plan(PAIR.replace('"b"]', '"c"]'))
