"""Tests of the package: a world, sites that exchange letters, and letters that are refused."""
import copy
import doctest
import gc
import importlib
import json
import multiprocessing
import pickle
import random
import threading
from concurrent.futures import ThreadPoolExecutor

import pytest
from dine import (PAIR, Cause, DineError, Event, Kind, Period, Phase, Place, Plan, Site, Status, Turn, World,
                  run_number)

# Three sites in a row, the middle one of which resigns after a job that fails.
PATH = """version = 2
[[site]]
name = "a"
jobs = [{ name = "x" }]
[[site]]
name = "b"
jobs = [{ name = "x" }, { name = "y" }, { name = "z" }]
on_fault = "resign"
[[site]]
name = "c"
jobs = [{ name = "x" }, { name = "y" }]
[[edge]]
ends = ["a", "b"]
value = 3
[[edge]]
ends = ["c", "b"]
value = 7
"""


@pytest.mark.parametrize("module", ["dine", "dine._core", "dine._table"])
def test_the_examples_of_the_docstrings(module):
    tried = doctest.testmod(importlib.import_module(module))
    assert tried.failed == 0 and tried.attempted > 5


def test_a_step_that_is_not_enabled_changes_nothing():
    world = World(PAIR)
    enabled = world.enabled()
    with pytest.raises(DineError) as refused:
        world.step(Event(0, Kind.BEGIN))
    assert refused.value.status == -3
    assert world.enabled() == enabled


def test_choices_that_have_no_event_are_not_counted():
    world = World(PAIR)
    assert (world.replay([7, 1, 9, 0]), world.replay([]), world.finish(), world.finish()) == (2, 0, 16, 0)


def test_the_values_of_version_2_are_told():
    assert (Plan(PAIR).version, Plan(PATH).version) == (1, 2)
    lines = World(PATH).replay_text([]).splitlines()
    assert [line.partition(" = ")[2] for line in lines] == ["3", "7", ""] and " = " not in World(PAIR).replay_text([])


def test_what_is_not_used_any_more_is_freed(monkeypatch):
    gc.collect()
    closed, close = [], Plan.close
    monkeypatch.setattr("dine._core._Owner.close", lambda it: closed.append(type(it).__name__) or close(it))
    for it in (Plan, World, lambda text: Site(text, 0)):
        it(PAIR)
        gc.collect()
    assert sorted(closed) == ["Plan", "Plan", "Plan", "Site", "World"]


def test_a_text_that_is_no_plan_is_refused():
    with pytest.raises(DineError) as refused:
        Plan("version = 3")
    assert (refused.value.status, refused.value.cause, refused.value.position) == (-102, Cause.Version, None)
    with pytest.raises(DineError, match="12 UnknownEnd at edge 0") as refused:
        Plan(PAIR.replace('"b"]', '"c"]'))
    assert (refused.value.cause, refused.value.position) == (Cause.UnknownEnd, 0)


def test_bytes_are_no_text():
    with pytest.raises(TypeError, match="a str, not bytes"):
        World(PAIR.encode())


def test_a_number_of_more_than_32_bits_is_none():
    world = World(PAIR)
    for choices in ([2**32], [-1], [0, 2**64 + 1]):
        with pytest.raises(OverflowError):
            world.replay(choices)
    for call in (world.phase, world.ate, world.log, world.value, lambda n: Site(PAIR, n), world.plan.jobs):
        for number in (2**32, 2**32 + 1, -1, 2):
            with pytest.raises(DineError):
                call(number)
    with pytest.raises(DineError):
        world.step(Event(2**32, Kind.HUNGRY))
    assert len(world.enabled()) == 2


def test_journals_have_an_order():
    world = World(PAIR)
    journals = [[], []]
    while events := world.enabled():
        journals[events[-1].site].append(events[-1])
        world.step(events[-1])
    other = World(PAIR)
    assert sorted(other.order(journals)) == sorted(journals[0] + journals[1])
    assert not other.enabled() and other.log(0) == world.log(0)
    with pytest.raises(ValueError):
        World(PAIR).order([journals[0][1:], journals[1]])
    # There is no such site and no such place.
    for event in (Event(2, Kind.HUNGRY), Event(0, Kind.ASK, 1)):
        with pytest.raises(ValueError, match="no order"):
            World(PAIR).order([[event]])


def exchange(sites, boxes):
    """Runs two sites, and returns the letters to each."""
    letters = [[], []]
    while not all(site.is_finished for site in sites):
        for me in (0, 1):
            while (turn := sites[me].turn()).event is not None:
                if turn.event.kind is Kind.BEGIN:
                    sites[me].end()
                elif turn.letter:
                    boxes[1 - me].append(turn.letter)
            while boxes[me]:
                letters[me].append(boxes[me].pop(0))
                sites[me].take(letters[me][-1])
    return letters


def test_two_sites_exchange_letters():
    plan = Plan(PAIR)
    sites, boxes = [Site(plan, 0), Site(plan, 1)], [[], []]
    exchange(sites, boxes)
    assert sites[1].log(0) == [Period(0, 1, 1), Period(1, 1, 1)]


def test_a_site_takes_letters_while_it_eats():
    a, b = Site(PAIR, 0), Site(PAIR, 1)
    b.act(b.next())
    request = b.act(b.next())
    a.act(a.next())
    a.begin()
    a.take(request)
    assert a.phase is Phase.EATING
    a.end()
    assert a.next() == Event(0, Kind.GIVE, 0)


def test_a_turn_does_the_next_event():
    site = Site(PAIR, 0)
    for kind in (Kind.HUNGRY, Kind.BEGIN):
        assert site.next() == Event(0, kind) and site.turn() == Turn(Event(0, kind), b"")
    with pytest.raises(DineError, match="the site eats"):
        site.turn()
    site.end()
    assert site.turn() == Turn(Event(0, Kind.DONE, 0), word(3)) and site.turn() == Turn(None, b"")
    assert site.phase is Phase.THINKING and not site.is_finished


def test_a_closed_world_answers():
    world = World(PAIR)
    world.close()
    world.close()
    with pytest.raises(DineError) as refused:
        world.finish()
    assert refused.value.status == -1


def test_a_world_in_a_with_closes():
    with World(PAIR) as world, Site(PAIR, 0) as site, Plan(PAIR) as plan:
        assert "2 events" in repr(world) and "thinking" in repr(site) and "1 edges" in repr(plan)
    for call in (world.enabled, world.copy, world.key, world._repr_svg_, site.next, lambda: plan.version):
        with pytest.raises(DineError) as refused:
            call()
        assert refused.value.status is Status.CLOSED
    assert "closed" in repr(world) and "closed" in repr(site) and "closed" in repr(plan)


def test_a_picture():
    world = World(PAIR)
    assert world._repr_svg_().count('class="fork"') == world._repr_svg_().count('class="token"') == 1
    assert 'fill="#333"' in world._repr_svg_() and ">R<" not in world._repr_svg_()
    world.replay([1, 1])
    # The request is on its way, and with it the token.
    assert ">R<" in world._repr_svg_() and 'class="token"' not in world._repr_svg_()
    world.step(Event(0, Kind.TAKE))
    assert 'class="token"' in world._repr_svg_()
    world.step(Event(0, Kind.GIVE))
    assert ">F<" in world._repr_svg_() and 'class="fork"' not in world._repr_svg_()
    world.step(Event(1, Kind.TAKE))
    assert 'class="fork"' in world._repr_svg_() and '"#333" stroke' not in world._repr_svg_()
    # The first site is hungry, and the token is at the second one, which is below.
    world = World(PAIR)
    world.step(Event(0, Kind.HUNGRY))
    fills = [it.partition('"')[0] for it in world._repr_svg_().split('r="16" fill="')[1:]]
    assert fills == ["#fd6", "#fff"] and 120 < float(world._repr_svg_().partition('class="token"')[2].split('"')[3])
    many = "version = 1\n" + "".join(f'[[site]]\nname = "s{n}"\njobs = []\n' for n in range(64))
    spots = {(part.split('"')[1], part.split('"')[3]) for part in World(many)._repr_svg_().split("<circle cx=")[1:]}
    points = [(float(x), float(y)) for x, y in [it for it in spots]]
    apart = min(abs(complex(*p) - complex(*q)) for p in points for q in points if p != q)
    assert len(points) == 64 and apart > 32


# ---- States


def explored(text):
    """Returns the number of states, and that of the events of the longest way to one."""
    first = World(text)
    seen, level, depth = {first.key()}, [first], -1
    while level:
        depth, found = depth + 1, []
        for world in level:
            for event in world.enabled():
                other = world.copy()
                other.step(event)
                if other.key() not in seen:
                    seen.add(other.key())
                    found.append(other)
        level = found
    return len(seen), depth


def test_all_states_are_found():
    assert explored(PAIR) == (105, 22)
    two = '[{ name = "x" }, { name = "y" }]'
    assert explored(PAIR.replace('[{ name = "x" }]', two).replace('[{ name = "y" }]', two)) == (379, 36)


def test_copies_and_keys():
    for seed in range(20):
        dice = random.Random(seed)
        world = World(PATH)
        for _ in range(dice.randrange(30)):
            how = dice.randrange(3)
            if how == 0:
                world.replay([dice.randrange(6) for _ in range(3)])
            elif events := world.enabled():
                event = dice.choice(events)
                world = copy.copy(world) if how == 1 and dice.randrange(2) else world
                world.step(event)
        other = world.copy()
        assert (other.key(), other.enabled(), other.bound) == (world.key(), world.enabled(), world.bound)
        assert [other.log(edge) for edge in (0, 1)] == [world.log(edge) for edge in (0, 1)]
        if events := other.enabled():
            other.step(events[-1])
            assert other.key() != world.key() and world.enabled() == events
        world.finish()
        assert world.copy().key() == world.key() and world.copy().enabled() == []


def test_what_is_seen_of_a_world_is_what_sites_have():
    """Each event of a world is done by sites as well, whose letters are carried."""
    for seed in range(10):
        dice = random.Random(seed)
        world, sites, links = World(PATH), [Site(PATH, n) for n in range(3)], {}
        while events := world.enabled():
            event = dice.choice(events)
            site, place = sites[event.site], event.place
            edge = site.places[place].edge
            world.step(event)
            if event.kind is Kind.TAKE:
                assert site.take(links[edge, event.site].pop(0)) == place
            elif event.kind is Kind.BEGIN:
                site.begin()
            elif event.kind is Kind.END:
                site.end()
            elif letter := site.act(event):
                links.setdefault((edge, site.places[place].neighbour), []).append(letter)
            seen = world._now()
            for n, it in enumerate(sites):
                assert (world.phase(n), world.ate(n)) == (it.phase, it.ate) == (seen.phases[n], seen.ate[n])
                for p in it.places:
                    assert (p.has_fork, p.has_token) == (seen.forks[p.edge] == n, seen.tokens[p.edge] == n)
                    assert p.is_dirty == (p.has_fork and seen.dirty[p.edge])
                    kinds = "".join(" FRDC"[letter[8]] for letter in links.get((p.edge, n), []))
                    assert seen.letters[p.edge][seen.ends[p.edge].index(n)] == kinds
        assert all(it.is_finished and all(place.is_closed for place in it.places) for it in sites)


# ---- Calls that are easily confused


def test_a_job_that_failed_and_quitting():
    site = Site(PATH, 1)
    a, c = Site(PATH, 0), Site(PATH, 2)
    site.act(site.next())
    for place, neighbour in enumerate((a, c)):
        if not site.places[place].has_fork:
            neighbour.take(site.act(Event(1, Kind.ASK, place)))
            site.take(neighbour.act(neighbour.next()))
    site.begin()
    with pytest.raises(DineError):
        site.act(Event(1, Kind.QUIT))
    site.end(failed=True)
    assert [site.log(place) for place in (0, 1)] == [[Period(0, 1, 0), Period(1, 1, 1)], [Period(1, 1, 1)]]
    assert Kind.QUIT == site.next().kind and site.ate == 1
    assert site.act(site.next()) == b"" and site.phase is Phase.THINKING
    # It has jobs left, and gave them up: no meal comes, and it says Done at each place.
    with pytest.raises(DineError):
        site.act(Event(1, Kind.HUNGRY))
    for place in (0, 1):
        assert site.next() == Event(1, Kind.DONE, place)
        site.act(site.next())
    # One that went well goes on.
    other = Site(PAIR, 0)
    other.act(other.next())
    other.begin()
    other.end()
    assert other.next().kind is Kind.DONE


def test_numbers_of_other_sites_places_and_edges():
    plan, world = Plan(PATH), World(PATH)
    assert [plan.jobs(n) for n in range(3)] == [1, 3, 2] and plan.edges == [(0, 1), (1, 2)]
    assert [world.value(edge) for edge in (0, 1)] == [3, 7]
    sites = [Site(plan, n) for n in range(3)]
    assert [site.places for site in sites] == [
        [Place(0, 1, True, False, True)], [Place(0, 0, False, True, False), Place(1, 2, True, False, True)],
        [Place(1, 1, False, True, False)]]
    assert sites[1].value(1) == 7 and sites[0].value(0) == 3
    with pytest.raises(DineError):
        sites[1].value(0)
    world.step(Event(2, Kind.HUNGRY))
    assert [world.phase(n) for n in range(3)] == [Phase.THINKING, Phase.THINKING, Phase.HUNGRY]
    world.step(Event(0, Kind.HUNGRY))
    world.step(Event(0, Kind.BEGIN))
    assert [world.phase(n) for n in range(3)] == [Phase.EATING, Phase.THINKING, Phase.HUNGRY]
    assert [world.ate(n) for n in range(3)] == [1, 0, 0]
    world.step(Event(0, Kind.END))
    assert [world.phase(0), world.ate(0)] == [Phase.THINKING, 1]


def test_a_handle_has_one_owner():
    world, site, plan = World(PAIR), Site(PAIR, 0), Plan(PAIR)
    for copies in (copy.copy, copy.deepcopy):
        other = copies(world)
        other.finish()
        assert world.ate(0) == 0 and copies(plan).sites == plan.sites
        with pytest.raises(TypeError):
            copies(site)
    for it in (world, site):
        with pytest.raises(TypeError, match="pickled"):
            pickle.dumps(it)


def test_a_link_that_is_broken_off():
    site = Site(PAIR, 0)
    with pytest.raises(DineError):
        site.act(Event(0, Kind.CLOSE, 0))
    assert site.break_off(0) == word(4)
    with pytest.raises(DineError):
        site.break_off(0)


def test_a_site_whose_neighbour_is_lost():
    # The fork is lost with the neighbour, so no meal can begin.
    site = Site(PAIR, 1)
    assert not site.is_stuck
    site.break_off(0)
    assert site.is_stuck
    # The fork is here, so the meals can be eaten. Then nothing is left, and the site is not finished.
    site = Site(PAIR, 0)
    site.break_off(0)
    assert not site.is_stuck
    site.act(site.next())
    site.begin()
    assert not site.is_stuck
    site.end()
    assert site.next() is None and site.is_stuck and not site.is_finished
    # One of three is lost: the others eat what they can, and it is over once they said Done and Close to each other.
    sites, boxes = [Site(PATH, 0), Site(PATH, 1)], [[], []]
    sites[1].break_off(1)
    for _ in range(20):
        for me in (0, 1):
            while (turn := sites[me].turn()).event is not None:
                if turn.event.kind is Kind.BEGIN:
                    sites[me].end()
                elif turn.letter:
                    boxes[1 - me].append(turn.letter)
            while boxes[me]:
                sites[me].take(boxes[me].pop(0))
    assert (sites[0].ate, sites[0].is_finished, sites[0].is_stuck) == (1, True, False)
    assert (sites[1].ate, sites[1].is_finished, sites[1].is_stuck) == (3, False, True)


def word(kind, edge=0):
    """The first bytes of a letter of the run 0: all of it, if it is no Fork."""
    return bytes([0, 0, 0, 0, 0, 0, 0, 0, kind, edge, 0, 0, 0])


@pytest.mark.parametrize("older, run", [(0, 0), (7, 7), (0, 1), (2**64 - 1, 0), (1, 2**63 + 1)])
def test_a_late_letter_of_an_older_run(older, run):
    """Site a eats, and b waits for the fork. If the late one is taken, two neighbours eat together."""
    a, b = (Site(PAIR, n, run=older) for n in (0, 1))
    b.act(b.next())
    a.take(b.act(b.next()))
    late = a.act(a.next())
    assert late[:8] == older.to_bytes(8, "little")
    a, b = (Site(PAIR, n, run=run) for n in (0, 1))
    a.act(a.next())
    a.begin()
    b.act(b.next())
    a.take(b.act(b.next()))
    if older == run:
        b.take(late)
        b.begin()
        assert a.phase is b.phase is Phase.EATING
        return
    with pytest.raises(DineError, match="the letter is of another run") as refused:
        b.take(late)
    assert refused.value.status is Status.OTHER_RUN
    with pytest.raises(DineError):
        b.begin()
    assert (a.phase, b.phase) == (Phase.EATING, Phase.HUNGRY)
    a.end()
    b.take(a.act(Event(0, Kind.GIVE, 0)))
    b.begin()


def test_numbers_of_runs():
    for none in (-1, 2**64):
        with pytest.raises(ValueError):
            Site(PAIR, 0, run=none)
    numbers = {run_number(text, random) for text in (PAIR, PATH, "") for random in (0, 1, 2**64 - 1)}
    assert len(numbers) == 9 and all(0 <= it < 2**64 for it in numbers)
    # Each language makes the same numbers.
    assert run_number("version = 1\n", 1984) == 0x3DCE6814D6B72B26


def test_each_letter_that_is_refused_by_name():
    def status(site, letter):
        with pytest.raises(DineError) as refused:
            site.take(letter)
        return refused.value.status, str(refused.value).partition(" (")[0]

    a, b = Site(PAIR, 0), Site(PAIR, 1)
    assert status(a, b"") == status(a, word(2)[:12]) == (
        Status.LETTER_LENGTH, "too few bytes for a letter, or too many")
    assert status(a, b"\2" * 22) == (Status.OTHER_RUN, "the letter is of another run")
    assert status(a, word(9)) == (Status.LETTER_KIND, "the letter is of no kind")
    assert status(a, word(2, 7)) == (
        Status.LETTER_EDGE, "the letter is of an edge that the site does not have")
    b.act(b.next())
    request = b.act(b.next())
    a.take(request)
    assert status(a, request) == (
        Status.REQUEST_OUT_OF_TURN, "a Request while the fork is away or the token is here, or after Done, or of "
        "another edge, or from a site that ate all its meals")
    fork = a.act(a.next())
    assert status(b, fork[:17] + b"\5" + fork[18:]) == (
        Status.LETTER_UNLAWFUL, "the neighbour cannot have done that with the fork")
    assert status(a, fork) == (Status.FORK_OUT_OF_TURN, "a Fork, although the fork or the token is here")
    done, close = word(3), word(4)
    assert status(b, close) == (Status.CLOSED_EARLY, "a Close before both sites said Done")
    b.take(done)
    assert status(b, done) == (
        Status.DONE_OUT_OF_TURN, "a second Done; or, while the fork is here, a Done of a site that does not resign, "
        "before the log has all its meals")
    # The neighbour said that it ate all its meals, and its fork says that it did not.
    assert status(b, fork) == (
        Status.STRANGE_FORK, "a Fork that is not the fork of this edge, or whose log is not as it has to be")
    assert b.next() is None
    sites, boxes = [Site(PAIR, 0), Site(PAIR, 1)], [[], []]
    exchange(sites, boxes)
    assert status(sites[0], done) == (Status.AFTER_CLOSE, "a letter after Close")
    for n, name, words in ((-3, "NOT_NOW", "the rules do not allow"), (-4, "NO_SUCH", "there is no such site"),
                           (-5, "MEMORY", "an allocation failed"), (-7, "EATING", "the site eats")):
        assert DineError(n).status.name == name and str(DineError(n)).startswith(words)


def test_a_letter_has_these_bytes():
    sites, boxes = [Site(PAIR, 0), Site(PAIR, 1)], [[], []]
    letters = exchange(sites, boxes)
    # Fork, Request, Done and Close, each with its run and its edge.
    assert {letter[:13] for it in letters for letter in it} == {word(kind) for kind in (1, 2, 3, 4)}


# ---- What goes over threads and processes


def test_threads_that_share_a_world():
    """With the library of the kit a handle that two threads use at once ends the process."""
    world, faults = World(PATH), []

    def calls(n):
        try:
            for _ in range(60):
                world.replay((1, 2, n))
                world.log(n % 2)
                world.enabled()
                world.key() if n == 3 else repr(world)
                world.copy().finish()
        except BaseException as error:
            faults.append(error)

    threads = [threading.Thread(target=calls, args=(n,)) for n in range(4)]
    for thread in threads:
        thread.start()
    for thread in threads:
        thread.join()
    assert faults == []


def test_threads_that_share_a_plan_and_a_site():
    plan = Plan(PATH)
    site = Site(plan, 1)
    with ThreadPoolExecutor(8) as pool:
        assert len(set(pool.map(lambda n: (World(plan).finish(), len(plan.sites)), range(200)))) == 1
        assert len(set(pool.map(lambda n: (site.phase, site.next(), repr(site), len(site.places)), range(200)))) == 1


def _fails(n):
    if n == 1:
        Plan("version = 1\n[[site]]\nname = '?'")
    World(PAIR).step(Event(0, Kind.BEGIN))


def test_errors_cross_processes():
    for error in (DineError(-3), DineError(-106, "6 BadName at site 0")):
        other = pickle.loads(pickle.dumps(error))
        assert (str(other), other.status, other.cause, other.position, other.where) == (
            str(error), error.status, error.cause, error.position, error.where)
    with multiprocessing.get_context("spawn").Pool(1) as pool:
        for n, status in ((0, Status.NOT_NOW), (1, -106)):
            with pytest.raises(DineError) as refused:
                pool.apply_async(_fails, (n,)).get(60)
            assert refused.value.status == status


def test_events_as_json_and_pickles():
    event = Event(2, Kind.GIVE, 1)
    assert json.dumps(event) == "[2, 1, 1]" and Event(*json.loads("[2, 1, 1]")) == event
    for other in (pickle.loads(pickle.dumps(event)), copy.deepcopy(event), Event(2, 1, 1), event._replace(site=2)):
        assert other == event and type(other) is Event and type(other.kind) is Kind and repr(other) == repr(event)
    assert pickle.loads(pickle.dumps(Plan(PATH))).edges == Plan(PATH).edges
    for numbers in ((0.9, 5, 0), ("0", 5, 0), (0, 5.9), (0, "5"), (0, 5, None)):
        with pytest.raises(TypeError):
            Event(*numbers)
        with pytest.raises(TypeError):
            World(PAIR).step(numbers)
    with pytest.raises(ValueError):
        Event(0, 9)
    world = World(PAIR)
    world.step((0, 5))
    assert world.phase(0) is Phase.HUNGRY


def test_a_site_does_the_event_that_is_asked_for():
    site = Site(PATH, 0)
    assert site.act(Event(0, 5)) == b"" and site.phase is Phase.HUNGRY
    other = Site(PAIR, 0)
    for event in (Event(1, Kind.HUNGRY), Event(0, Kind.TAKE), Event(0, Kind.BEGIN), Event(0, Kind.END)):
        with pytest.raises(DineError) as refused:
            other.act(event)
        assert refused.value.status is Status.NO_SUCH and other.phase is Phase.THINKING
    with pytest.raises(TypeError, match="next"):
        site.act(None)


def test_the_causes_are_those_of_the_library():
    many = 'version = 1\n[[site]]\nname = "a"\njobs = [' + '{ name = "x" }, ' * 1001 + "]"
    texts = {
        Cause.NotToml: "=", Cause.Version: "", Cause.UnknownKey: "version = 1\nx = 1", Cause.NoSite: "version = 1",
        Cause.MissingKey: "version = 1\n[[site]]", Cause.WrongKind: "version = 1\nsite = 1",
        Cause.BadName: PAIR.replace('"a"', '"?"'), Cause.SiteTwice: PAIR.replace('"b"', '"a"'),
        Cause.TooManyJobs: many, Cause.Loop: PAIR.replace('"b"]', '"a"]'),
    }
    for cause, text in texts.items():
        with pytest.raises(DineError, match=f": {cause.value} {cause.name}") as refused:
            Plan(text)
        assert refused.value.cause is cause
