"""Tests of the lock manager: its calls, threads at random graphs, tasks, and runs."""
import asyncio
import pickle
import random
import threading
import time

import pytest
from dine import Cause, DineError, InMeal, Stay, Table, TableClosed, TimedOut


def pair():
    table = Table()
    table.worker("a"), table.worker("b")
    table.edge("a", "b", 0)
    return table


def test_a_meal_ends_by_itself():
    table = pair().keep_journals().open()
    with table.seat("a") as meal:
        meal["b"] += 1
        assert (meal.name, meal.k, list(meal), len(meal)) == ("a", 1, ["b"], 1)
        with pytest.raises(KeyError):
            meal["c"] = 1
        with pytest.raises(TypeError):
            del meal["b"]
    with pytest.raises(RuntimeError, match="over"):
        meal["b"] += 1
    with pytest.raises(ZeroDivisionError), table.seat("b") as meal:
        meal["a"] += 1
        1 / 0
    assert table.eat("a", lambda meal: meal.k) == 2
    closed = table.close()
    assert (closed.values, closed.ate, closed.empty_meals) == ([2], {"a": 2, "b": 1}, {"a": 1, "b": 1})
    assert closed.log(0)[:3] == [Stay("a", 1, 1), Stay("b", 1, 1), Stay("a", 2, 1)]
    assert closed.order() > 20 and "closed" in repr(table) and "3 meals" in repr(closed)
    for call in (table.close, table.seat("a").__enter__):
        with pytest.raises(TableClosed):
            call()
    with pytest.raises(KeyError):
        table.seat("c")


def test_numbers_of_edges_and_adding_to_each():
    table = Table().keep_log(3)
    a, b, c = table.worker("a"), table.worker("b"), table.worker("c")
    assert [table.edge(a, b, 1), table.edge(c, a, 2)] == [0, 1]
    with table.open() as open_table:
        open_table.eat("a", lambda meal: meal.add(10))
        for _ in range(4):
            for name in "abc":
                open_table.eat(name, lambda meal: None)
    assert open_table.closed.values == [11, 12]
    # Each log keeps the last stays alone.
    assert [len(open_table.closed.log(edge)) for edge in (0, 1)] == [3, 3]
    assert open_table.closed.ate == {"a": 5, "b": 4, "c": 4}


def test_meals_are_numbered_on_when_the_sites_are_opened_anew():
    table = pair()
    table._renew_after = 3
    with table.open() as open_table:
        assert [open_table.eat("a", lambda meal: meal.k) for _ in range(7)] == [1, 2, 3, 4, 5, 6, 7]
    assert open_table.closed.opened > 2


def test_a_table_in_a_with_closes():
    with pair().open() as table:
        with table.seat("a") as meal:
            meal.add(5)
    assert table.closed.values == [5]
    with pytest.raises(ValueError, match="no journals"):
        table.closed.order()


def test_what_is_no_part_of_a_plan_is_refused_at_once():
    table = pair()
    for name, cause in (("", Cause.BadName), ("a b", Cause.BadName), ("\0", Cause.BadName), ("é", Cause.BadName),
                        ("a\n", Cause.BadName), ("x" * 33, Cause.BadName), ("a", Cause.SiteTwice)):
        with pytest.raises(DineError) as refused:
            table.worker(name)
        assert (refused.value.cause, refused.value.where, refused.value.position) == (cause, "site", 2)
    table.worker("x" * 32)
    for ends, cause in ((("a", "c"), Cause.UnknownEnd), (("a", "a"), Cause.Loop), (("b", "a"), Cause.EdgeTwice)):
        with pytest.raises(DineError) as refused:
            table.edge(*ends)
        assert (refused.value.cause, refused.value.where, refused.value.position) == (cause, "edge", 1)
    with pytest.raises(DineError, match="^edge 'a', 'c': no worker has this name: 12 UnknownEnd at edge 1 ") as refused:
        table.edge("a", "c")
    assert str(pickle.loads(pickle.dumps(refused.value))) == str(refused.value)
    with pytest.raises(DineError, match="^a table needs a worker: 8 NoSite ") as refused:
        Table().open()
    assert refused.value.cause is Cause.NoSite
    names = [table.worker(f"w{n}") for n in range(61)]
    with pytest.raises(DineError, match="TooManySites"):
        table.worker("w61")
    ends = [(one, other) for n, one in enumerate(names) for other in names[n + 1:]]
    for both in ends[:511]:
        table.edge(*both)
    with pytest.raises(DineError, match="TooManyEdges"):
        table.edge(*ends[511])
    with pytest.raises(DineError, match="NoSite"):
        Table().open()


def test_a_thread_that_would_wait_for_itself():
    table, other = pair().open(), pair().open()
    with table.seat("a"):
        for call in (table.seat("a").__enter__, table.seat("b", timeout=1).__enter__, table.close):
            with pytest.raises(InMeal):
                call()
        with other.seat("a"):
            pass
    with table.seat("b"):
        pass


def test_one_who_gave_up_leaves_an_empty_meal():
    table = pair().keep_journals().open()

    def other():
        for timeout in (0, 0.02, -1):
            with pytest.raises(TimedOut), table.seat("b", timeout=timeout):
                pass
        with pytest.raises(TimedOut):
            table.eat("b", lambda meal: meal, timeout=0.02)

    with table.seat("a"):
        thread = threading.Thread(target=other)
        thread.start()
        thread.join(20)
        assert not thread.is_alive()
    with table.seat("b", timeout=10) as meal:
        assert meal.k == 2
    with table.seat("a", timeout=0):
        pass
    closed = table.close()
    assert (closed.ate["b"], closed.empty_meals["b"]) == (1, 2) and closed.order() > 0


def until(what):
    end = time.monotonic() + 20
    while not what() and time.monotonic() < end:
        time.sleep(0.001)
    assert what()


def test_those_who_wait_for_a_worker_eat_in_turn():
    table, seen = pair().open(), []
    queue = table._desks[1].queue
    with table.seat("a"):
        threads = [threading.Thread(target=table.eat, args=("b", lambda _, n=n: seen.append(n))) for n in range(3)]
        for n, thread in enumerate(threads):
            thread.start()
            until(lambda: len(queue) == n + 1)
    for thread in threads:
        thread.join(20)
    assert seen == [0, 1, 2]


def test_closing_waits_for_the_meals_that_have_begun():
    table = pair().open()
    with table.seat("a") as meal:
        thread = threading.Thread(target=table.close)
        thread.start()
        until(lambda: "closing" in repr(table))
        time.sleep(0.02)
        assert thread.is_alive() and table.closed is None
        meal.add(5)
    thread.join(20)
    assert table.closed.values == [5]


def test_closing_sends_away_who_waits():
    table = pair().open()
    seen = []

    def waits():
        try:
            with table.seat("b"):
                seen.append("eats")
        except TableClosed:
            seen.append("sent away")

    async def task():
        try:
            async with table.seat_async("b"):
                seen.append("eats")
        except TableClosed:
            seen.append("sent away")

    with table.seat("a"):
        threads = [threading.Thread(target=waits) for _ in range(3)]
        threads += [threading.Thread(target=asyncio.run, args=(task(),)), threading.Thread(target=table.close)]
        for thread in threads:
            thread.start()
        for thread in threads[:4]:
            thread.join()
    threads[4].join()
    assert seen == ["sent away"] * 4 and table.closed.ate == {"a": 1, "b": 0}


def test_a_task_that_is_cancelled_with_its_turn_ends_its_meal():
    table = pair().open()

    async def eats():
        async with table.seat_async("b"):
            pass

    async def cancels():
        async with table.seat_async("a") as meal:
            waits = asyncio.ensure_future(eats())
            await asyncio.sleep(0)
        # Its turn has come, and it has not gone on yet.
        assert table._desks[1].eats and waits.cancel()
        with pytest.raises(asyncio.CancelledError):
            await waits
        with pytest.raises(RuntimeError, match="over"):
            meal["b"] = 1

    asyncio.run(cancels())
    assert table.eat("b", lambda meal: meal.k, timeout=20) == 2
    assert table.close().ate == {"a": 1, "b": 2}


def test_tasks():
    table = pair().keep_journals().open()

    async def works(name):
        for _ in range(50):
            async with table.seat_async(name) as meal:
                before = meal[{"a": "b", "b": "a"}[name]]
                await asyncio.sleep(0)
                meal.add(1)
                assert before + 1 == [*meal.values()][0]

    async def all_of_them():
        async with table.seat_async("a"):
            waits = asyncio.ensure_future(works("b"))
            await asyncio.sleep(0)
            waits.cancel()
            with pytest.raises(asyncio.CancelledError):
                await waits
        await asyncio.gather(*map(works, "abab"))

    asyncio.run(all_of_them())
    closed = table.close()
    assert closed.values == [200] and closed.order() > 0


@pytest.mark.parametrize("seed", range(6))
def test_random_graphs(seed):
    """Neighbours are apart, the sum stays, the logs are whole, and the proved world accepts what the sites did."""
    dice = random.Random(seed)
    table = Table().keep_journals().keep_log(10**9)
    table._renew_after = dice.choice([1, 3, 50, 1000])
    names = [table.worker(f"w{i}", 0) for i in range(dice.randrange(2, 8))]
    edges = [(i, j) for i in range(len(names)) for j in range(i) if dice.random() < 0.5] or [(0, 1)]
    for i, j in edges:
        table.edge(names[i], names[j], 0)
    near = [{a + b - n for a, b in edges if n in (a, b)} for n in range(len(names))]
    open_table, eats, faults, count = table.open(), [False] * len(names), [], []

    def work(seed):
        dice = random.Random(seed)
        for _ in range(60):
            n = dice.randrange(len(names))
            try:
                with open_table.seat(names[n], timeout=dice.choice([None, None, None, 0, 0.0005])) as meal:
                    if eats[n] or any(eats[other] for other in near[n]):
                        faults.append(f"{n} and a neighbour eat together")
                    eats[n] = True
                    meal.state += 1
                    if meal:
                        first, *_, last = [*meal] * 2
                        meal[first] += 1
                        meal[last] -= 1
                    time.sleep(0)
                    eats[n] = False
                    count.append(n)
            except TimedOut:
                pass

    threads = [threading.Thread(target=work, args=(1000 * seed + t,)) for t in range(6)]
    for thread in threads:
        thread.start()
    for thread in threads:
        thread.join()
    closed = open_table.close()
    assert faults == [] and sum(closed.values) == 0
    assert closed.ate == closed.states == {name: count.count(n) for n, name in enumerate(names)}
    assert closed.order() > 0 and closed.opened > (table._renew_after < 10)
    for edge, (i, j) in enumerate(edges):
        for name in (names[i], names[j]):
            stays = [it for it in closed.log(edge) if it.worker == name]
            meals = [k for stay in stays for k in range(stay.first, stay.first + stay.count)]
            assert meals == list(range(1, closed.ate[name] + closed.empty_meals[name] + 1))


def test_a_run():
    table = pair()
    done = table.run(50, lambda meal: meal.add(meal.k) or meal.k)
    assert done.values == [2 * 50 * 51 / 2] and done.results == {name: list(range(1, 51)) for name in "ab"}
    assert done.empty_meals == {"a": 0, "b": 0} and sum(stay.count for stay in done.log(0)) == 100
    table._renew_after = 20
    assert table.run(50, lambda meal: meal.add(1)).values == [100]

    def breaks(meal):
        if meal.k == 3:
            raise LookupError("on purpose")

    with pytest.raises(LookupError, match="on purpose"):
        table.run(10**9, breaks)
