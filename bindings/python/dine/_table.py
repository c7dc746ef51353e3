"""A lock manager: workers share a value at each edge, and any thread eats for any worker, at any time.

There is no thread of the library. Each worker has a proved ``Site`` behind a lock. Whoever puts a letter pushes it to
its receiver while it has the sender's lock, lets go of that lock, takes the receiver's, and does there what the rules
then allow. No thread has two of these locks at once, except to open the sites anew when none has anything left to do.
"""

from __future__ import annotations

import asyncio
import re
import threading
from collections import deque
from typing import Any, Callable, Iterable, Iterator, MutableMapping, NamedTuple

from ._builder import PlanBuilder
from ._causes import MAX_EDGES, MAX_JOBS, MAX_NAME, MAX_SITES, Cause
from ._core import DineError, Event, Kind, Plan, Site, World

#: The meals that a site has at most. Once a site has eaten them, all sites are opened anew.
MEALS = MAX_JOBS


class TableClosed(Exception):
    """The table is closed."""


class TimedOut(TimeoutError):
    """The forks did not come in time."""


class InMeal(RuntimeError):
    """This thread eats at this table already, and would wait for itself."""


class Gone(RuntimeError):
    """The table is broken, since an allocation of the library failed."""


class Stay(NamedTuple):
    """A stay of a fork at a worker: the worker, the number of its first meal with the fork, and the number of meals."""

    worker: str
    first: int
    count: int  # type: ignore[assignment]


# Why a worker or an edge is refused. In the words of the causes it is a site or an edge of a plan.
_WHY = {
    Cause.BadName: "a name is 1 to 32 letters of ASCII, digits, _ or -",
    Cause.SiteTwice: "a worker has this name already",
    Cause.TooManySites: "a table has at most 64 workers",
    Cause.UnknownEnd: "no worker has this name",
    Cause.Loop: "an edge is between two workers",
    Cause.EdgeTwice: "these workers have an edge already",
    Cause.TooManyEdges: "a table has at most 512 edges",
}


def _refuse(cause: Cause, where: str, number: int, *names: str) -> DineError:
    what = "edge" if where == "edge" else "worker"
    why = f"{what} {', '.join(map(repr, names))}: {_WHY[cause]}"
    return DineError(-100 - cause.value, f"{cause.value} {cause.name} at {where} {number}", why)


class Table:
    """Workers and their edges, before they are opened or run.

    >>> table = Table()
    >>> ann, bob = table.worker("ann"), table.worker("bob")
    >>> edge = table.edge(ann, bob, 0)
    >>> done = table.run(50, lambda meal: meal.add(1))
    >>> done.values, done.ate
    ([100], {'ann': 50, 'bob': 50})
    """

    def __init__(self) -> None:
        self.workers: dict[str, Any] = {}
        self.edges: list[tuple[str, str, Any]] = []
        self._keep = 1000
        self._has_journals = False
        self._renew_after = MEALS

    def worker(self, name: str, state: Any = None) -> str:
        """Adds a worker, with a state of its own, and returns its name: 1 to 32 letters of ASCII, digits, ``_``, ``-``.

        Raises ``DineError`` with the cause if the name is none or is another worker's, or if there are 64 workers.
        """
        if not re.fullmatch(f"[A-Za-z0-9_-]{{1,{MAX_NAME}}}", name):
            raise _refuse(Cause.BadName, "site", len(self.workers), name)
        if name in self.workers:
            raise _refuse(Cause.SiteTwice, "site", len(self.workers), name)
        if len(self.workers) == MAX_SITES:
            raise _refuse(Cause.TooManySites, "site", len(self.workers), name)
        self.workers[name] = state
        return name

    def edge(self, one: str, other: str, value: Any = None) -> int:
        """Adds an edge between two workers, with the value that they share, and returns its number, from 0.

        Raises ``DineError`` with the cause if a name is no worker's, if both are one, if they have an edge already, or
        if there are 512 edges.
        """
        cause = None
        if one not in self.workers or other not in self.workers:
            cause = Cause.UnknownEnd
        elif one == other:
            cause = Cause.Loop
        elif any({one, other} == {a, b} for a, b, _ in self.edges):
            cause = Cause.EdgeTwice
        elif len(self.edges) == MAX_EDGES:
            cause = Cause.TooManyEdges
        if cause is not None:
            raise _refuse(cause, "edge", len(self.edges), one, other)
        self.edges.append((one, other, value))
        return len(self.edges) - 1

    def keep_log(self, stays: int) -> Table:
        """Sets how many stays of each fork its log keeps, the last ones: 1,000 by default."""
        self._keep = stays
        return self

    def keep_journals(self) -> Table:
        """Keeps what each site did, for ``Closed.order``. This grows without end."""
        self._has_journals = True
        return self

    def _plan(self, meals: Iterable[int], fails: Iterable[int]) -> Plan:
        """The plan, with the number of jobs of each site, and which of them fails, 0 if none. A site with jobs left may
        give them up after one that fails."""
        with PlanBuilder() as builder:
            numbers = {}
            for name, count, bad in zip(self.workers, meals, fails):
                site = numbers[name] = builder.site(name, count)
                builder.resign(site)
                if bad:
                    builder.fails(site, bad)
            for one, other, _ in self.edges:
                builder.edge(numbers[one], numbers[other])
            return builder.finish()

    def open(self) -> OpenTable:
        """Opens the table. What it returns may be shared by threads. With ``with`` it is closed at the end, and its
        ``closed`` is what is left.

        Raises ``DineError`` if the table has no worker.
        """
        return OpenTable(self, [self._renew_after] * len(self.workers))

    def run(self, meals: int, job: Callable[[Meal], Any]) -> Ran:
        """Runs each worker on a thread of its own, until each has eaten this number of meals.

        If a job raises, no job is begun any more, and ``run`` raises the same.
        """
        each = min(meals, self._renew_after)
        open_table = OpenTable(self, [each] * len(self.workers))
        results: dict[str, list[Any]] = {name: [] for name in self.workers}
        raised: list[BaseException] = []

        def eats(name: str) -> None:
            try:
                while len(results[name]) < meals and not raised:
                    with open_table.seat(name) as meal:
                        if not raised:
                            results[name].append(job(meal))
            except BaseException as error:
                raised.append(error)

        threads = [threading.Thread(target=eats, args=(name,), name=name) for name in self.workers]
        for thread in threads:
            thread.start()
        for thread in threads:
            thread.join()
        closed = open_table.close()
        if raised:
            raise raised[0]
        return Ran(closed, results)


class _Waiter:
    """Who waits for a meal. `fate` changes under the lock of the seat."""

    def __init__(self, wake: Callable[[], object]) -> None:
        self.fate, self.wake = "waits", wake


class _Place(NamedTuple):
    edge: int
    neighbour: int
    name: str


class _Desk:
    """The site of a worker, its letters, and who waits for it. All but the inbox is used under the lock."""

    def __init__(self, number: int, name: str) -> None:
        self.number, self.name = number, name
        self.lock = threading.Lock()
        self.inbox: deque[bytes] = deque()
        self.queue: deque[_Waiter] = deque()
        self.places: list[_Place] = []
        self.before = self.ate = self.empty = 0
        self.site: Site
        self.eats = self.is_counted = False
        self.journal: list[Event] = []

    def set(self, site: Site) -> None:
        """Puts a new site here."""
        self.site = site
        self.before, self.ate = self.before + self.ate, 0
        self.eats = self.is_counted = False


class OpenTable:
    """A table that is open, until it is closed. Any thread may use it, and any task of asyncio.

    >>> table = Table()
    >>> ann, bob = table.worker("ann"), table.worker("bob")
    >>> edge = table.edge(ann, bob, 100)
    >>> open_table = table.open()
    >>> with open_table.seat("ann") as meal:
    ...     meal["bob"] -= 30
    >>> open_table.close().values
    [70]
    """

    def __init__(self, table: Table, meals: list[int]) -> None:
        if not table.workers:
            raise DineError(-100 - Cause.NoSite, f"{Cause.NoSite.value} {Cause.NoSite.name}", "a table needs a worker")
        self._table = table
        self._meals = meals
        self._plan = table._plan(meals, [0] * len(meals))
        self._desks = [_Desk(n, name) for n, name in enumerate(table.workers)]
        self._numbers = {name: n for n, name in enumerate(table.workers)}
        self._values = [value for _, _, value in table.edges]
        self._states = list(table.workers.values())
        self._logs: list[deque[Stay]] = [deque(maxlen=table._keep) for _ in table.edges]
        self._journals: list[list[list[Event]]] = []
        self._opened = 0
        # open, renewing, closing, closed or broken; with how many sites have nothing left to do, under `_guard`.
        self._stage, self._count, self._guard = "open", 0, threading.Condition()
        self._eating = threading.local()
        #: What is left, once the table is closed.
        self.closed: Closed | None = None
        for desk in self._desks:
            desk.set(Site(self._plan, desk.number))
            names = list(table.workers)
            desk.places = [_Place(it.edge, it.neighbour, names[it.neighbour]) for it in desk.site.places]

    def __repr__(self) -> str:
        return f"<OpenTable of {', '.join(self._numbers)}: {self._stage}>"

    def __enter__(self) -> OpenTable:
        return self

    def __exit__(self, *_: object) -> None:
        if self._stage not in ("closing", "closed"):
            self.close()

    def seat(self, name: str, timeout: float | None = None) -> Seat:
        """The seat of a worker, for ``with``: waits for its forks, and ends the meal at the end, also by an exception.

        With a timeout in seconds ``with`` raises ``TimedOut`` if the forks do not come in time; with 0 forks that are
        idle at neighbours are fetched. The worker has asked then, and by the rules that can't be withdrawn: it has its
        turn later, in an empty meal, or for the next who comes for it. Raises ``TableClosed`` if the table is closed,
        ``InMeal`` if this thread eats at this table already, and ``KeyError`` if there is no such worker.
        """
        return Seat(self, self._desks[self._numbers[name]], timeout)

    def seat_async(self, name: str) -> AsyncSeat:
        """The same for a task of asyncio, with ``async with``. A task that is cancelled gives up, as by a timeout.

        The meal belongs to no thread, so nobody notices if a task asks for a second one and waits for itself.
        """
        return AsyncSeat(self, self._desks[self._numbers[name]])

    def eat(self, name: str, job: Callable[[Meal], Any], timeout: float | None = None) -> Any:
        """Waits for the forks of a worker, and returns what ``job`` returns for its meal."""
        with self.seat(name, timeout) as meal:
            return job(meal)

    # ---- Meals

    def _refusal(self) -> Exception:
        return Gone() if self._stage == "broken" else TableClosed("the table is closed")

    def _ask(self, desk: _Desk, waiter: _Waiter) -> None:
        """Puts somebody into the queue of a worker, and does what the rules allow."""
        with desk.lock:
            if self._stage not in ("open", "renewing"):
                raise self._refusal()
            desk.queue.append(waiter)
            todo = self._attend(desk)
        self._finish(todo)

    def _gives_up(self, desk: _Desk, waiter: _Waiter) -> bool:
        """Takes somebody out of the queue. Returns false if he eats already, or was sent away."""
        with desk.lock:
            if waiter.fate == "waits":
                desk.queue.remove(waiter)
                return True
            return False

    def _hold(self, desk: _Desk, timeout: float | None) -> None:
        has_turn = threading.Lock()
        has_turn.acquire()
        waiter = _Waiter(has_turn.release)
        self._ask(desk, waiter)
        wait = -1.0 if timeout is None else min(max(timeout, 0.0), threading.TIMEOUT_MAX)
        try:
            in_time = has_turn.acquire(timeout=wait) if wait else has_turn.acquire(False)
        except BaseException:
            # Such as KeyboardInterrupt.
            if not self._gives_up(desk, waiter) and waiter.fate == "eats":
                self._end(desk)
            raise
        if not in_time and self._gives_up(desk, waiter):
            raise TimedOut("the forks did not come in time")
        if waiter.fate != "eats":
            raise self._refusal()

    def _end(self, desk: _Desk) -> None:
        with desk.lock:
            self._end_meal(desk)
            todo = self._attend(desk)
        self._finish(todo)

    def _note(self, desk: _Desk, kind: Kind, place: int = 0) -> None:
        if self._table._has_journals:
            desk.journal.append(Event(desk.number, kind, place))

    def _end_meal(self, desk: _Desk) -> None:
        self._note(desk, Kind.END)
        # While the table is opened anew or closed, the meal is told as failed: then the site may give up the rest.
        desk.site.end(failed=self._stage != "open")
        desk.eats = False

    # ---- Helping

    def _attend(self, desk: _Desk) -> set[int]:
        """Takes the letters, and does what the rules allow. Returns whom to visit."""
        stage = self._stage
        if stage in ("closing", "closed", "broken"):
            self._send_away(desk)
        if stage in ("closed", "broken"):
            return set()
        try:
            return self._advance(desk, stage == "open")
        except DineError as error:
            # The library has refused what it should not have, or memory.
            self._stage = "broken"
            self._send_away(desk)
            raise Gone(str(error)) from error

    def _send_away(self, desk: _Desk) -> None:
        while desk.queue:
            waiter = desk.queue.popleft()
            waiter.fate = "sent away"
            waiter.wake()

    def _advance(self, desk: _Desk, is_open: bool) -> set[int]:
        todo: set[int] = set()
        while desk.inbox:
            self._note(desk, Kind.TAKE, desk.site.take(desk.inbox.popleft()))
        while not desk.eats and (event := desk.site.next()):
            if event.kind is Kind.HUNGRY and is_open and not desk.queue:
                break
            self._note(desk, event.kind, event.place)
            if event.kind is Kind.BEGIN:
                self._begin(desk, is_open)
            elif letter := desk.site.act(event):
                neighbour = desk.places[event.place].neighbour
                self._desks[neighbour].inbox.append(letter)
                todo.add(neighbour)
        if is_open:
            # Somebody waits, and the site has no meal left.
            is_used_up = not desk.eats and desk.queue and desk.ate == self._meals[desk.number]
            return todo | {_RENEW} if is_used_up else todo
        if not desk.is_counted and not desk.eats and desk.site.is_finished:
            desk.is_counted = True
            with self._guard:
                self._count += 1
                if self._count == len(self._desks):
                    todo.add(_ALL_FINISHED)
        return todo

    def _begin(self, desk: _Desk, is_open: bool) -> None:
        """Begins a meal, for the first in the queue. If nobody is there, it ends."""
        desk.site.begin()
        desk.ate += 1
        desk.eats = True
        if is_open and desk.queue:
            waiter = desk.queue.popleft()
            waiter.fate = "eats"
            waiter.wake()
        else:
            desk.empty += 1
            self._end_meal(desk)

    def _finish(self, todo: set[int]) -> None:
        """Visits the receivers of letters, one lock at a time."""
        try:
            while todo:
                n = max(todo)
                todo.discard(n)
                if n >= 0:
                    with self._desks[n].lock:
                        todo |= self._attend(self._desks[n])
                elif n == _ALL_FINISHED:
                    todo |= self._all_finished()
                elif self._turns("open", "renewing"):
                    todo |= set(range(len(self._desks)))
        finally:
            if self._stage == "broken":
                # Nobody may be left waiting.
                for desk in self._desks:
                    with desk.lock:
                        self._send_away(desk)
                with self._guard:
                    self._guard.notify_all()

    # ---- The end of the sites

    def _turns(self, old: str, new: str) -> bool:
        with self._guard:
            if self._stage != old:
                return False
            self._stage = new
            return True

    def _all_finished(self) -> set[int]:
        """No site has anything left to do: opens them anew, or closes the table."""
        for desk in self._desks:
            desk.lock.acquire()
        try:
            self._keep_logs()
            if self._table._has_journals:
                self._journals.append([desk.journal for desk in self._desks])
                for desk in self._desks:
                    desk.journal = []
            self._opened += 1
            if self._stage == "closing":
                stage = "closed"
                for desk in self._desks:
                    desk.site.close()
            else:
                stage = "open"
                for desk in self._desks:
                    desk.site.close()
                    desk.set(Site(self._plan, desk.number))
            with self._guard:
                self._count, self._stage = 0, stage
                self._guard.notify_all()
        except DineError as error:
            self._stage = "broken"
            raise Gone(str(error)) from error
        finally:
            for desk in self._desks:
                desk.lock.release()
        return {desk.number for desk in self._desks if desk.queue}

    def _keep_logs(self) -> None:
        before = [desk.before for desk in self._desks]
        for desk in self._desks:
            for i, place in enumerate(desk.site.places):
                if not place.has_fork:
                    continue
                log = self._logs[place.edge]
                for site, first, count in desk.site.log(i):
                    name = self._desks[site].name
                    if count and log and log[-1].worker == name:
                        log[-1] = log[-1]._replace(count=log[-1].count + count)
                    elif count:
                        log.append(Stay(name, before[site] + first, count))

    def close(self) -> Closed:
        """Sends away who waits, waits for the meals that have begun, and returns what is left."""
        if self._is_in_meal():
            raise InMeal("this thread eats at this table")
        with self._guard:
            self._guard.wait_for(lambda: self._stage != "renewing")
            if self._stage != "open":
                raise self._refusal()
            self._stage = "closing"
        self._finish(set(range(len(self._desks))))
        with self._guard:
            self._guard.wait_for(lambda: self._stage != "closing")
        if self._stage == "broken":
            raise Gone()
        self.closed = Closed(self)
        return self.closed

    def _is_in_meal(self) -> bool:
        return getattr(self._eating, "eats", False)


_RENEW, _ALL_FINISHED = -1, -2


class Meal(MutableMapping[str, Any]):
    """A meal: the values of all edges of a worker, by the name of the neighbour. Setting one sets it for both."""

    def __init__(self, table: OpenTable, desk: _Desk) -> None:
        self._table: OpenTable | None = table
        self._edges = {place.name: place.edge for place in desk.places}
        self._number = desk.number
        #: The name of the worker, and which of its meals this is, from 1. Empty meals count.
        self.name, self.k = desk.name, desk.before + desk.ate

    def _open(self) -> OpenTable:
        if self._table is None:
            raise RuntimeError("the meal is over")
        return self._table

    def __getitem__(self, neighbour: str) -> Any:
        return self._open()._values[self._edges[neighbour]]

    def __setitem__(self, neighbour: str, value: Any) -> None:
        self._open()._values[self._edges[neighbour]] = value

    def __delitem__(self, neighbour: str) -> None:
        raise TypeError("an edge has a value always")

    def __iter__(self) -> Iterator[str]:
        return iter(self._edges)

    def __len__(self) -> int:
        return len(self._edges)

    def add(self, amount: Any) -> None:
        """Adds an amount to each value."""
        for neighbour in self:
            self[neighbour] += amount

    @property
    def state(self) -> Any:
        """The state of the worker."""
        return self._open()._states[self._number]

    @state.setter
    def state(self, state: Any) -> None:
        self._open()._states[self._number] = state

    def __repr__(self) -> str:
        return f"<Meal {self.k} of {self.name}{': over' if self._table is None else ''}>"


class Seat:
    """A seat of a worker, for ``with``: see ``OpenTable.seat``."""

    def __init__(self, table: OpenTable, desk: _Desk, timeout: float | None) -> None:
        self._table, self._desk, self._timeout = table, desk, timeout
        self._meal: Meal | None = None

    def __enter__(self) -> Meal:
        if self._table._is_in_meal() or self._meal is not None:
            raise InMeal("this thread eats at this table already")
        self._table._hold(self._desk, self._timeout)
        self._table._eating.eats = True
        self._meal = Meal(self._table, self._desk)
        return self._meal

    def __exit__(self, *_: object) -> None:
        meal, self._meal = self._meal, None
        if meal is not None:
            meal._table = None
            self._table._eating.eats = False
            self._table._end(self._desk)


class AsyncSeat:
    """A seat of a worker, for ``async with``: see ``OpenTable.seat_async``."""

    def __init__(self, table: OpenTable, desk: _Desk) -> None:
        self._table, self._desk = table, desk
        self._meal: Meal | None = None

    async def __aenter__(self) -> Meal:
        loop = asyncio.get_running_loop()
        has_turn = asyncio.Event()
        waiter = _Waiter(lambda: loop.call_soon_threadsafe(has_turn.set))
        self._table._ask(self._desk, waiter)
        try:
            await has_turn.wait()
        except BaseException:
            # The task was cancelled.
            if not self._table._gives_up(self._desk, waiter) and waiter.fate == "eats":
                self._table._end(self._desk)
            raise
        if waiter.fate != "eats":
            raise self._table._refusal()
        self._meal = Meal(self._table, self._desk)
        return self._meal

    async def __aexit__(self, *_: object) -> None:
        meal, self._meal = self._meal, None
        if meal is not None:
            meal._table = None
            self._table._end(self._desk)


class Closed:
    """What is left of a table that was closed."""

    def __init__(self, table: OpenTable) -> None:
        self._table = table
        #: The values, by the numbers of their edges.
        self.values = list(table._values)
        #: The state of each worker, by its name.
        self.states = dict(zip(table._numbers, table._states))
        #: How many meals of each worker somebody was there for, by its name, and how many were empty: whoever asked for
        #: it had given up, or the worker ate its last meal when the table was closed, or its sites were opened anew.
        self.ate = {desk.name: desk.before + desk.ate - desk.empty for desk in table._desks}
        self.empty_meals = {desk.name: desk.empty for desk in table._desks}

    def log(self, edge: int) -> list[Stay]:
        """Who ate with the fork of the edge, in turn: the last stays, with the empty meals."""
        return list(self._table._logs[edge])

    @property
    def opened(self) -> int:
        """How often the sites were opened: once, and again after each 1,000 meals of one."""
        return self._table._opened

    def order(self) -> int:
        """Finds an order of all that the sites did, which the proved world accepts up to its end. Returns the number of
        events. Raises ``ValueError`` if there is none, or if no journals were kept."""
        table = self._table
        if not table._journals:
            raise ValueError("no journals were kept: Table.keep_journals")
        count = 0
        for journals in table._journals:
            # The last meal of a site that gave up the rest was told as failed.
            kinds = [[event.kind for event in journal] for journal in journals]
            fails = [it.count(Kind.BEGIN) if Kind.QUIT in it else 0 for it in kinds]
            world = World(table._table._plan(table._meals, fails))
            count += len(world.order(journals))
            if events := world.enabled():
                raise ValueError(f"the world goes on: {events}")
        return count

    def __repr__(self) -> str:
        return f"<Closed: {sum(self.ate.values())} meals of {len(self.ate)} workers>"


class Ran(Closed):
    """What a run leaves: the same, and what the jobs returned."""

    def __init__(self, closed: Closed, results: dict[str, list[Any]]) -> None:
        self.__dict__ = dict(closed.__dict__)
        #: What the jobs of each worker returned, in order.
        self.results = results
