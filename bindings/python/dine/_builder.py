"""Plans by calls, over the proved builder of the library."""

from __future__ import annotations

from ctypes import byref
from operator import index
from typing import Any, Iterable

from ._causes import Cause
from ._core import _LIB, DineError, Plan, _buffer, _Owner

#: The causes that are about no site and no edge.
_OF_ALL = (Cause.NoSite, Cause.TooManySites, Cause.TooManyEdges)


class PlanBuilder(_Owner):
    """A plan by calls, with no text in between.

    Sites and edges get numbers from 0, in the order in which they are added. The jobs of a site have numbers from 1,
    which are their names. What no plan can have is refused at once, by the call that asks for it: it raises
    ``DineError`` with the ``cause`` and the ``position``, and nothing changes then. So ``finish`` refuses only a plan
    without sites.

    >>> builder = PlanBuilder()
    >>> ann, bob = builder.site("ann", 50), builder.site("bob", 20)
    >>> edge = builder.edge(ann, bob)
    >>> builder.value(edge, 100)
    >>> builder.sets(bob, 20, 7)
    >>> plan = builder.finish()
    >>> plan.sites, plan.edges, plan.jobs(ann)
    (['ann', 'bob'], [(0, 1)], 50)
    >>> builder.site("ann", 1)
    Traceback (most recent call last):
    dine._core.DineError: no plan: 7 SiteTwice at site 2 (-107)
    """

    def __init__(self) -> None:
        super().__init__()
        # What was done, to do it again for a plan that is copied or pickled; and how many sites and edges there are.
        self._done: list[tuple[Any, ...]] = []
        self._sites = self._edges = 0
        self._call(_LIB.dine_plan_builder_open)

    def _does(self, name: str, where: str, position: int, *words: Any) -> int:
        """Does a call, and notes it. A cause that is about a site or an edge is about this one."""
        call = getattr(_LIB, f"dine_plan_builder_{name}")
        status = call(byref(self._handle), *_passed(name, words))
        if status <= -101:
            cause = Cause(-100 - status)
            at = "" if cause in _OF_ALL else f" at {where} {position}"
            raise DineError(status, f"{cause.value} {cause.name}{at}")
        if status < 0:
            raise DineError(status)
        self._done.append((name, *words))
        return int(status)

    def site(self, name: str, jobs: int) -> int:
        """Adds a site with a name of its own and this number of jobs, and returns its number.

        The causes: the name is not 1 to 32 letters of ASCII, digits, ``_`` or ``-``; an earlier site has it; there are
        64 sites; it has more than 1,000 jobs.
        """
        if not isinstance(name, str):
            raise TypeError(f"the name of a site is a str, not {type(name).__name__}")
        with self._lock:
            number = self._does("site", "site", self._sites, name, jobs)
            self._sites = number + 1
            return number

    def edge(self, a: int, b: int) -> int:
        """Adds an edge between two sites, in either order, and returns its number. Its value is 0.

        The causes: one of the two is the number of no site; both are one; they have an edge already; there are 512
        edges.
        """
        with self._lock:
            number = self._does("edge", "edge", self._edges, a, b)
            self._edges = number + 1
            return number

    def value(self, edge: int, value: int) -> None:
        """Sets the value of an edge before the first meal: at most 1,000,000. If there is no such edge, the status of
        the ``DineError`` is ``NO_SUCH``, as in the calls below for a site or a job."""
        with self._lock:
            self._does("value", "edge", edge, edge, value)

    def resign(self, site: int) -> None:
        """Makes a site drop the jobs that it has left after one failed. Else it goes on."""
        with self._lock:
            self._does("resign", "site", site, site)

    def turns(self, site: int, k: int, turns: int) -> None:
        """Sets the number of turns of job ``k`` of a site, from 1: at most 1,000,000. Turns are work of a run on
        threads; a world has none."""
        with self._lock:
            self._does("turns", "site", site, site, k, turns)

    def fails(self, site: int, k: int) -> None:
        """Makes job ``k`` of a site fail, from 1."""
        with self._lock:
            self._does("fails", "site", site, site, k)

    def adds(self, site: int, k: int, amount: int) -> None:
        """Has the meal of job ``k`` of a site, from 1, add this amount, at most 1,000,000, to the value of each edge of
        the site."""
        with self._lock:
            self._does("act", "site", site, site, k, False, amount)

    def sets(self, site: int, k: int, amount: int) -> None:
        """Has the meal of job ``k`` of a site, from 1, set the value of each edge of the site to this amount, at most
        1,000,000."""
        with self._lock:
            self._does("act", "site", site, site, k, True, amount)

    def finish(self) -> Plan:
        """Makes the plan, of version 2 of the format. The builder stays as it is, and may go on."""
        plan = Plan.__new__(Plan)
        _Owner.__init__(plan)
        plan.text, plan._read = "", None
        with self._lock:
            status = _LIB.dine_plan_builder_finish(byref(self._handle), byref(plan._handle))
            plan._built = tuple(self._done)
        if status < 0:
            raise DineError(status, "8 NoSite" if status == -108 else "")
        return plan

    def __repr__(self) -> str:
        with self._lock:
            if self._is_closed:
                return "<PlanBuilder: closed>"
            return f"<PlanBuilder: {self._sites} sites, {self._edges} edges>"


def _passed(name: str, words: tuple[Any, ...]) -> Iterable[Any]:
    """The arguments of a call: of a site its name as bytes, and how many there are."""
    if name != "site":
        return map(index, words)
    data = words[0].encode("utf-8", "surrogatepass")
    return _buffer(data), len(data), index(words[1])


def rebuilt(done: Iterable[tuple[Any, ...]]) -> Plan:
    """The plan that these calls of a builder make."""
    builder = PlanBuilder()
    for name, *words in done:
        builder._does(name, "", 0, *words)
    return builder.finish()
