"""The proved rules of Chandy and Misra's dining philosophers, from Python.

- ``Table`` is a lock manager: workers share a value at each edge, and any thread eats for any worker.
- ``World`` has all sites of a plan, and is stepped event by event.
- ``Site`` is one site, whose letters are ``bytes``: carry them to the neighbour, in order, by any means, such as a
  socket.
- ``PlanBuilder`` makes the ``Plan`` of a world or of sites by calls, and ``Plan`` reads one from a text.

The rules are those of ``libdine.so``, which are proved. This package is only tested.

>>> from dine import Table
>>> table = Table()
>>> ann, bob = table.worker("ann"), table.worker("bob")
>>> edge = table.edge(ann, bob, 100)
>>> with table.open() as open_table:
...     with open_table.seat("ann") as meal:
...         meal["bob"] -= 30
>>> open_table.closed.values
[70]
"""

from ._builder import PlanBuilder
from ._causes import MAX_EDGES, MAX_JOBS, MAX_NAME, MAX_NUMBER, MAX_SITES, MAX_TURNS, Cause
from ._core import (LETTER_MAX, PAIR, DineError, Event, Kind, Period, Phase, Place, Plan, Site, Status, Turn, World,
                    run_number)
from ._table import AsyncSeat, Closed, Gone, InMeal, Meal, OpenTable, Ran, Seat, Stay, Table, TableClosed, TimedOut

__all__ = [
    "LETTER_MAX", "MAX_EDGES", "MAX_JOBS", "MAX_NAME", "MAX_NUMBER", "MAX_SITES", "MAX_TURNS", "PAIR", "AsyncSeat",
    "Cause", "Closed", "DineError", "Event", "Gone", "InMeal", "Kind", "Meal", "OpenTable", "Period", "Phase", "Place",
    "Plan", "PlanBuilder", "Ran", "Seat", "Site", "Status", "Stay", "Table", "TableClosed", "TimedOut", "Turn", "World",
    "run_number",
]
