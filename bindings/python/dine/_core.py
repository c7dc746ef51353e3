"""Plans, worlds and sites: each call of ``dine.h`` as a method, over a handle with a lock.

A handle is for one call at a time. ctypes lets other threads run during a call, so each object has a lock, and threads
may share it.
"""

from __future__ import annotations

import ctypes
import os
import threading
from ctypes import byref, c_uint8, c_uint32
from enum import IntEnum
from operator import index
from typing import Any, Hashable, Iterable, NamedTuple, Sequence, TypeVar

from . import _calls, _picture
from ._causes import MAX_NAME, Cause
from ._seen import Seen

_HERE = os.path.dirname(os.path.abspath(__file__))
_SO = os.path.abspath(os.environ.get("DINE_SO") or os.path.join(_HERE, "libdine.so"))
try:
    _LIB = ctypes.CDLL(_SO)
except OSError as error:
    raise ImportError(f"{error}: bindings/build makes libdine.so, or DINE_SO is the path of one") from None
_calls.declare(_LIB)

# No letter has more bytes.
LETTER_MAX = 29


def run_number(text: str, random: int) -> int:
    """A number for a run of the plan with this text, for ``Site(.., run=..)``.

    ``random`` is a number of 64 bits, such as ``secrets.randbits(64)``. It is drawn once for each run, and all
    processes of the run are told it. A process that has another text, or was told of another run, has another number,
    unless chance has it. It is FNV-1a of the eight bytes of ``random``, the least first, and of the text: no defence
    against whoever means harm.

    >>> run_number("version = 1\\n", 1984)
    4453611520226962214
    """
    total = 0xCBF29CE484222325
    for byte in random.to_bytes(8, "little") + text.encode():
        total = (total ^ byte) * 0x100000001B3 % 2**64
    return total


class Status(IntEnum):
    """Why a call had no answer."""

    CLOSED = -1
    OTHER_KIND = -2
    NOT_NOW = -3
    NO_SUCH = -4
    MEMORY = -5
    SMALL = -6
    EATING = -7
    OPEN_ALREADY = -8
    NULL = -9
    SAME_HANDLE = -10
    LETTER_LENGTH = -11
    LETTER_KIND = -12
    LETTER_UNLAWFUL = -13
    LETTER_EDGE = -14
    OTHER_RUN = -15
    WAITS = -16
    FINISHED = -17
    # words breaches, by tools/words
    #: A letter after Close.
    AFTER_CLOSE = -21
    #: A Request while the fork is away or the token is here, or after Done, or of another edge, or from a site that ate
    #: all its meals.
    REQUEST_OUT_OF_TURN = -22
    #: A Fork, although the fork or the token is here.
    FORK_OUT_OF_TURN = -23
    #: A Fork that is not the fork of this edge, or whose log is not as it has to be.
    STRANGE_FORK = -24
    #: A second Done; or, while the fork is here, a Done of a site that does not resign, before the log has all its
    #: meals.
    DONE_OUT_OF_TURN = -25
    #: A Close before both sites said Done.
    CLOSED_EARLY = -26
    # end


_WORDS: dict[int, str] = {
    Status.CLOSED: "the handle is closed",
    Status.OTHER_KIND: "the handle is of another kind",
    Status.NOT_NOW: "the rules do not allow the event now",
    Status.NO_SUCH: "there is no such site, edge, place or event, or its fork is elsewhere",
    Status.MEMORY: "an allocation failed",
    Status.SMALL: "the buffer is too small",
    Status.EATING: "the site eats",
    Status.OPEN_ALREADY: "the handle is open already",
    Status.NULL: "a pointer is null",
    Status.SAME_HANDLE: "two handles of one call are one",
    Status.LETTER_LENGTH: "too few bytes for a letter, or too many",
    Status.LETTER_KIND: "the letter is of no kind",
    Status.LETTER_UNLAWFUL: "the neighbour cannot have done that with the fork",
    Status.LETTER_EDGE: "the letter is of an edge that the site does not have",
    Status.OTHER_RUN: "the letter is of another run",
    Status.WAITS: "the site can do nothing before it takes a letter",
    Status.FINISHED: "the site has done all, and put and taken all letters",
    # words breaches said, by tools/words
    Status.AFTER_CLOSE: "a letter after Close",
    Status.REQUEST_OUT_OF_TURN: (
        "a Request while the fork is away or the token is here, or after Done, or of another edge, or from a "
        "site that ate all its meals"
    ),
    Status.FORK_OUT_OF_TURN: "a Fork, although the fork or the token is here",
    Status.STRANGE_FORK: "a Fork that is not the fork of this edge, or whose log is not as it has to be",
    Status.DONE_OUT_OF_TURN: (
        "a second Done; or, while the fork is here, a Done of a site that does not resign, before the log has"
        " all its meals"
    ),
    Status.CLOSED_EARLY: "a Close before both sites said Done",
    # end
}


class DineError(Exception):
    """A call had no answer. ``status`` is the reason, a ``Status`` if it is not that a text is no plan, and an int.

    If a text is no plan, or what a builder or a table would have is none, ``cause`` is the cause, ``position`` the
    number of the site or edge that it is about, and ``where`` says which: ``"site"``, ``"edge"`` or None.
    """

    def __init__(self, status: int, refusal: str = "", why: str = "no plan") -> None:
        self.status: int = Status(status) if status in _WORDS else status
        self.refusal, self._why = refusal, why
        self.cause = Cause(-100 - status) if status <= -101 else None
        at = refusal.partition(" at ")[2].split()
        self.where = at[0] if at else None
        self.position = int(at[1]) if at else None
        words = f"{why}: {refusal}" if refusal else _WORDS.get(self.status, "status")
        super().__init__(f"{words} ({status})")

    def __reduce__(self) -> tuple[Any, ...]:
        return DineError, (self.status, self.refusal, self._why)


def _answer(status: int) -> int:
    if status < 0:
        raise DineError(status)
    return status


class Kind(IntEnum):
    """What a site does in an event."""

    # words kinds, by tools/words
    #: Takes the next letter in the link to the site.
    TAKE = 0
    #: Sends a dirty fork that the neighbour asked for: the release rule.
    GIVE = 1
    #: Ends a meal.
    END = 2
    #: Begins a meal.
    BEGIN = 3
    #: Drops the jobs that it has left, after a meal that failed.
    QUIT = 4
    #: Grows hungry.
    HUNGRY = 5
    #: Sends the token to ask for the fork: the request rule.
    ASK = 6
    #: Says that it will ask no more.
    DONE = 7
    #: Says that it will send nothing more.
    CLOSE = 8
    # end


class Phase(IntEnum):
    """What a site is doing."""

    THINKING = 0
    HUNGRY = 1
    EATING = 2


class _Event(NamedTuple):
    site: int
    kind: Kind
    place: int = 0


class Event(_Event):
    """An event: the site, the kind, and the place, which is 0 if the kind has none.

    It is made of ints as well, such as those of JSON. A kind that is none raises ``ValueError``, and a number that is
    no int ``TypeError``.

    >>> import json
    >>> Event(*json.loads(json.dumps(Event(0, Kind.GIVE, 2))))
    Event(site=0, kind=<Kind.GIVE: 1>, place=2)
    """

    __slots__ = ()

    def __new__(cls, site: int, kind: int, place: int = 0) -> Event:
        return super().__new__(cls, index(site), Kind(index(kind)), index(place))


class Turn(NamedTuple):
    """What a site did in a turn: the event, and the letter that it put, empty if none. The event is None if the site
    can do nothing before it takes a letter, or has finished."""

    event: Event | None
    letter: bytes


class Period(NamedTuple):
    """A stay of a fork at one end: the site, the number of its first meal, and the number of its meals."""

    site: int
    first: int
    count: int  # type: ignore[assignment]


class Place(NamedTuple):
    """What a site has at one of its edges. ``is_dirty``: the fork is here, in a meal or eaten with since it came.
    ``is_closed``: Close was taken there."""

    edge: int
    neighbour: int
    has_fork: bool
    has_token: bool
    is_dirty: bool
    is_closed: bool = False


_Own = TypeVar("_Own", bound="_Owner")


class _Owner:
    """A handle with its lock, closed by ``close``, by ``with``, or when it is collected."""

    def __init__(self) -> None:
        self._handle = _calls.Handle()
        # A call may need several calls of the library.
        self._lock = threading.RLock()

    def _call(self, call: Any, *words: Any) -> int:
        """Does a call of the library on this handle, after those of other threads."""
        with self._lock:
            return _answer(call(byref(self._handle), *words))

    @property
    def _is_closed(self) -> bool:
        return not self._handle.at

    def close(self) -> None:
        """Frees the memory. A second close does nothing."""
        with self._lock:
            _LIB.dine_close(byref(self._handle))

    def __enter__(self: _Own) -> _Own:
        return self

    def __exit__(self, *_: object) -> None:
        self.close()

    def __del__(self) -> None:
        if getattr(self, "_lock", None) is not None:
            self.close()

    def __copy__(self) -> Any:
        # A handle has one owner.
        raise TypeError(f"a {type(self).__name__} can't be copied")

    def __deepcopy__(self, memo: object) -> Any:
        return self.__copy__()

    def __reduce__(self) -> tuple[Any, ...]:
        raise TypeError(f"a {type(self).__name__} can't be pickled")

    def _periods(self, call: Any, where: int) -> list[Period]:
        room = 48
        while True:
            numbers = (c_uint32 * room)()
            count = self._call(call, where, numbers, room)
            if 3 * count <= room:
                return [Period(*numbers[3 * i : 3 * i + 3]) for i in range(count)]
            room = 3 * count


def _buffer(data: bytes) -> Any:
    return (c_uint8 * max(1, len(data))).from_buffer_copy(data or b"\0")


class Plan(_Owner):
    """A plan: sites with their jobs, and edges. It is read from a text of ``docs/FORMAT.md``, or built by a
    ``PlanBuilder``, and can be pickled.

    >>> plan = Plan(PAIR)
    >>> plan.sites, plan.edges, plan.jobs(0)
    (['a', 'b'], [(0, 1)], 1)
    """

    def __init__(self, text: str) -> None:
        super().__init__()
        if not isinstance(text, str):
            raise TypeError(f"the text of a plan is a str, not {type(text).__name__}")
        #: The text that it was read from. It is empty if the plan was built by calls.
        self.text = text
        # The calls by which it was built.
        self._built: tuple[Any, ...] = ()
        self._read: tuple[list[str], list[tuple[int, int]]] | None = None
        data = text.encode()
        status = _LIB.dine_plan_open(_buffer(data), len(data), byref(self._handle))
        if status <= -101:
            words = (c_uint8 * 40)()
            size = _answer(_LIB.dine_plan_refusal(_buffer(data), len(data), words, len(words)))
            raise DineError(status, bytes(words[:size]).decode())
        _answer(status)

    def __reduce__(self) -> tuple[Any, ...]:
        if self._built:
            from ._builder import rebuilt
            return rebuilt, (self._built,)
        return Plan, (self.text,)

    def __copy__(self) -> Plan:
        make, words = self.__reduce__()
        plan: Plan = make(*words)
        return plan

    def _shape(self) -> tuple[list[str], list[tuple[int, int]]]:
        with self._lock:
            if self._read is None:
                names = [self._name(site) for site in range(self._call(_LIB.dine_plan_sites))]
                self._read = names, [self._ends(edge) for edge in range(self._call(_LIB.dine_plan_edges))]
            return self._read

    @property
    def sites(self) -> list[str]:
        """The names of the sites."""
        return list(self._shape()[0])

    def _name(self, site: int) -> str:
        name = (c_uint8 * MAX_NAME)()
        size = self._call(_LIB.dine_plan_name, site, name, MAX_NAME)
        return bytes(name[:size]).decode()

    @property
    def edges(self) -> list[tuple[int, int]]:
        """The two ends of each edge, the lower site first."""
        return list(self._shape()[1])

    def _ends(self, edge: int) -> tuple[int, int]:
        ends = _calls.Ends()
        self._call(_LIB.dine_plan_ends, edge, byref(ends))
        return ends.lower, ends.higher

    @property
    def version(self) -> int:
        """The version of the text's format, 1 or 2."""
        return self._call(_LIB.dine_plan_version)

    def jobs(self, site: int) -> int:
        """The number of jobs of a site."""
        return self._call(_LIB.dine_plan_jobs, site)

    def __repr__(self) -> str:
        if self._is_closed:
            return "<Plan: closed>"
        return f"<Plan of {', '.join(self.sites)}: {len(self.edges)} edges>"


def _plan(plan: Plan | str) -> Plan:
    return plan if isinstance(plan, Plan) else Plan(plan)


class World(_Owner):
    """All sites of a plan in one place, stepped event by event. Threads may share it.

    >>> world = World(PAIR)
    >>> world.replay([1, 1, 0, 0]), world.finish(), world.bound
    (4, 18, 22)
    >>> print(World(PAIR).replay_text([1, 1, 0, 0]))
    edge 0 a b: to b, b#1, to a, a#1
    events 22 of 22
    """

    def __init__(self, plan: Plan | str) -> None:
        super().__init__()
        self.plan = _plan(plan)
        # What was done: the number of a choice, or the event. None is `finish`.
        self._past: list[int | Event | None] = []
        # The events that are enabled, and what is seen of the forks, tokens and letters, if they are known.
        self._known: list[Event] | None = None
        self._seen: Seen | None = Seen(*self.plan._shape())
        with self.plan._lock:
            _answer(_LIB.dine_world_open(byref(self.plan._handle), byref(self._handle)))

    def copy(self) -> World:
        """Returns a world of its own with the same state.

        >>> world = World(PAIR)
        >>> other = world.copy()
        >>> other.finish(), world.ate(0), other.ate(0)
        (18, 0, 1)
        """
        with self._lock:
            if self._is_closed:
                raise DineError(-1)
            other = World(self.plan)
            for choices in self._runs():
                other._redo(choices)
            other._past, other._known = list(self._past), self._known
            other._seen = self._seen and self._seen.copy()
            return other

    def __copy__(self) -> World:
        return self.copy()

    def _runs(self) -> Iterable[list[int] | Event | None]:
        """What was done, where the choices that follow each other are one list."""
        choices: list[int] = []
        for it in self._past:
            if isinstance(it, int):
                choices.append(it)
                continue
            if choices:
                yield choices
                choices = []
            yield it
        if choices:
            yield choices

    def _redo(self, it: list[int] | Event | None) -> None:
        if it is None:
            self._call(_LIB.dine_world_finish)
        elif isinstance(it, Event):
            self._call(_LIB.dine_world_step, byref(_raw(it)))
        else:
            self._call(_LIB.dine_world_replay, (c_uint32 * len(it))(*it), len(it))

    def _now(self) -> Seen:
        """What is seen of forks, tokens and letters. After `replay` and `finish` a second world finds it out."""
        with self._lock:
            if self._seen is None:
                world = World(self.plan)
                for it in self._past:
                    events = world.enabled()
                    if isinstance(it, Event):
                        world.step(it)
                    elif it is not None and it < len(events):
                        world.step(events[it])
                    while it is None and (events := world.enabled()):
                        world.step(events[0])
                self._seen = world._now()
            return self._seen

    def key(self) -> Hashable:
        """A value for a dict: two worlds of one plan have the same if they are in the same state, logs included.

        >>> world, other = World(PAIR), World(PAIR)
        >>> for event in world.enabled(): world.step(event)
        >>> for event in reversed(other.enabled()): other.step(event)
        >>> world.key() == other.key() != World(PAIR).key()
        True
        """
        with self._lock:
            if self._is_closed:
                raise DineError(-1)
            return self._now().key()

    @property
    def bound(self) -> int:
        """How many events there can be from the start. This is proved."""
        return self._call(_LIB.dine_world_bound)

    def enabled(self) -> list[Event]:
        """The enabled events, in the fixed order."""
        with self._lock:
            count = self._call(_LIB.dine_world_count)
            if self._known is None:
                self._known = [self._nth(n) for n in range(count)]
            return list(self._known)

    def _nth(self, n: int) -> Event:
        event = _calls.Event()
        self._call(_LIB.dine_world_enabled, n, byref(event))
        return Event(event.site, event.kind, event.place)

    def step(self, event: Event) -> None:
        """Does the event. Raises ``DineError`` if it is not enabled, and then nothing has changed."""
        event = event if isinstance(event, Event) else Event(*event)
        with self._lock:
            self._call(_LIB.dine_world_step, byref(_raw(event)))
            known = self._known or []
            self._past.append(known.index(event) if event in known else event)
            self._known = None
            if self._seen is not None:
                self._seen.does(*event)

    def replay(self, choices: Sequence[int]) -> int:
        """Does for each choice the enabled event of this number, and passes over a choice that has none.

        Returns the number of events. Raises ``OverflowError`` if a choice is below 0 or has more than 32 bits, and then
        nothing has changed.
        """
        if not all(0 <= it < 2**32 for it in choices):
            raise OverflowError("a choice is a number from 0 to 2**32 - 1")
        numbers = (c_uint32 * max(1, len(choices)))(*choices)
        with self._lock:
            count = self._call(_LIB.dine_world_replay, numbers, len(choices))
            if count:
                self._past += numbers[: len(choices)]
                self._known = self._seen = None
            return count

    def finish(self) -> int:
        """Does the first enabled event until none is enabled. Returns the number of events."""
        with self._lock:
            count = self._call(_LIB.dine_world_finish)
            self._past.append(None)
            self._known = self._seen = None
            return count

    def order(self, journals: Sequence[Sequence[Event]]) -> list[Event]:
        """Does what sites did elsewhere, from the journal of each, and returns one order of all these events.

        The world accepts each event in its turn, so what is proved of every schedule holds of this one. Raises
        ``ValueError`` if there is no order; then the world is where no journal goes on.
        """
        done: list[Event] = []
        rest = [list(reversed(journal)) for journal in journals]
        before = -1
        with self._lock:
            while len(done) > before:
                before = len(done)
                for journal in rest:
                    while journal and self._tries(journal[-1]):
                        done.append(journal.pop())
        if any(rest):
            raise ValueError(f"no order: none of {[journal[-1] for journal in rest if journal]} is enabled")
        return done

    def _tries(self, event: Event) -> bool:
        try:
            self.step(event)
        except DineError as error:
            if error.status in (-3, -4):
                return False
            raise
        return True

    def phase(self, site: int) -> Phase:
        """What the site is doing."""
        return Phase(self._call(_LIB.dine_world_phase, site))

    def ate(self, site: int) -> int:
        """How many meals the site began."""
        return self._call(_LIB.dine_world_ate, site)

    def log(self, edge: int) -> list[Period]:
        """The log of the fork of the edge."""
        return self._periods(_LIB.dine_world_fork, edge)

    def value(self, edge: int) -> int:
        """The value of the edge."""
        return self._call(_LIB.dine_world_value, edge)

    def replay_text(self, choices: Sequence[int]) -> str:
        """Replays the choices and finishes. Returns what ``dine replay --choices`` prints."""
        with self._lock:
            events = self.replay(choices) + self.finish()
            lines = [self._line(edge, *ends) for edge, ends in enumerate(self.plan.edges)]
            return "\n".join([*lines, f"events {events} of {self.bound}"])

    def _line(self, edge: int, low: int, high: int) -> str:
        names = self.plan.sites
        entries: list[str] = []
        for i, (site, first, count) in enumerate(self.log(edge)):
            entries += [f"to {names[site]}"] * (i > 0) + [f"{names[site]}#{first + k}" for k in range(count)]
        log = f" {', '.join(entries)}" if entries else ""
        value = f" = {self.value(edge)}" if self.plan.version == 2 else ""
        return f"edge {edge} {names[low]} {names[high]}:{log}{value}"

    def __repr__(self) -> str:
        with self._lock:
            if self._is_closed:
                return "<World: closed>"
            return f"<World of {', '.join(self.plan.sites)}: {len(self.enabled())} events enabled>"

    def _repr_svg_(self) -> str:
        """A picture for notebooks: each site in the colour of its phase, each fork where it is, full if it is dirty,
        each request token, and the letters on their way."""
        with self._lock:
            if self._is_closed:
                raise DineError(-1)
            return _picture.svg(self._now())


def _raw(event: Event) -> _calls.Event:
    if 0 <= event.site < 2**32 and 0 <= event.place < 2**32:
        return _calls.Event(*event)
    return _calls.Event(*map(_calls.Number.from_param, event))


class Site(_Owner):
    """One site of a plan. A letter is ``bytes``, and belongs to the site at the other end of its place.

    All sites of a run are opened with one number ``run``, from 0 to 2**64 - 1, and each run has another: ``run_number``
    makes one. A site refuses the letters of other runs, before it looks at anything else.

    >>> a, b = Site(PAIR, 0), Site(PAIR, 1)
    >>> b.act(b.next()), b.next()
    (b'', Event(site=1, kind=<Kind.ASK: 6>, place=0))
    >>> a.take(b.act(b.next()))
    0
    >>> a.next()
    Event(site=0, kind=<Kind.GIVE: 1>, place=0)
    """

    def __init__(self, plan: Plan | str, site: int, *, run: int = 0) -> None:
        super().__init__()
        if not 0 <= run < 2**64:
            raise ValueError(f"the number of a run has 64 bits, and {run} is none")
        self.plan = _plan(plan)
        self.number, self.run = site, run
        # Where the library writes a letter.
        self._room = (c_uint8 * LETTER_MAX)()
        # The edges of places that were broken off.
        self._broken: set[int] = set()
        with self.plan._lock:
            _answer(_LIB.dine_site_open_in(byref(self.plan._handle), site, run, byref(self._handle)))

    def _state(self) -> _calls.SiteState:
        state = _calls.SiteState()
        self._call(_LIB.dine_site_state, byref(state))
        return state

    @property
    def phase(self) -> Phase:
        """What it is doing."""
        return Phase(self._state().phase)

    @property
    def ate(self) -> int:
        """How many meals it began."""
        return int(self._state().ate)

    @property
    def is_finished(self) -> bool:
        """Whether it has done all, and put and taken all letters."""
        return bool(self._state().finished == 1)

    @property
    def places(self) -> list[Place]:
        """What it has at each of its edges."""
        with self._lock:
            return [self._place(i) for i in range(self._state().degree)]

    def _place(self, i: int) -> Place:
        place = _calls.Place()
        self._call(_LIB.dine_site_place, i, byref(place))
        flags = place.has_fork, place.has_token, place.is_dirty, place.is_closed
        return Place(place.edge, place.neighbour, *[it == 1 for it in flags])

    def next(self) -> Event | None:
        """The first event that it may do without a letter."""
        event = _calls.Event()
        if self._call(_LIB.dine_site_next, byref(event)) == 0:
            return None
        return Event(event.site, event.kind, event.place)

    def turn(self) -> Turn:
        """Does that event, and returns it with the letter that it puts. After Begin do the job, and call ``end``.

        Raises ``DineError`` with the status -7 during a meal.

        >>> a, b = Site(PAIR, 0), Site(PAIR, 1)
        >>> b.turn()
        Turn(event=Event(site=1, kind=<Kind.HUNGRY: 5>, place=0), letter=b'')
        >>> a.take(b.turn().letter)
        0
        >>> b.turn()
        Turn(event=None, letter=b'')
        """
        event = _calls.Event()
        with self._lock:
            size = _LIB.dine_site_turn(byref(self._handle), byref(event), self._room, LETTER_MAX)
            if size in (Status.WAITS, Status.FINISHED):
                return Turn(None, b"")
            letter = bytes(self._room)[:_answer(size)]
        return Turn(Event(event.site, event.kind, event.place), letter)

    def act(self, event: Event | None) -> bytes:
        """Does the event, and returns the letter that it puts, empty if none. Begin and End are ``begin``, ``end``.

        Raises ``DineError`` with the status -4 if the event is of another site, or is Take, Begin or End.
        """
        if event is None:
            raise TypeError("there is no event: next() returned None")
        event = event if isinstance(event, Event) else Event(*event)
        if event.kind in (Kind.BEGIN, Kind.END):
            raise DineError(-4)
        return self._put(_LIB.dine_site_act, byref(_raw(event)))

    def _put(self, call: Any, what: Any) -> bytes:
        with self._lock:
            size = self._call(call, what, self._room, LETTER_MAX)
            return bytes(self._room)[:size]

    def take(self, letter: bytes) -> int:
        """Takes a letter, also while the site eats, and returns the place at which it arrived.

        Raises ``DineError`` if it is none that is allowed now, and then nothing has changed.
        """
        return self._call(_LIB.dine_site_take, _buffer(letter), len(letter))

    def break_off(self, place: int) -> bytes:
        """Gives the link of a place up, as after the loss of its connection. Returns the letter, which is Close.

        From then on the site is never finished: see ``is_stuck``.
        """
        with self._lock:
            letter = self._put(_LIB.dine_site_break, place)
            self._broken.add(self._place(place).edge)
            return letter

    @property
    def is_stuck(self) -> bool:
        """Whether the site can never go on, since a link was broken off.

        Either it has meals left that can never begin, as a fork is lost with the neighbour; or it has done all that it
        can, and no other neighbour has a letter for it.
        """
        with self._lock:
            if not self._broken or self.phase is Phase.EATING:
                return False
            event, places = self.next(), self.places
            if event.kind is Kind.HUNGRY if event else self.phase is Phase.HUNGRY:
                return any(it.edge in self._broken and not it.has_fork for it in places)
            return event is None and all(it.is_closed or it.edge in self._broken for it in places)

    def begin(self) -> None:
        """Begins a meal."""
        self._call(_LIB.dine_site_begin)

    def end(self, failed: bool = False) -> None:
        """Ends the meal."""
        self._call(_LIB.dine_site_end, failed)

    def log(self, place: int) -> list[Period]:
        """The log of the fork in hand at the place. Raises ``DineError`` if the neighbour has it."""
        return self._periods(_LIB.dine_site_fork, place)

    def value(self, place: int) -> int:
        """The value of the fork in hand at the place. Raises ``DineError`` if the neighbour has it."""
        return self._call(_LIB.dine_site_value, place)

    def __repr__(self) -> str:
        with self._lock:
            if self._is_closed:
                return f"<Site {self.number}: closed>"
            return f"<Site {self.number}: {self.phase.name.lower()}, {self.ate} meals>"


PAIR = """version = 1
[[site]]
name = "a"
jobs = [{ name = "x" }]
[[site]]
name = "b"
jobs = [{ name = "y" }]
[[edge]]
ends = ["a", "b"]
"""
