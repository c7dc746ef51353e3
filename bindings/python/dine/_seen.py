"""Where forks, request tokens and letters are in a world, by the events that were done.

The library has no call that reads these of a world. What an event moves is no question of the rules, which said before
that the event may happen: Give puts a fork into a letter, Ask a token, and Take takes the first letter of a link out.
"""

from __future__ import annotations

from typing import Any, Hashable

# words kinds, by tools/words
TAKE, GIVE, END, BEGIN, QUIT, HUNGRY, ASK, DONE, CLOSE = range(9)
# end
THINKS, IS_HUNGRY, EATS = range(3)
#: A fork or a token is on its way.
AWAY = -1


class Seen:
    """What is seen of a world."""

    def __init__(self, names: list[str], ends: list[tuple[int, int]]) -> None:
        self.names, self.ends = names, ends
        #: The edges of each site, by place.
        self.places = [[edge for edge, both in enumerate(ends) if site in both] for site in range(len(names))]
        self.phases, self.ate, self.quits = [THINKS] * len(names), [0] * len(names), [0] * len(names)
        #: At which site the fork and the request token of each edge are. At the start each fork is dirty.
        self.forks, self.tokens = [low for low, _ in ends], [high for _, high in ends]
        self.dirty = [True] * len(ends)
        #: The letters on their way over each edge: to its lower end, and to its higher one.
        self.letters: list[tuple[str, str]] = [("", "")] * len(ends)
        #: Who ate with each fork, and where it went, in turn.
        self.stays: list[tuple[int, ...]] = [()] * len(ends)
        #: The letters Done and Close that were put at each edge.
        self.told: list[tuple[str, str]] = [("", "")] * len(ends)

    def copy(self) -> Seen:
        other = Seen.__new__(Seen)
        other.__dict__ = {name: it if name in ("names", "ends", "places") else list(it) for name, it in
                          self.__dict__.items()}
        return other

    def key(self) -> Hashable:
        lists: tuple[list[Any], ...] = (
            self.phases, self.ate, self.quits, self.forks, self.tokens, self.dirty, self.letters, self.stays, self.told)
        return tuple(tuple(it) for it in lists)

    def does(self, site: int, kind: int, place: int) -> None:
        """Notes an event that the world did."""
        if kind in (TAKE, GIVE, ASK, DONE, CLOSE):
            edge = self.places[site][place]
            if kind == TAKE:
                self._takes(site, edge)
            else:
                self._puts(site, edge, kind)
        elif kind == BEGIN:
            self.phases[site] = EATS
            self.ate[site] += 1
            for edge in self.places[site]:
                self.dirty[edge] = True
                self.stays[edge] += (site,)
        elif kind == QUIT:
            self.quits[site] = 1
        else:
            self.phases[site] = IS_HUNGRY if kind == HUNGRY else THINKS

    def _takes(self, site: int, edge: int) -> None:
        at = self.ends[edge].index(site)
        letters = list(self.letters[edge])
        letter, letters[at] = letters[at][0], letters[at][1:]
        self.letters[edge] = (letters[0], letters[1])
        if letter == "R":
            self.tokens[edge] = site
        elif letter == "F":
            self.forks[edge] = site
            self.dirty[edge] = False
            self.stays[edge] += (~site,)

    def _puts(self, site: int, edge: int, kind: int) -> None:
        at = self.ends[edge].index(site)
        letter = {GIVE: "F", ASK: "R", DONE: "D", CLOSE: "C"}[kind]
        low, high = self.letters[edge]
        self.letters[edge] = (low + letter, high) if at == 1 else (low, high + letter)
        if kind == GIVE:
            self.forks[edge] = AWAY
        elif kind == ASK:
            self.tokens[edge] = AWAY
        else:
            low, high = self.told[edge]
            self.told[edge] = (low, high + letter) if at == 1 else (low + letter, high)
