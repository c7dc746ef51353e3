"""Runs the sites of a plan on MPI ranks, several sites to a rank:

    mpirun -n 4 python3 dine_mpi.py [PLAN]

With no plan it takes a grid of 8 by 8 sites with 20 jobs each. MPI keeps the order of the messages from one rank to
another, which is all that the links between sites have to do. At the end rank 0 gathers the journals of all sites. The
world of the plan finds one order of all their events, and accepts each event in its turn.

Each site is proved, and so is the world. That MPI carries each letter once and in order is trusted.

With DINE_MPI_DIE_AFTER=100 the last rank is killed after 100 letters: mpirun ends the job, and says which rank.
"""

import os
import signal
import sys
import time
import traceback
from collections import deque

from dine import Event, Kind, Plan, Site, World
from mpi4py import MPI

COMM = MPI.COMM_WORLD
RANK, RANKS = COMM.Get_rank(), COMM.Get_size()
DIES_AT = int(os.environ.get("DINE_MPI_DIE_AFTER", 0)) if RANK == RANKS - 1 else 0


def grid(side: int = 8, jobs: int = 20) -> str:
    """The text of a plan: a site for each cell, and an edge between each two cells that touch."""
    cells = [(row, column) for row in range(side) for column in range(side)]
    some = ", ".join(['{ name = "work" }'] * jobs)
    sites = [f'[[site]]\nname = "cell-{row}-{column}"\njobs = [{some}]\n' for row, column in cells]
    touch = [(at, (at[0] + down, at[1] + 1 - down)) for at in cells for down in (0, 1)]
    inside = [(a, b, c, d) for (a, b), (c, d) in touch if c < side and d < side]
    ends = [f'[[edge]]\nends = ["cell-{a}-{b}", "cell-{c}-{d}"]\n' for a, b, c, d in inside]
    return "version = 1\n" + "".join(sites + ends)


class Rank:
    """The sites of this rank, their journals, and the letters between them."""

    def __init__(self, plan: Plan) -> None:
        self.sites = {n: Site(plan, n) for n in range(len(plan.sites)) if n % RANKS == RANK}
        self.places = {n: site.places for n, site in self.sites.items()}
        self.journals: dict[int, list[Event]] = {n: [] for n in self.sites}
        self.here: deque[tuple[int, bytes]] = deque()
        self.sending: list[MPI.Request] = []
        self.letters = 0

    def note(self, n: int, kind: Kind, place: int = 0) -> None:
        self.journals[n].append(Event(n, kind, place))

    def go(self, n: int) -> None:
        """Does all that site n may do without a letter."""
        site = self.sites[n]
        while (turn := site.turn()).event is not None:
            self.journals[n].append(turn.event)
            if turn.event.kind is Kind.BEGIN:
                site.end()  # before this call the job is done
                self.note(n, Kind.END)
            elif turn.letter:
                self.send(self.places[n][turn.event.place].neighbour, turn.letter)

    def send(self, to: int, letter: bytes) -> None:
        """Sends a letter to a site. It waits for nothing, so no two ranks wait for each other."""
        if to % RANKS == RANK:
            self.here.append((to, letter))
        else:
            self.sending = [it for it in self.sending if not it.Test()]
            self.sending.append(COMM.isend((to, letter), dest=to % RANKS))

    def take(self) -> None:
        """Waits for a letter, and gives it to its site."""
        to, letter = self.here.popleft() if self.here else COMM.recv()
        self.note(to, Kind.TAKE, self.sites[to].take(letter))
        self.letters += 1
        if self.letters == DIES_AT:
            os.kill(os.getpid(), signal.SIGKILL)
        self.go(to)

    def run(self) -> None:
        for n in self.sites:
            self.go(n)
        while not all(site.is_finished for site in self.sites.values()):
            self.take()
        MPI.Request.Waitall(self.sending)

    def logs(self) -> dict[int, list]:
        """The logs of the forks that are at these sites in the end, by edge."""
        here = [(site, i, place) for site in self.sites.values() for i, place in enumerate(site.places)]
        return {place.edge: site.log(i) for site, i, place in here if place.has_fork}


def main() -> None:
    text = open(sys.argv[1], encoding="utf-8").read() if len(sys.argv) > 1 else grid()
    plan = Plan(text)
    rank = Rank(plan)
    COMM.Barrier()
    began = time.perf_counter()
    rank.run()
    took = time.perf_counter() - began
    gathered = COMM.gather((rank.journals, rank.logs(), rank.letters, took))
    if RANK == 0:
        journals = {n: journal for part in gathered for n, journal in part[0].items()}
        logs = {edge: log for part in gathered for edge, log in part[1].items()}
        letters, took = sum(part[2] for part in gathered), max(part[3] for part in gathered)
        print(f"{len(plan.sites)} sites on {RANKS} ranks: {letters} letters, {letters / took:.0f} a second")
        world = World(plan)
        events = world.order([journals[n] for n in range(len(plan.sites))])
        assert not world.enabled(), "the world goes on"
        assert logs == {edge: world.log(edge) for edge in range(len(plan.edges))}, "other logs"
        print(f"one order of all {len(events)} events is accepted, and gives the same log of each of {len(logs)} forks")


if __name__ == "__main__":
    try:
        main()
    except BaseException:
        traceback.print_exc()
        COMM.Abort(1)  # else the other ranks would wait for letters
