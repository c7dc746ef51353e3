"""Sites as processes that may be killed at any time: python3 restart.py [KILLS] [FOLDER]

A site writes each event to its *journal*, a file. After that it appends the letter that it puts, if any, to the file of
the *link*. What a site does is determined by its journal, and nobody sees an event that is not written yet. So if its
process is killed, a new one does again what the journal has, appends the letters that are missing in the links, and
goes on. If a meal began and has no end in the journal, its job is done again. The folder keeps the number of the run,
which each new process takes: so all are of one run, and no letter of another is taken.

Here a parent starts a process for each of five sites in a ring, and kills one of them again and again. In the end the
world of the plan accepts one order of all journals. Each site is proved, and so is the world. Trusted is that a file
keeps what was written to it, in order. If the machine may lose power, each write needs an `os.fsync`.
"""

import os
import random
import secrets
import signal
import struct
import sys
import tempfile
import time
from pathlib import Path

from dine import Event, Kind, Plan, Site, World, run_number

SITES, JOBS = 5, 20
JOB = '{ name = "work" }'
PLAN = "version = 1\n" + "".join(
    [f'[[site]]\nname = "s{n}"\njobs = [{", ".join([JOB] * JOBS)}]\n' for n in range(SITES)]
    + [f'[[edge]]\nends = ["s{n}", "s{(n + 1) % SITES}"]\n' for n in range(SITES)]
)


class Records:
    """A file of records of one length. A record that a kill has cut is none."""

    FORM = struct.Struct("<BBB29s")  # a kind, a place, the length of a letter, and the letter

    def __init__(self, path: Path) -> None:
        self.path = path

    def count(self) -> int:
        return self.path.stat().st_size // self.FORM.size if self.path.exists() else 0

    def read(self, n: int) -> tuple[Kind, int, bytes]:
        with open(self.path, "rb") as file:
            file.seek(n * self.FORM.size)
            kind, place, length, letter = self.FORM.unpack(file.read(self.FORM.size))
        return Kind(kind), place, letter[:length]

    def append(self, kind: Kind, place: int, letter: bytes) -> None:
        with open(self.path, "ab") as file:
            file.truncate(self.count() * self.FORM.size)
            file.write(self.FORM.pack(kind, place, len(letter), letter))


def run_of(folder: Path) -> int:
    """Returns the number of the run, whose random part the folder keeps."""
    path = folder / "run"
    if not path.exists():
        path.write_text(str(secrets.randbits(64)))
    return run_number(PLAN, int(path.read_text()))


class Process:
    """A site with its journal and its links, brought to where the journal ends."""

    def __init__(self, folder: Path, number: int) -> None:
        self.number, self.site = number, Site(PLAN, number, run=run_of(folder))
        self.journal = Records(folder / f"journal-{number}")
        neighbours = [place.neighbour for place in self.site.places]
        self.outward = [Records(folder / f"link-{number}-{it}") for it in neighbours]
        self.inward = [Records(folder / f"link-{it}-{number}") for it in neighbours]
        self.put, self.taken = [0] * len(neighbours), [0] * len(neighbours)
        for n in range(self.journal.count()):
            self.do(*self.journal.read(n))

    def do(self, kind: Kind, place: int, letter: bytes) -> None:
        """Does what a record of the journal says. Without a letter to take or a meal to end, that is the next event."""
        if kind is Kind.TAKE:
            self.site.take(letter)
            self.taken[place] += 1
        elif kind is Kind.END:
            self.site.end()
        else:
            self.send(*self.site.turn())

    def send(self, event: Event, letter: bytes) -> None:
        """Appends the letter of an event, if it put one, to its link, unless it is there."""
        if letter:
            link, self.put[event.place] = self.outward[event.place], self.put[event.place] + 1
            if link.count() < self.put[event.place]:
                link.append(event.kind, event.place, letter)

    def note(self, kind: Kind, place: int = 0, letter: bytes = b"") -> None:
        self.journal.append(kind, place, letter)
        self.do(kind, place, letter)

    def step(self) -> None:
        """Ends the meal, takes a letter that is there, or does the next event. Else it waits."""
        if self.site.phase.name == "EATING":
            time.sleep(0.002)  # the job
            return self.note(Kind.END)
        for place, link in enumerate(self.inward):
            if link.count() > self.taken[place]:
                return self.note(Kind.TAKE, place, link.read(self.taken[place])[2])
        event, letter = self.site.turn()
        if event is None:
            return time.sleep(0.001)
        self.journal.append(event.kind, event.place, b"")
        self.send(event, letter)


def start(folder: Path, number: int) -> int:
    """Starts the process of a site, and returns its number."""
    child = os.fork()
    if child == 0:
        process = Process(folder, number)
        while not process.site.is_finished:
            process.step()
        os._exit(0)
    return child


def run(folder: Path, kills: int) -> int:
    """Runs all sites to their ends, and returns how many processes were killed."""
    run_of(folder)  # drawn before the first process is there
    alive = {start(folder, number): number for number in range(SITES)}
    killed = 0
    while alive:
        if killed < kills:
            time.sleep(random.random() / 100)
            os.kill(random.choice(list(alive)), signal.SIGKILL)
        child, status = os.wait()
        number = alive.pop(child)
        if os.WIFSIGNALED(status):
            killed += 1
            alive[start(folder, number)] = number
        elif status != 0:
            raise SystemExit(f"site {number} ended with status {os.waitstatus_to_exitcode(status)}")
    return killed


def main() -> None:
    kills = int(sys.argv[1]) if len(sys.argv) > 1 else 30
    folder = Path(sys.argv[2] if len(sys.argv) > 2 else tempfile.mkdtemp(prefix="dine-"))
    folder.mkdir(exist_ok=True)
    killed = run(folder, kills)
    journals = []
    for number in range(SITES):
        records = Records(folder / f"journal-{number}")
        journals.append([Event(number, *records.read(n)[:2]) for n in range(records.count())])
    world = World(Plan(PLAN))
    events = world.order(journals)
    assert not world.enabled(), "the world goes on"
    meals = sum(world.ate(number) for number in range(SITES))
    print(f"{SITES} sites, {meals} meals, {killed} kills: one order of all {len(events)} events is accepted")


if __name__ == "__main__":
    main()
