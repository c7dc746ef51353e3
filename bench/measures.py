"""What the measures share: their arguments, how programs are built and called, loops that count, and tables."""
import contextlib
import re
import statistics
import subprocess
import sys
from pathlib import Path

# Where the package `lib` is.
sys.path.insert(0, f"{Path(__file__).resolve().parents[1]}/tools")
from lib.arguments import Arguments
from lib.crates import program_of
from lib.files import HOME
from lib.process import BOUND

# The number in the middle, which is one of them.
middle = statistics.median_high
# The share of the processors' time in a round that a host may keep from this machine, and how often a round in which
# it kept more is done again.
MOST_STOLEN, REPEATS = 0.01, 4


def arguments_of(text, **numbers):
    """Returns the arguments of a measure: its text, and numbers, with what is taken if none is said, and what it is."""
    it = Arguments(text)
    for name, (default, what) in numbers.items():
        it.add_argument(f"--{name}", type=int, default=default, metavar="N", help=f"{what}; {default}")
    return it


def built(crate):
    """Has tools/build prove and build a program of ours, and returns it."""
    subprocess.run([f"{HOME}/tools/build", crate], check=True)
    return program_of(crate)


@contextlib.contextmanager
def loops(count):
    """Has this number of processes count while the body is done."""
    started = [subprocess.Popen([*BOUND, sys.executable, "-c", "while True: pass"]) for _ in range(count)]
    try:
        yield
    finally:
        for it in started:
            it.kill()
            it.wait()


def counts_of(command, plan):
    """Runs a command on a plan, and returns the numbers that it prints as name=number."""
    ran = subprocess.run(command, input=plan, stdout=subprocess.PIPE, stderr=subprocess.PIPE, check=True)
    return counts_in(ran.stdout + ran.stderr)


def counts_in(said):
    """Returns the numbers that a program printed as name=number."""
    found = re.findall(r"(\w+)=(\d+(?:\.\d+)?)\b", said.decode())
    return {name: float(count) if "." in count else int(count) for name, count in found}


def processor_times():
    """Returns how much time of the processors a host has kept from this machine, and all of their time."""
    with open("/proc/stat", "rb") as stat:
        times = [*map(int, stat.readline().split()[1:9])]
    return times[7], sum(times)


def round_of(commands, plan, told):
    """Runs the commands in turn on a plan. Returns the milliseconds that each told, and the share that was stolen."""
    stolen, all_of_it = processor_times()
    times = {name: counts_of(command, plan)[told] / 1000 for name, command in commands.items()}
    stolen, all_of_it = (now - before for now, before in zip(processor_times(), (stolen, all_of_it)))
    return times, stolen / max(all_of_it, 1)


def times_of(commands, plan, rounds, told="median"):
    """Runs the commands in turn on a plan in each round. Returns the milliseconds that each told in each round, by its
    name, and the largest share of the processors' time that was stolen in a round. A round with too large a share is
    done again, and does not count if one with less comes of it."""
    done = []
    for _ in range(rounds):
        tries = [round_of(commands, plan, told)]
        while tries[-1][1] > MOST_STOLEN and len(tries) <= REPEATS:
            tries.append(round_of(commands, plan, told))
        done.append(min(tries, key=lambda it: it[1]))
    return {name: [times[name] for times, _ in done] for name in commands}, max(share for _, share in done)


def ratio(times, one, other):
    """Returns the ratio of two times of one round, of the round in the middle."""
    return middle([a / b for a, b in zip(times[one], times[other])])


def shown(number):
    """Returns a number with three digits that count, and no fewer than those before the point."""
    return f"{number:.2f}" if number < 10 else f"{number:.1f}" if number < 100 else f"{number:,.0f}"


def line(*cells):
    print(f"| {' | '.join(cells)} |", flush=True)


def begin_table(*headings):
    line(*headings)
    print(f"|{'---|' * len(headings)}", flush=True)
