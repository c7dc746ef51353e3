"""Does many small open runs, in which threads submit tasks while the run goes on, and tries that each ends, and ends
well.

A site may do one to five tasks in an epoch, so most runs have several epochs. Tasks submit further tasks. In half of
the runs the executor is closed behind all tasks, and in half it is stopped in the middle. The sites have a patience of
1, 3 or 64. The program of crates/dine_stress says what a run has to leave: each value is the number of tasks at its
two ends, each ticket has the answer of its task once, or is that of a task that was handed back, and all tasks that
were submitted were done or handed back. After a change to open runs pytest --rounds 500 does 100,000."""
import collections
import itertools
import random
import re

import pytest
from lib.crates import program_of
from lib.files import HOME
from lib.graphs import graph_of
from lib.process import answer_of

# All runs are done by one process, for all tests.
pytestmark = [pytest.mark.kit, pytest.mark.slow, pytest.mark.xdist_group("open runs")]
GRAPHS = ["path:2", "path:3", "ring:3", "ring:5", "star:6", "complete:5", "grid:3x2", "random", "sparse", "apart"]
WRONG = ["the run did not end", "values", "tasks", "tickets", "order", "epochs"]


def edges_of(graph, dice):
    """Returns the number of sites and the edges of a graph. One that is random has a third of the edges, a sparse one a
    tenth, so that some sites have none, and sites that are apart have none at all."""
    if ":" in graph:
        return graph_of(graph)
    sites = dice.randint(2, 8)
    share = {"random": 3, "sparse": 10}.get(graph)
    edges = [it for it in itertools.combinations(range(sites), 2) if share and dice.randrange(share) == 0]
    return sites, edges


def line_of(graph, patience, end, seed):
    """Returns the line of a run, the same for the same seed."""
    dice = random.Random(f"{graph} {patience} {end} {seed}")
    sites, edges = edges_of(graph, dice)
    tasks = dice.randint(1, 15)
    stop = dice.randint(1, tasks) if end == "stop" else 0
    numbers = [dice.getrandbits(60), dice.randint(1, 4), tasks, patience, dice.choice([1, 2, 5, 1000]), stop]
    jobs = ",".join(str(dice.randint(1, 5)) for _ in range(sites))
    return f"{' '.join(map(str, numbers))} {jobs} {','.join(f'{one}-{other}' for one, other in edges) or 'none'}\n"


# The patience of the sites, and how the executor ends.
KINDS = list(itertools.product((1, 3, 64), ("close", "stop")))


@pytest.fixture(scope="module")
def wrong(request):
    """Does a run on each graph in each round, of one kind after the other. Returns by graph what was wrong. Such a run
    takes a few milliseconds, so there are twenty rounds for one of other tests."""
    rounds = 20 * request.config.getoption("rounds")
    built = answer_of(["dine_stress"], f"{HOME}/tools/build", None)
    assert built.status == 0, built.error
    runs = [(graph, *KINDS[(seed + first) % len(KINDS)], seed)
            for seed in range(rounds) for first, graph in enumerate(GRAPHS)]
    given = "".join(line_of(*it) for it in runs).encode()
    answer = answer_of(["open-runs"], program_of("dine_stress"), 300 + rounds, input=given)
    found = re.findall(r"^(\d+) \d+ \d+ \d+$", answer.output, re.M)
    assert (answer.status, len(found)) == (0, len(runs)), answer.error
    faults = collections.defaultdict(list)
    for (graph, patience, end, seed), bits in zip(runs, found):
        of_run = f"patience {patience}, {end}, seed {seed}"
        faults[graph] += [f"{of_run}: {it}" for place, it in enumerate(WRONG) if int(bits) >> place & 1]
    return faults


@pytest.mark.parametrize("graph", GRAPHS)
def test_runs(wrong, graph):
    assert not wrong[graph]
