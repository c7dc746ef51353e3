"""Does many small runs on threads over both kinds of links, and tries that each ends, and ends well.

A quarter of the runs has eager sites, one has greedy ones, one polite ones, and one sites of a patience of three meals.
Half of the runs have four threads beside them that only count. tests/many_runs.rt.in, built by 'rt try', says what a
run has to leave. After a change to threads, links or bells pytest --rounds 100 does 4,000."""
import collections
import itertools
import random
import re

import pytest
from lib.crates import add_program, copy_crates
from lib.files import text_of
from lib.graphs import graph_of, plan_of
from lib.unproved import answer_of_try

# All runs are done by one process, for all tests.
pytestmark = [pytest.mark.kit, pytest.mark.slow, pytest.mark.xdist_group("many runs")]
# Plans whose sites have the same number of jobs: the graph, and that number.
ALIKE = [("path:2", 1), ("path:2", 12), ("path:3", 2), ("ring:3", 4), ("ring:5", 2), ("star:8", 3), ("complete:6", 3),
         ("grid:3x3", 3)]


def chance(seed):
    """Returns the plan of a random graph with random jobs, the same for the same seed."""
    dice = random.Random(seed)
    sites = dice.randint(2, 10)
    edges = [it for it in itertools.combinations(range(sites), 2) if dice.randrange(3) == 0]
    return plan_of([dice.randint(0, 6) for _ in range(sites)], edges)


PLANS = {"path:2, one-sided": plan_of([0, 5], [(0, 1)]), "8 apart": plan_of([2] * 8, [])}
PLANS |= {f"{name}, {jobs} jobs": plan_of([jobs] * sites, edges)
          for name, jobs in ALIKE for sites, edges in [graph_of(name)]}
PLANS |= {f"random {seed}": chance(seed) for seed in range(10)}
# The manners of sites: a number is a patience, and sites of patience 1 are polite.
MANNERS = ["eager", "greedy", "1", "3"]
NAMED = list(itertools.product(("channel", "ring"), PLANS))


@pytest.fixture(scope="module")
def wrong(tmp_path_factory, request):
    """Runs each plan over each kind of links once in each round. Returns how many of these runs were wrong."""
    rounds, folder = request.config.getoption("rounds"), tmp_path_factory.mktemp("runs")
    copy_crates("dine_plan dine_run", folder)
    crate = add_program("many_runs", "may_wait=6: dine_plan dine_run anyhow", text_of("tests/many_runs.rt.in"), folder)
    runs = [(("quiet", "busy")[turn % 2], MANNERS[turn // 2 % 4], *named)
            for first in range(rounds) for turn, named in enumerate(NAMED, first)]
    # The threads that count begin before the first busy run, and stay.
    runs.sort(key=lambda it: it[0] == "busy")
    given = b"---\n".join(f"{links} 1 {kind} {manner}\n".encode() + PLANS[name] for kind, manner, links, name in runs)
    answer = answer_of_try(["--seconds", str(300 + 8 * rounds)], crate, given)
    found = re.findall(r"^(\d+) \d+ \d+$", answer.output, re.M)
    assert (answer.status, len(found)) == (0, len(runs)), answer.error
    counts = collections.Counter()
    for (*_, links, name), is_wrong in zip(runs, found):
        counts[links, name] += int(is_wrong)
    return counts


@pytest.mark.parametrize("named", NAMED, ids=" ".join)
def test_runs(wrong, named):
    assert wrong[named] == 0
