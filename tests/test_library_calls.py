"""Tries what a caller of the library sees, by tests/library_calls.rt.in, which 'rt try' builds without a proof: when a
watch is told, what is counted and timed meanwhile, what a run that is cancelled prints, which jobs are called to their
next one, how the fault of a run is printed, how a value is opened twice, and how a builder refuses what is far too
large."""
import pytest
from lib.crates import add_program, copy_crates
from lib.files import text_of
from lib.unproved import answer_of_try

# The program runs once, for all tests.
pytestmark = [pytest.mark.kit, pytest.mark.early, pytest.mark.slow, pytest.mark.timeout(3000),
              pytest.mark.xdist_group("library calls")]

ONE_JOB = """hungry 0 1
begin 0 1
job 1
end 0 1 true
"""
TWO_JOBS = f"""{ONE_JOB}hungry 0 2
begin 0 2
job 2
end 0 2 false
"""
THREE_JOBS = f"""{TWO_JOBS}hungry 0 3
begin 0 3
job 3
end 0 3 true
"""
PARTS = {
    # A watch is told of the begin before the job, and of the end behind it.
    "told": THREE_JOBS,
    # The second job fails. The site is not hungry again.
    "resigns": TWO_JOBS,
    "one job": ONE_JOB,
    "no jobs": "",
    # A watch around the job of a site that the plan does not have.
    "no site": "",
    # The number of meals that each job reads, while it is not counted itself. Then two threads count a million each.
    "meals": """job 1: 0
job 2: 1
job 3: 2
at the end: 3
by two threads: 2000000
""",
    # Reading n of the clock is n * n milliseconds. Three waits take six readings, so 3, 7 and 11 milliseconds. If a
    # reading fails, which is named first, its wait is left out. If that is the first reading of a wait, there is no
    # second one: the wait that follows is from the next reading.
    "waits": """0: 3 waits, 21000000 ns, the longest 11000000 ns
1: 2 waits, 14000000 ns, the longest 9000000 ns
2: 2 waits, 18000000 ns, the longest 11000000 ns
3: 2 waits, 12000000 ns, the longest 9000000 ns
4: 2 waits, 14000000 ns, the longest 11000000 ns
5: 2 waits, 10000000 ns, the longest 7000000 ns
6: 2 waits, 10000000 ns, the longest 7000000 ns
7: 3 waits, 21000000 ns, the longest 11000000 ns
""",
    # Each job reads the clock, too: the waits are from reading 1 to 2, from 4 to 5 and from 7 to 8.
    "waits between jobs that take long": "3 waits, 27000000 ns, the longest 15000000 ns\n",
    # Of a clock that stands. A wait counts also if the site begins at once.
    "waits of no time": "3 waits, 0 ns, the longest 0 ns\n",
    # No watch is told that the site is hungry for the first job of the second run. So that wait is left out, and the
    # others are from reading 7 to 8 and from 9 to 10.
    "waits of two runs": """3 waits, 21000000 ns, the longest 11000000 ns
5 waits, 55000000 ns, the longest 19000000 ns
""",
    # Nothing is printed before the run, when the site is hungry for its first job. Job 2 fails, and job 3 sets the
    # flag, after which none is run.
    "cancelled": """the run begins
alone begins 1
job 1, cancelled: false
alone ends 1
alone begins 2
job 2, cancelled: false
alone fails 2
alone begins 3
job 3, cancelled: false
alone ends 3
alone begins 4
alone fails 4
alone begins 5
alone fails 5
failure 2: the job failed
failure 4: cancelled
failure 5: cancelled
cancelled: true, true
set again: true
""",
    # Job 1 sets the flag. The site resigns when job 2 is refused.
    "cancelled, resigns": """the run begins
alone begins 1
job 1, cancelled: false
alone ends 1
alone begins 2
alone fails 2
failure 2: cancelled
cancelled: true, true
set again: true
""",
    # Job 2 sets the flag, and fails for a reason of its own, which is not lost.
    "cancelled, fails": """the run begins
alone begins 1
job 1, cancelled: false
alone ends 1
alone begins 2
job 2, cancelled: false
alone fails 2
alone begins 3
alone fails 3
alone begins 4
alone fails 4
alone begins 5
alone fails 5
failure 2: the job failed
failure 3: cancelled
failure 4: cancelled
failure 5: cancelled
cancelled: true, true
set again: true
""",
    # A job around another one is called if that is, also once the flag is set: else the site would wait for ever and
    # not learn that it is cancelled.
    "called": """true: watched true, cancellable true, cancelled true
false: watched false, cancellable false, cancelled false
""",
    # The words of a fault, and its debug output.
    "fault": "run refused: jobs given 0, wanted 1: JobsDiffer { given: 0, sites: 1 }\n",
    # A value that is open is not opened again, and what was refused so is counted.
    "opened": """job 1: true, again: false
job 2: true, again: false
found open: 2
""",
    # 10,000 sites; all 2,016 pairs of 64 sites; and then 10,000 edges between sites that the first edge joins.
    "built": """9 TooManySites
15 TooManyEdges
14 EdgeTwice at edge 2016
""",
}


@pytest.fixture(scope="module")
def printed(tmp_path_factory):
    """Returns what the program prints of each part."""
    folder = tmp_path_factory.mktemp("calls")
    copy_crates("dine_run", folder)
    line = "may_wait=1: dine_run anyhow"
    crate = add_program("library_calls", line, text_of("tests/library_calls.rt.in"), folder)
    ran = answer_of_try(["--seconds", "600"], crate)
    assert ran.status == 0, ran.error
    # After the output of the program, rt says how it ended.
    parts = ("\n" + ran.output.partition("checked: ")[0]).split("\n# ")[1:]
    return dict(part.partition("\n")[::2] for part in parts)


def test_parts(printed):
    assert list(printed) == list(PARTS)


@pytest.mark.parametrize("part", PARTS)
def test_part(printed, part):
    assert printed[part].rstrip("\n") == PARTS[part].rstrip("\n")
