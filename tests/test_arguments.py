"""Tries the arguments of tests/words/. Refused ones end with status 2 and the usage line. Those that are taken print
what their plain form prints, which is behind '=>'."""
import shlex
import time

import pytest
from calls import dine, lists
from lib.files import text_of
from lib.process import Answer

pytestmark = pytest.mark.built("dine_cli")
USAGE = "dine [run [--table edges|sites] [--links channel|ring] | replay [--choices LIST] | check]"
PLAN = text_of("plans/pair.toml").encode()


@pytest.mark.parametrize("line", [*lists("refused"), b"check\xff"])
def test_refused(line):
    words = [line] if isinstance(line, bytes) else shlex.split(line)
    assert dine(*words, input=PLAN) == Answer(2, "", f"dine: usage: {USAGE}\n")


@pytest.mark.parametrize("line", lists("taken"))
def test_taken(line):
    words, _, plain = line.partition("=> ")
    wanted = dine(*plain.split(), input=PLAN)
    assert dine(*shlex.split(words), input=PLAN) == wanted and wanted.status == 0


def test_turns_take_time():
    """A site with 200 jobs of many turns takes longer than one whose jobs have none."""
    def seconds(turns):
        jobs = f'{{ name = "x", turns = {turns} }}, ' * 200
        start = time.monotonic()
        dine("run", input=f'version = 1\n[[site]]\nname = "a"\njobs = [{jobs}]\n'.encode())
        return time.monotonic() - start

    assert min(seconds(1_000_000) for _ in range(3)) > 3 * min(seconds(0) for _ in range(3))
