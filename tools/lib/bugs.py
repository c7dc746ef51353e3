"""The bugs that tools/schedules plants: changes of the sources, as lib.mutants has them."""
import tomllib
from typing import NamedTuple

from lib.files import text_of


class Bug(NamedTuple):
    """A bug: its changes, and what is run until it is caught, a plan, links, a manner, and for an open run how many
    tasks may wait for a site, which switches it on."""
    changes: list
    case: tuple


def bug_of(rows):
    """Returns what the tables of tools/schedules.toml for a bug say."""
    changes = [(it["file"], it["old"], it["new"]) for it in rows if "file" in it]
    head = rows[0]
    if "switch" in head:
        return Bug(changes, (head["plan"], "ring", head["manner"], head["switch"]))
    return Bug(changes, ("pair", "ring", head.get("manner", "greedy")))


BUGS = {name: bug_of(rows) for name, rows in tomllib.loads(text_of("tools/schedules.toml")).items()}
# Those of open runs, which are in one program.
OPEN_BUGS = [name for name, it in BUGS.items() if len(it.case) == 4]


def changes_of(names):
    """Returns the changes of these bugs."""
    return [change for it in names for change in BUGS[it].changes]
