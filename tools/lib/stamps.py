"""Says whether a program was built from the sources as they are now. What counts is what the sources contain, and not
their times.

Of the programs that come with the repository tools/made says it. Beside a program that was built here there are two
files. NAME.made has a sum of the sources that it was built from and of the program itself. NAME.seen has the output of
tools/lib/file_times at the last time when the two were compared: as long as that prints the same, nothing was touched
since then, and ./dine need not read the sources again."""
import hashlib
import os
import shutil
import subprocess
import sys
from pathlib import Path

from lib.crates import crates, with_those_below
from lib.files import HOME, replace_file, sum_of

# The files of programs/, by the crates that they are made of.
COMMITTED = {"dine_cli": "dine", "dine_trace": "dine_trace", "dine_ffi": "libdine.a"}


def sum_of_sources(name):
    """Returns a sum of the sources of a crate and of all crates below it, with their lines in crates.txt."""
    whole, known = hashlib.sha256(), crates()
    for crate in sorted(with_those_below(name, known)):
        whole.update(f"{known[crate].strip()}\n".encode())
        for part in ("src", "specs", "proofs"):
            for at, folders, names in os.walk(f"{HOME}/crates/{crate}/{part}"):
                folders.sort()
                for path in (f"{at}/{it}" for it in sorted(names)):
                    whole.update(f"{path[len(HOME):]} {sum_of(path)}\n".encode())
    return whole.hexdigest()


def is_current(name, program):
    """Returns whether a program is there and was built from the sources as they are. Notes that for ./dine."""
    noted, words = Path(f"{program}.made"), [f"{HOME}/tools/lib/file_times", os.path.relpath(program, HOME)]
    if not noted.is_file() or not os.access(program, os.R_OK if program.endswith(".a") else os.X_OK):
        return False
    # What file_times prints is from before the sources are read, so a change that is made meanwhile is seen.
    seen = subprocess.run(words, capture_output=True, text=True, check=False).stdout
    if noted.read_text("utf-8") != f"{sum_of_sources(name)} {sum_of(program)}\n":
        return False
    replace_file(f"{program}.seen", seen)
    return True


def note(name, program, sources):
    """Notes that a program was built from sources with this sum."""
    replace_file(f"{program}.made", f"{sources} {sum_of(program)}\n")
    is_current(name, program)


class Stale(Exception):
    """The file of programs/ can't be used, and none can be built: the line says why, and what to do."""


def committed(crate):
    """Returns the path of the file of programs/ that was made of a crate, as ./dine takes it: if it was made of the
    sources as they are, or if DINE_COMMITTED is 1. Returns None if one has to be built."""
    if os.environ.get("DINE_PROVE") == "1":
        return None
    name = COMMITTED[crate]
    asked = subprocess.run([f"{HOME}/tools/made", name], capture_output=True, text=True, check=False)
    line, is_wanted = asked.stdout.strip(), os.environ.get("DINE_COMMITTED") == "1"
    if asked.returncode == 1 and is_wanted:
        print(f"dine: {line}, and DINE_COMMITTED is 1: so this is the one from before", file=sys.stderr, flush=True)
    elif asked.returncode == 1 and not shutil.which("rt"):
        raise Stale(f"{line}, and there is no rt to build it: DINE_COMMITTED=1 takes the one from before")
    elif asked.returncode in (2, 3):
        raise Stale(line)
    return f"{HOME}/programs/{name}" if asked.returncode == 0 or asked.returncode == 1 and is_wanted else None
