"""The crates of crates.txt: what is below each, their programs, copies of them, and rt's own library, by which
tools/build, tools/wasm and tools/mutants build and check them."""
import os
import shutil
import sys

from lib.files import HOME, text_of, write


def crates():
    """Returns the lines of crates.txt, by crate."""
    lines = [line.partition("#")[0] for line in text_of("crates.txt").split("\n")]
    return {line.split(":")[0].split()[0]: line for line in lines if ":" in line}


def programs():
    """Returns the names of the crates that are programs."""
    return [it for it in crates() if os.path.isfile(f"{HOME}/crates/{it}/src/main.rt")]


def program_of(crate, is_unproved=False):
    """Returns the path of a crate's program, or of the one that is built without proof."""
    return f"{HOME}/crates/{crate}/out/{'unproved/' if is_unproved else ''}{crate}"


def with_those_below(name, known):
    """Returns the names of a crate and of all crates below it."""
    lower = [it for it in known[name].split(":")[1].split() if it in known]
    return {name}.union(*(with_those_below(it, known) for it in lower))


def copy_crates(names, folder):
    """Copies crates, whose names have spaces between them, and those below into a folder, as a repository."""
    known = crates()
    copied = set().union(*(with_those_below(name, known) for name in names.split()))
    for it in copied:
        shutil.copytree(f"{HOME}/crates/{it}", f"{folder}/crates/{it}", ignore=shutil.ignore_patterns("out"))
    write(f"{folder}/crates.txt", "".join(f"{line}\n" for it, line in known.items() if it in copied))
    shutil.copy(f"{HOME}/HANDLES", folder)


def add_program(name, line, source, folder):
    """Adds a crate with a program, and its line in crates.txt, to a repository of copy_crates. Returns its folder."""
    crate = os.path.join(folder, "crates", name)
    os.makedirs(os.path.join(crate, "src"))
    write(f"{crate}/src/main.rt", source)
    write(f"{folder}/crates.txt", text_of(f"{folder}/crates.txt") + f"{name} {line}\n")
    return crate


def library_of_rt():
    """Returns rt's own library, which promises no interface."""
    sys.dont_write_bytecode = True
    sys.path.append(os.path.dirname(os.path.realpath(shutil.which("rt"))))
    import rtlib
    if "--statements" not in rtlib.help_of("build"):
        raise ValueError("rattle build does not take --statements")
    return rtlib
