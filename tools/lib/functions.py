"""The functions of a source, as a check of rattle names them."""
import functools
import os
import re
from pathlib import Path
from typing import NamedTuple

from lib.files import text_of

FUNCTION = re.compile(r"( *)(?:pub(?:\([a-z]+\))? )?(?:const |unsafe |extern \"C\" )*fn (\w+)")
# Behind the parameters of an impl: the trait and its arguments, if any, and the type.
IMPL = re.compile(r"(?:(?:\w+::)*(\w+)(.*) for )?&?(?:mut )?(?:\w+::)*(\w+)")
TYPE = re.compile(r"^(?:pub(?:\([a-z]+\))? )?(?:struct|enum) (\w+)", re.M)


class Function(NamedTuple):
    """A function as a check names it: its crate and modules, the type and the trait of its impl, and its name."""
    modules: tuple
    owner: str
    name: str

    def path(self):
        """Returns its path below the crate."""
        return "::".join(filter(None, [*self.modules[1:], self.owner, self.name]))

    def is_named(self, path):
        """Returns whether a path of a check names this function, or a closure in it."""
        names = [it for it in path.split("::") if it != "fn"]
        wanted = [*self.modules, *filter(None, [self.owner, self.name])]
        return names[: len(wanted)] == wanted


def modules_of(name, file):
    path = file.removeprefix("src/").removesuffix(".rt").removesuffix("/mod")
    return (name, *(it for it in path.split("/") if it not in ("lib", "main")))


@functools.cache
def types_of(name, folder):
    """Returns the modules of each type of a crate, by its name."""
    files = [os.path.relpath(it, folder) for it in sorted(Path(folder, "src").rglob("*.rt"))]
    return {it: modules_of(name, file) for file in files for it in TYPE.findall(text_of(f"{folder}/{file}"))}


def owner_of(crate, file, head):
    """Returns the modules and the owner that a check names of a function in a file, below this head of an impl."""
    modules, end, depth = modules_of(crate.name, file), len("impl"), 0
    if not head:
        return modules, ""
    while head[end] == "<" or depth:
        depth, end = depth + {"<": 1, ">": -1}.get(head[end], 0), end + 1
    trait, arguments, kind = IMPL.match(head[end:].strip()).groups("")
    if not trait:
        return types_of(crate.name, crate.folder).get(kind, modules), kind
    # Of the arguments of a trait it has those that are no parameters of the impl.
    parameters = re.findall(r"\w+", head[:end])
    words = [it for it in re.findall(r"&|\b[A-Z]\w*", arguments) if it not in parameters]
    return modules, "".join([kind, trait, *words]).replace("&", "Ref")


def functions(crate, file, text):
    """Returns for each line of a file the function that it is of, or None, and whether it is in the body, by the layout
    of `rt fmt`."""
    found, head, margin, at, is_inside = [], "", "", None, False
    for line in text.split("\n"):
        if is_inside and line == f"{margin}}}":
            at, is_inside = None, False
        if not is_inside:
            # The head of an impl ends with a brace, maybe some lines below.
            if line.startswith("impl") or head and not head.endswith("{"):
                head += line
            if line == "}" or head.endswith("{}"):
                head = ""
            if it := FUNCTION.match(line):
                margin, at = it[1], Function(*owner_of(crate, file, head), it[2])
        found.append((at, is_inside))
        # A clause of the contract is farther to the right.
        if at and not is_inside and re.match(rf"{margin}\S", line):
            is_inside = line.endswith("{")
            if line.endswith((";", "}")):
                at = None
    return found
