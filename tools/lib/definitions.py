"""The definitions in crates/*/specs, the types that code declares and the contracts of its functions: their names,
comments and texts, and what each of them uses.

A definition begins at the margin, or at that of a `module _` block, with its name after `abbrev`, `unfoldable`,
`record`, `data` or `pub`, or with a name and a colon. It has the lines below it that are further from the margin, and
the equations that follow it."""
import re
import textwrap
from dataclasses import dataclass
from functools import cache

from lib.files import paths, text_of

# Comments, and the line below them with all lines that belong to it.
ITEM = re.compile(r"((?:^--.*\n)*)(^(?!--)\S.*(?:\n+(?:[ })].*))*)", re.M)
START = re.compile(r"((?:(?:abbrev|unfoldable|pub|record|data) )*)(\S+)( :)?")
HIDDEN = re.compile(r"^( *)(?:(?:abbrev|unfoldable|pub(?:\([a-z]+\))?) )*")
USE = re.compile(r"^(?:pub |ghost )?use (\S+?)(?:\.\{(.*?)\}| as (\w+))", re.M | re.S)
# A module of another crate that a Lib.antt has too.
REEXPORT = re.compile(r"^pub use (\S+\.(\w+))$", re.M)
CASE = re.compile(r"^\s+(\w+)", re.M)
# A name, with what is behind its dot if it has one. A small name before `=` is that of a field, or of a value that
# `let` names.
NAME = re.compile(r"(?<![\w.])([A-Z]\w*|[a-z_]\w*\b(?! = ))(?:\.(\w+))?")
TEXT = re.compile(r'"[^"]*"')
# What begins a line and names nothing that is used: a comment, or the name of a field, a case or a function.
NO_USE = re.compile(r"\s*(?:--|//).*|\s+(?:ghost )?\w+(?= ?:)|fn \w+")


@dataclass(eq=False)
class Definition:
    """A definition, a type of the code, or the contract of a function: its lines are as a page shows them, and `uses`
    has for each name in them the module and the name there, or None if it stands for the module."""
    file: str
    name: str
    comment: list
    lines: list
    uses: dict
    is_code: bool = True
    number: int = 0
    is_contract: bool = False

    def names(self):
        """Yields each line with the names in it, without those of fields."""
        for line in self.lines:
            begins, text = NO_USE.match(line), TEXT.sub(lambda it: " " * len(it[0]), line)
            yield line, [*NAME.finditer(text, begins.end() if begins else 0)]


class Module:
    """A file of specs: its definitions by name, what each name in it means to others, what it uses and re-exports."""

    def __init__(self, file):
        crate, rest = re.fullmatch(r"crates/(\w+)/specs/(.*)\.antt", file).groups()
        self.file, self.name, text = file, f"Rattle.{crate}.specs.{rest.replace('/', '.')}", text_of(file)
        self.definitions, self.meanings, self.uses, self.strange = {}, {}, uses_of(text), []
        self.reexports = {name: module for module, name in REEXPORT.findall(text)}
        self.read(text)
        for one in self.definitions.values():
            cases = CASE.findall("\n".join(one.lines[1:])) if any("data " in it for it in one.lines[:2]) else []
            self.meanings |= {it: one for it in cases}
        self.meanings |= self.definitions
        self.uses |= {name: (self.name, name) for name in self.definitions}

    def read(self, text, first=1, block=()):
        """Reads a text that begins at this line: that of the file, or of a block."""
        now = None
        for found in ITEM.finditer(text):
            above, (begin, *more) = found[1].splitlines(), [line for line in found[2].split("\n") if line]
            number, name = first + text.count("\n", 0, found.start(2)), START.match(begin)
            if begin.startswith(("module ", "use ", "pub use ", "pub mod ")):
                now = None
                if begin.startswith("module "):
                    self.read(textwrap.dedent(found[2].partition("\n")[2]), number + 1, (begin,))
            elif name[1] or name[3]:
                comment, above = [it[2:].strip() for it in above], []
                now = Definition(self.file, name[2], comment, [*block], self.uses, False, number)
                self.definitions[now.name] = now
            elif not now or not begin.startswith((f"{now.name} ", "unfolding ")):
                self.strange.append(f"{self.file}:{number}: no definition and no part of one: {begin}")
            if now:
                now.lines += ["  " * len(block) + HIDDEN.sub(r"\1", line) for line in (*above, begin, *more)]


def uses_of(text):
    """What a file uses: for each name the module and the name there, or None if it stands for the module."""
    uses = {}
    for module, names, alias in USE.findall(text):
        pairs = (one.strip().partition(" as ") for one in names.split(","))
        uses |= {alias: (module, None)} if alias else {other or name: (module, name) for name, _, other in pairs}
    return uses


def comment_of(lines):
    return [line.strip().removeprefix("///").strip() for line in lines.splitlines()]


@cache
def type_of(file, name):
    """A type or a constant of the code, as its file declares it, without attributes of fields, or None if there is none
    of this name. Of a trait only the ghost members count."""
    above = r"((?:^///[^\n]*\n)*)(?:^#\[[^\n]*\n)*"
    it = rf"((?:enum|struct|trait) {name}\b.*?^\}}|(?:type|const) {name}\b[^;]*;)"
    text = text_of(file)
    found = re.search(rf"{above}^pub(?:\([a-z]+\))? {it}", text, re.S | re.M)
    if not found:
        return None
    lines = found[2].split("\n")
    if lines[0].startswith("trait "):
        ghosts = re.findall(r"(?:^ +// .*\n)*^ +ghost \w+:.*\n", found[2], re.M)
        lines = [lines[0], *"".join(ghosts).splitlines(), "}"]
    lines = [HIDDEN.sub(r"\1", line) for line in lines if not line.strip().startswith("#[")]
    number = text.count("\n", 0, found.start(2)) + 1
    return Definition(file, name, comment_of(found[1]), lines, uses_of(text), number=number)


def declared(module, name):
    """The type of a crate's code that a module of specs stands for, or the constant of this name if it has those of a
    file; or None."""
    crate, path, kind = re.fullmatch(r"Rattle\.(\w+)\.specs\.declared\.(.*)\.(\w+)", module).groups()
    return type_of(f"crates/{crate}/src/{path.replace('.', '/')}.rt", name if kind == "TheConstants" else kind)


@cache
def contract_of(file, name):
    """The contract of a function, with the breaks that its file has, or None if the file has no such function. Only a
    call of a trait, or of a type, which has a margin, is shown with its signature."""
    above, begin = r"((?:^ *///[^\n]*\n)*)(?:^ *#\[[^\n]*\n)*", rf"^( *)(?:pub )?(?:extern \"C\" )?(fn {name}[<(].*?)"
    text = text_of(file)
    found = re.search(rf"{above}{begin}(?:;\n|\n\2\{{)", text, re.S | re.M)
    if not found:
        return None
    margin = found[2]
    signature, *clauses = re.split(rf"\n{margin}    (?=(?:requires|ensures)\b)", found[3])
    lines = "\n".join(clauses).replace(f"\n{margin}    ", "\n").split("\n")
    if margin:
        signature = re.sub(r"\( (.*?),? \)", r"(\1)", re.sub(r"\s*\n\s*", " ", signature))
        lines = [signature, *("  " + line for line in lines)]
    number = text.count("\n", 0, found.start(3)) + 1
    return Definition(file, name, comment_of(found[1]), lines, uses_of(text), number=number, is_contract=True)


def all_modules():
    return {module.name: module for module in map(Module, paths("crates/*/specs/**/*.antt"))}


def module_of(modules, source):
    """The module of this name, which may be of another crate, or None."""
    crate, _, name = source.rpartition(".")
    if source not in modules and f"{crate}.Lib" in modules:
        return modules.get(modules[f"{crate}.Lib"].reexports.get(name))
    return modules.get(source)


def meant(modules, one, word, behind):
    """The definition that a name in a definition means, or None. `behind` is what is behind its dot."""
    source, name = one.uses.get(word, ("", ""))
    if ".declared." in source:
        return declared(source.removesuffix(".TheVariants"), name) if source.startswith("Rattle.dine") else None
    module = module_of(modules, source)
    return module.meanings.get(behind if name is None else name) if module else None


def used_by(modules, one):
    """What a definition or a contract uses, in order."""
    own = None if one.is_contract else one.name
    names = [found.groups() for _, names in one.names() for found in names]
    found = dict.fromkeys(meant(modules, one, *it) for it in names if it[0] != own)
    return [it for it in found if it]


def needed_by(modules, roots, known=()):
    """The roots and all that they need, without what is known, in order of use. A type of the code needs nothing."""
    found, left = {}, list(roots)
    while left:
        one = left.pop(0)
        if one not in found and one not in known:
            found[one] = True
            left[:0] = [] if one.is_code and not one.is_contract else used_by(modules, one)
    return [*found]
