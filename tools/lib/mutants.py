"""Changes of the sources, as the mutants of misuse/ and mutants/ are. A change has a file, a text that is in it once,
and what is put in its place."""
import re
from typing import NamedTuple

from lib.files import text_of

# What the compiler's error must contain, in misuse/, or the functions whose proofs fail, where a mutant in mutants/
# changes a definition or a proof, and then the pairs for each file.
PAIRS = r"file: *(\S+) *\n((?:old: .+\nnew:.*\n)+)"
MUTANT = re.compile(rf"(?:(refused|fails): *(\S.*?) *\n)?((?:{PAIRS})+)")


class Edit(NamedTuple):
    """A mutant: the text that the compiler's error must contain, the paths of the functions that are said to fail, and
    the changes."""
    refused: str
    fails: list
    changes: list


def mutant(text):
    """Returns what the text of a mutant says."""
    found = MUTANT.fullmatch(text.rstrip("\n") + "\n")
    if not found:
        raise ValueError("it is not a line 'refused:' or 'fails:', if any, and then for each file pairs of texts")
    changes = [(file, *pair) for file, pairs in re.findall(PAIRS, found[3])
               for pair in re.findall(r"old: (.+)\nnew: ?(.*)\n", pairs)]
    word, said = found[1], found[2] or ""
    return Edit(said if word == "refused" else "", said.split() if word == "fails" else [], changes)


def applied(changes, folder):
    """Returns the texts of the files that are changed, by their paths there, each change after those before."""
    texts = {}
    for file, old, new in changes:
        text = texts.get(file) or text_of(f"{folder}/{file}")
        if text.count(old) != 1:
            raise ValueError(f"this is {text.count(old)} times in {folder}/{file}, and not once: {old!r}")
        texts[file] = text.replace(old, new)
    return texts
