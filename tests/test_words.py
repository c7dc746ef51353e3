"""Tries that tools/words finds a list that is old in each file that has it, and mends it, and finds a name of which a
table of the page or of docs/MODEL.md says nothing."""
import os
import re
import shutil

import pytest
from lib.files import HOME, paths, text_of
from lib.process import answer_of

pytestmark = [pytest.mark.early, pytest.mark.slow]
BREACH = "crates/dine_rules/src/breach.rt"
# What the tool reads.
READ = ["tools", "docs/*.md", "page/*.js", "bindings/c/dine.h", "bindings/rust/src", "bindings/python/dine/*.py",
        *(f"crates/dine_{it}/{folder}" for it in ("draft", "ffi", "graph", "reader", "rules", "states", "token")
          for folder in ("src", "specs"))]


@pytest.fixture
def planted(tmp_path):
    """Copies what the tool reads, with a change of one file, and returns a call of the tool there."""
    for path in (it for pattern in READ for it in paths(pattern)):
        os.makedirs(tmp_path / os.path.dirname(path), exist_ok=True)
        copy = shutil.copytree if os.path.isdir(f"{HOME}/{path}") else shutil.copy
        copy(f"{HOME}/{path}", tmp_path / path)

    def plants(path, old, new):
        text, count = re.subn(old, new, text_of(path), count=1, flags=re.M)
        assert count == 1
        (tmp_path / path).write_text(text, "utf-8")
        return lambda *words: answer_of(words, f"{tmp_path}/tools/words")

    return plants


def test_list_that_is_old(planted):
    call = planted(BREACH, "/// A letter after Close", "/// A letter behind Close")
    those = ("bindings/c/dine.h", "bindings/rust/src/lib.rs", "bindings/python/dine/_core.py", "docs/FORMAT.md")
    said = "".join(f"words: {it} has an old list: run tools/words --write\n" for it in those)
    assert call().output == f"{said}16 passed, 4 failed\n"
    assert call("--write").output == call().output == "20 passed, 0 failed\n"


@pytest.mark.parametrize(("path", "old", "new", "said"), [
    (BREACH, "^    /// A letter after Close\\.\n", "", "not each name of Breach has a comment in dine_rules"),
    ("docs/FORMAT.md", "^<!-- words causes -->\n", "", "docs/FORMAT.md has not one list with the mark 'words causes'"),
    ("page/sentences.js", "^    not_heard:.*", "", "page/sentences.js: WHY_NOT has nothing for close.not_heard"),
    ("page/sentences.js", "^  owes:", "  owed:", "page/sentences.js: WAITS has owed, which is in no list"),
    ("docs/MODEL.md", r"^\| Quit \|", "| Leave |", "docs/MODEL.md has nothing for Quit"),
])
def test_what_is_missing(planted, path, old, new, said):
    ran = planted(path, old, new)()
    assert ran.status == 1 and f"words: {said}\n" in ran.output + ran.error
