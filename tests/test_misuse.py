"""Tries that each mutant crates/NAME/misuse/*.edit does not compile: CONTRIBUTING.md has its form. That the crates
compile as they are is seen where they are proved."""
import pytest
from lib.crates import copy_crates
from lib.files import HOME, paths, text_of, write
from lib.mutants import applied, mutant
from lib.process import answer_of

pytestmark = [pytest.mark.kit, pytest.mark.early, pytest.mark.slow, pytest.mark.timeout(1800)]


@pytest.mark.parametrize("path", [it.removeprefix("crates/") for it in paths("crates/*/misuse/*.edit")])
def test_mutant(tmp_path, path):
    crate = path.split("/")[0]
    error, _, changes = mutant(text_of(f"crates/{path}"))
    texts = applied(changes, f"{HOME}/crates/{crate}")
    copy_crates(crate, tmp_path)
    for file, text in texts.items():
        write(f"{tmp_path}/crates/{crate}/{file}", text)
    # The shortest check: it compiles, and proves no function.
    ran = answer_of(["check", "--only", ""], "rt", None, cwd=f"{tmp_path}/crates/{crate}", input=b"")
    said, at = ran.output + ran.error, tuple(f"{file}:" for file in texts)
    assert any("error" in line and error in line and line.startswith(at) for line in said.split("\n")), said
