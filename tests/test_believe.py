"""Tries that tools/believe finds a clause that cannot be unfolded and a row that is missing, that its export has each
definition once and no link that leads nowhere, and that tools/pages finds and mends a link whose line has moved, and
finds a call in a README that the sources do not have."""
import os
import re
import shutil

import pytest
from lib.files import HOME, paths, text_of
from lib.process import answer_of

pytestmark = pytest.mark.early
GUIDE, HEADLINE = "docs/DEFINITIONS.md", "crates/dine_threads/specs/Headline.antt"
JOINED, RUN = "crates/dine_rules/specs/JoinedEnds.antt", "crates/dine_threads/src/threads.rt"
CALL, NO_LINE = "crates/dine_world/README.md", "no file that is linked above a fence has its line "
# What the two tools read.
READ = ["tools", "*.md", "*/*.md", "crates/*/README.md", "crates/*/src", "crates/*/specs"]


@pytest.fixture
def planted(tmp_path):
    """Copies what the tools read, with a change of one file, and returns a call of a tool there."""
    for path in (it for pattern in READ for it in paths(pattern)):
        os.makedirs(tmp_path / os.path.dirname(path), exist_ok=True)
        copy = shutil.copytree if os.path.isdir(f"{HOME}/{path}") else shutil.copy
        copy(f"{HOME}/{path}", tmp_path / path)

    def plants(*changes):
        for path, old, new in changes:
            text, count = re.subn(old, new, (tmp_path / path).read_text("utf-8"), count=1, flags=re.M)
            assert count == 1
            (tmp_path / path).write_text(text, "utf-8")
        return lambda *words: answer_of(words[1:], f"{tmp_path}/tools/{words[0]}")

    return plants


def unsaid(planted, tool, faults):
    """Plants these faults, and returns what a tool, which has to fail, says of none of them."""
    ran = planted(*(it[:3] for it in faults))(tool)
    assert ran.status == 1
    return [said for *_, said in faults if f"{tool}: {said}" not in ran.output]


# Changes of a file, by what is there and what takes its place, and what tools/believe says of each. Those of a list are
# planted together.
FAULTS = [
    [
        (HEADLINE, r"^(    pub )all_taken :", r"\1planted : IsPlanted plan\n\g<0>",
         f"names: {HEADLINE}: IsHeadline uses IsPlanted, which has no definition"),
        (JOINED, "record IsWholeLog ", "record IsHalfLog ",
         f"names: {HEADLINE}: IsTheFork uses IsWholeLog, which has no definition in Rattle.dine_rules.specs."
         "JoinedEnds"),
        (HEADLINE, "pub in_hand :", "pub held :", f"clauses: docs/PROVED.md: {HEADLINE} has no IsTheFork in_hand"),
        (GUIDE, "`IsHeadline`", "`IsHedline`", f"clauses: {GUIDE}: {HEADLINE} has no IsHedline"),
        (GUIDE, r"\[`IsAcyclic`\]\(.*?\)", "", f"rows: {GUIDE} has no row for IsAcyclic "),
        (GUIDE, "`is_utf8`", "", f"names: {GUIDE} does not explain is_utf8, which "),
        (RUN, "^    ensures ok .*", r"\g<0>\n    ensures planted { IsTrue true }",
         "prose: docs/BELIEVE.md does not explain the clause `planted` of run"),
    ],
    [(RUN, "ensures ok ", "ensures ", "clauses: a clause of run has no name: ensures { IfOk result (IsRun")],
]


@pytest.mark.slow
@pytest.mark.parametrize("faults", FAULTS, ids=["many", "clause without a name"])
def test_planted_faults(planted, faults):
    assert unsaid(planted, "believe", faults) == []


@pytest.mark.slow
def test_line_that_moved(planted):
    """It is found, also in what BELIEVE.md shows, and both are mended."""
    call = planted((HEADLINE, "^use", "\n\\g<0>"))
    line = 1 + text_of(HEADLINE).split("pub record IsHeadline ")[0].count("\n")
    moved = f"IsHeadline of {HEADLINE} is line {line + 1}; tools/pages --write mends it"
    assert f"#L{line})" in text_of(GUIDE) and f"pages: {GUIDE}: {moved}" in call("pages").output
    assert f'{HEADLINE}#L{line + 1}">IsHeadline' in call("believe").output
    assert "mends it" not in call("pages", "--write").output and call("believe", "--write").status == 0


# The same for the two fences of a call in a README, and for tools/pages.
CALLS = {
    "sources": [
        ("crates/dine_site_thread_tests/src/journals.rt", r"world\.step\(\*event\)", "world.step(event)",
         f"{CALL}: {NO_LINE}'        same(rt, &world.step(*event), &Ok(()));'"),
        ("crates/dine_world/src/world.rt", "^    pub fn step", r"\g<0>s", f"{CALL}: {NO_LINE}'pub fn step("),
    ],
    "README": [
        (CALL, "^    for event", "  for event", f"{CALL}: {NO_LINE}'  for event in events {{'"),
        (CALL, r"\]\(src/world\.rt\) has", "](src/lib.rt) has", f"{CALL}: {NO_LINE}'/// Does the event.'"),
    ],
    "heading": [
        (CALL, "^## A call$", "## Calls",
         f"{CALL}: it shows no call with its contract, in two fences below '## A call'"),
    ],
}


@pytest.mark.slow
@pytest.mark.parametrize("faults", CALLS.values(), ids=CALLS)
def test_calls_that_are_not_in_the_source(planted, faults):
    assert unsaid(planted, "pages", faults) == []


@pytest.mark.slow
def test_export(tmp_path):
    ran, page = answer_of(["--export", f"{tmp_path}/page.html"], f"{HOME}/tools/believe"), tmp_path / "page.html"
    assert (ran.status, ran.error) == (0, "") and ran.output.endswith("page.html\n")
    text = page.read_text("utf-8")
    ids, links = re.findall(r'id="([^"]+)"', text), re.findall(r'href="([^"]+)"', text)
    assert len(ids) == len(set(ids)) and {it[1:] for it in links if it[0] == "#"} <= set(ids)
    files = {it.partition("#")[0] for it in links if it[0] != "#"}
    assert files and [it for it in files if not os.path.isfile(f"{tmp_path}/{it}")] == []
    shown = re.findall(r'<h3 id="\w+">(\w+)</h3>', text)
    rows = re.findall(r"\[`(\w+)`\]\(\.\./crates/", text_of(GUIDE))
    assert len(rows) > 300 and set(rows) <= set(shown) and {"run", "order", "KeepsStreamsAt"} <= set(shown)


@pytest.mark.slow
def test_citations_across_crates(planted):
    """tools/pages finds each with its line, and no other one."""
    changes = [
        (HEADLINE, "^use", "use Rattle.dine_rules.proofs.links.Coming.{any}\n\\g<0>", "links.Coming of dine_rules"),
        ("crates/dine_site/src/site/marked.rt", "dine_set::proofs::shared::", "dine_set::proofs::",
         "MarksOf.marks_laws of dine_set"),
    ]
    said, output = "which is not in its proofs/shared/", planted(*(it[:3] for it in changes))("pages").output
    for path, old, _, cited in changes:
        line = 1 + re.split(old, text_of(path), maxsplit=1, flags=re.M)[0].count("\n")
        assert f"pages: {path}:{line}: cites {cited}, {said}\n" in output
    assert output.count(said) == len(changes)


def test_export_that_cannot_be_written():
    ran = answer_of(["--export", "/no/such/folder/page.html"], f"{HOME}/tools/believe")
    assert (ran.status, ran.output) == (1, "")
    assert ran.error == "believe: /no/such/folder/page.html: No such file or directory\n"
