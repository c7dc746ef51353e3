"""Tries what ./dine explain prints: of the plans of tests/refused/ it is in tests/explained.txt, which pytest --write
writes anew. Of slips in a plan it is in the table below."""
import re
from pathlib import Path

import pytest
from calls import REFUSED, dine, stored_texts
from features.explain import explained
from lib.files import HOME, paths
from lib.process import answer_of

pytestmark = pytest.mark.built("dine_cli")
TEXTS = [pytest.param(text, line, id=f"{name}: {line}") for name, line, text in stored_texts()
         if line.startswith(REFUSED) and "NoSite" not in line]
# The head of a plan, its first three lines.
HEAD = 'version = 1\n[[site]]\nname = "a"\n'
# Slips: a text, and which line and column ./dine explain names, what it marks there, and what it says of it.
SLIPS = {
    "strange array": (HEAD + '[[edges]]\nends = ["a", "b"]\n', "4:1", "[[edges]]", 'did you mean "edge"?'),
    "second of two arrays": (HEAD + '[[sites]]\nname = "b"\n', "4:1", "[[sites]]", 'did you mean "site"?'),
    "capital letter": (HEAD + '[[Edge]]\nends = ["a", "b"]\n', "4:1", "[[Edge]]", 'did you mean "edge"?'),
    "jobs of their own": (HEAD + '[[job]]\nname = "x"\n', "4:1", "[[job]]",
                          'jobs are written in their site: jobs = [{ name = "x" }]'),
    "version misspelled": ('# One.\nVresion = 1\n[[site]]\nname = "a"\n', "2:1", "Vresion", 'did you mean "version"?'),
    "version too late": ('[[site]]\nname = "a"\nversion = 1\n', "3:1", "version",
                         "this has to stand above the first header"),
    "no value": ('version = # one\n[[site]]\nname = "a"\n', "1:11", "#", "a value is missing here"),
    "strange value": ('version = 1\n[[site]]\nname = %a # one\n', "3:8", "%a", "this is no value"),
    "key missing": (HEAD + 'jobs = [{ name = "x", , turns = 3 }]\n', "4:23", ",",
                    "a key has to begin here, with a letter, a digit, _ or -"),
    "strange key": ('version = 1\n[[site]]\n+name = "a"\n', "3:1", "+",
                    "a key has to begin here, with a letter, a digit, _ or -"),
    "two signs": ('version == 1\n', "1:10", "=", "one = is enough"),
    "capital truth": (HEAD + 'jobs = [{ name = "x", fails = True }]\n', "4:31", "True", "write true"),
    "word for a truth": (HEAD + 'jobs = [{ name = "x", fails = no }]\n', "4:31", "no", "write false"),
    "no quotes": ("version = 1\n[[site]]\nname = a-1\n", "3:8", "a-1", 'a text is in quotes: "a-1"'),
    "printed quotes": ("version = 1\n[[site]]\nname = “a”\n", "3:8", "“a”", 'write the quotes as "'),
    "quote missing": ('version = 1\n[[site]]\nname = "a\njobs = []\n', "3:10", "",
                      "the quote that ends this text is missing"),
    "array open at the end": (HEAD + 'jobs = [\n  { name = "x" },\n\n', "4:8", "[",
                              "the ] that closes this is missing"),
    "array open at a header": (HEAD + 'jobs = [{ name = "]" }, # [\n[[site]]\nname = "b"\n', "4:8", "[",
                               "the ] that closes this is missing"),
    "table open at the end": (HEAD + 'jobs = [{ name = "x"', "4:9", "{", "the } that closes this is missing"),
    "brace missing": (HEAD + 'jobs = [{ name = "x" ]\n', "4:22", "]", "this ] closes nothing"),
    "comma missing": (HEAD + 'jobs = [{ name = "x" } { name = "y" }]\n', "4:24", "{", "a comma is missing before this"),
    "comma missing in a table": (HEAD + 'jobs = [{ name = "x" turns = 3 }]\n', "4:22", "t",
                                 "a comma is missing before this"),
    "brace too many": (HEAD + 'jobs = [{ name = "x" }}]\n', "4:23", "}", "this } closes nothing"),
    "bracket too many": (HEAD + "jobs = []]\n", "4:10", "]", "this ] closes nothing"),
    "comma behind a line": ('version = 1\n[[site]]\nname = "a",\n', "3:11", ",", "there is no comma behind a line"),
    "two in a line": ('version = 1\n[[site]]\nname = "a" jobs = []\n', "3:12", "j",
                      "the value ends before this, and a new line has to begin"),
    "colon": ('version = 1\n[[site]]\nname: "a"\n', "3:5", ":", "write = in place of :"),
    "no sign": ('version = 1\n[[site]]\nname "a"\n', "3:6", '"', "= is missing here"),
    "header open": ('version = 1\n[[site]\nname = "a"\n', "2:7", "]", "] is missing here"),
    "key twice": (HEAD + 'jobs = [\n  { name = "x" },\n]\njobs = [\n  { name = "y" },\n]\n', "7:1", "jobs",
                  "this table has this key already"),
    "key twice in braces": (HEAD + 'jobs = [{ name = "x", name = "y" }]\n', "4:23", "name",
                            "this table has this key already"),
    "single header": ('version = 1\n[site]\nname = "a"\n [site] # b\nname = "b"\n', "4:2", "[site]",
                      "write [[site]] before each site"),
    "array in two ways": ('version = 1\nsite = [{ name = "a" }]\n[[site]]\nname = "b"\n', "3:1", "[[site]]",
                          "site is there already, written otherwise"),
}


def test_explanations(is_as_written):
    found = ""
    for path in paths("tests/refused/*.toml"):
        name, source = Path(path).stem, Path(HOME, path).read_bytes()
        line = re.search(rb"^# check> (.*\n)", source, re.M)[1].decode()
        found += f"# {name}\n{explained(name, source, line)}\n"
    is_as_written("tests/explained.txt", found)


@pytest.mark.parametrize("text, line", TEXTS)
def test_place_is_found(text, line):
    assert re.match(r"t:\d+:\d+: ", explained("t", text.encode(), f"{line}\n"))


@pytest.mark.parametrize("text, place, marked, said", SLIPS.values(), ids=SLIPS)
def test_slip(text, place, marked, said):
    """The program refuses the plan, and the place of the slip is found, with words that say how to mend it."""
    checked = dine("check", input=text.encode())
    assert checked[:2] == (3, "") and checked.error.startswith(REFUSED)
    line, column = map(int, place.split(":"))
    head, shown, marks = explained("t", text.encode(), checked.error).splitlines()
    assert head.startswith(f"t:{place}: ")
    assert shown == f" {line} | {text.splitlines()[line - 1]}".rstrip()
    assert marks == f"   | {' ' * (column - 1)}{'^' * max(1, len(marked))} {said}"
    assert text.splitlines()[line - 1].startswith(marked, column - 1)


def test_program_and_place(tmp_path):
    """The refusal is the program's, and so is the status."""
    plan = tmp_path / "plan.toml"
    plan.write_text('version = 1\n[[site]]\nname = "a"\n[[edge]]\nends = ["a", "c"]\n')
    answer = answer_of(["explain", str(plan)])
    assert (answer.status, answer.error) == (3, f"{REFUSED}12 UnknownEnd at edge 0\n")
    assert answer.output.startswith(f"{plan}:5:14: An end of this edge is no site's name.\n")


def test_standard_input():
    text = SLIPS["colon"][0].encode()
    error = dine("check", input=text).error
    assert answer_of(["explain", "-"], input=text) == (3, explained("standard input", text, error) + "\n", error)


def test_other_files():
    assert answer_of(["explain", f"{HOME}/plans/pair.toml"]) == (0, "ok: 2 sites, 1 edges, 2 jobs\n", "")
    status, output, error = answer_of(["explain", "no/such/plan.toml"])
    assert (status, output) == (2, "") and "no/such/plan.toml: No such file or directory" in error


def test_no_file():
    """The line says how it is called."""
    status, output, error = answer_of(["explain"])
    assert (status, output) == (2, "") and error.endswith("; usage: explain [-h] FILE, called as ./dine explain FILE\n")
