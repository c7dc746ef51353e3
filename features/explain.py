#!/usr/bin/env python3
"""Explains why a plan is refused: the file, the line and the column, the cause in a sentence, the line itself, and what
could stand there.

That the plan is refused, and for which cause, is said by the program (./dine check). This tool finds the place in the
text. The sentences and the keys are those of the page (page/refusals.js, page/plan_places.js), which tools/words
writes. If the plan is accepted, the line of check is printed. The status is that of check: 0, or 3 if the plan is
refused; it is 2 if the file can't be read. The script dine calls it as ./dine explain FILE."""
import difflib
import json
import re
import sys
import tomllib
from itertools import islice
from pathlib import Path

# Where the package `lib` is.
sys.path.insert(0, f"{Path(__file__).resolve().parents[1]}/tools")
from lib.arguments import Arguments
from lib.files import text_of
from lib.process import answer_of

REFUSAL = re.compile(r"dine: plan refused: (\d+) (\w+)(?: at (site|edge) (\d+))?\n")


def of_the_page(module, name):
    """Returns a list of a module of the page, which tools/words writes there as JSON."""
    pattern = rf"^(?:export )?const {name} = (\{{.*?^\}});"
    return json.loads(re.search(pattern, text_of(f"page/{module}.js"), re.S | re.M)[1])


# The keys of each table, with the version from which they are allowed and the kind of their values.
TYPES = {"number": int, "array": list, "text": str, "truth": bool}
KEYS = {table: {key: (since, TYPES[kind]) for key, (since, kind) in its.items()}
        for table, its in of_the_page("plan_places", "PLAN_KEYS").items()}
LIMITS = of_the_page("plan_places", "LIMITS")
NEEDED = {"site": "name", "job": "name", "edge": "ends"}
KINDS = {int: "a whole number from 0", list: "an array", str: "a text in quotes", bool: "true or false"}
# What is to be mended for a cause for which one key, or the length of one list, says enough.
MENDED = of_the_page("plan_places", "MENDED")
# The causes that are about two places; of the others the first place counts.
TWO_PLACES = {"TwoActs", *(cause for cause, its in MENDED.items() if "first" in its)}
NAME = re.compile(rf"[A-Za-z0-9_-]{{1,{LIMITS['MAX_NAME']}}}")
# A number that is too long for TOML, although tomllib reads it.
LONG_NUMBER = re.compile(r"[+-]?[0-9_]{19,}")
# What stands in a plan for a truth value by mistake.
TRUTHS = {"true": "true", "yes": "true", "on": "true", "false": "false", "no": "false", "off": "false"}

SPACE = re.compile(r"(?:[ \t\r\n]|#[^\n]*)*")
TEXT = re.compile(r'"""(?:\\.|[^\\])*?"{3,5}|\'\'\'.*?\'{3,5}|"(?:\\.|[^"\\\n])*"|\'[^\'\n]*\'', re.S)
KEY = r'(?:[\w-]+|"(?:\\.|[^"\\\n])*"|\'[^\'\n]*\')'
DOTTED = re.compile(rf"{KEY}(?:[ \t]*\.[ \t]*{KEY})*")
BARE = re.compile(r"(?:[^,\]}\n#]*[^,\]}\n#\s])?")
COMMENT = re.compile(r"#[^\n]*")
HEADER = re.compile(r"[ \t]*(\[\[?[ \t]*([\w.-]+)[ \t]*\]\]?)[ \t\r]*(?:#.*)?$", re.M)


class Plan:
    """The tables of a plan's text, and where its tables, keys and values are, by their paths, such as ("site", 2,
    "name"). The text is one that tomllib reads, so only what tells where things are is looked at."""

    def __init__(self, text):
        self.data, self.text, self.at = tomllib.loads(text), text, 0
        # For each path the place of its key or of its header, and of its value: where it begins and ends.
        self.keys, self.values, above = {}, {}, ()
        while self.skip() < len(text):
            above = self.header() if text[self.at] == "[" else self.pair(above)
        # The kind, the path and the data of each table.
        self.tables = [("document", (), self.data)]
        for name in ("site", "edge"):
            for at, table in enumerate(tables_of(self.data.get(name))):
                jobs = tables_of(table.get("jobs")) if name == "site" else []
                self.tables.append((name, (name, at), table))
                self.tables += [("job", (name, at, "jobs", place), job) for place, job in enumerate(jobs)]
        self.names = [table.get("name") for kind, _, table in self.tables if kind == "site"]

    def skip(self, length=0):
        """Goes on by this length, and behind the space there."""
        self.at = SPACE.match(self.text, self.at + length).end()
        return self.at

    def key_here(self):
        """Goes behind a key, which may have dots, and the space there. Returns its parts, and where it was."""
        found = DOTTED.match(self.text, self.skip())
        self.at = found.end()
        self.skip()
        return tuple(it.strip("\"'") for it in re.findall(KEY, found[0])), found.span()

    def header(self):
        """Goes behind a header, and returns the path of its table. In a path through an array the last table counts."""
        begin, is_of_array, path = self.at, self.text.startswith("[[", self.at), ()
        self.at += 1 + is_of_array
        for part in self.key_here()[0]:
            path += (part,)
            count = sum(it[:-1] == path and isinstance(it[-1], int) for it in self.values)
            path += (count - 1,) * bool(count)
        if is_of_array:
            path = (*path[:-1], count) if count else (*path, 0)
        self.at += 1 + is_of_array
        self.keys[path] = self.values[path] = begin, self.at
        return path

    def pair(self, above):
        """Goes behind a key and its value, and returns the path above it."""
        parts, self.keys[above + parts] = self.key_here()
        self.skip(1)
        self.value_here(above + parts)
        return above

    def value_here(self, path):
        """Goes behind a value: an array, the pairs of a table in braces, a text, or what has no quotes."""
        begin, last, number = self.at, {"[": "]", "{": "}"}.get(self.text[self.at]), 0
        if last is None:
            self.at = (TEXT.match(self.text, begin) or BARE.match(self.text, begin)).end()
        else:
            self.at += 1
            while self.text[self.skip()] != last:
                if self.text[self.at] == ",":
                    self.at += 1
                elif last == "}":
                    self.pair(path)
                else:
                    self.value_here((*path, number))
                    self.keys[(*path, number)] = self.values[(*path, number)]
                    number += 1
            self.at += 1
        self.values[path] = begin, self.at

    def key(self, help_, *path):
        """Returns a place and what is said of it: that of a key. The place of an array of tables, each with a header,
        is that of the first header."""
        return *self.keys.get(path, self.keys.get((*path, 0), (0, 0))), help_

    def value(self, help_, *path):
        return *self.values.get(path, (0, 0)), help_


def tables_of(value):
    """Returns the tables of an array, an empty one for each value that is no table."""
    return [it if isinstance(it, dict) else {} for it in value] if isinstance(value, list) else []


def nearest(word, words):
    """Returns what to say of the word that is nearest to this one."""
    if str(word).lower() in ("job", "jobs") and "site" in words:
        return 'jobs are written in their site: jobs = [{ name = "x" }]'
    found = difflib.get_close_matches(str(word), [str(it) for it in words], 1, 0.5)
    return f'did you mean "{found[0]}"?' if found else "there is " + ", ".join(f'"{it}"' for it in words[:8])


def places(plan, cause, kind, number):
    """Yields the places that a cause is about, the one to mend first. `kind` and `number` are those of its site or
    edge, if it has one."""
    match cause:
        case "Version":
            if "version" in plan.data:
                yield plan.value("write 1, or 2 if edges have values or sites resign", "version")
            yield from strays_of_version(plan)
            yield 0, 0, "version = 1 is missing; version = 2 if edges have values or sites resign"
        case "UnknownKey":
            for of, path, table in plan.tables:
                allowed = [it for it, (since, _) in KEYS[of].items() if since <= plan.data["version"]]
                for key in (it for it in table if it not in allowed):
                    known = key in KEYS[of]
                    needs = f"this key needs version = {KEYS[of][key][0]}" if known else nearest(key, allowed)
                    yield plan.key(needs, *path, key)
        case "MissingKey":
            for of, path, table in plan.tables:
                if of in NEEDED and NEEDED[of] not in table:
                    yield plan.key(f"{NEEDED[of]} is missing in this {of}", *path)
        case "WrongKind":
            for of, path, table in plan.tables:
                for key, value in table.items():
                    yield from wrong_kinds(plan, (*path, key), value, KEYS[of][key][1])
    if cause in MENDED:
        yield from mended(plan, MENDED[cause], kind, number)
    if kind:
        yield from places_of(plan, cause, kind, number)
        yield plan.key(f"this {kind}", kind, number)


def mended(plan, its, kind, number):
    """Yields what the list says of a cause."""
    if "list" in its:
        name, most = its["list"], LIMITS[its["most"]]
        yield plan.key(f"{name} {most + 1} of {len(plan.data[name])}", name, most)
    elif "numbers" in its:
        own, most = (it for it in plan.tables if it[1][:2] == (kind, number)), LIMITS[its["most"]]
        found = [(*path, key) for _, path, table in own for key in its["numbers"] if table.get(key, 0) > most]
        yield from (plan.value(f"at most {most:,}", *it) for it in found)
    else:
        key, values = its["key"], [it.get(its["key"]) for it in plan.data[kind]]
        yield plan.value(its.get("said") or nearest(values[number], its["words"]), kind, number, key)
        if "first" in its:
            # The two ends of an edge may be in the other order.
            of = [set(it) if isinstance(it, list) else it for it in values]
            yield plan.value(its["first"], kind, of.index(of[number]), key)


def strays_of_version(plan):
    """Yields the keys of a plan without a version that may be meant to be it: misspelled, or behind a header."""
    for path in (it for it in plan.keys if it[-1:] == ("version",)):
        yield plan.key("this has to stand above the first header", *path)
    for path in (it for it in plan.keys if len(it) == 1 and difflib.get_close_matches(it[0].lower(), ["version"])):
        yield plan.key('did you mean "version"?', *path)


def wrong_kinds(plan, path, value, wanted):
    """Yields what is wrong with the kind of a value, whose key wants this one."""
    key = path[-1]
    if type(value) is not wanted or wanted is int and value < 0:
        yield plan.value(f"{key} has to be {KINDS[wanted]}", *path)
    elif wanted is list:
        inner, what = (str, "the name of a site") if key == "ends" else (dict, "a table")
        strange = [place for place, it in enumerate(value) if not isinstance(it, inner)]
        yield from (plan.value(f"each of {key} has to be {what}", *path, it) for it in strange)
    if key == "ends" and len(value) != 2:
        yield plan.value("ends has to have two names", *path)


def places_of(plan, cause, *path):
    """Yields what a cause that is about the site or the edge at the path is about."""
    tables = [it for it in plan.tables if it[1][:2] == path]
    match cause:
        case "UnknownEnd":
            ends = tables[0][2]["ends"]
            for place in (place for place, end in enumerate(ends) if end not in plan.names):
                yield plan.value(nearest(ends[place], plan.names), *path, "ends", place)
        case "BadName":
            for kind, at, table in tables:
                if not NAME.fullmatch(table.get("name", "")):
                    yield plan.value(bad_name(kind, table.get("name", "")), *at, "name")
        case "TooManyJobs":
            yield plan.key(f"it has {len(tables[0][2]['jobs']):,}", *path, "jobs")
        case "TwoActs":
            for at in (at for _, at, job in tables if "add" in job and "set" in job):
                yield plan.key("add changes the value of each edge", *at, "add")
                yield plan.key("and set replaces it", *at, "set")


def bad_name(kind, name):
    wrong = sorted(set(re.sub(r"[A-Za-z0-9_-]", "", name)))
    if wrong:
        return "not allowed: " + " ".join(json.dumps(it, ensure_ascii=False) for it in wrong)
    return f"it has {len(name.encode())} bytes" if name else f"the name of this {kind} is empty"


def slip(text, at, said):
    """Returns where a text has a slip, and what to say of it, by what tomllib says at a place. Of a rare one it is what
    tomllib says."""
    line, here = text.rfind("\n", 0, at) + 1, text[at:at + 1]
    header = HEADER.match(text, line)
    match re.match(r"[^'(]*", said)[0].strip():
        case "Invalid value" | "Unclosed array" | "Unclosed inline table" as kind:
            opened = last_open(text, line if header else at)
            if opened and (header or not text[at:].strip()):
                closing = {"[": "]", "{": "}"}[text[opened[-1]]]
                return opened[-1], opened[-1] + 1, f"the {closing} that closes this is missing"
            if kind.endswith("value"):
                return no_value(text, at)
            return at, at + 1, f"this {here} closes nothing" if here in ("]", "}") else "a comma is missing before this"
        case "Cannot declare" | "Cannot overwrite a value" | "Cannot mutate immutable namespace" if header:
            name, is_table = header[2], "declare" in said and header[2] in KEYS
            way = f"write [[{name}]] before each {name}" if is_table else f"{name} is there already, written otherwise"
            return *header.span(1), way
        case "Cannot overwrite a value" | "Duplicate inline table key" as kind:
            before = r"^[ \t]*" if kind.startswith("Cannot") else r"[{,]\s*"
            *_, key = re.finditer(rf"{before}({DOTTED.pattern})[ \t]*=", text[:at], re.M)
            return *key.span(1), "this table has this key already"
        case "Expected" if said[10] in "=]":
            return at, at + 1, "write = in place of :" if here == ":" else f"{said[10]} is missing here"
        case "Expected newline or end of document after a statement":
            strange = {",": "there is no comma behind a line", "]": "this ] closes nothing"}
            return at, at + 1, strange.get(here, "the value ends before this, and a new line has to begin")
        case "Invalid initial character for a key part" | "Invalid statement":
            return at, at + 1, "a key has to begin here, with a letter, a digit, _ or -"
        case "Illegal character" | "Unterminated string" | 'Expected "' if not here.strip():
            return at, at + 1, "the quote that ends this text is missing"
    return at, at + 1, said[0].lower() + said[1:]


def last_open(text, end):
    """Returns the places of the brackets of values that are open at a place, the outer one first."""
    opened, at = [], 0
    while at < end:
        passed = TEXT.match(text, at) or COMMENT.match(text, at) or (not opened and HEADER.match(text, at))
        if not passed and text[at] in "[{":
            opened.append(at)
        elif not passed and text[at] in "]}":
            del opened[-1:]
        at = passed.end() if passed else at + 1
    return opened


def no_value(text, at):
    """Returns the place where a value has to be, and what to say of what is there."""
    word = re.compile(r"[^\s,\]}#]*").match(text, at)[0]
    if word.lower() in TRUTHS:
        said = f"write {TRUTHS[word.lower()]}"
    elif re.fullmatch(r"[A-Za-z_][\w-]*", word):
        said = f'a text is in quotes: "{word}"'
    elif word.startswith("="):
        said = "one = is enough"
    elif word:
        said = 'write the quotes as "' if word[0] in "“”„‘’«»`" else "this is no value"
    else:
        said = "a value is missing here"
    return at, at + max(1, len(word)), said


def no_toml(source):
    """Yields where a text stops to be TOML, and why."""
    try:
        text = source.decode()
        values = Plan(text).values.values()
    except UnicodeDecodeError as error:
        yield len(source[:error.start].decode()), 0, "this is no UTF-8"
    except tomllib.TOMLDecodeError as error:
        if said := re.fullmatch(r"(.*?) \(at (?:line (\d+), column (\d+)|end of document)\)", str(error)):
            lines, begin = text.split("\n"), len(text.rstrip())
            if said[2]:
                begin = sum(len(it) + 1 for it in lines[: int(said[2]) - 1]) + int(said[3]) - 1
            yield slip(text, begin, said[1])
        else:
            yield 0, 0, str(error)
    else:
        yield from ((*it, "a whole number has at most 64 bits") for it in values if LONG_NUMBER.fullmatch(text, *it))


def shown(name, text, spot, sentence=""):
    """Returns a place in a text as a compiler shows it: its line, a mark below it, and what is said of it."""
    first, last, said = spot
    begin = text.rfind("\n", 0, first) + 1
    number, column, line = text.count("\n", 0, begin) + 1, first - begin, text[begin:].split("\n", 1)[0]
    marks, margin = "^" * max(1, min(last, begin + len(line)) - first), " " * len(str(number))
    head = f"{name}:{number}:{column + 1}: {sentence}".rstrip()
    return f"{head}\n {number} | {line}\n {margin} | {' ' * column}{marks} {said}".rstrip()


def explained(name, source, line):
    """Returns the explanation of the line with which the program refuses a plan."""
    _, cause, kind, number = REFUSAL.fullmatch(line).groups()
    sentence, text = of_the_page("refusals", "SENTENCES")[cause], source.decode(errors="replace")
    try:
        found = no_toml(source) if cause == "NotToml" else places(Plan(source.decode()), cause, kind, int(number or 0))
        spots = [*islice(found, 2 if cause in TWO_PLACES else 1)]
    except (LookupError, AttributeError, TypeError, ValueError):
        # tomllib and the program may read a text of TOML differently. Then there is the sentence alone.
        spots = []
    if not spots:
        where = f" It is {kind} {number}, counted from 0." if kind else ""
        return f"{name}: {sentence}{where}"
    return "\n".join(shown(name, text, it, sentence * (it is spots[0])) for it in spots)


def main():
    it = Arguments(__doc__)
    it.prog, it.usage = "explain", "explain [-h] FILE, called as ./dine explain FILE"
    it.add_argument("file", metavar="FILE", help="the plan; - for standard input")
    name = it.parse_args().file
    try:
        source = sys.stdin.buffer.read() if name == "-" else Path(name).read_bytes()
    except OSError as error:
        sys.exit(it.error(f"{name}: {error.strerror}"))
    checked = answer_of(["check"], seconds=None, input=source)
    sys.stdout.write(checked.output)
    if REFUSAL.fullmatch(checked.error):
        print(explained("standard input" if name == "-" else name, source, checked.error))
    sys.stderr.write(checked.error)
    return checked.status


if __name__ == "__main__":
    sys.exit(main())
