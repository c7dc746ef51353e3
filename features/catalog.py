"""What the page offers: the plans of plans/, the lessons of lessons/, recorded runs, and what ./show was begun with."""
import json
import os
import re
import sys
import tomllib

from lib.fault import Fault
from lib.files import HOME, paths

FIRST = "plans/ring_of_five.toml"
CHOICES = re.compile("([0-9]{1,10}(,[0-9]{1,10})*)?")
# The kinds of challenges besides that of a hungry site.
CHALLENGES = ("far", "queue")
# The kinds of marks that a moment may show, what it may point at, and how many words it may have there.
MARKS = ("forks", "tokens", "arrows", "counts")
POINT = re.compile("(site|count) [^ ]+|(fork|token|arrow) [^ ]+-[^ ]+")
WORDS = 12
# Who stops for good where four ways run beside each other.
WAYS = re.compile("nobody|[^ ]+ (meal|after)")


# The keys of a lesson and of a moment, as lessons/README.md has them: what each has to be, and what is said if not.
LESSON = (
    ("title", str, "is no text"),
    ("place", int, "is no number"),
    ("moment", lambda it: it and isinstance(it, list) and all(isinstance(one, dict) for one in it),
     "is no array of tables"),
)
MOMENT = (
    ("plan text choices title note site point callout starve challenge question because ways", str, "is no text"),
    ("show options hints", lambda it: isinstance(it, list) and all(isinstance(one, str) for one in it),
     "is no list of texts"),
    ("choices", CHOICES.fullmatch, "is no list of numbers with commas between them"),
    ("at", lambda it: type(it) is int and it >= 0, "is no number of events"),
    ("hide see recorded", bool, "is neither true nor false"),
    ("challenge", CHALLENGES.__contains__, f"is none of {', '.join(CHALLENGES)}"),
    ("naive", lambda it: it in (True, False, "alone"), 'is none of true, false and "alone"'),
    ("show", {*MARKS}.issuperset, f"has other words than {', '.join(MARKS)}"),
    ("point", POINT.fullmatch, 'is neither like "site a" nor like "fork a-b"'),
    ("callout", lambda it: len(it.split()) <= WORDS, f"has more than {WORDS} words"),
    ("answer", int, "is not the number of an option"),
    ("ways", WAYS.fullmatch, 'is neither "nobody" nor like "c meal" or "c after"'),
)


def text_of(path):
    try:
        with open(path, encoding="utf-8", newline="") as file:
            return file.read()
    except OSError as error:
        raise Fault(f"{path} can't be read: {error.strerror}") from None
    except UnicodeDecodeError:
        raise Fault(f"{path} can't be read: it is no UTF-8") from None


def own_path(path):
    """Returns the path of a file as it is offered: from this folder, if it is one of this folder's plans or lessons."""
    near = os.path.relpath(os.path.realpath(path), HOME)
    return near if re.fullmatch(r"(plans|lessons)/[^/]+\.toml", near) else path


def faults_of(table, form):
    """Yields what keeps a table of a lesson from having its form."""
    known = [(key, what, fault) for keys, what, fault in form for key in keys.split()]
    for key in sorted(table.keys() - {key for key, _, _ in known}):
        yield f"there is no key {key}"
    for key, what, fault in known:
        if key in table and not (isinstance(table[key], what) if isinstance(what, type) else what(table[key])):
            yield f"{key} {fault}"


def faults_of_moment(it):
    """Yields what keeps a table of a lesson from being a moment."""
    yield from faults_of(it, MOMENT)
    options = it.get("options", [])
    faults = {
        "it has recorded, and not a plan alone": it.get("recorded") and ("plan" not in it or "choices" in it),
        "it has the challenge far, and no starve": it.get("challenge") == "far" and "starve" not in it,
        "it has not one of plan and text": ("plan" in it) == ("text" in it),
        "it has only one of point and callout": ("point" in it) != ("callout" in it),
        "it has only one of question and options": ("question" in it) != bool(options),
        "answer is not the number of an option": options and it.get("answer") not in range(1, len(options) + 1),
        "hints has not a text for each option": len(it.get("hints", options)) != len(options),
    }
    yield from (fault for fault, is_so in faults.items() if is_so)


def recorded(path):
    """Returns the choices of the run on threads that was recorded of this plan."""
    runs = json.loads(text_of(f"{HOME}/page/runs.json"))
    if path not in runs:
        raise Fault(f"no run of {path} was recorded")
    return runs[path]


def whole(moment, path):
    """Returns a moment of the lesson at this path with the text of its plan, and the plan's path from here or None."""
    for fault in faults_of_moment(moment):
        raise Fault(fault)
    if "text" in moment:
        return {"choices": "", **moment, "plan": None}
    for folder in (HOME, os.path.dirname(path)):
        found = os.path.join(folder, moment["plan"])
        if os.path.isfile(found):
            choices = {"choices": recorded(own_path(found))} if moment.get("recorded") else {}
            return {"choices": "", **moment, **choices, "plan": own_path(found), "text": text_of(found)}
    raise Fault(f"there is no plan {moment['plan']}")


def lesson_of(path, text):
    """Returns the lesson that a text is, each moment with the text of its plan, or None if it has no moments."""
    try:
        table = tomllib.loads(text)
    except (tomllib.TOMLDecodeError, RecursionError) as error:
        if re.search(r"^\s*\[\[\s*moment\s*\]\]", text, re.M):
            raise Fault(f"{path} is no lesson: {error}") from None
        return None
    if "moment" not in table:
        return None
    for fault in faults_of(table, LESSON):
        raise Fault(f"{path} is no lesson: {fault}")
    title, moments = table.get("title", os.path.basename(path).removesuffix(".toml")), []
    for number, moment in enumerate(table["moment"], 1):
        try:
            moments.append(whole(moment, path))
        except Fault as fault:
            raise Fault(f"{path}: moment {number}: {fault.args[0]}") from None
    found = {"title": title, "path": own_path(path), "moments": moments}
    return {**found, "place": table["place"]} if "place" in table else found


def offer(given):
    """Returns the plans and lessons that the page offers, each with the path for a shell, and with which it begins."""
    files = {it: f"{HOME}/{it}" for folder in ("plans", "lessons") for it in paths(f"{folder}/*.toml")}
    begin, plans, lessons = given and own_path(given), {}, {}
    if given:
        files = {begin: given, **{path: file for path, file in files.items() if path != begin}}
    for path, file in files.items():
        try:
            text = text_of(file)
            found = lesson_of(file, text)
        except Fault as fault:
            if file == given:
                raise
            # The others can still be shown.
            print(f"show: left out: {fault}", file=sys.stderr, flush=True)
            continue
        if found:
            lessons[path] = found
        else:
            plans[path] = text
    runs = json.loads(text_of(f"{HOME}/page/runs.json"))
    return {
        "first": begin if begin in plans else FIRST,
        "plans": [{"path": path, "text": text} for path, text in plans.items()],
        "lesson": begin if begin in lessons else None,
        "lessons": list(lessons.values()),
        "runs": [{"text": plans[path], "choices": it} for path, it in runs.items()],
    }
