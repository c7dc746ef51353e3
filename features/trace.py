"""The trace of a run, in the trace-event format, which Perfetto (ui.perfetto.dev) and chrome://tracing open."""
import itertools
import json
import os

# How long an event is in a trace, in its microseconds: then a viewer counts events as milliseconds.
LONG = 1000
# What an event of each kind does, as a slice names it.
WORDS = {
    "h": "grows hungry", "a": "asks {}", "g": "gives {} their fork", "b": "begins", "e": "ends", "x": "ends",
    "q": "quits", "d": "says done to {}", "c": "closes to {}", "A": "takes the request of {}",
    "G": "takes the fork of {}", "D": "takes done of {}", "C": "takes close of {}",
}


def entry(phase, site, **details):
    """Returns an entry in a site's line. All sites are of one process."""
    return {"ph": phase, "pid": 1, "tid": site + 1, **details}


def slice_of(site, place, end, name, **details):
    """Returns a slice of a site's line, from an event to a time, which is in events too."""
    return entry("X", site, ts=place * LONG, dur=round((end - place) * LONG), name=name, args=details)


def phases_of(site, events):
    """Yields a slice for each time that a site is hungry, and for each meal. One that lasts to the end ends there."""
    found = enumerate(zip(events["sites"], events["kinds"]))
    own, meals = [(place, kind) for place, (at, kind) in found if at == site and kind in "hbex"], itertools.count(1)
    for (place, kind), (end, then) in zip(own, [*own[1:], (events["events"], None)]):
        if kind == "h":
            yield slice_of(site, place, end, "hungry")
        elif kind == "b":
            details = {"failed": then == "x"} if then else {}
            yield slice_of(site, place, end + bool(then), f"meal {next(meals)}", **details)


def steps_of(events, ends, names):
    """Yields a slice for each event, and an arrow for each way of a fork."""
    sent = {}
    for place, (site, edge, kind) in enumerate(zip(events["sites"], events["edges"], events["kinds"])):
        details, other = ({}, "") if edge is None else ({"edge": edge}, names[sum(ends[edge]) - site])
        yield slice_of(site, place, place + 0.9, WORDS[kind].format(other), event=place, **details)
        if kind in "gG":
            # An arrow begins (s) or ends (f) in the middle of a slice.
            phase, more = ("s", {}) if kind == "g" else ("f", {"bp": "e"})
            sent[edge] = place if kind == "g" else sent[edge]
            more |= {"id": sent[edge], "name": f"fork of edge {edge}", "cat": "fork"}
            yield entry(phase, site, ts=place * LONG + LONG // 2, **more)


def trace_of(ask, run, is_unproved):
    """Returns a run (the path and the text of a plan, and choices) in the trace-event format, of which a millisecond is
    an event. `ask` calls dine_trace with arguments and an input, and returns what it printed."""
    path, text, choices = run
    events = json.loads(ask(["--events", "-"], f"{choices}\n{text}".encode()))
    start = json.loads(ask(["--states", "0", "-"], f"\n{text}".encode()))
    names, ends = [it["name"] for it in start["sites"]], [it["ends"] for it in start["edges"]]
    title = f"{os.path.basename(path)}{' (unproved)' if is_unproved else ''}"
    slices = [{"ph": "M", "pid": 1, "name": "process_name", "args": {"name": title}}]
    for site, name in enumerate(names):
        slices += [entry("M", site, name="thread_name", args={"name": name}),
                   entry("M", site, name="thread_sort_index", args={"sort_index": site}), *phases_of(site, events)]
    slices += steps_of(events, ends, names)
    return json.dumps({"displayTimeUnit": "ms", "traceEvents": slices}, separators=(",", ":"))
