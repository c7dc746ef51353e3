"""Checks: how each is reported, and their count, which ./verify reads."""
import collections
import os


def in_a_line(name, fault):
    """Returns a check as `counted` takes it, reported in one line. It failed unless `fault` is empty."""
    return (f"{name}: FAILED: {fault}", False) if fault else (f"{name}: ok", True)


def skip(name, why):
    """Returns a check as `counted` takes it, of what this machine cannot do. verify prints its line again."""
    return f"{name}: skipped: {why}", None


def a_line_each(tool, faults):
    """Returns a check as `counted` takes it, reported in a line for each fault."""
    return "\n".join(f"{tool}: {fault}" for fault in faults), not faults


def counted(tries):
    """Prints reports and their count, and returns the exit status: 0 if nothing failed, and something passed or was
    skipped. A check is its report, and whether it passed, or None if it was skipped."""
    counts = collections.Counter()
    for text, is_right in tries:
        if text:
            print(text, flush=True)
        counts[is_right] += 1
    passed, failed, skipped = counts[True], counts[False], counts[None]
    print(f"{passed} passed, {failed} failed" + (f", {skipped} skipped" if skipped else ""))
    return 0 if passed + skipped and not failed else 1


def first_difference(wanted, got):
    """Returns where two texts first differ, and what each of them has there."""
    place = len(os.path.commonprefix([wanted, got]))
    above = wanted[:place].split("\n")
    begin = max(place - len(above[-1]), place - 100)
    return f"line {len(above)}: {got[begin : place + 100]!r}, wanted {wanted[begin : place + 100]!r}"
