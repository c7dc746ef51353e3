"""The graphs that the measures and the tests take, and their plans."""
import itertools

# The edges of each kind of graph, by its number of sites. In a band each site has edges to the eight after it.
KINDS = {
    "ring": lambda sites: [(it, (it + 1) % sites) for it in range(sites)],
    "path": lambda sites: [(it - 1, it) for it in range(1, sites)],
    "star": lambda sites: [(0, it) for it in range(1, sites)],
    "complete": lambda sites: [*itertools.combinations(range(sites), 2)],
    "band": lambda sites: [(it, (it + far) % sites) for it in range(sites) for far in range(1, 9)],
}


def graph_of(name):
    """Returns how many sites the graph with this name has, as ring:64 or grid:8x8, and its edges."""
    kind, _, size = name.partition(":")
    if kind != "grid":
        return int(size), KINDS[kind](int(size))
    width, height = map(int, size.split("x"))
    across = [(y * width + x - 1, y * width + x) for y in range(height) for x in range(1, width)]
    return width * height, across + [(it - width, it) for it in range(width, width * height)]


def plan_of(jobs, edges, turns=0):
    """Returns the text of a plan whose sites have these numbers of jobs, of this number of turns. Its edges rise."""
    job = '{ name = "j", turns = %d }' % turns if turns else '{ name = "j" }'
    text = ["version = 1"]
    text += [f'[[site]]\nname = "s{it}"\njobs = [{", ".join([job] * count)}]' for it, count in enumerate(jobs)]
    text += [f'[[edge]]\nends = ["s{one}", "s{other}"]' for one, other in sorted((min(it), max(it)) for it in edges)]
    return "\n".join(text + [""]).encode()
