"""The picture of a world, for notebooks, as SVG."""

from __future__ import annotations

import math
from html import escape

from ._seen import AWAY, Seen

COLOURS = ("#fff", "#fd6", "#8d8")
RADIUS = 16


def svg(seen: Seen) -> str:
    """Draws the sites round a circle.

    A dirty fork is a full disc and a clean one a hollow one, and a request token is a square, near the site that has
    them. Letters on their way are in the middle of their edge: R, F, D, C."""
    count = len(seen.names)
    # The discs of neighbours on the circle do not touch.
    radius = max(90, (2 * RADIUS + 12) * count / (2 * math.pi))
    middle = radius + 30
    turns = [2 * math.pi * i / count for i in range(count)]
    spots = [(middle + radius * math.sin(turn), middle - radius * math.cos(turn)) for turn in turns]
    size = f"{2 * middle:.0f}"
    parts = [f'<svg xmlns="http://www.w3.org/2000/svg" viewBox="0 0 {size} {size}" width="{size}" font-size="11">']
    for edge, ends in enumerate(seen.ends):
        parts += _edge(seen, edge, spots[ends[0]], spots[ends[1]])
    for name, (x, y), phase in zip(seen.names, spots, seen.phases):
        parts.append(f'<circle cx="{x:.1f}" cy="{y:.1f}" r="{RADIUS}" fill="{COLOURS[phase]}" stroke="#333"/>')
        parts.append(f'<text x="{x:.1f}" y="{y + 4:.1f}" text-anchor="middle">{escape(name)}</text>')
    return "".join(parts) + "</svg>"


def _edge(seen: Seen, edge: int, low: tuple[float, float], high: tuple[float, float]) -> list[str]:
    (x, y), (u, v) = low, high
    length = math.dist(low, high) or 1

    def at(site: int, distance: float) -> tuple[float, float]:
        """The point on the edge at this distance from one of its sites."""
        share = distance / length if site == seen.ends[edge][0] else 1 - distance / length
        return x + share * (u - x), y + share * (v - y)

    parts = [f'<path d="M{x:.1f} {y:.1f}L{u:.1f} {v:.1f}" stroke="#999"/>']
    fork, token = seen.forks[edge], seen.tokens[edge]
    if fork != AWAY:
        a, b = at(fork, RADIUS + 8)
        fill = "#333" if seen.dirty[edge] else "#fff"
        parts.append(f'<circle class="fork" cx="{a:.1f}" cy="{b:.1f}" r="4" fill="{fill}" stroke="#333"/>')
    if token != AWAY:
        a, b = at(token, RADIUS + 18)
        parts.append(f'<rect class="token" x="{a - 3:.1f}" y="{b - 3:.1f}" width="6" height="6" fill="#57c"/>')
    for site, letters in zip(seen.ends[edge], seen.letters[edge]):
        if letters:
            a, b = at(site, 0.4 * length)
            parts.append(f'<text class="letters" x="{a:.1f}" y="{b:.1f}" text-anchor="middle">{letters}</text>')
    return parts
