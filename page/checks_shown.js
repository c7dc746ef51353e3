// What is proved of every state, checked again in the state that is shown, from what the program tells of it.

import { setAttribute, setText, textElement } from "./marks.js";

// No two neighbours eat.
function areNeighboursApart({ sites, edges }) {
  return edges.every(({ ends: [low, high] }) => sites[low].phase !== "eating" || sites[high].phase !== "eating");
}

// Each edge has one fork and one token: at one of its ends, or once in its links.
function isEachOnce({ edges, links }, mark, letter) {
  return edges.every((edge, number) => {
    const letters = links.slice(2 * number, 2 * number + 2).flatMap((link) => link.letters);
    const sent = letters.filter((it) => it === letter).length;
    const held = edge[mark]?.at !== undefined ? 1 : 0;
    return held + sent === 1 && (held === 0 || edge.ends.includes(edge[mark].at));
  });
}

// The order has each site once, and of each edge the end that goes first before the other.
function isOrderOf({ sites, edges, order }) {
  const ranks = new Map((order ?? []).map((site, place) => [site, place]));
  const other = ({ ends, preferred }) => (ends[0] === preferred ? ends[1] : ends[0]);
  return ranks.size === sites.length && edges.every((edge) => ranks.get(edge.preferred) < ranks.get(other(edge)));
}

const CHECKS = [
  ["neighbours apart", "No two neighbours eat at the same time", areNeighboursApart],
  ["one fork", "Each edge has one fork", (state) => isEachOnce(state, "fork", "fork")],
  ["one token", "Each edge has one token", (state) => isEachOnce(state, "token", "request")],
  ["no ring of arrows", "The order of the sites fits all arrows, so no way along arrows comes back", isOrderOf],
  ["bounded events", "There are no more events than the bound of the plan", (state) => state.events <= state.bound],
];

export function showChecks(list, state) {
  CHECKS.forEach(([words, sentence, holds], place) => {
    const item = list.children[place] ?? list.appendChild(textElement("li", ""));
    const isRight = holds(state);
    setText(item, `${isRight ? "✓" : "✗"} ${words}`);
    setAttribute(item, "class", isRight ? "holds" : "broken");
    setAttribute(item, "title", `${sentence}: proved of every state, and checked in this one`);
  });
}
