// A challenge: the reader picks the events, and tries to keep one site hungry. The page counts what the others eat, and
// says of each neighbour why it can't eat on and on.

import { KINDS } from "./columns.js";
import { setText } from "./marks.js";
import { otherEnd } from "./sentences.js";

// How many meals each site began from a place of the events to another, or to the first one of the hungry site.
function mealsBetween(place, end, { sites, kinds }, state, hungry) {
  const meals = state.sites.map(() => 0);
  for (let at = place; at < end && meals[hungry] === 0; at += 1) {
    if (kinds[at] === KINDS.begin) meals[sites[at]] += 1;
  }
  return meals;
}

// What a neighbour may still do before the hungry site gets their fork.
function whyNoMore({ sites }, edge, neighbour, hungry) {
  const [it, name] = [sites[neighbour], sites[hungry].name];
  if (edge.fork.at !== neighbour) return `it has handed the fork over, and ${name} keeps it until ${name} has eaten`;
  if (!edge.dirty) return "its fork is clean, so it may eat once";
  if (it.phase === "eating") return `it eats, and then has to hand the fork to ${name}`;
  return `its fork is dirty and was asked for, so no other meal before it hands the fork to ${name}`;
}

// What is said of sites that are not neighbours and have no meal left: not the algorithm has stopped them.
function farLines({ sites }, others, neighbours) {
  const fed = others.filter((site) => sites[site].left === 0).map((site) => sites[site].name);
  if (!fed.length) return [];
  const [has, it] = fed.length === 1 ? ["has", "it"] : ["have", "them"];
  return [`${fed.join(" and ")} ${has} no meal left in this plan. That stops ${it}, not the algorithm: two seats `
    + `away one may eat any number of times while ${neighbours.join(" or ")} dawdles.`];
}

// The events that bring a hungry site nearer to its meal: its own, and those of its neighbours.
function feeding({ enabled, edges }, hungry, those) {
  return enabled.filter(({ site, kind, edge }) => {
    if (edge !== null) return edges[edge].ends.includes(hungry) && ["give", "take", "ask"].includes(kind);
    return kind === "begin" || kind === "end" ? site === hungry || those.includes(site) : false;
  });
}

// What has come of the try to keep a site hungry, in lines. `place` is where it began. If wanted, they say whose
// dawdling it is.
export function linesOfStarving({ state, events, at }, place, name, hasDawdlers = false) {
  const hungry = state.sites.findIndex((it) => it.name === name);
  if (hungry < 0) return [];
  const meals = mealsBetween(place, at, events, state, hungry);
  const near = state.edges.filter(({ ends }) => ends.includes(hungry));
  const those = near.map((edge) => otherEnd(edge, hungry));
  const others = [...state.sites.keys()].filter((site) => site !== hungry && !those.includes(site));
  const of = (site) => `${state.sites[site].name} ${meals[site]}`;
  const ate = (site) => `${state.sites[site].name} ate ${meals[site]}`;
  const picked = at <= place ? "Pick an event below." : `Events since then: ${at - place}.`;
  const counts = `${picked} Meals since ${name} asked: ${[...those, ...others].map(of).join(", ")}.`;
  if (meals[hungry] > 0) {
    const all = those.map(ate).join(" and ");
    return [counts, `${name} eats! While it was hungry, ${all}: no neighbour more than one.`];
  }
  const lines = near.map((edge, turn) => `${ate(those[turn])}: ${whyNoMore(state, edge, those[turn], hungry)}.`);
  lines.push(...farLines(state, others, those.map((site) => state.sites[site].name)));
  const fed = hasDawdlers ? feeding(state, hungry, those).map(({ words }) => words) : [];
  if (fed.length) lines.push(`What ${name} waits for, and who could do it: ${fed.join("; ")}.`);
  const feeds = ({ site, edge }) => site === hungry || near.includes(state.edges[edge]);
  const isLast = state.enabled.every(feeds);
  return [counts, ...lines, ...(isLast ? [`Only events of ${name} and its forks are left.`] : [])];
}

export function showStarving(list, lines) {
  list.hidden = lines.length === 0;
  while (list.children.length < lines.length) list.append(document.createElement("li"));
  while (list.children.length > lines.length) list.lastChild.remove();
  lines.forEach((line, turn) => setText(list.children[turn], line));
}
