// What the events of a list come to: who waited and ate from when to when, and where each fork went.

import { FAILED, KINDS, TAKEN } from "./columns.js";

// The spans of each site and the moves of the forks, each by its places in the list. What has not ended ends at null.
// `given` has the forks on their way, by their edges.
export class Spans {
  constructor(events, sites, edges, end = events.kinds.length) {
    const rows = () => sites.map(() => []);
    Object.assign(this, { edges, waits: rows(), meals: rows(), moves: [], given: new Map(), length: 0 });
    this.extend(events, end);
  }

  // Adds the events that follow those that are in the spans already, up to an end.
  extend({ sites, edges, kinds }, end = kinds.length) {
    for (let at = this.length; at < end; at += 1) this.add(kinds[at], sites[at], edges[at], at);
    this.length = Math.max(this.length, end);
  }

  add(kind, site, edge, place) {
    const [waits, meals] = [this.waits[site], this.meals[site]];
    if (kind === KINDS.hungry) {
      waits.push({ from: place + 0.5, to: null });
    } else if (kind === KINDS.begin) {
      waits.at(-1).to = place;
      meals.push({ from: place, to: null });
    } else if (kind === KINDS.end || kind === FAILED) {
      Object.assign(meals.at(-1), { to: place + 1, hasFailed: kind === FAILED });
    } else if (kind === KINDS.give) {
      const other = this.edges[edge].ends.find((it) => it !== site);
      this.given.set(edge, { edge, site, from: place, other, to: null });
    } else if (kind === TAKEN.fork) {
      this.moves.push({ ...this.given.get(edge), to: place });
      this.given.delete(edge);
    }
  }
}

// The place in a row of rising spans of the first that ends behind `from`.
export function firstBehind(row, from) {
  let [least, most] = [0, row.length];
  while (least < most) {
    const middle = (least + most) >> 1;
    if ((row[middle].to ?? Infinity) <= from) least = middle + 1;
    else most = middle;
  }
  return least;
}

// What a site did at a place of the list, in words, or an empty text.
export function spanAt(spans, site, name, place) {
  const endOf = ({ to }) => to ?? spans.length;
  const within = (row) => {
    const span = row[firstBehind(row, place)];
    return span && span.from <= place + 0.5 ? span : null;
  };
  const meal = within(spans.meals[site]);
  if (meal) {
    const number = spans.meals[site].indexOf(meal) + 1;
    const failed = meal.hasFailed ? "; it failed" : "";
    return `${name} eats meal ${number}, events ${meal.from + 1} to ${endOf(meal)}${failed}`;
  }
  const wait = within(spans.waits[site]);
  return wait ? `${name} waits, events ${Math.floor(wait.from) + 1} to ${endOf(wait)}` : "";
}
