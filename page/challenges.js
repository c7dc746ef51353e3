// Challenges with a score, and the best so far, which this browser keeps and a link names.

import { KINDS } from "./columns.js";
import { keep, kept } from "./moments.js";

const BEST = "dine-best";
// Why a site waits for one that has its fork and keeps it.
const KEEPS = new Set(["keeps_clean", "eats"]);
const UNITS = { wait: ["event", "events"], far: ["meal", "meals"], queue: ["site", "sites"] };

// The kind of challenge of a moment, or null.
export function challengeOf(moment) {
  return moment?.challenge ?? (moment?.starve ? "wait" : null);
}

// The place of the first meal of a site behind a place, or the end.
function firstMeal({ events: { sites, kinds }, at }, begun, site) {
  for (let place = begun; place < at; place += 1) {
    if (kinds[place] === KINDS.begin && sites[place] === site) return place;
  }
  return at;
}

// How many sites are in the longest queue: each but the last is hungry, and waits for a fork that the next keeps clean
// or eats with. Precedence has no ring, so a queue comes to an end.
export function longestQueue({ sites }) {
  const lengths = new Map();
  const lengthOf = (site) => {
    if (!lengths.has(site)) {
      const next = (sites[site].waits ?? []).filter(({ why }) => KEEPS.has(why)).map(({ from }) => from);
      lengths.set(site, 1 + Math.max(0, ...next.map(lengthOf)));
    }
    return lengths.get(site);
  };
  return Math.max(0, ...[...sites.keys()].map(lengthOf));
}

// The score of a schedule whose challenge began at a place.
export function scoreOf(schedule, begun, moment) {
  const kind = challengeOf(moment);
  const { state, events, at } = schedule;
  if (kind === "queue") return longestQueue(state);
  const hungry = state.sites.findIndex(({ name }) => name === moment.starve);
  const end = firstMeal(schedule, begun, hungry);
  if (kind === "wait") return Math.max(0, Math.min(end, at) - begun);
  const near = new Set(state.edges.filter(({ ends }) => ends.includes(hungry)).flatMap(({ ends }) => ends));
  let meals = 0;
  for (let place = begun; place < end; place += 1) {
    if (events.kinds[place] === KINDS.begin && !near.has(events.sites[place])) meals += 1;
  }
  return meals;
}

// Whether a score came from events that the reader picked, from where the challenge began on.
export function isOwnScore({ plan, at, own }, begun, { text }) {
  return plan === text && at > begun && own <= begun;
}

function bests() {
  try {
    const found = JSON.parse(kept(BEST) ?? "{}");
    return typeof found === "object" && found !== null ? found : {};
  } catch {
    return {};
  }
}

const keyOfBest = (moment) => `${challengeOf(moment)} ${moment.title}`;

// The best score of a moment that this browser keeps.
export function bestOf(moment) {
  const best = bests()[keyOfBest(moment)];
  return Number.isInteger(best) ? best : 0;
}

// Keeps a score if it is better.
export function keepBest(moment, score) {
  if (score > bestOf(moment)) keep(BEST, JSON.stringify({ ...bests(), [keyOfBest(moment)]: score }));
}

// What a score counts.
function counted(score, kind, site) {
  const things = `${score} ${UNITS[kind][score === 1 ? 0 : 1]}`;
  if (kind === "queue") return `${things} in the longest queue`;
  return kind === "far" ? `${things} of others before ${site} eats` : `${things} before ${site} eats`;
}

// What is said of a score: it, the best in this browser, and the one that a link names.
export function scoreText(moment, score, own, given) {
  const kind = challengeOf(moment);
  const parts = [`Your score: ${counted(score, kind, moment.starve)}.`];
  if (own > 0) parts.push(`Best in this browser: ${own}.`);
  const isReached = own >= given;
  if (given && isReached) parts.push(`You have reached the ${given} of the link.`);
  else if (given) parts.push(`The link has ${given}: can you beat it?`);
  return parts.join(" ");
}
