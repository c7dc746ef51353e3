// A plan that is made by a form and by taps: its sites, their meals, and which are neighbours.
import { LIMITS } from "./plan_places.js";

export const SHAPES = ["ring", "star", "path", "grid", "complete"];

const whole = (least, number, most) => Math.max(least, Math.min(Math.floor(Number(number) || 0), most));

// The name of a site by its number: a letter, or s and the number if there are many.
function nameOfSite(number, count) {
  return count <= 26 ? String.fromCharCode(97 + number) : `s${number}`;
}

// How wide a grid of so many sites is: as near to a square as a whole number of rows allows.
function gridWidth(count) {
  for (let wide = Math.ceil(Math.sqrt(count)); wide < count; wide += 1) if (count % wide === 0) return wide;
  return count;
}

const PAIRS = {
  ring: (count) => (count < 3 ? PAIRS.path(count) : [...PAIRS.path(count), [0, count - 1]]),
  star: (count) => Array.from({ length: count - 1 }, (_, it) => [0, it + 1]),
  path: (count) => Array.from({ length: count - 1 }, (_, it) => [it, it + 1]),
  grid: (count) => {
    const wide = gridWidth(count);
    return Array.from({ length: count }, (_, it) => [
      ...((it + 1) % wide && it + 1 < count ? [[it, it + 1]] : []), ...(it + wide < count ? [[it, it + wide]] : []),
    ]).flat();
  },
  complete: (count) => {
    return Array.from({ length: count }, (_, it) => {
      return Array.from({ length: it }, (__, other) => [other, it]);
    }).flat();
  },
};

// A plan of a shape, as { names, meals, edges }. A complete one has at most 32 sites: a plan has at most 512 edges.
export function shaped(shape, count, meals) {
  const sites = whole(1, count, shape === "complete" ? 32 : LIMITS.MAX_SITES);
  const names = Array.from({ length: sites }, (_, it) => nameOfSite(it, sites));
  return { names, meals: names.map(() => whole(0, meals, LIMITS.MAX_JOBS)), edges: PAIRS[shape](sites) };
}

// The plan of a state.
export function planOfState({ sites, edges }) {
  const [names, meals] = [sites.map(({ name }) => name), sites.map(({ jobs }) => jobs)];
  return { names, meals, edges: edges.map(({ ends }) => [...ends]) };
}

// The same with a site more, which has no neighbour yet, or null if there are 64.
export function withSite({ names, meals, edges }) {
  if (names.length >= LIMITS.MAX_SITES) return null;
  let number = names.length;
  while (names.includes(nameOfSite(number, number + 1))) number += 1;
  return { names: [...names, nameOfSite(number, number + 1)], meals: [...meals, meals.at(-1) ?? 1], edges };
}

// The same with these two as neighbours, or without if they are. Null if it has no space for an edge more.
export function joined({ names, meals, edges }, one, other) {
  const isThis = ([low, high]) => (low === one && high === other) || (low === other && high === one);
  const rest = edges.filter((it) => !isThis(it));
  if (rest.length < edges.length) return { names, meals, edges: rest };
  return edges.length < LIMITS.MAX_EDGES && one !== other ? { names, meals, edges: [...edges, [one, other]] } : null;
}

// The same without a site and its edges, or null if it is the last one.
export function withoutSite({ names, meals, edges }, site) {
  if (names.length < 2) return null;
  const left = (list) => list.filter((_, it) => it !== site);
  const moved = (it) => (it > site ? it - 1 : it);
  const rest = edges.filter((it) => !it.includes(site)).map((it) => it.map(moved));
  return { names: left(names), meals: left(meals), edges: rest };
}

// The text of a plan.
export function textOfPlan({ names, meals, edges }) {
  const jobs = (count) => Array.from({ length: count }, (_, it) => `{ name = "${it + 1}" }`).join(", ");
  const sites = names.map((name, it) => `[[site]]\nname = "${name}"\njobs = [${jobs(meals[it])}]\n`);
  const ends = edges.map(([one, other]) => `[[edge]]\nends = ["${names[one]}", "${names[other]}"]\n`);
  return ["version = 1\n", ...sites, ...ends].join("\n");
}
