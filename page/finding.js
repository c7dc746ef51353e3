// Finds a run in which a site waits long: the proved rules are asked for random runs until one has such a wait.

import { KINDS } from "./columns.js";
import { drawn } from "./schedule.js";

// How many random runs are asked for at most, for how long, in milliseconds, and how many choices a run has at most.
const SOUGHT = { runs: 2000, time: 4000, choices: 6000 };

// The longest wait of a site in the events of a run: behind how many events it grew hungry, and behind how many it was
// to eat. `events` has them in columns.
export function longestWait({ sites, kinds }, site) {
  let [begun, longest] = [0, { from: 0, to: 0 }];
  for (let at = 0; at < kinds.length; at += 1) {
    if (sites[at] !== site) continue;
    if (kinds[at] === KINDS.hungry) begun = at;
    const isLongest = kinds[at] === KINDS.begin && at - begun > longest.to - longest.from;
    if (isLongest) longest = { from: begun, to: at };
  }
  return longest;
}

// Random choices. Those that name no event where their turn comes are left out by the rules.
function choicesOf(seed, { sites, edges, bound }) {
  const most = Math.max(4, Math.min(sites.length + edges.length, 40));
  return Array.from({ length: Math.min(3 * bound, SOUGHT.choices) }, (_, place) => drawn(seed, place, most));
}

// The choices of a run in which the site waits for so many events at least, with that wait and with how many runs were
// asked for. If there is none among them, `list` is null. The same seed finds the same run.
export async function findWait({ program, plan, state }, site, least, seed) {
  const begun = performance.now();
  let runs = 0;
  while (runs < SOUGHT.runs && performance.now() - begun < SOUGHT.time) {
    const events = await program.events(plan, choicesOf(seed + runs, state));
    const wait = longestWait(events, site);
    runs += 1;
    if (wait.to - wait.from >= least) return { list: events.done, wait, runs };
  }
  return { list: null, wait: null, runs };
}
