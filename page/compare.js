// Four ways to share forks, beside each other on one schedule. Three are plain tables of this page, of which nothing is
// proved: forks on the table, taken in an unlucky order or by their numbers, and a waiter. The fourth asks the proved
// rules for each state. A schedule says here whose turn it is: in its turn a site does the first thing that it can.

import { NaiveTable } from "./naive.js";
import { drawn } from "./schedule.js";

// How large a plan may be to be compared, and after how many turns a run is cut off.
export const COMPARED = { sites: 16, jobs: 80, turns: 4000 };

// Whose turn it is, without an end: one after the other, or by chance.
export function* turnsOf(count, order, seed = 1) {
  for (let turn = 0; ; turn += 1) yield order === "chance" ? drawn(seed, turn, count) : turn % count;
}

// What all tables of the page have: what each site does, how often it has begun to eat, and how many messages went.
class Table {
  constructor({ sites, edges }) {
    this.edges = edges;
    this.jobs = sites.map((site) => site.jobs);
    this.phases = sites.map(() => "thinking");
    this.eaten = sites.map(() => 0);
    this.messages = 0;
  }

  edgesOf(site) {
    return [...this.edges.keys()].filter((edge) => this.edges[edge].ends.includes(site));
  }

  // Does the first thing that the site can do, and returns whether there was one.
  act(site) {
    if (this.phases[site] === "hungry") return this.strive(site);
    if (this.phases[site] === "eating") this.leave(site);
    else if (this.eaten[site] >= this.jobs[site]) return false;
    this.phases[site] = this.phases[site] === "eating" ? "thinking" : "hungry";
    return true;
  }

  begin(site) {
    this.phases[site] = "eating";
    this.eaten[site] += 1;
    return true;
  }
}

// Each fork lies at a place of its own. A hungry site takes its forks one by one, in an order, and keeps what it has
// until it has eaten. To ask for a fork, to get it and to put it back is a message each.
export class ForkTable extends Table {
  constructor(state, orders) {
    super(state);
    this.orders = orders;
    this.holders = this.edges.map(() => null);
    this.asked = state.sites.map(() => null);
  }

  strive(site) {
    const edge = this.orders[site].find((it) => this.holders[it] !== site);
    if (edge === undefined) return this.begin(site);
    if (this.asked[site] !== edge) this.messages += 1;
    this.asked[site] = edge;
    if (this.holders[edge] !== null) return false;
    this.holders[edge] = site;
    this.messages += 1;
    return true;
  }

  leave(site) {
    for (const edge of this.orders[site]) this.holders[edge] = null;
    this.messages += this.orders[site].length;
    this.asked[site] = null;
  }
}

// In a ring each site takes the fork towards the next one first.
export const plainForks = (state) => new ForkTable(state, new NaiveTable(state).order);

// All take the fork with the lower number first.
export function orderedForks(state) {
  const table = new ForkTable(state, []);
  table.orders = state.sites.map((_, site) => table.edgesOf(site));
  return table;
}

// A waiter who knows all. A site asks to be seated, is seated, and says that it has eaten: a message each. A site is
// seated once no neighbour is, and no neighbour asked before it.
export class WaiterTable extends Table {
  constructor(state) {
    super(state);
    this.queue = [];
    this.seated = state.sites.map(() => false);
    this.near = state.sites.map((_, site) => this.edgesOf(site).map((edge) => {
      return this.edges[edge].ends.find((end) => end !== site);
    }));
  }

  strive(site) {
    if (this.seated[site]) return this.begin(site);
    if (this.queue.includes(site)) return false;
    this.messages += 1;
    this.queue.push(site);
    this.seat();
    return true;
  }

  leave(site) {
    this.messages += 1;
    this.seated[site] = false;
    this.seat();
  }

  seat() {
    const passed = new Set();
    this.queue = this.queue.filter((site) => {
      const isFree = this.near[site].every((it) => !this.seated[it] && !passed.has(it));
      if (isFree) this.seated[site] = true;
      else passed.add(site);
      this.messages += isFree ? 1 : 0;
      return !isFree;
    });
  }
}

// The proved rules: in its turn a site takes the letters that have arrived, and then does its first enabled event. A
// request and a fork that are sent are a message each. Done and Close, which only end a run, are not counted.
export class ProvedTable {
  constructor(program, plan, state) {
    Object.assign(this, { program, plan, state, list: [], messages: 0, edges: state.edges });
    this.jobs = state.sites.map((site) => site.jobs);
  }

  get phases() {
    return this.state.sites.map(({ phase }) => phase);
  }

  get eaten() {
    return this.state.sites.map(({ eaten }) => eaten);
  }

  async act(site) {
    const begun = this.list.length;
    for (let isLetter = true; isLetter;) {
      const event = this.state.enabled.find((it) => it.site === site);
      if (!event) break;
      this.list.push(event.number);
      [this.state] = await this.program.states(this.plan, Uint32Array.from(this.list), [this.list.length]);
      if (event.kind === "ask" || event.kind === "give") this.messages += 1;
      isLetter = event.kind === "take";
    }
    return this.list.length > begun;
  }
}

// What each site did, and when: how long it was hungry, and how long it ate.
class Phases {
  constructor(count) {
    this.sites = Array.from({ length: count }, () => []);
  }

  // Notes what a site does from this turn on.
  note(site, phase, turn) {
    const spans = this.sites[site];
    if ((spans.at(-1)?.phase ?? "thinking") === phase) return;
    if (spans.length) spans.at(-1).to = turn;
    spans.push({ phase, from: turn, to: null });
  }

  end(turn) {
    for (const span of this.sites.map((it) => it.at(-1))) if (span) span.to = turn;
  }
}

// Gives the turns to one table until all have eaten or nobody can do anything. `stop` has a site that stops for good,
// in its first meal or after it. Returns what happened.
export async function runOf(table, turns, stop = null) {
  const count = table.jobs.length;
  const [spans, idle] = [new Phases(count), new Set()];
  let [turn, last, stopped] = [0, 0, null];
  const isDone = () => table.phases.every((it, site) => it === "thinking" && table.eaten[site] === table.jobs[site]);
  while (turn < COMPARED.turns && idle.size < count && !isDone()) {
    const site = turns.next().value;
    turn += 1;
    if (site === stopped || !await table.act(site)) {
      idle.add(site);
      continue;
    }
    idle.clear();
    last = turn;
    const { [site]: phase } = table.phases;
    spans.note(site, phase, turn);
    const stops = stop?.in === "meal" ? "eating" : "thinking";
    if (site === stop?.site && table.eaten[site] > 0 && phase === stops) stopped = site;
  }
  spans.end(last);
  return outcomeOf(table, { spans: spans.sites, turn: last, stopped, isCutOff: idle.size < count && !isDone() });
}

// How many meals of one neighbour began during a wait, at most.
function overtaken({ site, from, to }, spans, edges) {
  const began = (other) => spans[other].filter((it) => it.phase === "eating" && it.from > from && it.from <= to).length;
  const near = edges.filter(({ ends }) => ends.includes(site)).map(({ ends }) => ends.find((end) => end !== site));
  return Math.max(0, ...near.map(began));
}

// The longest wait for a meal that came, and who waits for one that never comes.
function outcomeOf(table, { spans, turn, stopped, isCutOff }) {
  const waits = spans.flatMap((own, site) => own.map((it) => ({ ...it, site }))).filter((it) => it.phase === "hungry");
  const isLast = (it) => spans[it.site].at(-1).from === it.from;
  const sum = (numbers) => numbers.reduce((all, it) => all + it, 0);
  return {
    spans, turn, stopped, isCutOff,
    meals: sum(table.eaten),
    jobs: sum(table.jobs),
    messages: table.messages,
    longest: Math.max(0, ...waits.filter((it) => !isLast(it)).map(({ from, to }) => to - from)),
    overtaken: Math.max(0, ...waits.map((it) => overtaken(it, spans, table.edges))),
    waiting: isCutOff ? [] : waits.filter((it) => isLast(it) && it.site !== stopped).map(({ site }) => site),
  };
}

// The four ways, each with its name, what it is, and its table for a start.
export const WAYS = [
  { name: "Plain forks", note: "Each picks up the fork on the same side first.",
    why: "Why: in a ring each may hold one fork and wait for the next one. Then nobody ever eats.",
    open: ({ state }) => plainForks(state) },
  { name: "Forks by number", note: "Each picks up the fork with the lower number first.",
    why: "Why: whoever waits for a fork holds only lower ones, so there is no ring of waiting. But they may wait in a "
      + "chain, behind one that is slow or has stopped in its meal.",
    open: ({ state }) => orderedForks(state) },
  { name: "A waiter", note: "One who knows all, and of two neighbours seats the one that asked first.",
    why: "Why: a site waits only for neighbours that are seated or asked before it, so there is no ring of waiting. "
      + "But behind one that has stopped in its meal its neighbours wait, and those who ask after them. And each meal "
      + "needs the waiter.",
    open: ({ state }) => new WaiterTable(state) },
  { name: "Chandy and Misra", note: "By the proved rules.", isProved: true,
    why: "Why: a fork stays with whoever used it last until it is asked for. A site that has stopped takes no request "
      + "and gives no fork. So whoever needs a fork that it has waits, and others wait for those.",
    open: ({ program, plan, state }) => new ProvedTable(program, plan, state) },
];

// Whether a start is small enough to be compared.
export function isComparable({ sites }) {
  return sites.length <= COMPARED.sites && sites.reduce((sum, { jobs }) => sum + jobs, 0) <= COMPARED.jobs;
}

// Names as one lists them: a, b and c.
function inWords(names) {
  return names.length < 2 ? names.join("") : `${names.slice(0, -1).join(", ")} and ${names.at(-1)}`;
}

// What came of a run, in a sentence or two.
export function endOf({ waiting, stopped, turn, isCutOff }, names) {
  if (isCutOff) return `Cut off after turn ${turn}.`;
  const gone = stopped === null ? "" : `${names[stopped]} has stopped. `;
  if (waiting.length === 0) return `${gone}All ${gone && "others "}have eaten all their meals by turn ${turn}.`;
  const those = waiting.map((site) => names[site]);
  const wait = `${inWords(those)} ${those.length < 2 ? "waits" : "wait"} for ever`;
  return gone ? `${gone}After turn ${turn} ${wait}.` : `Deadlock: after turn ${turn} ${wait}.`;
}
