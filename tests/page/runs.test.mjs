// All runs of small plans, and random runs of others: in each state on the way the proved rules are held against the
// model that was written from docs/MODEL.md alone, with the order of the events from docs/FORMAT.md.
import assert from "node:assert/strict";
import test from "node:test";

import { drawn } from "../../page/schedule.js";
import { planOf } from "./graphs.mjs";
import { Model } from "./model.mjs";
import { scheduleOf } from "./rules.mjs";

const RANDOM_PLANS = 100;

// A plan of sites and edges. A site is its number of jobs, or has also which of them `fails`, and whether it resigns;
// job k of site s adds 10 * s + k to the value of each edge, and each third one sets it.
function planBy(sites, edges = []) {
  const lines = sites.map((it, s) => {
    const { jobs, fails = [], resigns = false } = typeof it === "number" ? { jobs: it } : it;
    const acts = Array.from({ length: jobs }, (_, k) => {
      const act = k % 3 === 2 ? "set" : "add";
      return `{ name = "${k}", ${act} = ${10 * s + k}, fails = ${fails.includes(k + 1)} }`;
    });
    return `[[site]]\nname = "${"abcdefghijkl"[s]}"\njobs = [${acts.join(", ")}]\n${
      resigns ? 'on_fault = "resign"\n' : ""}`;
  });
  const pairs = edges.map(([one, other], e) => {
    return `[[edge]]\nends = ["${"abcdefghijkl"[one]}", "${"abcdefghijkl"[other]}"]\nvalue = ${7 * e}\n`;
  });
  return ["version = 2\n", ...lines, ...pairs].join("\n");
}

// What a job does to values, as planBy has it.
const actsOf = (s, jobs) => Array.from({ length: jobs }, (_, k) => ({ [k % 3 === 2 ? "set" : "add"]: 10 * s + k }));

function modelOf({ sites, edges }, hasActs) {
  return new Model(sites.map((it, s) => ({ ...it, acts: hasActs ? actsOf(s, it.jobs) : [] })), edges);
}

// The events that may happen, in the order of docs/FORMAT.md.
function enabledIn(m) {
  return m.sites.flatMap((_, site) => {
    const at = (kind) => m.edgesOf(site).map((edge) => ({ site, kind, edge }));
    const own = ["end", "begin", "quit", "hungry"].map((kind) => ({ site, kind, edge: null }));
    const all = [...at("take"), ...at("give"), ...own, ...at("ask"), ...at("done"), ...at("close")];
    return all.filter(({ kind, edge }) => m.may(kind, site, edge));
  });
}

// Where a fork or a token is.
function placeOf(m, e, letter, has) {
  const at = m.edges[e].find(has);
  return at === undefined ? { to: m.edges[e].find((site) => m.onWay(e, site).includes(letter)) } : { at };
}

function areAlike(m, state, events) {
  const enabled = enabledIn(m);
  assert.deepEqual(state.enabled.map(({ site, kind, edge }) => ({ site, kind, edge })), enabled);
  assert.deepEqual([state.events, state.bound], [events, m.bound()]);
  state.sites.forEach((it, s) => {
    const { phase, begun, hasQuit, failed } = m.sites[s];
    assert.deepEqual([it.phase, it.eaten, it.quit, it.failed, it.left], [phase, begun, hasQuit, failed, m.jobsLeft(s)]);
  });
  state.edges.forEach((it, e) => {
    assert.deepEqual(it.fork, placeOf(m, e, "fork", (site) => m.hasFork(e, site)));
    assert.deepEqual(it.token, placeOf(m, e, "request", (site) => m.hasToken(e, site)));
    assert.equal(it.dirty, m.edges[e].some((site) => m.isDirty(e, site)));
    assert.deepEqual([it.value, it.preferred], [m.values[e], m.firstOf(e)]);
    const names = m.edges[e].map((site) => m.sites[site].name);
    const log = m.logs[e].length ? ` ${m.logs[e].join(", ")}` : "";
    assert.equal(state.logs[e], `edge ${e} ${names.join(" ")}:${log}${it.value === null ? "" : ` = ${it.value}`}`);
    const ends = m.edges[e].map((site) => ({
      done_put: m.hasPut(e, site, "done"), done_taken: m.hasTaken(e, site, "done"),
      close_put: m.hasPut(e, site, "close"), close_taken: m.hasTaken(e, site, "close"),
    }));
    assert.deepEqual(it.said, ends);
  });
  for (const { edge, to, letters } of state.links) assert.deepEqual(letters, m.onWay(edge, to));
  return enabled;
}

// A copy of a model, after one more event.
function after(m, event, failed) {
  const next = Object.assign(Object.create(Model.prototype), structuredClone({ ...m }));
  next.does({ ...event, failed });
  return next;
}

// Compares each state that a run of the plan leads to, each once, and returns how many runs go on from this one.
async function countRuns(plan, m, choices, hasFailed, counts) {
  const key = JSON.stringify(m);
  if (counts.has(key)) return counts.get(key);
  const { state } = await scheduleOf(plan, choices);
  const enabled = areAlike(m, state, choices.length);
  let count = enabled.length ? 0 : 1;
  for (const [number, event] of enabled.entries()) {
    const next = after(m, event, hasFailed(event.site, m.sites[event.site].begun));
    count += await countRuns(plan, next, [...choices, number], hasFailed, counts);
  }
  counts.set(key, count);
  return count;
}

test("in all runs of small plans the rules do what the model says", async () => {
  const plans = [
    [[1, 1], [[0, 1]], 15_552],
    [[2], [], 1],
    [[1, 2], [], 84],
    [[0, 0], [[0, 1]], 54],
    [[0, 1], [[0, 1]], 306],
    [[3, 0], [[0, 1]], 702],
    [[{ jobs: 3, fails: [2], resigns: true }], [], 1],
    [[{ jobs: 2, fails: [1], resigns: true }, 0], [[0, 1]], 252],
  ];
  for (const [sites, edges, runs] of plans) {
    const plan = planBy(sites, edges);
    const { state } = await scheduleOf(plan);
    const hasFailed = (site, meal) => (sites[site].fails ?? []).includes(meal);
    assert.equal(await countRuns(plan, modelOf(state, true), [], hasFailed, new Map()), runs, plan);
  }
});

test(`in random runs of ${RANDOM_PLANS} plans the rules do what the model says`, async () => {
  for (let seed = 1; seed <= RANDOM_PLANS; seed += 1) {
    const schedule = await scheduleOf(planOf(seed));
    const m = modelOf(schedule.state, false);
    for (let turn = 0; turn < 120; turn += 1) {
      const enabled = areAlike(m, schedule.state, turn);
      if (!enabled.length) break;
      // The first, the last, and any.
      const number = [0, enabled.length - 1, drawn(seed, turn, enabled.length)][Math.min(seed % 4, 2)];
      await schedule.choose(number);
      m.does({ ...enabled[number], failed: schedule.state.last.failed });
    }
  }
});

// Choices past the last event that may happen are passed over.
test("a list of choices leads to the state that the model says", async () => {
  for (let seed = 1; seed <= RANDOM_PLANS; seed += 1) {
    const plan = planOf(seed);
    const list = Array.from({ length: drawn(seed, 1, 90) }, (_, turn) => drawn(seed + 7, turn, turn % 2 ? 9 : 2));
    const schedule = await scheduleOf(plan, list);
    const m = modelOf((await scheduleOf(plan)).state, false);
    const done = list.filter((number) => {
      const event = enabledIn(m)[number];
      const failed = event?.kind === "end" && isFailing(plan, event.site, m.sites[event.site].begun);
      if (event) m.does({ ...event, failed });
      return event !== undefined;
    });
    assert.deepEqual([...schedule.list], done);
    areAlike(m, schedule.state, done.length);
  }
});

// Whether a job of a plan by planOf fails.
function isFailing(plan, site, meal) {
  return [...plan.split("[[site]]\n")[site + 1].matchAll(/fails = (\w+)/g)][meal - 1][1] === "true";
}
