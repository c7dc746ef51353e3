// What the page says of random states, held against a model that was written from docs/MODEL.md alone: each sentence is
// read, and has to be true there.
import assert from "node:assert/strict";
import test from "node:test";

import { countsBefore, doesWhat, isIdle, mealsOf, textOfEdge } from "../../page/picture.js";
import { drawn } from "../../page/schedule.js";
import { roleText, waitsOf, whyNot, wordsAhead } from "../../page/sentences.js";
import { linesOfStarving } from "../../page/starving.js";
import { eventOf } from "../../page/touch.js";
import { planOf } from "./graphs.mjs";
import { Model } from "./model.mjs";
import { ROLES_TRUE, TRUE, WAITS_TRUE, edgeTo, numberOf, read } from "./questions.mjs";
import { scheduleOf } from "./rules.mjs";

const STATES = 500;

function areWaitsTrue(m, it, sentences) {
  const named = [];
  for (const sentence of sentences) {
    const { isTrue, names } = read(WAITS_TRUE, sentence);
    for (const name of names) {
      const n = numberOf(m, name);
      const e = edgeTo(m, it, n);
      assert.ok(e >= 0 && isTrue(m, it, e, n), `${m.sites[it].name}: ${sentence}`);
      named.push(e);
    }
  }
  // None that keeps it from its meal is left out, and none is named that does not.
  const wanted = m.edgesOf(it).filter((e) => !m.isReady(e, it));
  assert.deepEqual(named.sort((one, other) => one - other), wanted);
}

function isWhyNotTrue(m, state, it) {
  for (const { kind, edge, words, why } of whyNot(state, it)) {
    assert.ok(!m.may(kind, it, edge), `${words} may happen`);
    assert.ok(words.startsWith(m.sites[it].name));
    if (kind === "begin" && m.sites[it].phase === "hungry") {
      areWaitsTrue(m, it, why.split("; "));
      continue;
    }
    const { isTrue, names } = read(TRUE, why);
    assert.ok(isTrue(m, it, edge), `${words}: ${why}`);
    for (const name of names) assert.equal(name, m.sites[m.otherOf(edge, it)].name);
    const number = /meal (\d+)$/.exec(words);
    if (number) assert.equal(Number(number[1]), m.sites[it].begun + 1, words);
    if (kind === "begin" && !number) assert.equal(m.jobsLeft(it), 0, words);
  }
}

function areEdgesTrue(m, state) {
  const names = m.sites.map(({ name }) => name);
  state.edges.forEach((edge, e) => {
    const [low, high] = m.edges[e];
    const whereIs = (has, letter) => {
      const at = [low, high].find((site) => has(site));
      if (at !== undefined) return `at ${names[at]}`;
      return `on its way to ${names[[low, high].find((site) => m.onWay(e, site).includes(letter))]}`;
    };
    const fork = whereIs((site) => m.hasFork(e, site), "fork");
    const isDirty = [low, high].some((site) => m.isDirty(e, site));
    const token = whereIs((site) => m.hasToken(e, site), "request");
    const said = `${names[low]} and ${names[high]}: ${isDirty ? "dirty" : "clean"} fork ${fork}, token ${token}, `
      + `${names[m.firstOf(e)]} goes first`;
    assert.equal(textOfEdge(edge, names), said);
    // An arrow is pale if the end that goes first could still be passed by the other, which eats with what it has.
    const holder = m.edges[e].find((site) => m.hasFork(e, site));
    assert.equal(isIdle(edge), holder !== undefined && m.firstOf(e) !== holder && m.isReady(e, holder));
    edge.roles.forEach((role, end) => assert.ok(read(ROLES_TRUE, roleText(role)).isTrue(m, m.edges[e][end], e), said));
  });
}

function areSitesTrue(m, state) {
  const counts = countsBefore(state);
  state.sites.forEach((site, it) => {
    const { phase, begun, hasQuit } = m.sites[it];
    const does = hasQuit ? "quit" : phase === "thinking" && m.jobsLeft(it) === 0 ? "done" : phase;
    assert.deepEqual([doesWhat(site), mealsOf(site)], [does, begun - (phase === "eating" ? 1 : 0)]);
    assert.equal(counts[it], m.before(it).size);
    isWhyNotTrue(m, state, it);
    if (phase === "hungry") areWaitsTrue(m, it, waitsOf(state, it));
    isTapTrue(m, state, it);
  });
}

// What is said of a site that is tapped and can do nothing by itself.
function isTapTrue(m, state, it) {
  const { event, words, why } = eventOf(state, { site: it });
  if (event) {
    assert.ok(m.may(event.kind, it, event.edge));
    return;
  }
  const { name, phase, hasQuit } = m.sites[it];
  const said = { [`${name} can't eat yet`]: phase === "hungry", [`${name} has quit`]: hasQuit };
  assert.ok(said[words] ?? (words === `${name} has nothing to do` && phase !== "hungry" && !hasQuit), words);
  if (why === "it has eaten all its meals") assert.ok(m.jobsLeft(it) === 0 && phase === "thinking", name);
  if (phase === "hungry") areWaitsTrue(m, it, why.split("; "));
}

// The events that may happen, each with its words.
function areEventsTrue(m, { enabled }) {
  const sites = [...m.sites.keys()];
  const own = sites.flatMap((it) => {
    return ["hungry", "begin", "end", "quit"].filter((kind) => m.may(kind, it)).map((kind) => `${it} ${kind}`);
  });
  const others = sites.flatMap((it) => m.edgesOf(it).flatMap((e) => {
    const kinds = ["ask", "give", "done", "close", "take"].filter((kind) => m.may(kind, it, e));
    return kinds.map((kind) => `${it} ${kind} ${e}`);
  }));
  const found = enabled.map(({ site, kind, edge }) => `${site} ${kind}${edge === null ? "" : ` ${edge}`}`);
  assert.deepEqual(found.sort(), [...own, ...others].sort());
  for (const event of enabled) {
    const { site, kind, edge } = event;
    const name = m.sites[site].name;
    const other = edge === null ? "" : m.sites[m.otherOf(edge, site)].name;
    const words = {
      hungry: "grows hungry", quit: "quits",
      ask: `asks ${other} for their fork`, give: `gives ${other} their fork`,
      begin: `begins meal ${m.sites[site].begun + 1}`, end: `ends meal ${m.sites[site].begun}`,
      done: `says done to ${other}`, close: `closes to ${other}`,
      take: {
        fork: `takes the fork of ${other}`, request: `takes the request of ${other}`,
        done: `takes done of ${other}`, close: `takes close of ${other}`,
      }[edge === null ? "" : m.onWay(edge, site)[0]],
    }[kind];
    const said = wordsAhead(event).replace(/, which fails$/, "");
    assert.equal(said, `${name} ${words}`);
  }
}

test(`no false sentence is said of ${STATES} random states`, async () => {
  let count = 0;
  const forms = new Set();
  for (let seed = 1; count < STATES; seed += 1) {
    const schedule = await scheduleOf(planOf(seed));
    const model = new Model(schedule.state.sites, schedule.state.edges);
    const length = 20 + drawn(seed, 7, 60);
    for (let turn = 0; turn <= length; turn += 1) {
      const { state } = schedule;
      if (turn % 3 === 0) {
        areEventsTrue(model, state);
        areSitesTrue(model, state);
        areEdgesTrue(model, state);
        state.sites.forEach((_, it) => whyNot(state, it).forEach(({ code }) => forms.add(code)));
        count += 1;
      }
      if (!state.enabled.length) break;
      const event = state.enabled[drawn(seed + 1, turn, state.enabled.length)];
      await schedule.choose(event.number);
      model.does({ ...event, failed: schedule.state.last.failed });
    }
  }
  assert.ok(count >= STATES && forms.size > 20, `${count} ${[...forms].join()}`);
});

test("what is said of a challenge is true of 300 random states", async () => {
  const jobs = '[{ name = "1" }, { name = "2" }, { name = "3" }]';
  const sites = [..."abcde"].map((name) => `[[site]]\nname = "${name}"\njobs = ${jobs}\n`);
  const edges = ["ab", "bc", "cd", "de", "ae"].map(([one, other]) => `[[edge]]\nends = ["${one}", "${other}"]\n`);
  let count = 0;
  for (let seed = 1; count < 300; seed += 1) {
    const schedule = await scheduleOf(["version = 1\n", ...sites, ...edges].join("\n"));
    const model = new Model(schedule.state.sites, schedule.state.edges);
    const e = 4;
    let begun = null;
    const meals = [0, 0, 0, 0, 0];
    for (let turn = 0; turn < 90 && schedule.state.enabled.length; turn += 1) {
      const event = schedule.state.enabled[drawn(seed, turn, schedule.state.enabled.length)];
      await schedule.choose(event.number);
      model.does(event);
      if (begun !== null && event.kind === "begin") meals[event.site] += 1;
      const near = model.edgesOf(e);
      const areAsked = near.every((it) => model.hasToken(it, model.otherOf(it, e)) && !model.hasFork(it, e));
      if (begun === null && model.sites[e].phase === "hungry" && areAsked) begun = schedule.at;
      if (begun === null) continue;
      if (meals[e]) break;
      const [first, ...rest] = linesOfStarving(schedule, begun, "e");
      for (const [, name, number] of first.matchAll(/([a-d]) (\d+)/g)) {
        assert.equal(Number(number), meals[numberOf(model, name)]);
      }
      near.forEach((it, turned) => isNoMoreTrue(model, it, e, rest[turned], meals));
      count += 1;
    }
  }
});

// Why a neighbour can't eat on and on.
function isNoMoreTrue(m, edge, hungry, line, meals) {
  const n = m.otherOf(edge, hungry);
  const [, ate, why] = /^\w ate (\d+): (.*)\.$/.exec(line);
  assert.equal(Number(ate), meals[n]);
  assert.ok(meals[n] <= 1, line);
  const said = {
    "it has handed the fork over, and e keeps it until e has eaten": !m.hasFork(edge, n) && !m.isDirty(edge, hungry),
    "its fork is clean, so it may eat once": m.isClean(edge, n) && m.sites[n].phase === "hungry",
    "it eats, and then has to hand the fork to e": m.sites[n].phase === "eating" && m.hasToken(edge, n),
    "its fork is dirty and was asked for, so no other meal before it hands the fork to e":
      m.isDirty(edge, n) && m.hasToken(edge, n) && m.sites[n].phase !== "eating",
  };
  assert.equal(said[why], true, line);
}
