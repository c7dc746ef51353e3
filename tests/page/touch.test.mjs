// What a tap does, the lines of the algorithm, and the scores of challenges.
import assert from "node:assert/strict";
import test from "node:test";

import {
  bestOf, challengeOf, isOwnScore, keepBest, longestQueue, scoreOf, scoreText,
} from "../../page/challenges.js";
import { CODE, codeLinesOf } from "../../page/code.js";
import { eventOf } from "../../page/touch.js";
import { RING, does, scheduleOf, states } from "./rules.mjs";

// Everything that one may tap in a picture of a state.
function thingsOf(state) {
  const words = state.links.flatMap(({ edge, to, letters }) => {
    return letters.map((letter) => ({ edge, mark: "word", to, letter }));
  });
  return [
    ...state.sites.map((_, site) => ({ site })),
    ...state.edges.flatMap((_, edge) => ["fork", "token"].map((mark) => ({ edge, mark }))),
    ...words.filter(({ letter }) => ["done", "close"].includes(letter)),
  ];
}

test("a tap does an enabled event of its thing, or says why there is none", async () => {
  for await (const { state } of states(40, 9)) {
    for (const thing of thingsOf(state)) {
      const { event, words, why } = eventOf(state, thing);
      if (event === null) {
        assert.ok(words && why && !/undefined|null/.test(`${words} ${why}`), JSON.stringify(thing));
        continue;
      }
      assert.equal(state.enabled[event.number], event);
      if (thing.site !== undefined) assert.equal(event.site, thing.site);
      else assert.equal(event.edge, thing.edge);
      const letters = { fork: ["fork"], token: ["request", "fork"], word: ["done", "close"] }[thing.mark];
      if (letters) assert.ok(letters.includes(event.letter), `${event.words} by ${thing.mark}`);
    }
  }
});

test("a meal, a request and a fork are a tap each", async () => {
  const schedule = await scheduleOf(RING);
  const tap = async (thing) => {
    const { event, words, why } = eventOf(schedule.state, thing);
    if (event) await schedule.choose(event.number);
    return event?.words ?? `${words}: ${why}`;
  };
  const edge = schedule.state.edges.findIndex(({ ends }) => ends.join() === "3,4");
  assert.equal(await tap({ edge, mark: "token" }),
    "not now: e asks d for their fork: it is not hungry: only a hungry site asks (request rule)");
  assert.equal(await tap({ site: 4 }), "e grows hungry");
  assert.match(await tap({ site: 4 }), /^e can't eat yet: it may ask /);
  assert.equal(await tap({ edge, mark: "token" }), "e asks d for their fork");
  assert.equal(await tap({ edge, mark: "token" }), "d takes the request of e");
  assert.equal(await tap({ edge, mark: "token" }), "d gives e their fork");
  assert.equal(await tap({ edge, mark: "fork" }), "e takes the fork of d");
});

test("each event of the paper lights up its lines, and all twelve are lit at some time", async () => {
  const lit = new Set();
  for await (const { state: { last } } of states(60, 4)) {
    const { lines, note } = codeLinesOf(last);
    const isOther = ["done", "close", "quit"].includes(last?.kind) || ["done", "close"].includes(last?.letter);
    assert.equal(lines.length > 0, last !== null && !isOther, last?.words);
    if (last) assert.ok(note.startsWith(last.words));
    lines.forEach((line) => lit.add(line));
  }
  // The first line is the head of the loop.
  assert.deepEqual([CODE.length, lit.size, lit.has(0)], [12, 11, false]);
});

test("scores count events, meals two seats away, and sites in a queue", async () => {
  const moment = { starve: "e", title: "t" };
  const schedule = await scheduleOf(RING);
  await does(schedule, "e grows hungry", "c grows hungry", "c asks b for their fork", "b takes the request of c");
  await does(schedule, "b gives c their fork", "c takes the fork of b", "c begins meal 1", "c ends meal 1");
  const kinds = [moment, {}, { challenge: "queue" }].map(challengeOf);
  assert.deepEqual(kinds, ["wait", null, "queue"]);
  assert.equal(scoreOf(schedule, 1, moment), 7);
  assert.equal(scoreOf(schedule, 1, { ...moment, challenge: "far" }), 1);
  await does(schedule, "d grows hungry", "d begins meal 1").catch(() => {});
  assert.equal(scoreOf(schedule, 1, { ...moment, challenge: "far" }), 1, "d is a neighbour of e");
});

test("a score is the reader's own only if all of its events were picked, in a challenge of this plan", async () => {
  const schedule = await scheduleOf(RING, [4, 4]);
  const moment = { starve: "e", text: schedule.plan };
  const is = (begun = 2) => isOwnScore(schedule, begun, moment);
  assert.equal(is(), false, "nothing was picked yet");
  await schedule.choose(0);
  assert.deepEqual([is(), isOwnScore(schedule, 2, { ...moment, text: "another" })], [true, false]);
  await schedule.go(2);
  await schedule.go(3);
  assert.equal(is(), true, "an event of one's own that is looked at again");
  await schedule.choose(0, false);
  await schedule.choose(0);
  assert.equal(is(), false, "one was played");
  // A run that was recorded, or that an address has.
  await schedule.open([4, 4, 0, 0, 0], 5);
  assert.equal(is(), false);
  await schedule.choose(0);
  assert.equal(is(), false, "only the last one was picked");
  await schedule.go(2);
  await schedule.choose(1);
  assert.equal(is(), true);
});

test("a queue is as long as its sites wait for a fork that the next one keeps", () => {
  const waits = (from, why = "keeps_clean") => ({ waits: [{ from, why }] });
  assert.equal(longestQueue({ sites: [{}, waits(0), waits(1, "eats"), waits(2, "request_sent")] }), 3);
  assert.equal(longestQueue({ sites: [{ waits: [] }, {}] }), 1);
});

test("the best score is kept, and a link names one to beat", () => {
  const held = new Map();
  const getItem = (name) => held.get(name) ?? null;
  globalThis.localStorage = { getItem, setItem: (name, text) => held.set(name, text) };
  const moment = { starve: "e", title: "t" };
  assert.equal(bestOf(moment), 0);
  for (const score of [5, 12, 7]) keepBest(moment, score);
  assert.deepEqual([bestOf(moment), bestOf({ ...moment, title: "u" })], [12, 0]);
  assert.equal(scoreText(moment, 1, 12, null), "Your score: 1 event before e eats. Best in this browser: 12.");
  assert.match(scoreText(moment, 2, 0, 88), /2 events before e eats\. The link has 88: can you beat it\?$/);
  assert.match(scoreText(moment, 2, 90, 88), /You have reached the 88/);
  held.set("dine-best", "nonsense");
  assert.equal(bestOf(moment), 0);
  delete globalThis.localStorage;
});
