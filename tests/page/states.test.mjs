// What the page makes of states and events, of schedules by the proved rules.
import assert from "node:assert/strict";
import test from "node:test";

import { placeOf, numbersIn, wayFrom, whereOf } from "../../page/lessons.js";
import { findWait } from "../../page/finding.js";
import { NaiveTable } from "../../page/naive.js";
import { countsBefore, doesWhat, mealsOf } from "../../page/picture.js";
import { drawn } from "../../page/schedule.js";
import { otherEnd, roleText, waitsOf, whyNot, wordsAhead } from "../../page/sentences.js";
import { Spans, firstBehind, spanAt } from "../../page/spans.js";
import { linesOfStarving } from "../../page/starving.js";
import { ASKED, RING, does, scheduleOf, states, textOf } from "./rules.mjs";

const STORY = "lessons/dining_without_a_waiter.toml";

// ---- Schedules

test("a number is drawn below the count, the same each time, and each about as often", () => {
  const counts = Array(7).fill(0);
  for (let place = 0; place < 7000; place += 1) counts[drawn(1, place, 7)] += 1;
  assert.ok(counts.every((it) => it > 800 && it < 1200), counts.join());
  const [one, again, other] = [1, 1, 2].map((seed) => Array.from({ length: 9 }, (_, place) => drawn(seed, place, 99)));
  assert.deepEqual(one, again);
  assert.notDeepEqual(one, other);
});

test("a schedule goes forth and back, and forgets what follows another choice", async () => {
  const schedule = await scheduleOf(RING, [4, 9, 4, 99, 0], null);
  assert.deepEqual([[...schedule.list], schedule.at, schedule.left.count], [[4, 4, 0], 3, 2]);
  const [states, version] = [[], schedule.version];
  for (const at of [3, 2, 1, 0]) {
    await schedule.go(at);
    states.unshift(JSON.stringify(schedule.state));
  }
  assert.deepEqual([schedule.next("first", 0), schedule.state.events], [4, 0]);
  await schedule.choose(4);
  assert.deepEqual([schedule.at, schedule.version, JSON.stringify(schedule.state)], [1, version, states[1]]);
  await schedule.choose(0);
  assert.deepEqual([[...schedule.list], schedule.at, schedule.version], [[4, 0], 2, version + 1]);
  assert.deepEqual([schedule.next("first", 0), schedule.events.length], [0, 2]);
  assert.equal(schedule.next("random", 5), drawn(5, 2, schedule.state.enabled.length));
});

test("steps by chance come to a conflict", async () => {
  const schedule = await scheduleOf(RING);
  let most = 0;
  for (let turn = 0; turn < 25; turn += 1) {
    await schedule.choose(schedule.next("random", 1));
    most = Math.max(most, schedule.state.sites.filter(({ phase }) => phase === "hungry").length);
  }
  assert.ok(most >= 3);
});

// ---- Precedence

// The sites that go before one, along the arrows.
function before({ edges }, site) {
  const found = new Set();
  for (const left = [site]; left.length;) {
    const one = left.pop();
    for (const { ends, preferred } of edges) {
      if (!ends.includes(one) || preferred === one || found.has(preferred)) continue;
      found.add(preferred);
      left.push(preferred);
    }
  }
  return found;
}

test("so many sites go before one as the arrows say, and only its own meal makes them more", async () => {
  let [counts, arrows] = [null, null];
  for await (const { state, at } of states(60)) {
    const now = countsBefore(state);
    assert.deepEqual(now, state.sites.map((_, site) => before(state, site).size));
    if (at) {
      const { last: { kind, site, words } } = state;
      assert.ok(now.every((it, other) => it <= counts[other] || other === site), words);
      const turned = state.edges.filter(({ preferred }, edge) => preferred !== arrows[edge]);
      const isOwn = ({ ends, preferred }) => kind === "begin" && ends.includes(site) && preferred !== site;
      assert.ok(turned.every(isOwn), words);
    }
    [counts, arrows] = [now, state.edges.map(({ preferred }) => preferred)];
  }
});

// ---- Sentences

test("each event of a site is enabled, or has a sentence that says why not", async () => {
  for await (const { state } of states(40)) {
    state.sites.forEach((site, number) => {
      const found = whyNot(state, number);
      const codes = [site, ...state.edges.filter(({ ends }) => ends.includes(number))].flatMap((it) => {
        return Object.values((it.ends ? it.why_not[it.ends.indexOf(number)] : it.why_not) ?? {});
      });
      assert.equal(found.length, codes.filter((it) => it !== null).length);
      for (const { code, words, why } of found) {
        assert.ok(why && why !== code && words.startsWith(site.name), `${words}: ${code}`);
      }
      if (site.phase === "hungry") for (const it of waitsOf(state, number)) assert.match(it, / /);
      const does = site.quit ? "quit" : site.phase === "thinking" && site.left === 0 ? "done" : site.phase;
      assert.deepEqual([doesWhat(site), mealsOf(site)], [does, site.eaten - (site.phase === "eating")]);
    });
    for (const edge of state.edges) {
      assert.deepEqual(edge.ends.map((site) => otherEnd(edge, site)).reverse(), edge.ends);
    }
  }
});

test("what the hungry sites wait for is said of each", async () => {
  const { state } = await scheduleOf(RING, ASKED);
  assert.deepEqual(waitsOf(state, 3), ["its request to c is on its way"]);
  const site = { name: "a", waits: [{ from: 1, why: "eats" }, { from: 2, why: "owes" }, { from: 3, why: "eats" }] };
  const sites = [site, ..."bcd"].map((it) => (it.name ? it : { name: it }));
  assert.deepEqual(waitsOf({ sites }, 0),
    ["b and d eat with the fork, and give it after the meal", "it has to give the dirty fork to c first"]);
});

// ---- Spans

test("the spans of events are the same in parts, and say what a site does", async () => {
  const events = { sites: [0, 1, 0, 0, 0, 1], edges: [null, null, null, 0, null, 0], kinds: [..."hhbgxG"] };
  const [sites, edges] = [["a", "b"], [{ ends: [0, 1] }]];
  const spans = new Spans(events, sites, edges);
  const begun = Object.entries(events).map(([name, column]) => [name, column.slice(0, 3)]);
  const part = new Spans(Object.fromEntries(begun), sites, edges);
  assert.deepEqual(part.meals, [[{ from: 2, to: null }], []]);
  part.extend(events);
  assert.deepEqual(part, spans);
  assert.deepEqual(spans.waits, [[{ from: 0.5, to: 2 }], [{ from: 1.5, to: null }]]);
  assert.deepEqual(spans.moves, [{ edge: 0, site: 0, from: 3, other: 1, to: 5 }]);
  assert.deepEqual([spans.given.size, spans.length], [0, 6]);
  const said = [0, 1, 2, 4, 5].map((place) => spanAt(spans, 0, "a", place));
  const meal = "a eats meal 1, events 3 to 5; it failed";
  assert.deepEqual(said, ["a waits, events 1 to 2", "a waits, events 1 to 2", meal, meal, ""]);
  assert.equal(spanAt(spans, 1, "b", 5), "b waits, events 2 to 6");
  assert.equal(spanAt(spans, 1, "b", 0), "");
});

test("the first span behind a place is found", () => {
  const row = [0, 2, 4, 6].map((from) => ({ from, to: from === 6 ? null : from + 1 }));
  assert.deepEqual([-1, 0, 1, 2.5, 5, 100].map((from) => firstBehind(row, from)), [0, 0, 1, 1, 3, 3]);
  assert.equal(firstBehind([], 0), 0);
});

test("spans of schedules have each meal and each fork that was moved", async () => {
  for await (const { state, events } of states(50, 3)) {
    const spans = new Spans(events, state.sites, state.edges);
    assert.deepEqual(spans.meals.map((row) => row.length), state.sites.map(({ eaten }) => eaten));
    const isWaiting = spans.waits.map((row) => row.at(-1)?.to === null);
    assert.deepEqual(isWaiting, state.sites.map(({ phase }) => phase === "hungry"));
    assert.equal(spans.given.size, state.links.filter(({ letters }) => letters.includes("fork")).length);
  }
});

// ---- The challenge

// The last moment of the lesson, at which e is to be starved.
const [, TEXT, CHOICES] = /text = '''\n([^']*)'''\nchoices = "(.*)"\n.*\nstarve = "e"/.exec(textOf(STORY));

async function challenge() {
  const schedule = await scheduleOf(TEXT, numbersIn(CHOICES));
  const begun = schedule.at;
  return { schedule, said: () => linesOfStarving(schedule, begun, "e") };
}

test("the page counts what others eat while e is hungry, and says why no neighbour eats twice", async () => {
  const { schedule, said } = await challenge();
  assert.equal(said()[0], "Pick an event below. Meals since e asked: d 0, a 0, b 0, c 0.");
  await does(schedule, "a begins meal 1", "a ends meal 1", "a grows hungry");
  assert.equal(said()[0], "Events since then: 3. Meals since e asked: d 0, a 1, b 0, c 0.");
  assert.equal(said()[2],
    "a ate 1: its fork is dirty and was asked for, so no other meal before it hands the fork to e.");
  await does(schedule, "d asks c for their fork", "c takes the request of d", "c gives d their fork");
  await does(schedule, "d takes the fork of c", "d begins meal 1");
  assert.equal(said()[1], "d ate 1: it eats, and then has to hand the fork to e.");
  await does(schedule, "d ends meal 1", "a gives e their fork", "e takes the fork of a");
  assert.equal(said()[2], "a ate 1: it has handed the fork over, and e keeps it until e has eaten.");
  await does(schedule, "d gives e their fork", "e takes the fork of d", "e begins meal 2");
  const eats = "e eats! While it was hungry, d ate 1 and a ate 1: no neighbour more than one.";
  assert.deepEqual(said().slice(1), [eats]);
  await does(schedule, "e ends meal 2");
  assert.deepEqual(said().slice(1), [eats]);
  assert.deepEqual(linesOfStarving(schedule, 0, "nobody"), []);
  const other = await challenge();
  const lines = linesOfStarving(other.schedule, other.schedule.at, "e", true);
  assert.match(lines.join(), /What e waits for, and who could do it: .*a begins meal 1/);
});

test("whatever the others do, only events that feed e are left in the end", async () => {
  for (const factor of [1, 7, 11]) {
    const { schedule, said } = await challenge();
    for (let turn = 0; ; turn += 1) {
      const others = schedule.state.enabled.filter(({ words }) => !/^e | gives e /.test(words));
      if (!others.length) break;
      await schedule.choose(others[(turn * factor) % others.length].number);
      assert.match(said()[0], / d [01], a [01],/);
    }
    assert.equal(said().at(-1), "Only events of e and its forks are left.");
  }
});

// ---- Plain forks

const NAMES = [..."abcde"].map((name) => ({ name, jobs: 2 }));
const ringEdges = NAMES.map((_, site) => ({ ends: [site, (site + 1) % 5] }));

test("plain forks on a ring end in a deadlock, and on a star never", () => {
  const table = new NaiveTable({ sites: NAMES, edges: ringEdges });
  table.go(1000);
  assert.deepEqual([table.events, table.step(), table.isCaught()], [10, false, true]);
  const waits = table.said();
  assert.match(waits, /^Deadlock: a waits for (b|e), /);
  assert.equal(table.state().edges.filter(({ isCaught }) => isCaught).length, 5);
  const start = "The start: all forks are on the table";
  assert.deepEqual([table.go(0).events, table.isCaught(), table.words], [0, false, start]);
  const star = new NaiveTable({ sites: NAMES, edges: [1, 2, 3, 4].map((site) => ({ ends: [0, site] })) });
  assert.match(star.go(5).said(), /Without a ring/);
  star.go(1000);
  assert.deepEqual([star.eaten, star.isCaught()], [[2, 2, 2, 2, 2], false]);
});

// ---- Lessons

test("the way from a moment goes on as long as moments do", () => {
  const moments = [["p", "1"], ["p", "1,2"], ["p", "1,2,3"], ["p", "4"], ["q", "4,5"], ["q", ""]];
  const ways = moments.map((_, place) => wayFrom(moments.map(([text, choices]) => ({ text, choices })), place).join());
  assert.deepEqual(ways, ["1,2,3", "1,2,3", "1,2,3", "4", "4,5", ""]);
  assert.deepEqual([numbersIn(""), numbersIn("1,20"), numbersIn(undefined)], [[], [1, 20], []]);
  assert.deepEqual([{ at: 0, choices: "1" }, { choices: "1,1" }, {}].map(placeOf), [0, 2, 0]);
});

test("a place is before, at or after a moment, or off its way", () => {
  const of = (list, at, isPlain = false) => whereOf({ list: Uint32Array.from(list), at }, [4, 4, 3], 1, isPlain);
  assert.deepEqual([0, 1, 2, 3].map((at) => of([4, 4, 3], at)), ["before", "there", "after", "off"]);
  // The same number of events, but others.
  assert.deepEqual([of([4, 0], 1), of([0], 1), of([4, 4, 3, 0], 4)], ["off", "off", "off"]);
  assert.deepEqual([0, 1, 3, 4].map((at) => of([4, 4, 3, 0], at, true)), ["before", "there", "after", "after"]);
});

// ---- Long waits

test("a run is found in which a site waits so long, and the same again by the same seed", async () => {
  const schedule = await scheduleOf(RING);
  for (const [site, least] of [[4, 20], [0, 40], [2, 60]]) {
    const { list, wait, runs } = await findWait(schedule, site, least, 1);
    assert.ok(wait.to - wait.from >= least && runs >= 1);
    assert.deepEqual((await findWait(schedule, site, least, 1)).list, list);
    const { state, events } = await scheduleOf(RING, list);
    const waits = new Spans(events, state.sites, state.edges).waits[site];
    assert.ok(waits.some(({ from, to }) => from === wait.from + 0.5 && to === wait.to));
    const before = await scheduleOf(RING, list, wait.to);
    assert.equal(before.state.sites[site].phase, "hungry");
    assert.ok(before.state.enabled[list[wait.to]].words.startsWith(`${before.state.sites[site].name} begins`));
  }
  assert.equal((await findWait(schedule, 0, 9999, 1)).list, null);
});

// ---- Sentences that were false once

// Why an event is not enabled, by its words.
const reasonOf = (state, site, words) => whyNot(state, site).find((it) => it.words === words)?.why;

test("a request on its way has not arrived, and that is what is said", async () => {
  const { state } = await scheduleOf(RING, [3, 3, 1, 4, 3, 4, 5, 2, 2, 5, 0, 2, 4, 2]);
  assert.equal(reasonOf(state, 0, "a gives e their fork"), "no request of e has arrived that is still open");
  assert.ok(state.enabled.some(({ words }) => words === "a takes the request of e"));
});

test("a site without meals begins no meal with a number, and one whose only meal failed need not quit", async () => {
  const text = `version = 2
site = [{ name = "a", on_fault = "resign", jobs = [{ name = "1", fails = true }] }, { name = "b", jobs = [] }]
edge = [{ ends = ["a", "b"] }]
`;
  const schedule = await scheduleOf(text, []);
  await does(schedule, "a grows hungry", "a begins meal 1");
  const [ends] = schedule.state.enabled.filter(({ kind }) => kind === "end");
  assert.deepEqual([ends.words, wordsAhead(ends)], ["a ends meal 1, which failed", "a ends meal 1, which fails"]);
  await does(schedule, "a ends meal 1, which failed");
  const { state } = schedule;
  assert.equal(reasonOf(state, 0, "a quits"), "no meal of it has failed while others were left");
  assert.equal(reasonOf(state, 0, "a begins another meal"), "it has no meal left");
  assert.equal(reasonOf(state, 0, "a ends a meal"), "it does not eat");
});

test("an arrow of plain forks leads from the holder to the one that waits", () => {
  const table = new NaiveTable({ sites: NAMES, edges: ringEdges });
  for (const { ends, fork, preferred, isCaught } of table.go(1000).state().edges) {
    assert.ok(isCaught && ends.includes(preferred));
    assert.equal(preferred, fork.at);
  }
  assert.equal(table.hasNext(), false);
  assert.equal(table.go(9).hasNext(), true);
});

test("the roles of ends are sentences", async () => {
  for await (const { state } of states(30, 5)) {
    state.edges.forEach(({ roles, fork, token, ends }) => roles.forEach((role, end) => {
      const [hasFork, hasToken] = [fork.at === ends[end], token.at === ends[end]];
      const asked = hasFork ? `has the fork${hasToken ? ", and was asked for it" : ""}` : null;
      assert.equal(roleText(role), asked ?? (hasToken ? "has the token" : "has asked for the fork"));
    }));
  }
});

test("the page says of sites that are done that their meals are, not the rules", async () => {
  const { schedule, said } = await challenge();
  for (let turn = 0; schedule.state.sites[2].left > 0; turn += 1) {
    const feeds = /^[bc] |takes the request of [bc]|^[ad] gives [bc]/;
    const others = schedule.state.enabled.filter(({ words }) => feeds.test(words));
    assert.ok(others.length, schedule.state.enabled.map(({ words }) => words).join("; "));
    await schedule.choose(others[(turn * 5) % others.length].number);
  }
  assert.match(said().join(), /no meal left in this plan\. That stops .*, not the algorithm/);
});

test("spans up to an end have nothing of what follows", () => {
  const events = { sites: [0, 0, 0, 0], edges: [null, null, null, null], kinds: [..."hbeh"] };
  const spans = new Spans(events, ["a"], [], 2);
  assert.deepEqual([spans.length, spans.meals[0], spans.waits[0].length], [2, [{ from: 1, to: null }], 1]);
  spans.extend(events, 3);
  assert.deepEqual([spans.length, spans.meals[0][0].to, spans.waits[0].length], [3, 3, 1]);
});

test("each run that was recorded is a whole run of its plan", async () => {
  for (const [path, run] of Object.entries(JSON.parse(textOf("page/runs.json")))) {
    const list = numbersIn(run);
    const { state, left } = await scheduleOf(path, list);
    assert.deepEqual([state.events, state.enabled.length, left.count], [list.length, 0, 0]);
  }
});
