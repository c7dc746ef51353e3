// Four ways to share forks: what each of the three tables of the page does, and that the fourth is what the rules say.
import assert from "node:assert/strict";
import test from "node:test";

import { COMPARED, WAYS, WaiterTable, endOf, isComparable, runOf, turnsOf } from "../../page/compare.js";
import { RING, scheduleOf } from "./rules.mjs";

const SEEDS = Array.from({ length: 25 }, (_, it) => it);
const JOBS = '[{ name = "1" }, { name = "2" }, { name = "3" }]';
const FOUR = `version = 1
site = [${["a", "b", "c", "d"].map((it) => `{ name = "${it}", jobs = ${JOBS} }`)}]
edge = [${["ab", "ac", "ad", "bc", "bd", "cd"].map(([one, two]) => `{ ends = ["${one}", "${two}"] }`)}]
`;
const PLANS = [RING, "plans/grid.toml", "plans/star_of_locks.toml", FOUR];
const starts = new Map();
for (const plan of PLANS) starts.set(plan, await scheduleOf(plan));
const namesOf = ({ state }) => state.sites.map(({ name }) => name);

// Runs a way on a plan, and looks at its table after each turn.
async function ran(way, plan, { order = "chance", seed = 1, stop = null, look = () => {} } = {}) {
  const start = starts.get(plan);
  const table = way.open(start);
  const act = table.act.bind(table);
  table.act = async (site) => {
    const did = await act(site);
    look(table, site, did);
    return did;
  };
  const outcome = await runOf(table, turnsOf(start.state.sites.length, order, seed), stop);
  return { ...outcome, table, words: endOf(outcome, namesOf(start)) };
}

function eatApart({ phases, edges }) {
  for (const { ends } of edges) assert.ok(!ends.every((site) => phases[site] === "eating"), ends.join());
}

test("turns go round, or by chance, the same each time", () => {
  const first = (turns) => Array.from({ length: 200 }, () => turns.next().value);
  assert.deepEqual(first(turnsOf(3, "round")).slice(0, 7), [0, 1, 2, 0, 1, 2, 0]);
  assert.deepEqual(first(turnsOf(5, "chance", 4)), first(turnsOf(5, "chance", 4)));
  assert.notDeepEqual(first(turnsOf(5, "chance", 4)), first(turnsOf(5, "chance", 5)));
  assert.equal(new Set(first(turnsOf(5, "chance", 4))).size, 5);
});

for (const way of WAYS) {
  test(`${way.name}: neighbours eat apart, and each eats its meals and no more`, async () => {
    for (const plan of PLANS) {
      for (const seed of way.isProved ? [1, 2] : SEEDS) {
        const { table, waiting, meals, jobs, isCutOff } = await ran(way, plan, { seed, look: eatApart });
        assert.ok(table.eaten.every((it, site) => it <= table.jobs[site]) && !isCutOff);
        assert.equal(waiting.length === 0, meals === jobs);
      }
    }
  });
}

test("plain forks: one after the other they end in a deadlock, each with one fork", async () => {
  const { table, waiting, messages, meals, words } = await ran(WAYS[0], RING, { order: "round" });
  assert.deepEqual([waiting, meals], [[0, 1, 2, 3, 4], 0]);
  assert.deepEqual([...table.holders].sort(), [0, 1, 2, 3, 4]);
  // Each asked for a fork and got it, and asked for the other one.
  assert.equal(messages, 15);
  assert.equal(words, "Deadlock: after turn 10 a, b, c, d and e wait for ever.");
});

test("plain forks: some orders of turns end well, and others do not", async () => {
  const ends = new Set();
  for (const seed of SEEDS) ends.add((await ran(WAYS[0], RING, { seed })).waiting.length);
  assert.deepEqual([...ends].sort(), [0, 5]);
});

for (const [way, messagesOf] of [
  [WAYS[1], (table) => table.eaten.reduce((sum, meals, site) => sum + 3 * meals * table.edgesOf(site).length, 0)],
  [WAYS[2], (table) => table.eaten.reduce((sum, meals) => sum + 3 * meals, 0)],
]) {
  test(`${way.name}: all eat, whoever has the turn, and the messages are as many as its rule says`, async () => {
    for (const plan of PLANS) {
      for (const order of ["round", "chance"]) {
        for (const seed of order === "round" ? [1] : SEEDS) {
          const { table, meals, jobs, messages } = await ran(way, plan, { order, seed });
          assert.deepEqual([meals, messages], [jobs, messagesOf(table)]);
        }
      }
    }
  });
}

test("forks by number: nobody holds a fork while it waits for one with a lower number", async () => {
  const look = ({ holders, phases, asked }, site) => {
    if (phases[site] !== "hungry" || asked[site] === null) return;
    holders.forEach((holder, edge) => assert.ok(holder !== site || edge <= asked[site]));
  };
  for (const seed of SEEDS) await ran(WAYS[1], "plans/grid.toml", { seed, look });
});

test("a waiter: of two neighbours that wait, whoever asked first is seated first", async () => {
  let [asked, pairs] = [[], 0];
  const look = ({ queue, seated, near }) => {
    for (const site of asked.filter((it) => seated[it])) {
      for (const other of asked.slice(0, asked.indexOf(site))) {
        pairs += 1;
        assert.ok(!near[site].includes(other) || seated[other], `${site} before ${other}`);
      }
    }
    asked = [...queue];
  };
  for (const seed of SEEDS) {
    asked = [];
    await ran(WAYS[2], "plans/grid.toml", { seed, look });
  }
  assert.ok(pairs > 0);
});

test("Chandy and Misra: the events are those of the rules, and the messages its requests and forks", async () => {
  for (const plan of [RING, FOUR]) {
    const { table, meals, jobs, messages, overtaken } = await ran(WAYS[3], plan, { order: "round" });
    assert.equal(meals, jobs);
    const { done, kinds } = await table.program.events(table.plan, table.list);
    assert.deepEqual(done, table.list);
    assert.equal([...kinds].filter((it) => "ag".includes(it)).length, messages);
    // A site hears of a request in its next turn, and begins one meal at most from then on.
    assert.ok(overtaken <= 2, `${overtaken}`);
  }
});

test("a site that stops while it thinks harms nobody who takes forks from the table", async () => {
  for (const [number, others] of [[1, 0], [2, 0], [3, 4]]) {
    const stop = { site: 0, in: "after" };
    const { waiting, stopped, words } = await ran(WAYS[number], RING, { order: "round", stop });
    assert.deepEqual([waiting.length, stopped], [others, 0], WAYS[number].name);
    assert.match(words, others ? /^a has stopped\. After turn \d+ b, c, d and e wait for ever\.$/
      : /^a has stopped\. All others have eaten all their meals by turn \d+\.$/);
  }
});

test("a site that stops in its meal keeps its neighbours hungry in each way", async () => {
  for (const way of WAYS) {
    for (const seed of way.isProved ? [1] : SEEDS) {
      const { waiting, stopped, table } = await ran(way, RING, { seed, stop: { site: 2, in: "meal" } });
      if (stopped === null) {
        assert.equal(waiting.length, 5);
        continue;
      }
      assert.deepEqual([stopped, table.phases[2], table.eaten[2]], [2, "eating", 1]);
      for (const near of [1, 3]) assert.ok(waiting.includes(near) || table.eaten[near] === table.jobs[near]);
    }
  }
});

test("waits and meals are counted from the turns", async () => {
  const table = new WaiterTable({ sites: [{ jobs: 1 }, { jobs: 2 }], edges: [{ ends: [0, 1] }] });
  // 1 grows hungry, asks and eats; 0 grows hungry and asks; 1 ends, and 0 eats.
  const { spans, longest, overtaken, turn } = await runOf(table, [1, 1, 1, 0, 0, 1, 0, 0, 1, 1, 1, 1].values());
  assert.deepEqual(spans[0], [
    { phase: "hungry", from: 4, to: 7 }, { phase: "eating", from: 7, to: 8 }, { phase: "thinking", from: 8, to: 12 },
  ]);
  assert.deepEqual([longest, overtaken, turn], [3, 0, 12]);
});

test("a run without an end is cut off, and large plans are not compared", async () => {
  const endless = { jobs: [1], eaten: [0], phases: ["hungry"], edges: [], messages: 0, act: () => true };
  const outcome = await runOf(endless, turnsOf(1, "round"));
  assert.deepEqual([outcome.isCutOff, outcome.turn, outcome.waiting], [true, COMPARED.turns, []]);
  assert.equal(endOf(outcome, ["a"]), `Cut off after turn ${COMPARED.turns}.`);
  assert.ok(PLANS.every((it) => isComparable(starts.get(it).state)));
  assert.ok(!isComparable((await scheduleOf("plans/star_of_64.toml")).state));
  assert.ok(!isComparable({ sites: [{ jobs: COMPARED.jobs + 1 }] }));
});
