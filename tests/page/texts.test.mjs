// Texts that the page packs, puts into its address and saves.
import assert from "node:assert/strict";
import test from "node:test";

import { addressOf, momentOf, wholeLesson } from "../../page/address.js";
import { keep, keepLesson, kept, ownLesson, tomlOf } from "../../page/moments.js";
import { SHAPES, joined, planOfState, shaped, textOfPlan, withSite, withoutSite } from "../../page/own_plan.js";
import { packed, unpacked, unpackedText } from "../../page/packing.js";
import { faultText, refusalOf } from "../../page/refusals.js";
import { RING, scheduleOf, textOf } from "./rules.mjs";

const PLAN = textOf("tests/cases/triangle.toml");
// A moment as the page begins with it.
const MOMENT = {
  path: RING, plan: textOf(RING), list: [], at: 0, by: "random", seed: 1, speed: 1.5, isOfThreads: false, lesson: null,
  moment: 0,
};
const NOTHING = {
  path: null, plan: null, list: [], at: null, by: null, seed: null, speed: null, isOfThreads: false, lesson: null,
  own: null, moment: 0, best: null,
};
// Letters that can't be packed much: so many, the same each time.
const letter = (_, it) => String.fromCharCode(0x4e00 + (it * it * 7919) % 20000);
const letters = (count) => Array.from({ length: count }, letter).join("");

for (const text of ["", "a", "ü ☃ 𝄞", PLAN, letters(3000), "x".repeat(100000)]) {
  test(`a text of ${text.length} letters that is packed is had back`, async () => {
    const held = await packed(text);
    assert.match(held, /^[\w-]*$/);
    assert.equal(await unpackedText(`\n${held} `), text);
    assert.deepEqual(await unpacked(held), new TextEncoder().encode(text));
  });
}

test("what is cut off or changed can't be unpacked", async () => {
  const held = await packed(PLAN);
  const message = "the address is cut off or changed: it can't be unpacked";
  for (const it of [held.slice(0, held.length / 2), `${held.slice(0, 20)}!${held.slice(21)}`, "____"]) {
    await assert.rejects(async () => unpackedText(it));
    await assert.rejects(momentOf(`#packed=${it}`), { message });
  }
});

test("an address says of a moment what is not as at the beginning", async () => {
  assert.equal(await addressOf(MOMENT), `#plan=${RING}`);
  const all = { list: [4, 0, 12], at: 2, by: "first", seed: 77, speed: -0.5, isOfThreads: true };
  const lesson = { path: "lessons/a b.toml" };
  assert.equal(await addressOf({ ...MOMENT, ...all, lesson, moment: 3 }),
    `#plan=${RING}&choices=4,0,12&at=2&by=first&seed=77&speed=-0.5&threads=1&lesson=lessons/a%20b.toml&moment=4`);
});

const OWN = { path: "own", title: "t & #", moments: [{ text: "version = 1", title: "ü" }] };
const SHOWN = {
  plain: { list: [1, 2], at: 2 },
  "own plan": { path: null, plan: PLAN, list: [3], at: 0, seed: 999999, speed: 5 },
  "given plan": { path: "/tmp/x.toml", plan: PLAN },
  "own lesson": { lesson: OWN, moment: 1 },
  packed: { path: null, plan: PLAN.repeat(20), list: Array.from({ length: 2000 }, (_, it) => it), at: 1999 },
};
for (const [name, parts] of Object.entries(SHOWN)) {
  test(`the address of a moment is read again: ${name}`, async () => {
    const shown = { ...MOMENT, ...parts };
    const said = await addressOf(shown);
    assert.equal(said.startsWith("#packed="), name === "packed");
    const isOfAll = shown.path?.startsWith("plans/");
    assert.deepEqual(await momentOf(said), {
      ...NOTHING, path: isOfAll ? shown.path : null, plan: isOfAll ? null : shown.plan, list: shown.list,
      at: shown.at === shown.list.length ? null : shown.at, seed: shown.seed === 1 ? null : shown.seed,
      speed: shown.speed === 1.5 ? null : shown.speed, own: shown.lesson ? wholeLesson(OWN) : null,
      moment: shown.moment,
    });
  });
}

test("a moment that is too long has no address", async () => {
  assert.equal(await addressOf({ ...MOMENT, path: null, plan: letters(60000) }), "");
  assert.equal(await addressOf({ ...MOMENT, list: Array(400000).fill(0) }), "");
});

test("an address that says nothing of use says nothing", async () => {
  const ranges = "at=-1&by=last&seed=1000000&speed=6&moment=1.5";
  for (const said of ["", "#", "#cups=1", `#${ranges}`, "#at=x&seed=1.5&speed=x&moment=0"]) {
    assert.deepEqual(await momentOf(said), NOTHING, said);
  }
  for (const choices of ["1,", "a", "-1", "1,,2", "12345678901"]) {
    const message = `the choices of the address are no list: ${choices}`;
    await assert.rejects(momentOf(`#choices=${choices}`), { message });
  }
});

test("a lesson is a text that TOML can read", () => {
  const moment = { plan: RING, text: "x", choices: "4,4", at: 2, title: 'One "moment"', note: "a\n\\b\u007f" };
  assert.equal(tomlOf({ title: "T", moments: [moment, { ...moment, plan: null, choices: "", at: 0 }] }), `title = "T"

[[moment]]
plan = "${RING}"
choices = "4,4"
at = 2
title = "One \\"moment\\""
note = "a\\n\\\\b\\u007f"

[[moment]]
text = "x"
choices = ""
at = 0
title = "One \\"moment\\""
note = "a\\n\\\\b\\u007f"
`);
});

test("what is kept is had back, and a browser may keep nothing", () => {
  const none = { path: "own", title: "My moments", moments: [] };
  assert.deepEqual([kept("x"), ownLesson()], [null, none]);
  keepLesson({ moments: [1] });
  assert.deepEqual(ownLesson(), none);
  const held = new Map();
  const getItem = (name) => held.get(name) ?? null;
  globalThis.localStorage = { getItem, setItem: (name, text) => held.set(name, text) };
  keep("x", "1");
  keepLesson({ ...OWN, more: 1 });
  assert.deepEqual([kept("x"), ownLesson()], ["1", OWN]);
  delete globalThis.localStorage;
});

test("a refusal is a sentence, and names its line and what is to be mended there", () => {
  const text = 'version = 1\n\n[[site]]\nname = "a"\n\n[[ edge ]]\nends = ["a", "cup"]\n\n[[edge]]\n';
  const end = "An end of this edge is no site's name.";
  const at = text.indexOf('"cup"');
  const refusals = {
    "dine: plan refused: 12 UnknownEnd at edge 0": [`${end} Line 7, "cup": there is "a".`, { from: at, to: at + 5 }],
    "plan refused: 12 UnknownEnd at edge 2": [`${end} It is edge 2, counted from 0.`, null],
    "plan refused: 8 NoSite": ["There is no site.", null],
    "out of memory": ["out of memory", null],
    "plan refused: 99 Cups": ["plan refused: 99 Cups", null],
  };
  for (const [line, [sentence, range]] of Object.entries(refusals)) {
    assert.deepEqual(refusalOf(line, text), { sentence, range });
    assert.equal(faultText(line, text), sentence === line ? line : `The plan is refused. ${sentence}`);
  }
});

// The plans that are refused, with the place that features/explain.py finds in each, by its own reading.
const EXPLAINED = new Map(textOf("tests/explained.txt").split(/^# /m).slice(1).map((it) => {
  const [name, ...lines] = it.split("\n");
  return [name, /:(\d+):(\d+): /.exec(lines[0])?.slice(1).map(Number) ?? null];
}));

test("the line of a refusal is that which the program explains", () => {
  let count = 0;
  for (const [name, place] of EXPLAINED) {
    const text = textOf(`tests/refused/${name}.toml`);
    const line = /check> dine: (plan refused: .*)/.exec(text)[1];
    const { range } = refusalOf(line, text);
    assert.equal(range === null, place === null, name);
    if (!place || name.startsWith("not_utf8")) continue;
    assert.equal(text.slice(0, range.from).split("\n").length, name === "no_version" ? 1 : place[0], name);
    count += 1;
  }
  assert.ok(count > 15, `${count}`);
});

test("tables in braces have lines too, and so has a key that is there twice", () => {
  const inline = 'version = 1\nsite = [\n  { name = "a" }, { name = "a b" },\n]\n';
  assert.match(refusalOf("plan refused: 6 BadName at site 1", inline).sentence, /Line 3, "a b": this name\.$/);
  const twice = "version = 1\nversion = 1\n";
  assert.match(refusalOf("plan refused: 1 NotToml", twice).sentence, /Line 2, version: this key is there already\.$/);
  for (const text of ["a = [1, 2", "[[site]\nx = 1", "= 1", "x 1", 'x = "a', "x = { a = 1"]) {
    assert.match(refusalOf("plan refused: 1 NotToml", text).sentence, /Line \d+/, text);
  }
});

// ---- Plans that are made

test("shapes are plans, and so is what taps make of them", async () => {
  for (const shape of SHAPES) {
    for (const count of [1, 2, 3, 5, 9, 32, 64, 900]) {
      const plan = shaped(shape, count, 2);
      const { sites, edges } = (await scheduleOf(textOfPlan(plan))).state;
      assert.equal(sites.length, Math.min(count, shape === "complete" ? 32 : 64));
      assert.deepEqual(edges.map(({ ends }) => ends), plan.edges);
      assert.deepEqual(planOfState({ sites, edges }), plan);
    }
  }
  const edges = { ring: 5, star: 4, path: 4, grid: 4, complete: 10 };
  for (const [shape, count] of Object.entries(edges)) assert.equal(shaped(shape, 5, 1).edges.length, count, shape);
  assert.equal(shaped("grid", 9, 1).edges.length, 12);
  assert.deepEqual(shaped("path", "x", -3), { names: ["a"], meals: [0], edges: [] });
});

test("sites and edges come and go", async () => {
  let plan = withSite(shaped("ring", 3, 1));
  assert.deepEqual([plan.names, plan.meals], [["a", "b", "c", "d"], [1, 1, 1, 1]]);
  plan = joined(plan, 3, 0);
  assert.equal(plan.edges.length, 4);
  assert.equal(joined(plan, 0, 3).edges.length, 3);
  assert.equal(joined(plan, 1, 1), null);
  plan = withoutSite(plan, 1);
  assert.deepEqual([plan.names, plan.edges], [["a", "c", "d"], [[0, 1], [2, 0]]]);
  assert.equal(withSite(plan).names.at(-1), "e");
  const { edges } = (await scheduleOf(textOfPlan(plan))).state;
  assert.equal(edges.length, 2);
  assert.equal(withoutSite(shaped("path", 1, 1), 0), null);
  assert.equal(withSite(shaped("ring", 64, 1)), null);
});

test("the address of a moment of a lesson that each page has is short", async () => {
  const lesson = { path: "lessons/x.toml" };
  const shown = { ...MOMENT, list: [1, 2], at: 1, lesson, moment: 4, isAtMoment: true };
  assert.equal(await addressOf(shown), "#lesson=lessons/x.toml&moment=5");
  assert.equal(await addressOf({ ...shown, best: 12 }), "#lesson=lessons/x.toml&moment=5&best=12");
  assert.match(await addressOf({ ...shown, isAtMoment: false }), /^#plan=.*&choices=1,2&at=1&lesson=/);
  assert.match(await addressOf({ ...shown, lesson: OWN }), /^#plan=.*&choices=1,2&at=1&own=/);
  assert.equal((await momentOf("#lesson=x&moment=5&best=12")).best, 12);
});
