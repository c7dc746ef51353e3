// page/dine.wasm, asked by its exports, and what a step takes page/worker.js. tests/test_wasm_answers.py compares
// answers with those of the program.
import assert from "node:assert/strict";
import test from "node:test";

import { MODULE, scheduleOf, textOf } from "./rules.mjs";

const instance = new WebAssembly.Instance(new WebAssembly.Module(MODULE), {});
const { memory, reset, room, ...calls } = instance.exports;

// A copy of these numbers in the module's memory, as the two arguments of a slice.
function slice(numbers) {
  const at = room(BigInt(numbers.byteLength));
  new numbers.constructor(memory.buffer, Number(at), numbers.length).set(numbers);
  return [at, BigInt(numbers.length)];
}

// What a call answers, which has at most so many bytes. It is written to `at`.
function answer(call, given, size = 1 << 20, at = room(BigInt(size))) {
  const length = Number(calls[call](...given, at, BigInt(size)));
  return length > size ? length : Buffer.from(new Uint8Array(memory.buffer, Number(at), length)).toString();
}

const bytesOf = (path) => slice(new TextEncoder().encode(textOf(path)));
const refused = (line) => JSON.stringify({ refused: { line } });
// The most bytes that are free when memory is filled.
const HOLE = 1 << 20;

// Takes all memory but for so many bytes. Returns what has to be freed for HOLE of them.
function filled(left) {
  const hole = room(BigInt(HOLE));
  for (let size = 1n << 30n; size > 0n; size /= 2n) while (room(size) !== 0n);
  calls.leave(hole);
  return room(BigInt(HOLE - left));
}

test("an answer that has no room in memory says so", () => {
  reset();
  const [handle] = slice(new Uint8Array(16));
  assert.equal(answer("dine_open", [...bytesOf("plans/star_of_64.toml"), handle]), "{}");
  const said = room(BigInt(HOLE));
  const now = () => answer("dine_now", [handle], HOLE, said);
  const state = now();
  const taken = filled(state.length >> 1);
  assert.equal(now(), refused("out of memory"));
  calls.leave(taken);
  assert.equal(now(), state);
});

test("a handle that is closed, open already, or none of the module's says so", () => {
  reset();
  const pair = bytesOf("plans/pair.toml");
  const [[handle], [other]] = [16, 16].map((size) => slice(new Uint8Array(size)));
  // The states of a handle with which nothing else is done.
  const said = [["open", ...pair, other], ["now", other], ["choose", other, 0], ["now", other]];
  const [, start, , later] = said.map(([call, ...given]) => answer(`dine_${call}`, given));
  const fill = (byte) => new Uint8Array(memory.buffer, Number(handle), 16).fill(byte);
  const ask = (call, ...given) => answer(`dine_${call}`, [...(call === "open" ? pair : []), handle, ...given]);
  const isClosed = () => {
    const answers = [ask("choose", 0), ...["restart", "now", "close"].map((call) => ask(call))];
    assert.deepEqual(answers, Array(4).fill(refused("the handle is closed")));
  };
  isClosed();
  fill(255);
  isClosed();
  fill(0);
  const asked = [["open"], ["open"], ["choose", 9], ["now"], ["choose", 0], ["now"], ["restart"], ["now"], ["close"]];
  const wanted = ["{}", refused("the handle is open"), refused("no such event"), start, "{}", later, "{}", start, "{}"];
  assert.deepEqual(asked.map((it) => ask(...it)), wanted);
  assert.notEqual(start, later);
  isClosed();
});

test("a handle that is closed leaves no memory behind", () => {
  // The memory of a module never gets smaller, so this one is new.
  const own = new WebAssembly.Instance(new WebAssembly.Module(MODULE), {}).exports;
  const text = new TextEncoder().encode(textOf("plans/star_of_64.toml"));
  const [plan, handle, said] = [text.length, 16, 64].map((size) => own.room(BigInt(size)));
  const bytesAt = (at, size) => new Uint8Array(own.memory.buffer, Number(at), size);
  bytesAt(plan, text.length).set(text);
  // Opens the plan so many times, closes the handle or forgets it, and returns how large the memory is then.
  const sizeAfter = (times, leaves) => {
    for (let turn = 0; turn < times; turn += 1) {
      bytesAt(handle, 16).fill(0);
      assert.equal(own.dine_open(plan, BigInt(text.length), handle, said, 64n), 2n);
      leaves();
    }
    return own.memory.buffer.byteLength;
  };
  const close = () => assert.equal(own.dine_close(handle, said, 64n), 2n);
  const before = sizeAfter(10, close);
  assert.equal(sizeAfter(300, close), before);
  assert.ok(sizeAfter(300, () => {}) > before);
});

// What the calls answer of the plan of two sites if so many bytes of memory are left, and what the handles say then.
function answersWith(left) {
  reset();
  const [plan, choices] = [bytesOf("plans/pair.toml"), slice(Uint32Array.of(0))];
  const [[first], [second], [third]] = [16, 16, 16].map((size) => slice(new Uint8Array(size)));
  const said = room(1n << 14n);
  const ask = (call, ...given) => answer(`dine_${call}`, given, 1 << 14, said);
  for (const handle of [first, second]) assert.equal(ask("open", ...plan, handle), "{}");
  assert.equal(ask("choose", second, 0), "{}");
  const taken = filled(left);
  const answers = {
    now: ask("now", second),
    events: ask("events", ...plan, ...choices),
    open: ask("open", ...plan, third),
    closed: ask("close", third),
    choose: ask("choose", first, 0),
    restart: ask("restart", second),
  };
  calls.leave(taken);
  return { ...answers, first: ask("now", first), second: ask("now", second) };
}

test("with little memory a call does what it does with much, or says that memory ran out and changes nothing", () => {
  const [much, out] = [answersWith(HOLE / 2), refused("out of memory")];
  const { first: later, second: start } = much;
  const done = { open: "{}", closed: "{}", choose: "{}", restart: "{}", now: later };
  assert.deepEqual({ ...much, ...done }, much);
  assert.notEqual(start, later);
  // What is so if a call is refused.
  const closed = refused("the handle is closed");
  const follows = { open: { closed }, choose: { first: start }, restart: { second: later } };
  const asked = ["now", "events", "open", "choose", "restart"];
  for (let left = 0, refusals = asked; refusals.length; left += 16) {
    const found = answersWith(left);
    refusals = asked.filter((call) => found[call] === out);
    if (left === 0) assert.deepEqual(refusals, asked);
    const wanted = { ...much };
    for (const call of refusals) Object.assign(wanted, { [call]: out }, follows[call]);
    assert.deepEqual(found, wanted, `${left} bytes`);
  }
});

// A plan of 64 sites in a circle with 1,000 jobs each, whose sites share an edge if they are this near.
function largePlan(reach) {
  const jobs = Array(1000).fill('{ name = "x", turns = 0, fails = false }').join(", ");
  const sites = Array.from({ length: 64 }, (_, it) => `[[site]]\nname = "s${it}"\njobs = [${jobs}]\n`);
  const ends = sites.flatMap((_, it) => Array.from({ length: reach }, (__, more) => [it, (it + more + 1) % 64]));
  const edges = ends.map(([one, other]) => `[[edge]]\nends = ["s${one}", "s${other}"]\n`);
  return ["version = 1\n", ...sites, ...edges].join("");
}

test("the states and the events of a long list are those of a handle that does its choices", async () => {
  reset();
  const text = largePlan(1);
  const schedule = await scheduleOf(text, Array(70000).fill(0), 0);
  const { sites, edges, length } = schedule.events;
  assert.deepEqual([schedule.list.length, sites.length, edges.length, length], Array(4).fill(70000));
  const [handle] = slice(new Uint8Array(16));
  assert.equal(answer("dine_open", [...slice(new TextEncoder().encode(text)), handle]), "{}");
  const said = room(16n);
  let done = 0;
  for (const place of [0, 1, 255, 256, 257, 65535, 65536, 65537]) {
    for (; done < place; done += 1) calls.dine_choose(handle, 0, said, 16n);
    const state = JSON.parse(answer("dine_now", [handle]));
    await schedule.go(place);
    assert.deepEqual(schedule.state, state);
    assert.deepEqual([state.events, state.last?.site, state.last?.edge], [place, sites[place - 1], edges[place - 1]]);
  }
});

for (const reach of [1, 8]) {
  test(`to add an event to 20,000 of ${64 * reach} edges takes less than 50 ms of a processor`, async (t) => {
    const choices = Array.from({ length: 20000 }, (_, it) => (it * it * 31 + it) % 64);
    const schedule = await scheduleOf(largePlan(reach), choices);
    const times = [];
    for (let turn = 0; turn < 40; turn += 1) {
      const begun = process.cpuUsage();
      await schedule.choose(0);
      const { user, system } = process.cpuUsage(begun);
      times.push((user + system) / 1000);
    }
    const median = times.sort((one, other) => one - other)[20];
    assert.ok(median < 50, `${median} ms`);
    t.diagnostic(`${median.toFixed(1)} ms`);
  });
}
