// One thing after the other, and what plays by itself; the numbers that the page's fields have.
import assert from "node:assert/strict";
import test from "node:test";

import { Player, Queue } from "../../page/queue.js";
import { rate, seed } from "../../page/session.js";

// A queue, and what it does: work that is done, faults, notes, and what it says of being at work.
function queueOf() {
  const done = [];
  const queue = new Queue({
    busy: { setAttribute: (_, value) => done.push(value === "true" ? "busy" : "idle") },
    note: (line) => done.push(line),
    ended: (fault) => done.push(fault?.message ?? "ended"),
  });
  return { queue, done };
}

test("work is done one after the other, and a fault stops nothing", async () => {
  const { queue, done } = queueOf();
  const wait = (name, milliseconds) => queue.do(async () => {
    await new Promise((resolve) => { setTimeout(resolve, milliseconds); });
    if (name === "bad") throw new Error("a fault");
    done.push(name);
  });
  await Promise.all([wait("slow", 20), wait("bad", 0), wait("fast", 0)]);
  assert.deepEqual(done, ["busy", "busy", "busy", "slow", "ended", "a fault", "fast", "ended", "idle"]);
  assert.equal(queue.waiting, 0);
});

test("what comes too fast is passed over, and that is said", async () => {
  const { queue, done } = queueOf();
  let count = 0;
  await Promise.all(Array.from({ length: 20 }, () => queue.do(async () => { count += 1; })));
  assert.deepEqual([count, done.at(-1)], [12, "8 presses came too fast, and were passed over"]);
  await queue.do(async () => { count += 1; });
  assert.deepEqual([count, done.at(-1)], [13, "idle"]);
});

test("steps are played until they are paused", async () => {
  const button = { textContent: "Play" };
  let [count, player] = [0, null];
  const played = new Promise((resolve) => {
    const step = async () => {
      count += 1;
      if (count === 3) player.play();
      if (count === 3) resolve();
    };
    player = new Player({ button, step, rate: () => 500 });
  });
  player.play();
  assert.equal(button.textContent, "Pause");
  await played;
  await new Promise((resolve) => { setTimeout(resolve, 20); });
  assert.deepEqual([count, button.textContent, player.isPlaying], [3, "Play", false]);
});

test("a seed is a whole number in its range, and the rate is a power of two", () => {
  const fields = { seed: { value: "" }, speed: { value: "1.5" } };
  globalThis.document = { getElementById: (name) => fields[name] };
  const wanted = { "": 0, 77: 77, 1.9: 1, "-3": 0, 1e9: 999999, cups: 0 };
  for (const [value, number] of Object.entries(wanted)) {
    fields.seed.value = value;
    assert.equal(seed(), number, value);
  }
  assert.equal(rate(), 2 ** 1.5);
  delete globalThis.document;
});
