// node answers.mjs MODULE: answers questions by page/dine.wasm. Each line of the input is a question as JSON, and each
// line of the output is its answer.
//
// A question has the bytes of the `plan` in base64, `choices` and `places`. Its `call` says who is asked: the export
// `dine_open` or `dine_events`; `dine_now`, for the states at places that rise, by a handle; or `worker`, which is
// page/worker.js, for the states at places in any order.
import fs from "fs";
import readline from "readline";

// The bytes that an answer may have at first.
const SIZE = 1 << 12;
const DONE = "{}";
const NO_EVENT = JSON.stringify({ refused: { line: "no such event" } });

const bytes = fs.readFileSync(process.argv[2]);
const { memory, reset, room, leave, ...calls } = new WebAssembly.Instance(new WebAssembly.Module(bytes), {}).exports;

// The worker, by what it would hear from the page and post to it.
const worker = {};
globalThis.addEventListener = (_, hear) => { worker.hear = (data) => hear({ data }); };
globalThis.postMessage = (said) => { worker.said = said; };
await import("../page/worker.js");
worker.hear({ module: bytes });

// A copy of these numbers in the module's memory, as the two arguments of a slice.
function slice(numbers) {
  const at = room(BigInt(numbers.byteLength));
  new numbers.constructor(memory.buffer, Number(at), numbers.length).set(numbers);
  return [at, BigInt(numbers.length)];
}

// What a call answers. It is asked again if the answer has more bytes than `size`.
function answer(call, given, size = SIZE) {
  const at = room(BigInt(size));
  const length = Number(calls[call](...given, at, BigInt(size)));
  const text = Buffer.from(new Uint8Array(memory.buffer, Number(at), Math.min(length, size))).toString();
  leave(at);
  return length > size ? answer(call, given, 4 * size) : text;
}

function bytesOf({ plan }) {
  return Uint8Array.from(Buffer.from(plan, "base64"));
}

function eventsOf({ choices, ...question }) {
  return answer("dine_events", [bytesOf(question), Uint32Array.from(choices)].flatMap(slice));
}

// A new handle, and what it answers when the plan is opened in it.
function opened(question) {
  const [handle] = slice(new Uint8Array(16));
  return { handle, said: answer("dine_open", [...slice(bytesOf(question)), handle]) };
}

// The states at places that rise. A choice with no event is passed over.
function byHandle({ choices, places, ...question }) {
  const { handle, said } = opened(question);
  if (said !== DONE) return said;
  const [left, states] = [[...choices], []];
  let events = 0;
  for (const place of places) {
    while (events < place && left.length) {
      const chosen = answer("dine_choose", [handle, left.shift()]);
      if (chosen === DONE) events += 1;
      else if (chosen !== NO_EVENT) return chosen;
    }
    states.push(answer("dine_now", [handle]));
  }
  return `[${states.join()}]`;
}

// The choices that name an event, as the worker answers, or its refusal.
function doneBy({ plan, choices }) {
  worker.hear({ name: "events", plan: Buffer.from(plan, "base64").toString(), list: Uint32Array.from(choices) });
  return JSON.parse(worker.said.text);
}

function byWorker({ places, ...question }) {
  const { done, refused } = doneBy(question);
  if (refused) return JSON.stringify({ refused });
  const plan = Buffer.from(question.plan, "base64").toString();
  worker.hear({ name: "states", plan, list: Uint32Array.from(done), places });
  return worker.said.text ?? worker.said.fault;
}

const ANSWERS = {
  dine_open: (question) => opened(question).said,
  dine_events: eventsOf,
  dine_now: byHandle,
  worker: byWorker,
};

for await (const line of readline.createInterface({ input: process.stdin })) {
  const question = JSON.parse(line);
  reset();
  process.stdout.write(ANSWERS[question.call](question) + "\n");
}
