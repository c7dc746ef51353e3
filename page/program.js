// Whom the page asks. The states come from the proved rules, compiled to WebAssembly, which work beside the page. A run
// on threads comes from ./show if that serves the page, and else it was recorded.

import { unpacked, unpackedText } from "./packing.js";

class Program {
  // `catalog` is what the page offers, `module` has the bytes of the rules, and `worker` is the address of the worker.
  constructor({ catalog, module, worker }) {
    Object.assign(this, { catalog, isServed: catalog.served === true, waiting: [] });
    this.worker = new Worker(worker);
    this.worker.addEventListener("message", ({ data }) => this.hear(data));
    // Only a worker that can't begin has an error, and then it answers nothing any more.
    this.worker.addEventListener("error", ({ message }) => {
      this.fault = new Error(message || "the worker can't begin");
      for (const { reject } of this.waiting) reject(this.fault);
    });
    this.worker.postMessage({ module });
  }

  hear({ text, fault }) {
    const { resolve, reject } = this.waiting.shift();
    const answer = fault ? null : JSON.parse(text);
    const line = fault ?? answer.refused?.line;
    if (line) reject(new Error(line));
    else resolve(answer);
  }

  ask(question) {
    return new Promise((resolve, reject) => {
      if (this.fault) throw this.fault;
      this.waiting.push({ resolve, reject });
      this.worker.postMessage(question);
    });
  }

  // The states of a plan after so many choices of the list, for each of the rising places.
  states(plan, list, places) {
    return this.ask({ name: "states", plan, list, places: Uint32Array.from(places) });
  }

  // The events of a list, in columns.
  events(plan, list) {
    return this.ask({ name: "events", plan, list: Uint32Array.from(list) });
  }

  // Whether this plan can be run on threads, or was.
  hasRun(plan) {
    return this.isServed || this.recorded(plan) !== undefined;
  }

  recorded(plan) {
    return this.catalog.runs?.find(({ text }) => text === plan);
  }

  // The list of a run on threads. The server may have to build a program for it first.
  async run(plan) {
    const text = this.isServed ? await served(plan) : this.recorded(plan).choices;
    return text.trim() === "" ? [] : text.split(",").map(Number);
  }
}

// What ./show answers when it is asked for a run of this plan.
async function served(plan) {
  let answer;
  try {
    answer = await fetch("/run", { method: "POST", body: plan });
  } catch {
    throw new Error("no answer: is ./show still running?");
  }
  const text = await answer.text();
  if (!answer.ok) throw new Error(text.trim());
  return text;
}

// Returns whom this page asks. The page has all but the runs in itself.
export async function programOf() {
  const held = (name) => document.getElementById(name).textContent;
  const [catalog, module] = [JSON.parse(await unpackedText(held("catalog"))), await unpacked(held("module"))];
  const worker = URL.createObjectURL(new Blob([held("worker")], { type: "text/javascript" }));
  return new Program({ catalog, module, worker });
}
