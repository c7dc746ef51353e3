// The proved rules for the tests by node: page/worker.js is asked as the page asks it. Schedules are of plans of the
// repository.
import fs from "node:fs";

const HOME = new URL("../../", import.meta.url);
export const RING = "plans/ring_of_five.toml";
// The choices by which on that plan all five are hungry, and all have asked.
export const ASKED = [0, 1, 2, 3, 4, 5, 5, 5, 4, 3];

const worker = {};
globalThis.addEventListener = (_, hear) => { worker.hear = (data) => hear({ data }); };
globalThis.postMessage = (said) => { worker.said = said; };
await import("../../page/worker.js");
const { Schedule, drawn } = await import("../../page/schedule.js");
export const MODULE = fs.readFileSync(new URL("page/dine.wasm", HOME));
worker.hear({ module: MODULE });

async function ask(question) {
  worker.hear(question);
  const { text, fault } = worker.said;
  const answer = fault ? { refused: { line: fault } } : JSON.parse(text);
  if (answer.refused) throw new Error(answer.refused.line);
  return answer;
}

const program = {
  states: (plan, list, places) => ask({ name: "states", plan, list, places }),
  events: (plan, list) => ask({ name: "events", plan, list: Uint32Array.from(list) }),
};

export function textOf(path) {
  return fs.readFileSync(new URL(path, HOME), "utf8");
}

// A schedule of a plan, by its path or its text, after these choices.
export async function scheduleOf(plan, list = [], at = null) {
  const isPath = plan.endsWith(".toml");
  const schedule = new Schedule(program, isPath ? plan : null, isPath ? textOf(plan) : plan);
  await schedule.open(list, at);
  return schedule;
}

// The schedules at so many states along random schedules of all plans but the largest.
export async function* states(count, seed = 1) {
  const files = fs.readdirSync(new URL("plans/", HOME)).filter((it) => it.endsWith(".toml"));
  for (const file of files.filter((it) => it !== "star_of_64.toml")) {
    const schedule = await scheduleOf(`plans/${file}`);
    for (let turn = 0; turn < count && schedule.state.enabled.length; turn += 1) {
      yield schedule;
      await schedule.choose(drawn(seed, turn, schedule.state.enabled.length));
    }
    yield schedule;
  }
}

// Does enabled events by their words.
export async function does(schedule, ...events) {
  for (const words of events) {
    await schedule.choose(schedule.state.enabled.findIndex((it) => it.words === words));
  }
}
