// The address of the page holds the whole moment: the plan, all choices, how many of them are done, and how the steps
// go. Where that is long it is packed.

import { packed, unpackedText } from "./packing.js";

// From how many letters on an address is packed, and how many it has at most.
const LONG = 1200;
const MOST = 60000;
// From how many letters and choices on it would take too long to pack them.
const PACKED = 400000;
const DIGITS = /^[0-9]{1,10}(,[0-9]{1,10})*$/;

// Whether every page has this plan or lesson, so that its path says enough.
const isOfAll = (path, folder) => path?.startsWith(`${folder}/`);

// A lesson as a text, whole.
export function wholeLesson({ title, moments }) {
  return JSON.stringify({ title, moments });
}

// What is said of a moment, with no part that is as it is at the beginning.
function saidOf({ path, plan, list, at, by, seed, speed, lesson, moment, isAtMoment, isOfThreads, best }) {
  const escaped = (text) => encodeURIComponent(text).replaceAll("%2F", "/");
  const parts = [];
  // A moment of a lesson that each page has says the rest.
  if (!isAtMoment || !isOfAll(lesson?.path, "lessons")) {
    parts.push(isOfAll(path, "plans") ? `plan=${escaped(path)}` : `text=${escaped(plan)}`);
    if (list.length) parts.push(`choices=${list.join(",")}`);
    if (at !== list.length) parts.push(`at=${at}`);
  }
  if (by !== "random") parts.push(`by=${by}`);
  if (seed !== 1) parts.push(`seed=${seed}`);
  if (speed !== 1.5) parts.push(`speed=${speed}`);
  if (isOfThreads) parts.push("threads=1");
  if (isOfAll(lesson?.path, "lessons")) parts.push(`lesson=${escaped(lesson.path)}`);
  else if (lesson) parts.push(`own=${escaped(wholeLesson(lesson))}`);
  if (lesson) parts.push(`moment=${moment + 1}`);
  if (lesson && best) parts.push(`best=${best}`);
  return parts.join("&");
}

// The address of a moment, or an empty text if it would be too long.
export async function addressOf(moment) {
  if (moment.plan.length + moment.list.length > PACKED) return "";
  const said = saidOf(moment);
  const held = said.length <= LONG ? said : `packed=${await packed(said)}`;
  return held.length <= MOST ? `#${held}` : "";
}

function numberOf(said, name, least, most) {
  const number = Number(said.get(name) ?? NaN);
  return Number.isFinite(number) && number >= least && number <= most ? number : null;
}

function wholeOf(said, name, least, most) {
  const number = numberOf(said, name, least, most);
  return Number.isInteger(number) ? number : null;
}

// What an address says, as far as it says anything. Throws if it can't be read.
export async function momentOf(address) {
  let said = new URLSearchParams(address.replace(/^#/, ""));
  if (said.has("packed")) {
    try {
      said = new URLSearchParams(await unpackedText(said.get("packed")));
    } catch {
      throw new Error("the address is cut off or changed: it can't be unpacked");
    }
  }
  const choices = said.get("choices") ?? "";
  if (choices !== "" && !DIGITS.test(choices)) throw new Error(`the choices of the address are no list: ${choices}`);
  return {
    path: said.get("plan"),
    plan: said.get("text"),
    list: choices === "" ? [] : choices.split(",").map(Number),
    at: wholeOf(said, "at", 0, 1e9),
    by: ["first", "random"].includes(said.get("by")) ? said.get("by") : null,
    seed: wholeOf(said, "seed", 0, 999999),
    speed: numberOf(said, "speed", -1, 5),
    isOfThreads: said.has("threads"),
    lesson: said.get("lesson"),
    own: said.get("own"),
    moment: (wholeOf(said, "moment", 1, 1e6) ?? 1) - 1,
    best: wholeOf(said, "best", 1, 1e6),
  };
}
