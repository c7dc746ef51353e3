// Steps along a schedule, and the plans that schedules are of. What shows them listens to the session.

import { between, setText } from "./marks.js";
import { found, rate, seed, session } from "./session.js";
import { NaiveTable } from "./naive.js";
import { findWait } from "./finding.js";
import { Player, Queue } from "./queue.js";
import { faultText } from "./refusals.js";
import { Schedule, drawn } from "./schedule.js";
import { wayFrom } from "./lessons.js";
import { eventOf } from "./touch.js";

// How long the page waits for a run on threads before it says so, and can be stepped meanwhile, in milliseconds.
const PATIENCE = 2000;
// How many changes can be undone.
const PAST = 50;
// How long a letter flies along its edge, in milliseconds.
export const FLIGHT = 600;

// The place on the timeline that a pointer went to last.
let scrubbed = 0;

// Shows a line about what went wrong, or none.
export function tell(line) {
  setText(found("fault"), line);
  found("fault").hidden = line === "";
}

export const player = new Player({ button: found("play"), step: () => queue.do(step), rate });
export const queue = new Queue({
  busy: document.querySelector("main"),
  note: tell,
  ended: (fault) => {
    if (fault) player.pause();
    tell(fault ? faultText(fault.message, session.state.wanted) : "");
  },
});

// Keeps the list that is shown, so that it can be had back. If events of it are still to come, the timeline has them.
function remember() {
  const { schedule: { list, at, isOfThreads, own }, past, other } = session.state;
  const kept = { list, at, isOfThreads, own };
  session.set({ past: [...past.slice(1 - PAST), { ...kept, other }], other: at < list.length ? kept : other });
}

// Does the enabled event with this number.
async function doEvent(number) {
  const { schedule } = session.state;
  pace(player.isPlaying ? Math.min(FLIGHT, 800 / rate()) : FLIGHT);
  if (schedule.list[schedule.at] !== number) remember();
  await schedule.choose(number, !player.isPlaying);
  session.change();
}

// Does the enabled event of this number, as the reader asks for it.
export function press(number) {
  pause();
  return queue.do(async () => {
    if (number < session.state.schedule.state.enabled.length) await doEvent(number);
  });
}

// Does the event of a thing that was tapped, or says why there is none. If one site and its neighbours are in focus, a
// tap on another one shows that.
export function touch(thing, focus) {
  pause();
  const { schedule, selected, lesson } = session.state;
  const { site } = thing;
  const isElsewhere = site !== undefined && focus !== null && site !== focus;
  const { event, words, why } = eventOf(schedule.state, thing);
  if (isElsewhere || (site !== undefined && document.body.classList.contains("asks"))) {
    session.change({ selected: site === selected ? null : site });
  } else if (event) {
    if (site !== undefined && !lesson) session.set({ selected: site });
    press(event.number);
  } else {
    const isAgain = site !== undefined && site === selected;
    const touched = isAgain ? null : { words, why, key: schedule.key };
    session.change({ touched, selected: site === undefined ? selected : isAgain ? null : site });
  }
}

export function chooseRandom() {
  return queue.do(async () => {
    const { at, state: { enabled } } = session.state.schedule;
    if (enabled.length > 0) await doEvent(drawn(seed(), at, enabled.length));
  });
}

async function restore({ list, at, isOfThreads, own = list.length }) {
  const { schedule } = session.state;
  await schedule.open(list, at);
  Object.assign(schedule, { isOfThreads, own });
  session.change();
}

// Takes back the last change of the list.
export function undo() {
  pause();
  return queue.do(async () => {
    const { past } = session.state;
    const last = past.at(-1);
    if (!last) return;
    session.set({ past: past.slice(0, -1), other: last.other });
    await restore(last);
  });
}

// Goes back to the list that was left, at the place where it was. The one that is shown is left for it.
export function takeOther() {
  pause();
  return queue.do(async () => {
    const { other, schedule: { list, isOfThreads, own } } = session.state;
    remember();
    session.set({ other: { list, at: other.at, isOfThreads, own } });
    await restore(other);
  });
}

// Finds a run in which a site waits for so many events, and shows it where that site is to eat.
export function showWait() {
  pause();
  return queue.do(async () => {
    const { schedule } = session.state;
    const [site, least] = ["find-site", "find-count"].map((it) => Number(found(it).value));
    const { list, wait, runs } = await findWait(schedule, site, Math.max(1, least), seed());
    const { name } = schedule.state.sites[site];
    if (list) {
      remember();
      await restore({ list: Uint32Array.from(list), at: wait.to, isOfThreads: false });
    }
    const words = list ? `Run ${runs} of those tried: ${name} waits, events ${wait.from + 1} to ${wait.to}.`
      : `${name} waits so long in none of ${runs.toLocaleString("en")} random runs.`;
    session.change({ finding: { words, version: schedule.version } });
  });
}

export function jump(count) {
  pause();
  return queue.do(async () => {
    const { schedule } = session.state;
    await schedule.go(between(0, count(schedule), schedule.list.length));
    session.change();
  });
}

// Goes along with a pointer that is dragged over the timeline: only to where it is last.
export function scrub(place) {
  scrubbed = place;
  if (queue.waiting <= 1) jump(() => scrubbed);
}

// How long a mark takes to where it goes, in milliseconds.
export function pace(wait) {
  document.documentElement.style.setProperty("--move", `${wait}ms`);
}

// Does the event that follows, and stops playing if there is none.
export async function step() {
  const { schedule, naive } = session.state;
  const number = schedule.next(found("pick").value, seed());
  if (number === null || (session.state.isPlain && !naive.hasNext())) {
    pause();
    return;
  }
  await doEvent(number);
  const { lesson, isPlain, way } = session.state;
  const isEndOfWay = lesson !== null && !isPlain && schedule.at === way.length;
  if (isEndOfWay || schedule.next("first", 0) === null) pause();
}

// Ends what plays by itself.
export function pause() {
  session.state.walk?.skip();
  session.set({ walk: null });
  player.pause();
}

// Runs the plan on threads, and plays what they did.
export function runOnThreads() {
  pause();
  return queue.do(async () => {
    const { program, schedule: { plan } } = session.state;
    if (!program.hasRun(plan) || !found("building").hidden) return;
    const run = program.run(plan);
    const isLate = await Promise.race([run.then(() => false), new Promise((then) => setTimeout(then, PATIENCE, true))]);
    if (isLate) playLater(run, plan);
    else await playRun(await run);
  });
}

async function playRun(list) {
  remember();
  await restore({ list, at: 0, isOfThreads: true });
  // Space pauses then, and does not ask for another run.
  found("play").focus({ preventScroll: true });
  player.play();
}

// Says that a run is waited for, and plays it once it is there, if its plan is still shown.
async function playLater(run, plan) {
  found("building").hidden = false;
  await run.catch(() => {});
  found("building").hidden = true;
  queue.do(async () => {
    const list = await run;
    if (session.state.schedule.plan !== plan) return;
    pause();
    await playRun(list);
  });
}

// Shows a plan after the choices, of which `at` are done.
export async function openPlan({ path, plan, list = [], at = null, isOfThreads = false }) {
  session.set({ wanted: plan });
  const schedule = new Schedule(session.state.program, path, plan);
  await schedule.open(list, at);
  pause();
  schedule.isOfThreads = isOfThreads;
  session.open({
    schedule, selected: null, naive: new NaiveTable(schedule.state), past: [], other: null, touched: null,
    finding: null, isFront: false, isTurned: true,
  });
}

export function openOffered() {
  const path = found("plans").value;
  return queue.do(async () => {
    if (path === "") return;
    await openPlan({ path, plan: session.state.plans.get(path) });
    leaveLesson();
  });
}

// Opens the plan that was written. Returns the line of its refusal, or null.
export async function openWritten(plan) {
  let refused = null;
  await queue.do(async () => {
    try {
      await openPlan({ path: null, plan });
      leaveLesson();
    } catch (fault) {
      refused = fault.message;
    }
  });
  return refused;
}

// Has the page show what a moment of a lesson asks for, or all if there is none.
export function takeUp(lesson, place = 0) {
  const moment = lesson?.moments[place];
  const site = session.state.schedule?.state.sites.findIndex(({ name }) => name === moment?.site) ?? -1;
  found("lessons").value = lesson?.path ?? "";
  found("naive").checked = moment?.naive === true;
  found("predict").checked = moment?.hide === true;
  session.change({
    lesson, moment: place, way: moment ? wayFrom(lesson.moments, place) : [], kinds: moment?.show ?? null,
    isPlain: moment?.naive === "alone", selected: site < 0 ? null : site, isFront: false, isOpen: false,
    isTurned: true, touched: null, best: null,
  });
}

// Goes on without a lesson. The switches that a moment had set go back; what the reader had set stays.
export function leaveLesson() {
  if (session.state.lesson || session.state.kinds) takeUp(null);
  else session.change();
}
