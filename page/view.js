// What the page shows of the session: its picture, its events, its reasons, its tables and its address.

import { addressOf } from "./address.js";
import { drawLegend, setAttribute, setOff, setText } from "./marks.js";
import { keyOf } from "./glossary.js";
import { found, seed, session } from "./session.js";
import { lessonAfter, placeOf, whereOf } from "./lessons.js";
import {
  codeView, compareView, timeline, edgeTable, enabledList, lessonPanel, naivePicture, picture, quiz, siteTable, why,
} from "./parts.js";
import { doesWhat, isIdle, mealsOf } from "./picture.js";
import { bestOf, challengeOf, isOwnScore, keepBest, scoreOf, scoreText } from "./challenges.js";
import { showChecks } from "./checks_shown.js";
import { linesOfStarving, showStarving } from "./starving.js";
import { ruleOf } from "./sentences.js";
import { openWords } from "./words.js";

const START = "all forks are dirty; of each two neighbours one has the fork, and the other the token to ask for it";
// With more sites or edges than these a picture has one site in focus.
const MANY = { sites: 16, edges: 40 };
// Up to how many letters a line of choices is shown whole, and a line of a log.
const WHOLE = { choices: 4000, log: 1200 };
// The kinds of marks that a picture may show.
const MARKS = ["forks", "tokens", "arrows", "counts"];
// Writes a number with commas. One is made for all numbers, since that takes half a millisecond.
const NUMBERS = new Intl.NumberFormat("en");
// How long the page waits before it writes its address, in milliseconds.
const QUIET = 150;

// How large the picture and letters may be.
let room = { width: 600, height: 400, rem: 1 };
// The first of the sites that have the most edges.
let hub = 0;
// The best score of the challenge that is shown.
let record = null;

// The event that was done last, or null.
const lastOf = ({ at, state }) => (at === 0 ? null : state.last ?? null);

// Has the picture show the kinds of marks of the moment, or all, with the arrows and the counts if they are wanted.
function showKinds({ kinds, isPlain, isFront }) {
  const shown = kinds ?? (found("ranks").checked ? MARKS : MARKS.slice(0, 2));
  for (const kind of MARKS) found("stage").classList.toggle(kind, shown.includes(kind));
  document.body.classList.toggle("shows-less", kinds !== null);
  document.body.classList.toggle("is-plain", isPlain);
  document.body.classList.toggle("front", isFront);
  found("front").hidden = !isFront;
}

function showPicture({ schedule, kinds, selected }) {
  if (focusOf() !== picture.focus) openPicture();
  picture.show(schedule.state);
  picture.mark(kinds ? null : lastOf(schedule));
  picture.select(selected);
  picture.light(null, null);
}

function showTables({ schedule, selected }) {
  siteTable.show(schedule.state, lastOf(schedule), selected);
  edgeTable.show(schedule.state, lastOf(schedule));
}

function showLegend({ schedule, naive, isPlain }) {
  const had = isPlain ? hadOf(naive.state(), null) : hadOf(schedule.state, lastOf(schedule));
  drawLegend(found("legend"), had, (words) => openWords(keyOf(words)));
}

function showTitle({ schedule: { path }, lesson }) {
  const name = lesson?.title ?? (path ? nameOf(path) : "A plan of your own");
  const title = `${name} · Dining philosophers`;
  if (document.title !== title) document.title = title;
}

// What a picture has of what its legend may have.
function hadOf({ sites, edges, links }, last) {
  const { isPlain, kinds: asked, selected } = session.state;
  const kinds = new Set(MARKS.filter((kind) => found("stage").classList.contains(kind)));
  const letters = new Set(links.flatMap((link) => link.letters));
  if (!kinds.has("tokens")) letters.delete("request");
  return {
    kinds,
    letters,
    phases: new Set(sites.map(doesWhat)),
    forks: new Set(edges.map(({ dirty }) => dirty)),
    arrows: new Set(edges.map(isIdle)),
    hasMeals: (isPlain ? naivePicture : picture).hasMeals(),
    hasChosen: selected !== null && !isPlain,
    hasLast: last !== null && asked === null,
    hasClosed: edges.some((edge) => edge.said?.every((it) => it.close_put)),
    isPlain,
  };
}

// Shows the moment of the lesson, and points at what it speaks of.
function showLesson({ schedule, lesson, moment: place, way, isPlain, isOpen, ...state }) {
  const moment = lesson?.moments[place];
  const where = moment ? whereOf(schedule, way, placeOf(moment), isPlain) : "off";
  const isThere = where === "there";
  lessonPanel.show(lesson, place, state.walk ? "there" : where, lessonAfter(state.lessons, lesson));
  const isStory = state.selected === null && !found("predict").checked;
  const isTold = isThere ? !challengeOf(moment) && moment !== lesson.moments.at(-1) : where !== "off";
  document.body.classList.toggle("on-way", isStory && state.kinds !== null && isTold && !isOpen);
  document.body.classList.toggle("is-open", isOpen);
  document.body.classList.toggle("has-code", found("code-on").checked && !isPlain && !state.isFront);
  found("code").hidden = !document.body.classList.contains("has-code");
  setAttribute(found("what-if"), "aria-pressed", isOpen);
  document.body.classList.toggle("starves", isStory && challengeOf(moment) !== null);
  const thing = isThere ? moment.point ?? "" : "";
  const real = picture.point(schedule.state, isPlain ? "" : thing, moment?.callout);
  const pointed = naivePicture.point(schedule.state, isPlain ? thing : "", moment?.callout) || real;
  found("pointed").hidden = pointed === "";
  setText(found("pointed"), pointed && `${thing.replace(/^(count|site) /, "").replace(/^\w+ /, "")}: ${pointed}`);
  const begun = moment ? placeOf(moment) : 0;
  showBest(schedule, begun, challengeOf(moment) && where !== "before" ? moment : null);
  const isFar = moment?.challenge === "far";
  showStarving(found("starving"), moment?.starve ? linesOfStarving(schedule, begun, moment.starve, isFar) : []);
}

// Says the score of a challenge, and keeps it if it is the best.
function showBest(schedule, begun, moment) {
  const line = found("best");
  const { best } = session.state;
  line.hidden = moment === null;
  record = null;
  if (!moment) return;
  const score = scoreOf(schedule, begun, moment);
  if (isOwnScore(schedule, begun, moment)) keepBest(moment, score);
  record = Math.max(bestOf(moment), best ?? 0) || null;
  setText(line, scoreText(moment, score, bestOf(moment), best));
}

// The name of a plan by its path.
export function nameOf(path) {
  return path.replace(/^.*\/(.*)\.toml$/, "$1").replaceAll("_", " ");
}

// The sites that the picture shows.
function shownSites(state) {
  return picture.focus === null ? [...state.sites.keys()] : [...picture.sites.keys()];
}

function isPredicting() {
  return found("predict").checked && !quiz.isChecked && session.state.schedule.state.enabled.length > 0;
}

function showLast({ schedule, naive, isPlain, touched }) {
  const [words, rule] = found("last").children;
  const { at, left, state } = schedule;
  const last = lastOf(schedule);
  const isTouched = touched?.key === schedule.key;
  document.body.classList.toggle("touched", isTouched);
  if (isPlain || isTouched) {
    setText(words, isTouched ? touched.words : naive.words);
    setText(rule, isTouched ? touched.why : "");
    return;
  }
  setText(words, at === 0 ? "The start" : last?.words ?? `After event ${at}`);
  const isOver = state.enabled.length === 0;
  const end = `the end: no event is enabled any more${failedText(state)}`;
  const parts = [isOver ? end : at === 0 ? START : last ? ruleOf(last) : ""];
  if (left.count && left.at === at) parts.unshift(leftText(left.count));
  setText(rule, parts.filter(Boolean).join("; "));
  setAttribute(rule, "title", rule.textContent);
}

function leftText(count) {
  const are = count === 1 ? "names no event here, and was" : "name no event here, and were";
  return `${count} of the choices ${are} left out`;
}

function failedText(state) {
  const failed = state.sites.filter((site) => site.failed?.length).map((site) => `${site.name} had a failed meal`);
  const quit = state.sites.filter((site) => site.quit).map((site) => `${site.name} quit`);
  return [...failed, ...quit].map((it) => `; ${it}`).join("");
}

function showEnabled({ schedule: { at, list, state, key, path } }) {
  const asks = found("predict").checked && state.enabled.length > 0;
  if (asks) quiz.show(state, seed(), `${key} ${path}`);
  else quiz.hide();
  found("quiz").hidden = !asks;
  document.body.classList.toggle("predicts", found("predict").checked);
  // What a site waits for, and what it may do, would give the answer away.
  document.body.classList.toggle("asks", isPredicting());
  found("enabled").hidden = isPredicting();
  setText(found("enabled-name"), isPredicting() ? "What may happen next?" : "May happen next");
  const sites = new Set(shownSites(state));
  const events = picture.focus === null ? state.enabled : state.enabled.filter((event) => sites.has(event.site));
  const next = at < list.length ? list[at] : null;
  enabledList.show(isPredicting() ? [] : events, { next, total: state.enabled.length });
  if (isPredicting()) setText(found("many"), "");
}

function showCount({ schedule, past, naive, isPlain }) {
  const { state } = schedule;
  const isOver = state.enabled.length === 0;
  const most = `at most ${state.bound}`;
  setText(found("count"), isOver ? `event ${state.events}, the end; ${most}` : `event ${state.events} of ${most}`);
  found("progress").max = Math.max(isOver ? state.events : state.bound, 1);
  found("progress").value = state.events || (isOver ? 1 : 0);
  for (const name of ["back", "reset"]) setOff(found(name), schedule.at === 0);
  setOff(found("undo"), past.length === 0);
  // Where plain forks are shown alone, a step is one of theirs.
  const hasNext = isPlain ? naive.go(schedule.at).hasNext() : schedule.next("first", 0) !== null;
  for (const name of ["step", "play"]) setOff(found(name), !hasNext);
  for (const name of ["first", "random"]) setOff(found(name), isOver);
}

// The line for a shell that leads to this state, by the choices that were done.
export function shellLine(done = session.state.schedule.list.subarray(0, session.state.schedule.at).join(",")) {
  const { path } = session.state.schedule;
  return `./dine ${done ? `replay --choices ${done}` : "replay"} < ${quoted(path ?? "plan.toml")}`;
}

// A text without its middle if it is long: to lay out the whole would cost more than all else in a step.
function cut(text, most = WHOLE.choices) {
  return text.length <= most ? text : `${text.slice(0, most / 4)} … ${text.slice(-most / 4)}`;
}

// The choices from a place to another, without those in the middle if there are many.
function choicesText(from, to) {
  const list = session.state.schedule.list.subarray(from, to);
  const few = WHOLE.choices / 4;
  if (list.length <= 2 * few) return cut(list.join(","));
  return cut(`${list.subarray(0, few).join(",")},${list.subarray(-few).join(",")}`, WHOLE.choices - 1);
}

function showLogs({ schedule: { list, at, path, state, version }, finding }) {
  const logs = state.logs.map((log) => cut(log, WHOLE.log));
  setText(found("logs"), [...logs, `events ${state.events} of ${state.bound}`].join("\n"));
  const done = choicesText(0, at);
  setText(found("line"), shellLine(done));
  const own = path === null ? "Save the text of your plan as plan.toml. " : "";
  const note = found("line").textContent.includes("…") ? "Copy takes all of it. " : "";
  setText(found("line-note"), `${note}${own}It does these events, and then the first enabled one until there is none.`);
  const rest = choicesText(at, list.length);
  setText(found("choices").firstChild, done || "none");
  setText(found("choices").lastChild, rest && `${done ? "," : " then "}${rest}`);
  // What was found of a run is said as long as it is shown.
  setText(found("find-note"), finding?.version === version ? finding.words : "");
}

// A path as a shell reads it.
function quoted(path) {
  return /^[\w./-]+$/.test(path) ? path : `'${path.replaceAll("'", "'\\''")}'`;
}

function showTimeline({ schedule, other }) {
  const end = endOfTimeline();
  timeline.draw(schedule, other, end);
  timeline.show(schedule.at);
  setText(found("timeline-name"), schedule.isOfThreads ? "What the threads did" : "The run so far");
  setText(found("timeline-note"), timelineNote());
  const slider = found("timeline-scroll");
  setAttribute(slider, "aria-valuemax", end);
  setAttribute(slider, "aria-valuenow", schedule.at);
  setAttribute(slider, "aria-valuetext", `event ${schedule.at} of ${end}`);
}

// Up to which event the timeline goes. A lesson does not show what is still to happen.
function endOfTimeline() {
  const { lesson, schedule: { list, seen } } = session.state;
  return lesson ? seen : list.length;
}

// What the event was that the cursor is behind.
function timelineNote() {
  const { other, schedule: { at, isOfThreads, state } } = session.state;
  const end = endOfTimeline();
  if (end === 0 && !other) return "bar: a meal; ochre line: a wait; arrow: a fork on its way";
  const left = other ? "; grey: the events that you left, and a tap has them back" : "";
  const count = `${NUMBERS.format(end)} ${end === 1 ? "event" : "events"}${left}`;
  if (at === 0) return isOfThreads ? `${count}, in one order that fits` : count;
  return `${NUMBERS.format(at)} of ${count}: ${state.last?.words ?? ""}`;
}

function showNaive({ schedule, naive, isPlain }) {
  const isBeside = found("naive").checked;
  document.body.classList.toggle("is-beside", isBeside && !isPlain);
  found("naive-side").hidden = !isBeside && !isPlain;
  found("real-side").hidden = isPlain;
  for (const name of ["real-name", "real-note"]) found(name).hidden = !isBeside;
  if (!isBeside && !isPlain) return;
  naive.go(schedule.at);
  naivePicture.show(naive.state());
  setText(found("real-note"), realText(schedule.state));
  setText(found("naive-note"), naive.said());
  setAttribute(found("naive-note"), "class", naive.isCaught() ? "caught" : "");
}

// What the rules have come to, beside what happens without them.
function realText({ sites, enabled }) {
  const meals = sites.reduce((sum, site) => sum + mealsOf(site), 0);
  const ended = `${meals} ${meals === 1 ? "meal has" : "meals have"} ended`;
  if (enabled.length === 0) return `The end: all is done. ${ended}.`;
  return `No deadlock: ${enabled.length} ${enabled.length === 1 ? "event" : "events"} may happen next. ${ended}.`;
}

// The site that is in focus, or null if all are shown.
function focusOf() {
  const { schedule, selected } = session.state;
  return isCrowded(schedule.state) && found("focus").checked ? selected ?? hub : null;
}

const isCrowded = ({ sites, edges }) => sites.length > MANY.sites || edges.length > MANY.edges;

function openPicture() {
  const { schedule, naive } = session.state;
  const focus = focusOf();
  picture.open(schedule.state, room, focus);
  naivePicture.open(naive.state(), room, focus);
}

// Draws the picture anew whenever its place has another size.
export function watchSize() {
  const rem = parseFloat(getComputedStyle(document.documentElement).fontSize) / 16;
  const watch = new ResizeObserver(() => {
    const shown = found(session.state.isPlain ? "naive-picture" : "picture").parentElement;
    const { clientWidth: width, clientHeight: height } = shown;
    if (width === 0 || (Math.abs(width - room.width) < 1 && Math.abs(height - room.height) < 1)) return;
    room = { width, height, rem };
    if (!session.state.schedule) return;
    openPicture();
    session.change();
  });
  for (const where of document.querySelectorAll(".canvas")) watch.observe(where);
}

// Shows what stays the same through all states of a plan.
function showPlan({ program, schedule: { path, plan, state } }) {
  const { options } = found("plans");
  const hasOwn = [...options].some(({ value }) => value === "");
  if (path === null && !hasOwn) found("plans").add(new Option("own plan", ""));
  found("threads").hidden = !program.hasRun(plan);
  setText(found("threads"), program.isServed ? "Run on threads" : "Recorded run on threads");
  found("plans").value = path ?? "";
  setText(found("about"), aboutOf(plan));
  setAttribute(found("about"), "title", aboutOf(plan));
  found("focus-switch").hidden = !isCrowded(state);
  found("find-site").replaceChildren(...state.sites.map(({ name }, site) => new Option(name, site)));
  siteTable.open(state);
  edgeTable.open(state);
  const counts = state.sites.map((_, site) => state.edges.filter(({ ends }) => ends.includes(site)).length);
  hub = counts.indexOf(Math.max(...counts));
  openPicture();
}

// What a plan says of itself: the comment that it begins with, up to what is tried of it.
function aboutOf(plan) {
  const lines = plan.split("\n");
  const end = lines.findIndex((line) => !line.startsWith("# ") || /^# [a-z][^>]*> /.test(line));
  return lines.slice(0, end < 0 ? lines.length : end).map((line) => line.slice(2)).join(" ");
}

// Whether the schedule is that of the moment, with the events that follow in the lesson.
function isAtMoment() {
  const { schedule: { plan, list, at }, lesson, moment: place, way } = session.state;
  const moment = lesson?.moments[place];
  const isThere = moment?.text === plan && at === placeOf(moment) && list.length === way.length;
  return isThere && way.every((it, turn) => list[turn] === it);
}

let noting = null;
let writes = 0;
// The address that was written or opened last. If the browser has another one, it is on its way back or on, and what
// that one shows is opened in a moment.
let here = location.href;

export function noteAddress() {
  clearTimeout(noting);
  noting = setTimeout(() => {
    if (session.state.schedule) writeAddress();
  }, QUIET);
}

// What is to be written is no longer shown: another address is opened.
export function forgetAddress() {
  clearTimeout(noting);
  writes += 1;
  here = location.href;
}

// Writes the address of the moment that is shown, and returns it. While an address is made, a later moment may be
// written: then that one stays.
export async function writeAddress() {
  clearTimeout(noting);
  const write = ++writes;
  const { lesson, moment, isTurned, isFront, schedule: { path, plan, list, at, isOfThreads } } = session.state;
  const how = { by: found("pick").value, seed: seed(), speed: Number(found("speed").value) };
  const shown = { path, plan, list, at, isOfThreads, ...how, lesson, moment, best: record, isAtMoment: isAtMoment() };
  const said = isFront ? "" : await addressOf(shown);
  const address = location.href.replace(/#.*/s, "") + said;
  if (write !== writes || location.href !== here) return address;
  session.set({ isTurned: false });
  try {
    // The way back of the browser leads to the moment or the plan before, and not through each event.
    if (isTurned && address !== location.href) history.pushState(null, "", address);
    else history.replaceState(null, "", address);
  } catch {
    // A page within another may have no address of its own.
  }
  here = location.href;
  found("too-long").hidden = address.includes("#") || isFront;
  return address;
}

session.on("plan", showPlan);
// In this order: the kinds of marks are known before a legend names them, a picture is drawn before words point into
// it, the code is there before it is scrolled, and an address is of all that is shown.
for (const listener of [
  showKinds, showPicture, ({ schedule }) => showChecks(found("checks"), schedule.state), showEnabled,
  ({ schedule: { state }, selected }) => why.show(state, selected, shownSites(state)), showCount, showLogs, showTables,
  ({ schedule }) => compareView.show(schedule), showTimeline, showNaive, showLast, showLegend, showLesson,
  ({ schedule }) => codeView.show(lastOf(schedule)), showTitle, noteAddress,
]) session.on("change", listener);
