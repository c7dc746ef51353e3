// Lessons: which are offered, the moment that is shown, and the reader's own.

import { wholeLesson } from "./address.js";
import { setAttribute, setText, textElement } from "./marks.js";
import { found, session } from "./session.js";
import { OWN, SENT, keepLesson, ownLesson } from "./moments.js";
import { numbersIn, placeOf, wayFrom } from "./lessons.js";
import { FLIGHT, openPlan, pace, pause, queue, takeUp } from "./steps.js";

// How long all events on the way to a moment may take, in milliseconds.
const WALK = 6000;

// How long the page says that a moment is kept, in milliseconds.
const KEPT_SAID = 1500;

// Whether a moment of an address can be shown.
function isMoment(it) {
  const isText = (key) => typeof (it[key] ?? "") === "string";
  const isList = (key) => Array.isArray(it[key] ?? []);
  const texts = ["choices", "title", "note", "point", "callout", "ways"];
  return typeof it?.text === "string" && texts.every(isText) && ["show", "options", "hints"].every(isList);
}

function lessonIn(text) {
  try {
    return JSON.parse(text) ?? {};
  } catch {
    return {};
  }
}

// The lesson that is whole in an address: one that the page has, or one of this address alone.
export function lessonSent(text) {
  const { title, moments } = lessonIn(text);
  if (!Array.isArray(moments) || !moments.every(isMoment)) throw new Error("the lesson of the address is none");
  const { lessons } = session.state;
  const known = [...lessons, ownLesson()].find((it) => wholeLesson(it) === text);
  const lesson = known ?? { path: SENT, title, moments };
  if (lesson.path === SENT) session.set({ lessons: [...lessons.filter(({ path }) => path !== SENT), lesson] });
  offerLessons();
  return lesson;
}

export function lessonOf(path) {
  return path === OWN ? ownLesson() : session.state.lessons.find((it) => it.path === path) ?? null;
}

// Whether the events up to a moment follow in the list from what is shown.
function isAhead({ text, choices }, to) {
  const { plan, list, at } = session.state.schedule;
  if (text !== plan || at >= to || to > list.length) return false;
  return numbersIn(choices).slice(0, to).every((it, turn) => list[turn] === it);
}

// Goes to a moment of the lesson. If asked, it plays the events that lead there from what is shown.
export function openMoment(place, isPlayed = false) {
  pause();
  return queue.do(async () => {
    const { lesson } = session.state;
    const moment = lesson?.moments[place];
    if (!moment) return;
    if (!isPlayed || !isAhead(moment, placeOf(moment))) {
      await openScheduleOf(lesson, place);
      return;
    }
    takeUp(lesson, place);
    await walk(placeOf(moment));
  });
}

// Goes on to the next moment, or to the end of the way there if it is on it. `isHeld` says whether a question holds it
// up, which is passed at the second try.
export function openNext(isHeld) {
  const { lesson, moment, walk } = session.state;
  if (!lesson || (!walk && isHeld())) return null;
  return walk ? openMoment(moment) : openMoment(moment + 1, true);
}

// Plays the events up to the next moment, and stays in this one.
export function showNext() {
  const next = session.state.lesson.moments[session.state.moment + 1];
  pause();
  return queue.do(() => walk(Math.min(session.state.schedule.list.length, placeOf(next))));
}

// Plays events one after the other, until something else is asked for.
async function walk(to) {
  const walking = { skip: () => {} };
  const { schedule } = session.state;
  const isStill = matchMedia("(prefers-reduced-motion: reduce)").matches;
  const wait = isStill ? 0 : Math.min(FLIGHT, WALK / Math.max(1, to - schedule.at));
  pace(wait);
  session.change({ walk: walking });
  while (session.state.walk === walking && schedule.at < to) {
    await schedule.go(wait ? schedule.at + 1 : to);
    session.change();
    await new Promise((resolve) => {
      walking.skip = resolve;
      setTimeout(resolve, wait);
    });
  }
  if (session.state.walk === walking) session.change({ walk: null });
}

export async function openScheduleOf(lesson, place) {
  const moment = lesson.moments[place];
  const list = wayFrom(lesson.moments, place);
  await openPlan({ path: moment.plan ?? null, plan: moment.text, list, at: placeOf(moment) });
  takeUp(lesson, place);
}

export function openLesson() {
  return beginLesson(lessonOf(found("lessons").value));
}

export function beginLesson(lesson) {
  if (!lesson?.moments.length) return takeUp(lesson);
  pause();
  // The lesson is taken up with its first schedule: what is shown till then is not of it.
  return queue.do(() => openScheduleOf(lesson, 0));
}

// Shows the moments of the lesson, of which one is opened by a click.
export function openMoments() {
  const { lesson, moment } = session.state;
  const items = lesson.moments.map(({ title, question }, place) => {
    const item = document.createElement("li");
    const button = textElement("button", title || `Moment ${place + 1}`, "quiet");
    button.type = "button";
    if (place === moment) setAttribute(button, "aria-current", "step");
    button.addEventListener("click", () => {
      found("moments").close();
      openMoment(place);
    });
    item.append(button, ...(question ? [textElement("small", " with a question")] : []));
    return item;
  });
  found("moments-list").replaceChildren(...items);
  setText(found("moments-name"), lesson.title);
  found("moments").showModal();
  items[moment]?.firstChild.focus();
}

export function offerLessons() {
  const menu = found("lessons");
  const { lesson: shown, lessons } = session.state;
  const items = lessons.map(({ path, title }) => new Option(title, path));
  // A saved lesson that is opened has the same title.
  const { title } = ownLesson();
  items.push(new Option(lessons.some((it) => it.title === title) ? `${title}, in this browser` : title, OWN));
  menu.replaceChildren(new Option("no lesson", ""), ...items);
  menu.value = shown?.path ?? "";
  const list = lessons.filter(({ path }) => path !== SENT).map((lesson) => {
    const [item, button] = [document.createElement("li"), textElement("button", lesson.title, "quiet")];
    button.type = "button";
    button.addEventListener("click", () => beginLesson(lesson));
    item.append(button);
    return item;
  });
  found("front-lessons").replaceChildren(...list);
}

// Asks for the words of the moment that is shown.
export function writeMoment() {
  pause();
  const { state, at } = session.state.schedule;
  found("keep-title").value = at === 0 ? "The start" : state.last?.words ?? `After event ${at}`;
  found("keep-dialog").showModal();
  found("keep-title").select();
}

// Keeps the moment that is shown, at the end of the reader's own lesson.
export function keepMoment() {
  const { plans, schedule: { path, plan, list, at }, lesson: shown } = session.state;
  const isOffered = path !== null && plans.get(path) === plan;
  const words = { title: found("keep-title").value.trim() || `Event ${at}`, note: found("keep-note").value.trim() };
  const lesson = ownLesson();
  lesson.moments.push({ plan: isOffered ? path : null, text: plan, choices: list.join(","), at, ...words });
  keepLesson(lesson);
  found("keep-note").value = "";
  found("keep-dialog").close();
  // A lesson that is shown stays.
  if (!shown || shown.path === OWN) takeUp(lesson, lesson.moments.length - 1);
  else sayKept();
  offerLessons();
}

function sayKept() {
  setText(found("keep"), "Kept");
  setTimeout(() => setText(found("keep"), "Keep this moment"), KEPT_SAID);
}

export function removeMoment() {
  const lesson = ownLesson();
  lesson.moments.splice(session.state.moment, 1);
  keepLesson(lesson);
  takeUp(lesson, Math.max(0, Math.min(session.state.moment, lesson.moments.length - 1)));
  openMoment(session.state.moment);
}
