// The page: its buttons and keys, and what it begins with. Each state comes from the program.

import { momentOf } from "./address.js";
import { Keys, openMenu } from "./keys.js";
import { between, setAttribute, setText, textElement } from "./marks.js";
import { found, rate, seed, session } from "./session.js";
import { keep, kept, saveFile, tomlOf } from "./moments.js";
import { lessonAfter } from "./lessons.js";
import { compareView, lessonPanel, timeline, planEditor } from "./parts.js";
import { programOf } from "./program.js";
import {
  chooseRandom, jump, leaveLesson, openOffered, openPlan, pause, player, press, queue, runOnThreads, showWait, step,
  takeUp, tell, undo,
} from "./steps.js";
import {
  beginLesson, keepMoment, lessonOf, lessonSent, offerLessons, openLesson, openMoment, openMoments, openNext,
  openScheduleOf, removeMoment, writeMoment,
} from "./teach.js";
import { forgetAddress, nameOf, noteAddress, shellLine, watchSize, writeAddress } from "./view.js";
import { DINE_SITE } from "./site.js";
import { openWords } from "./words.js";

// The plan whose page has a front door.
const FIRST = "plans/ring_of_five.toml";
// How far a finger goes at least to turn to another moment, in points.
const SWIPE = 50;

// Copies a text, and says so on its button. Without a clipboard it does what is left to do, and says that.
async function copy(name, text, otherwise) {
  const button = found(name);
  button.dataset.words ??= button.textContent;
  try {
    await navigator.clipboard.writeText(text);
    button.textContent = "Copied";
  } catch {
    button.textContent = otherwise();
  }
  setTimeout(() => { button.textContent = button.dataset.words; }, 1200);
}

const copyLine = () => copy("copy", shellLine(), () => {
  getSelection().selectAllChildren(found("line"));
  return "Selected";
});

// A link that is copied from a disk leads to where the page is published, if it is.
const copyLink = async () => {
  const address = await writeAddress();
  const isPublished = DINE_SITE !== "" && location.protocol === "file:";
  const link = isPublished ? `${DINE_SITE}index.html${/#.*|$/s.exec(address)[0]}` : address;
  return copy("link", link, () => "It is above");
};

function turnTheme() {
  const root = document.documentElement;
  const isDark = getComputedStyle(root).colorScheme === "dark"
    || (!root.dataset.theme && matchMedia("(prefers-color-scheme: dark)").matches);
  root.dataset.theme = isDark ? "light" : "dark";
  keep("dine-theme", root.dataset.theme);
}

// The picture as large as the window, and back.
function turnLarge() {
  const isLarge = document.body.classList.toggle("large");
  setAttribute(found("large"), "aria-pressed", isLarge);
}

// Turns a switch, as a click on it does.
const turn = (name) => () => found(name).click();

// Pauses, and then does the work.
const paused = (work) => () => {
  pause();
  return work();
};

const back = () => jump((it) => it.at - 1);
const next = () => openNext(() => lessonPanel.isHeld());
const previous = () => openMoment(session.state.moment - 1);

// Shows in a moment of a lesson what may happen, or hides it again.
function turnOpen() {
  const { lesson, isOpen } = session.state;
  if (lesson && (isOpen || !found("what-if").hidden)) session.change({ isOpen: !isOpen });
}

function showRate() {
  const perSecond = Number(rate().toPrecision(2));
  setText(found("rate"), `${perSecond}/s`);
  setAttribute(found("speed"), "aria-valuetext", `${perSecond} events a second`);
  noteAddress();
}

function quicker(by) {
  found("speed").value = Number(found("speed").value) + by;
  showRate();
}

const BUTTONS = {
  reset: () => jump(() => 0),
  back,
  undo,
  step: paused(() => queue.do(step)),
  play: () => player.play(),
  first: () => press(0),
  random: paused(chooseRandom),
  threads: runOnThreads,
  own: paused(() => planEditor.show(session.state.wanted)),
  use: () => planEditor.use(),
  again: () => planEditor.again(session.state.schedule?.plan ?? ""),
  copy: copyLine,
  link: copyLink,
  theme: turnTheme,
  large: turnLarge,
  help: () => found("keys").showModal(),
  glossary: () => openWords(),
  unselect: () => session.change({ selected: null }),
  "zoom-in": () => timeline.zoom(2),
  "zoom-out": () => timeline.zoom(0.5),
  "zoom-all": () => timeline.zoomOut(),
  previous,
  next,
  "next-lesson": () => beginLesson(lessonAfter(session.state.lessons, session.state.lesson)),
  "ways-of-moment": paused(() => compareView.runFor(session.state.lesson.moments[session.state.moment].ways)),
  home: goHome,
  count: () => openWords("bound"),
  "edge-word": () => openWords("edge"),
  return: () => openMoment(session.state.moment),
  leave: leaveLesson,
  "moment-count": openMoments,
  "what-if": turnOpen,
  begin: () => beginLesson(session.state.lessons[0] ?? null),
  free: () => session.change({ isFront: false, isTurned: true, kinds: null }),
  keep: writeMoment,
  "keep-it": keepMoment,
  remove: removeMoment,
  save: () => saveFile("lesson.toml", tomlOf(session.state.lesson)),
};

// What can be done before there is a plan.
const WITHOUT_PLAN = new Set(["own", "use", "theme", "help", "glossary", "large"]);

const KEYS = {
  ArrowRight: BUTTONS.step,
  ArrowLeft: back,
  Home: BUTTONS.reset,
  End: () => jump((it) => it.list.length),
  " ": BUTTONS.play,
  PageDown: BUTTONS.next,
  PageUp: BUTTONS.previous,
  Escape: escape,
  Undo: undo,
  f: BUTTONS.first,
  r: BUTTONS.random,
  "+": () => quicker(0.5),
  "=": () => quicker(0.5),
  "-": () => quicker(-0.5),
  g: () => turnPick(),
  s: () => found("seed").select(),
  t: runOnThreads,
  p: () => openMenu(found("plans")),
  l: () => openMenu(found("lessons")),
  o: BUTTONS.own,
  c: copyLine,
  a: copyLink,
  d: turnTheme,
  v: turnLarge,
  w: turn("ranks"),
  e: turn("code-on"),
  h: turnOpen,
  q: turn("predict"),
  n: turn("naive"),
  k: writeMoment,
  i: BUTTONS.glossary,
  "?": BUTTONS.help,
};

function escape() {
  if (document.body.classList.contains("large")) turnLarge();
  else if (session.state.selected !== null) session.change({ selected: null });
}

function turnPick() {
  found("pick").value = found("pick").value === "first" ? "random" : "first";
  noteAddress();
}

// Does what a key does. A figure does the enabled event of its number.
function doKey(key) {
  const does = /^[0-9]$/.test(key) ? () => press(Number(key)) : KEYS[key];
  if (!does || !(session.state.schedule || [BUTTONS.own, BUTTONS.theme, BUTTONS.help].includes(does))) return false;
  does();
  return true;
}

function doButton(name) {
  const button = found(name);
  if (button.getAttribute("aria-disabled") === "true") return;
  if (session.state.schedule || WITHOUT_PLAN.has(name)) BUTTONS[name]();
}

// Goes along the timeline by a tenth, if it has the focus and there is no lesson for these keys.
function leap(event) {
  const way = { PageDown: 1, PageUp: -1 }[event.key];
  if (!way) return;
  event.preventDefault();
  event.stopPropagation();
  jump((it) => it.at + way * Math.max(1, Math.round(it.list.length / 10)));
}

function listen() {
  for (const name of Object.keys(BUTTONS)) found(name).addEventListener("click", () => doButton(name));
  new Keys({ does: doKey, hasLetters: () => found("letters").checked });
  found("plans").addEventListener("change", openOffered);
  found("lessons").addEventListener("change", openLesson);
  found("pick").addEventListener("change", noteAddress);
  found("seed").addEventListener("change", noteAddress);
  found("speed").addEventListener("input", showRate);
  found("letters").addEventListener("change", () => keep("dine-letters", found("letters").checked ? "on" : "off"));
  found("timeline-scroll").addEventListener("keydown", leap);
  found("keep-form").addEventListener("submit", (event) => {
    if (event.submitter?.value === "cancel") return;
    event.preventDefault();
    keepMoment();
  });
  found("find").addEventListener("submit", (event) => {
    event.preventDefault();
    if (session.state.schedule) showWait();
  });
  for (const where of document.querySelectorAll(".picture, .lesson")) listenToSwipes(where);
  addEventListener("hashchange", () => openAddress());
  found("code-on").addEventListener("change", () => {
    keep("dine-code", found("code-on").checked ? "on" : "off");
    session.change();
    // On a small screen the algorithm is far below its switch.
    if (session.state.schedule && !found("code").hidden) found("code").scrollIntoView({ block: "nearest" });
  });
  found("seed").addEventListener("change", () => { found("seed").value = seed(); });
  for (const name of ["predict", "focus"]) found(name).addEventListener("change", () => session.change());
  found("naive").addEventListener("change", () => session.change({ isPlain: false }));
  // What a moment shows goes as soon as the reader says what to show.
  found("ranks").addEventListener("change", () => session.change({ kinds: null }));
}

// A finger that goes across the picture or the note turns to the next moment of a lesson, or to the one before.
function listenToSwipes(where) {
  let from = null;
  where.addEventListener("touchstart", ({ touches }) => {
    from = touches.length === 1 ? touches[0] : null;
  }, { passive: true });
  where.addEventListener("touchend", ({ changedTouches: [to] }) => {
    if (!from || !session.state.lesson) return;
    const [right, down] = [to.clientX - from.clientX, to.clientY - from.clientY];
    if (Math.abs(right) < SWIPE || Math.abs(right) < 2 * Math.abs(down)) return;
    if (right < 0) next();
    else previous();
  }, { passive: true });
}

// What the page can't do without, and from which versions on browsers have it.
const NEEDED = {
  WebAssembly: "WebAssembly", Worker: "Worker", ResizeObserver: "ResizeObserver",
  DecompressionStream: "DecompressionStream, by which the page is unpacked",
};

// Says what is missing in this browser. Returns whether something is.
function isLacking() {
  const missing = Object.keys(NEEDED).filter((name) => !(name in globalThis)).map((name) => NEEDED[name]);
  if (!missing.length) return false;
  tell(`This browser has no ${missing.join(" and no ")}. Chrome 103, Firefox 113 and Safari 16.4 and later have it.`);
  return true;
}

async function begin() {
  found("needs").remove();
  if (isLacking()) return;
  if (kept("dine-theme")) document.documentElement.dataset.theme = kept("dine-theme");
  found("letters").checked = kept("dine-letters") !== "off";
  found("code-on").checked = kept("dine-code") === "on";
  found("choices").append(textElement("b", ""), textElement("span", ""));
  const program = await programOf();
  const { catalog } = program;
  const plans = new Map(catalog.plans.map(({ path, text }) => [path, text]));
  const lessons = [...catalog.lessons].sort((one, other) => (one.place ?? 99) - (other.place ?? 99));
  session.set({ program, plans, lessons });
  showRate();
  watchSize();
  listen();
  found("unproved").hidden = !catalog.unproved;
  for (const path of plans.keys()) found("plans").add(new Option(nameOf(path), path));
  offerLessons();
  await openFirst(catalog);
}

// The path of the offered plan with this text, or null.
const pathOf = (plan, plans) => [...plans.keys()].find((path) => plans.get(path) === plan) ?? null;

// Shows what the address says, or else the plan or the lesson that the page was made for.
async function openAddress(address = location.hash) {
  forgetAddress();
  await queue.do(async () => {
    const said = await momentOf(address);
    if (said.by) found("pick").value = said.by;
    if (said.seed !== null) found("seed").value = said.seed;
    if (said.speed !== null) found("speed").value = said.speed;
    showRate();
    const { plans, program: { catalog } } = session.state;
    const path = said.plan === null ? said.path ?? catalog.first : pathOf(said.plan, plans);
    if (said.plan === null && !plans.has(path)) throw new Error(`there is no plan ${path} here`);
    // An address that names no schedule shows a moment of the lesson that the page was made for.
    const hasSchedule = said.path !== null || said.plan !== null || said.list.length > 0;
    const named = said.lesson ?? (hasSchedule ? null : catalog.lesson);
    const lesson = said.own ? lessonSent(said.own) : named ? lessonOf(named) : null;
    if (named && !said.own && !lesson) throw new Error(`there is no lesson ${named} here`);
    const place = between(0, said.moment, Math.max(0, (lesson?.moments.length ?? 0) - 1));
    if (lesson?.moments.length && said.path === null && said.plan === null) {
      await openScheduleOf(lesson, place);
      session.set({ best: said.best });
    } else {
      const plan = said.plan ?? plans.get(path);
      await openPlan({ ...said, path, plan });
      if (lesson) takeUp(lesson, place);
      else leaveLesson();
      session.set({ best: said.best });
      if (/^#?$/.test(address) && path === FIRST) openFront();
    }
  });
  // What an address shows is where the browser is already.
  session.set({ isTurned: false });
}

// The front door: the picture with its forks, what the trouble is, and where to begin.
function openFront() {
  // The article is beside docs/index.html, and beside no other copy of the page.
  found("to-article").hidden = session.state.program.isServed || !/(\/|index\.html)$/.test(location.pathname);
  session.change({ isFront: true, kinds: ["forks"] });
}

// Back to what the page began with.
async function goHome() {
  pause();
  await openAddress("");
  // At once, so that the way back of the browser leads from here also to who takes it within the next moment.
  session.set({ isTurned: true });
  await writeAddress();
  scrollTo(0, 0);
}

// Opens the lesson or the plan that the page begins with.
async function openFirst({ begin, first }) {
  await openAddress(location.hash.length < 2 ? begin ?? "" : location.hash);
  // An address that shows nothing leaves the plan to be seen that the page was made for, and its fault.
  const { plans, schedule, wanted } = session.state;
  const plan = plans.get(first);
  if (!schedule && wanted !== plan) await openPlan({ path: first, plan });
}

begin().catch((fault) => tell(fault.message));
