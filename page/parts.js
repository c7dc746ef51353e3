// The parts of the page, each with its elements and with what it does when it is used.

import { Timeline } from "./timeline.js";
import { CompareView } from "./compare_view.js";
import { EnabledList } from "./enabled.js";
import { LessonPanel } from "./lessons.js";
import { setText } from "./marks.js";
import { found, session } from "./session.js";
import { PlanEditor } from "./plan_editor.js";
import { Picture } from "./picture.js";
import { Quiz } from "./quiz.js";
import { openWritten, press, queue, scrub, takeOther, touch } from "./steps.js";
import { EdgeTable, SiteTable } from "./tables.js";
import { showNext } from "./teach.js";
import { CodeView } from "./code_view.js";
import { Why } from "./why.js";

export const picture = new Picture(found("picture"), (thing) => touch(thing, picture.focus));
export const naivePicture = new Picture(found("naive-picture"), () => {});
export const timeline = new Timeline({
  names: found("timeline-names"),
  scroll: found("timeline-scroll"),
  inside: found("timeline-inside"),
  view: found("timeline-view"),
  svg: found("timeline"),
  veil: found("timeline-veil"),
  cursor: found("timeline-cursor"),
  jump: scrub,
  takeOther,
  hint: (text) => setText(found("timeline-hint"), text),
});
export const enabledList = new EnabledList({
  list: found("enabled"),
  many: found("many"),
  step: found("step"),
  choose: press,
  light: (site, edge) => picture.light(site, edge),
});
export const why = new Why({
  heading: found("why-name"),
  box: found("why"),
  close: found("unselect"),
  choose: press,
});
export const codeView = new CodeView({ list: found("code-lines"), note: found("code-note") });
export const quiz = new Quiz({ form: found("quiz"), checked: () => session.change() });
export const siteTable = new SiteTable(found("sites"), (site) => {
  session.change({ selected: site === session.state.selected ? null : site });
});
export const edgeTable = new EdgeTable(found("edges"));
export const compareView = new CompareView(found("compare"), (work) => queue.do(work));
export const planEditor = new PlanEditor({
  dialog: found("plan-editor"),
  text: found("text"),
  fault: found("plan-fault"),
  shape: found("own-shape"),
  count: found("own-count"),
  meals: found("own-meals"),
  make: found("own-make"),
  picture: found("own-picture"),
  note: found("own-note"),
  add: found("own-add"),
  removing: found("own-remove"),
  read: async (text) => (await session.state.program.states(text, [], [0]))[0],
  open: openWritten,
});
export const lessonPanel = new LessonPanel({
  panel: found("lesson"),
  count: found("moment-count"),
  title: found("moment-title"),
  note: found("moment-note"),
  question: found("question"),
  previous: found("previous"),
  next: found("next"),
  ways: found("ways-of-moment"),
  following: found("next-lesson"),
  back: found("return"),
  whatIf: found("what-if"),
  save: found("save"),
  remove: found("remove"),
  play: showNext,
  checked: () => session.change(),
});
