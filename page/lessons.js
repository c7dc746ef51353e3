// A lesson: moments of schedules, one after the other, each with a note and perhaps a question.

import { challengeOf } from "./challenges.js";
import { choiceElement, rowElement, setOff, setText, textElement } from "./marks.js";
import { OWN, SENT } from "./moments.js";
import { explainedElement } from "./words.js";

// The paragraphs of a note, which empty lines part. Lines within one are joined.
function paragraphsOf(note) {
  const texts = note.trim().split(/\n\s*\n/).filter(Boolean);
  return texts.map((text) => explainedElement("p", text.replace(/\s*\n\s*/g, " ")));
}

// The numbers of a text of choices.
export function numbersIn(choices) {
  return choices ? choices.split(",").map(Number) : [];
}

// The choices that lead on from a moment: those of the last moment behind it that goes on from it.
export function wayFrom(moments, place) {
  let list = numbersIn(moments[place].choices);
  for (const { text, choices } of moments.slice(place + 1)) {
    const further = numbersIn(choices);
    if (text !== moments[place].text || !list.every((it, turn) => further[turn] === it)) break;
    list = further;
  }
  return list;
}

// How many events are done at a moment.
export function placeOf(moment) {
  return moment?.at ?? numbersIn(moment?.choices).length;
}

// Where a schedule is, seen from a moment at which `begun` events are done: there, before or after it on the way of the
// lesson, or off the way or at its end, where the reader chooses. With plain forks there is nothing to choose.
export function whereOf({ list, at }, way, begun, isPlain) {
  const isOnWay = at <= way.length && way.every((it, turn) => list[turn] === it);
  if (at === begun && (isOnWay || isPlain)) return "there";
  if (!isPlain && (!isOnWay || at === way.length)) return "off";
  return at < begun ? "before" : "after";
}

// The lesson that the page offers behind this one, or null.
export function lessonAfter(lessons, lesson) {
  const place = lessons.findIndex(({ path }) => path === lesson?.path);
  const next = place < 0 ? null : lessons[place + 1];
  return next && next.path !== SENT ? next : null;
}

const WHERE = {
  there: (here) => `Moment ${here}`,
  before: (here) => `Before moment ${here}`,
  after: (here) => `After moment ${here}`,
  off: () => "From here on you choose",
};

export class LessonPanel {
  // `parts` has the elements, and what plays the events that follow a question.
  constructor(parts) {
    Object.assign(this, parts);
    // What was answered to the questions of moments, until the page is left.
    this.answers = new Map();
    this.question.addEventListener("submit", (event) => {
      event.preventDefault();
      this.check();
    });
  }

  // Shows a moment of a lesson, or nothing if the lesson is null. `where` is what whereOf says of the picture, and
  // `following` is the lesson that is offered at the end, or null.
  show(lesson, place, where, following = null) {
    this.panel.hidden = lesson === null;
    document.body.classList.toggle("has-lesson", lesson !== null);
    if (lesson === null) {
      this.moment = null;
      document.body.classList.remove("has-question");
      return;
    }
    // A lesson begins at its head, however far the one before was scrolled.
    if (this.lesson !== lesson) scrollTo(0, 0);
    this.lesson = lesson;
    const moment = lesson.moments[place];
    const count = lesson.moments.length;
    setText(this.count, count ? WHERE[where](`${place + 1} of ${count}`) : "No moment yet");
    this.count.title = lesson.title;
    this.back.hidden = !count || where === "there";
    const isPlayable = where === "there" && moment?.see !== false;
    if (this.showing) this.showing.hidden = !this.isChecked || !isPlayable;
    // Whoever has stopped does nothing more, which the rules do not know.
    const hasStopped = / after$/.test(moment?.ways ?? "");
    const isApart = hasStopped || moment?.naive === "alone" || challengeOf(moment) !== null;
    this.whatIf.hidden = !count || where !== "there" || isApart;
    setOff(this.previous, place <= 0);
    setOff(this.next, place >= count - 1);
    this.ways.hidden = !moment?.ways;
    this.following.hidden = place < count - 1 || following === null;
    const kind = following?.moments.every((it) => challengeOf(it) !== null) ? "Next" : "Next lesson";
    setText(this.following, following === null ? "" : `${kind}: ${following.title}`);
    for (const it of [this.save, this.remove]) it.hidden = lesson.path !== OWN || count === 0;
    if (this.moment === moment && count) return;
    Object.assign(this, { moment, isPassed: false });
    setText(this.title, moment?.title ?? "");
    const none = count ? "" : "Keep this moment adds the one that is shown.";
    this.note.replaceChildren(...paragraphsOf(moment?.note ?? none));
    this.panel.querySelector(".lesson-text").scrollTop = 0;
    this.ask(moment);
  }

  // Asks the question of a moment. What was answered to it before is there again.
  ask(moment) {
    const options = moment?.question ? moment.options ?? [] : [];
    Object.assign(this, { isChecked: false, showing: null, answer: null });
    this.question.hidden = options.length === 0;
    document.body.classList.toggle("has-question", options.length > 0);
    if (options.length === 0) return;
    const items = options.map((text, place) => choiceElement("radio", "answer", place + 1, text));
    this.answer = document.createElement("output");
    const button = textElement("button", "Check");
    this.showing = textElement("button", "See what happens", "main");
    Object.assign(this.showing, { type: "button", hidden: true });
    this.showing.addEventListener("click", this.play);
    const row = rowElement(button, this.showing);
    this.question.replaceChildren(textElement("p", moment.question), ...items, row, this.answer);
    const given = this.answers.get(moment);
    if (given === undefined) return;
    items[given - 1].firstChild.checked = true;
    this.judge(given);
  }

  // Whether the question of the moment waits for an answer. The first try to pass it is held up, with a word about it.
  isHeld() {
    if (!this.answer || this.isChecked || this.isPassed) return false;
    this.isPassed = true;
    this.answer.className = "";
    this.answer.textContent = "Try an answer first, or press Next once more.";
    this.answer.scrollIntoView({ block: "nearest" });
    return true;
  }

  // Says whether the answer is right, and why, or gives the hint of a wrong one.
  check() {
    const chosen = new FormData(this.question).get("answer");
    if (chosen === null) {
      this.answer.textContent = "Choose an answer first.";
      return;
    }
    this.answers.set(this.moment, Number(chosen));
    this.judge(Number(chosen));
    this.checked();
    this.answer.scrollIntoView({ block: "nearest" });
  }

  judge(chosen) {
    const isRight = chosen === this.moment.answer;
    this.answer.className = isRight ? "right" : "wrong";
    const right = `✓ Right. ${this.moment.because ?? ""}`;
    const hint = this.moment.hints?.[chosen - 1] || "Look at the picture again.";
    this.answer.textContent = isRight ? right : `✗ Not so. ${hint}`;
    this.isChecked = true;
  }
}
