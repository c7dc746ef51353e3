// The question mode: the list of enabled events is hidden, the reader says which of some events may happen next, and
// the answer is checked by what the program says of each.

import { choiceElement, rowElement, textElement } from "./marks.js";
import { drawn } from "./schedule.js";
import { ruleOf, whyNot, wordsAhead } from "./sentences.js";

// How many events are asked about, and up to how many of them are enabled.
const ASKED = { all: 6, enabled: 3 };
// Why an event is not enabled that one might take for enabled.
const TELLING = new Set(["waits", "clean", "eating", "not_asked", "asked", "not_heard"]);

// Draws so many of a list, the same for the same seed and place.
function drawnOf(list, count, seed, place) {
  const rest = [...list];
  const found = [];
  while (found.length < count && rest.length) {
    found.push(...rest.splice(drawn(seed + found.length * 7919, place, rest.length), 1));
  }
  return found;
}

// Some events that may happen in a state and some that may not, mixed.
function candidatesOf(state, seed) {
  const enabled = state.enabled.map((event) => ({ words: wordsAhead(event), why: ruleOf(event), isEnabled: true }));
  const asked = (it) => TELLING.has(it.code) && !(it.kind === "ask" && it.code === "eating");
  const others = state.sites.flatMap((_, site) => whyNot(state, site)).filter(asked);
  const may = drawnOf(enabled, ASKED.enabled, seed, state.events);
  const mayNot = drawnOf(others, ASKED.all - may.length, seed + 1, state.events);
  const mixed = [...may, ...mayNot.map(({ words, why }) => ({ words, why, isEnabled: false }))];
  return drawnOf(mixed, ASKED.all, seed + 2, state.events);
}

export class Quiz {
  // `parts` has the form, and what is done once an answer is checked.
  constructor(parts) {
    Object.assign(this, parts, { right: 0, asked: 0, key: null });
    this.form.addEventListener("submit", (event) => {
      event.preventDefault();
      this.check();
    });
  }

  // Asks about a state, once.
  show(state, seed, key) {
    if (this.key === key) return;
    this.key = key;
    this.isChecked = false;
    this.candidates = candidatesOf(state, seed);
    const items = this.candidates.map(({ words }, place) => choiceElement("checkbox", place, "on", words));
    this.button = textElement("button", "Check", "main");
    this.button.type = "submit";
    this.answer = textElement("output", this.asked ? this.score() : "");
    const head = rowElement(textElement("p", "Tick all that may happen next."), this.answer);
    this.form.replaceChildren(head, ...items, this.button);
  }

  hide() {
    this.key = null;
  }

  score() {
    return `${this.right} of ${this.asked} right so far`;
  }

  check() {
    if (this.isChecked) return;
    this.isChecked = true;
    const labels = [...this.form.querySelectorAll("label")];
    this.candidates.forEach(({ isEnabled, why }, place) => {
      const box = labels[place].firstChild;
      const isRight = box.checked === isEnabled;
      this.asked += 1;
      this.right += isRight ? 1 : 0;
      box.disabled = true;
      labels[place].classList.add(isRight ? "right" : "wrong");
      const said = `${isRight ? "✓ Right" : "✗ Wrong"}. It ${isEnabled ? "may" : "may not"} happen: ${why}`;
      labels[place].append(textElement("small", said));
    });
    this.answer.textContent = this.score();
    this.button.remove();
    this.checked();
  }
}
