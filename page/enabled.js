// The list of enabled events, as buttons. The buttons stay while the list changes, so that the focus does too.

import { FEW, setText, textElement } from "./marks.js";
import { ruleOf, wordsAhead } from "./sentences.js";

export class EnabledList {
  // `parts` has the list, the count, and what is done at a choice, and at a light.
  constructor(parts) {
    Object.assign(this, parts);
    this.items = [];
    this.events = [];
    // What the button said that a pointer was pressed on.
    this.pressed = null;
    this.none = textElement("li", "none: nothing is left to do", "none");
  }

  make() {
    const item = document.createElement("li");
    const button = document.createElement("button");
    button.type = "button";
    const parts = [textElement("kbd", ""), textElement("span", "", "words"), textElement("small", "")];
    button.append(...parts);
    item.append(button);
    const place = this.items.length;
    const light = () => {
      const event = this.events[place];
      if (event) this.light(event.site, event.edge);
    };
    button.addEventListener("pointerdown", () => { this.pressed = this.events[place]?.words; });
    button.addEventListener("click", (event) => this.press(event, place));
    for (const kind of ["pointerenter", "focus"]) button.addEventListener(kind, light);
    for (const kind of ["pointerleave", "blur"]) button.addEventListener(kind, () => this.light(null, null));
    return { item, button, parts };
  }

  // Does the event of a button. The second press of a double click was for another event, and so was one during which
  // the list has changed.
  press(event, place) {
    const isByPointer = event.detail > 0;
    const chosen = this.events[place];
    if (!chosen || event.detail > 1 || (isByPointer && this.pressed !== chosen.words)) return;
    this.choose(chosen.number);
  }

  // Shows the events, of which the one numbered `next` is to follow. `total` is how many there are, with those that are
  // not shown.
  show(events, { next, total }) {
    const focused = this.items.findIndex(({ button }) => button === document.activeElement);
    this.events = events;
    while (this.items.length < events.length) this.items.push(this.make());
    events.forEach((event, place) => {
      const { button, parts: [kbd, words, rule] } = this.items[place];
      setText(kbd, event.number);
      setText(words, wordsAhead(event));
      setText(rule, ruleOf(event));
      button.classList.toggle("next", event.number === next);
    });
    this.place(events.length, total);
    setText(this.many, events.length < total ? `${events.length} of ${total}` : total || "");
    if (focused >= events.length) (this.items[events.length - 1]?.button ?? this.step).focus();
  }

  place(count, total) {
    this.list.classList.toggle("few", count <= FEW);
    while (this.list.children.length > count || this.list.lastChild === this.none) this.list.lastChild.remove();
    for (let place = this.list.children.length; place < count; place += 1) this.list.append(this.items[place].item);
    if (count === 0) {
      const elsewhere = "none of these sites: turn the focus off to see the others";
      setText(this.none, total ? elsewhere : "none: nothing is left to do");
      this.list.append(this.none);
    }
  }
}
