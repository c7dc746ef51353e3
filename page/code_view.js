// The algorithm beside the picture: its lines light up with the event that was done last.

import { CODE, codeLinesOf } from "./code.js";
import { setText, textElement } from "./marks.js";

export class CodeView {
  // `parts` has the list and the line below it.
  constructor(parts) {
    Object.assign(this, parts);
    this.items = CODE.map((line) => textElement("li", line));
    this.list.append(...this.items);
    // To ask where lines are costs a layout of the page, so that is done once the list has another size.
    new ResizeObserver(() => this.measure()).observe(this.list);
  }

  show(event) {
    const { lines, note } = codeLinesOf(event);
    this.items.forEach((item, line) => item.classList.toggle("lit", lines.includes(line)));
    setText(this.note, note);
    [this.lit] = lines;
    this.bring();
  }

  // Notes where the lines are, if the list has no space for all of them, as on a small screen.
  measure() {
    const { items, list } = this;
    const isCut = list.scrollHeight > list.clientHeight;
    this.places = isCut ? items.map((it) => it.offsetTop - list.offsetTop - 20) : null;
    this.seen = null;
    this.bring();
  }

  // Brings the first of the lines that are lit into view.
  bring() {
    if (!this.places || this.lit === this.seen) return;
    this.seen = this.lit;
    if (this.lit !== undefined) this.list.scrollTop = this.places[this.lit];
  }
}
