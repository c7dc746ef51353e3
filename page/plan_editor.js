// The dialog in which a plan of one's own is written. What was typed stays, however the dialog is left.

import { element, setOff } from "./marks.js";
import { SHAPES, joined, planOfState, shaped, textOfPlan, withSite, withoutSite } from "./own_plan.js";
import { placesOf } from "./places.js";
import { LIMITS } from "./plan_places.js";
import { refusalOf } from "./refusals.js";

// The size of the picture of a plan that is made, and the radius of a site there.
const TAP = "Tap two sites: they become neighbours, or are no longer.";
const MADE = { width: 560, height: 240, radius: 17, small: 9 };

export class PlanEditor {
  // `parts` has the dialog, its text and its line of a fault, the parts of the form, what reads a plan, and what opens
  // one.
  constructor(parts) {
    Object.assign(this, parts, { plan: null, chosen: null });
    this.shape.append(...SHAPES.map((it) => new Option(it, it)));
    this.count.max = LIMITS.MAX_SITES;
    this.meals.max = LIMITS.MAX_JOBS;
    this.make.addEventListener("click", () => this.put(shaped(this.shape.value, this.count.value, this.meals.value)));
    this.add.addEventListener("click", () => this.put(withSite(this.plan) ?? this.plan));
    this.removing.addEventListener("click", () => {
      if (this.chosen !== null) this.put(withoutSite(this.plan, this.chosen) ?? this.plan);
    });
    // What is typed is drawn once the box is left.
    this.text.addEventListener("change", () => this.readText());
    // The text that the box had when it was last filled by the page. What differs from it was typed.
    this.given = "";
    this.text.addEventListener("keydown", (event) => {
      if (event.key === "Enter" && (event.ctrlKey || event.metaKey)) this.use();
    });
  }

  // Opens with the plan that is shown, or with what was typed and not shown yet.
  show(plan) {
    if (this.text.value === this.given) this.again(plan);
    else this.readText();
    this.dialog.showModal();
  }

  // Draws the plan that the text has, or says that it has none to draw.
  async readText() {
    const { value } = this.text;
    try {
      const state = await this.read(value);
      if (this.text.value === value) this.draw(planOfState(state));
    } catch {
      this.draw(null);
    }
  }

  // Writes a plan that was made into the text, and draws it.
  put(plan) {
    this.text.value = textOfPlan(plan);
    this.fault.textContent = "";
    this.draw(plan);
  }

  draw(plan) {
    Object.assign(this, { plan, chosen: null });
    this.picture.replaceChildren();
    for (const button of [this.add, this.removing]) setOff(button, plan === null || button === this.removing);
    this.note.textContent = plan ? TAP : "The text is no plan yet.";
    this.picture.style.display = plan ? "" : "none";
    if (!plan) return;
    const { width, height } = MADE;
    this.picture.setAttribute("viewBox", `0 0 ${width} ${height}`);
    const edges = plan.edges.map((ends) => ({ ends }));
    const { places } = placesOf(plan.names.map((name) => ({ name })), edges, width, height);
    for (const { ends: [low, high] } of edges) {
      const [from, to] = [places[low], places[high]];
      const line = element("g", { class: "edge" }, this.picture);
      element("line", { x1: from.x, y1: from.y, x2: to.x, y2: to.y }, line);
    }
    const isSmall = plan.names.length > 16;
    this.drawn = places.map(({ x, y }, site) => this.drawSite(x, y, site, isSmall));
  }

  drawSite(x, y, site, isSmall) {
    const at = { class: "site", transform: `translate(${x},${y})`, role: "button", tabindex: 0 };
    const group = element("g", { ...at, "aria-label": this.plan.names[site], "aria-pressed": "false" }, this.picture);
    element("circle", { class: "shape", r: isSmall ? MADE.small : MADE.radius }, group);
    const name = element("text", { class: "name", y: 4, "font-size": isSmall ? 8 : 13 }, group);
    name.textContent = this.plan.names[site].slice(0, 4);
    group.addEventListener("click", () => this.tap(site));
    group.addEventListener("keydown", (event) => {
      if (event.key !== "Enter" && event.key !== " ") return;
      event.preventDefault();
      this.tap(site);
    });
    return group;
  }

  // The first tap chooses a site, and the second one joins another to it, or parts them.
  tap(site) {
    const { chosen, plan } = this;
    if (chosen !== null && chosen !== site) {
      const next = joined(plan, chosen, site);
      if (next) this.put(next);
      else this.note.textContent = `A plan has at most ${LIMITS.MAX_EDGES} edges.`;
      return;
    }
    this.chosen = chosen === site ? null : site;
    this.drawn.forEach((group, it) => {
      group.classList.toggle("selected", it === this.chosen);
      group.setAttribute("aria-pressed", it === this.chosen);
    });
    setOff(this.removing, this.chosen === null);
    const words = `${plan.names[site]} is chosen. Tap another site, or remove it.`;
    this.note.textContent = this.chosen === null ? TAP : words;
  }

  // Begins again with the plan that is shown, without the lines that say what the program prints of it.
  again(plan) {
    this.given = plan.replace(/^# [a-z][^>\n]*> .*\n/gm, "");
    this.text.value = this.given;
    this.text.setSelectionRange(0, 0);
    this.text.scrollTop = 0;
    this.fault.textContent = "";
    this.readText();
  }

  // Shows the plan that was written, or why it is none.
  async use() {
    const written = this.text.value;
    const refused = await this.open(written);
    if (refused === null) {
      this.given = written;
      this.fault.textContent = "";
      this.dialog.close();
      return;
    }
    const { sentence, range } = refusalOf(refused, written);
    this.fault.textContent = sentence;
    this.fault.title = refused;
    if (range) this.mark(range);
  }

  // Selects a part of the text, and brings it into view.
  mark({ from, to }) {
    const rows = this.text.value.split("\n");
    const row = this.text.value.slice(0, from).split("\n").length - 1;
    this.text.focus();
    this.text.setSelectionRange(from, Math.max(to, from));
    this.text.scrollTop = (this.text.scrollHeight / rows.length) * Math.max(0, row - 2);
  }
}
