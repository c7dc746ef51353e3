// Four ways to share forks, beside each other: for each one a strip of what its sites did, counts, and how it ended.

import { WAYS, endOf, isComparable, runOf, turnsOf } from "./compare.js";
import { element, setText, textElement } from "./marks.js";

const COMPARE_WORDS = "The same site has the turn in all four, and does the first thing that it can. Plain forks, "
  + "forks by number and the waiter are tables of this page, and nothing is proved of them. Chandy and Misra asks the "
  + "proved rules for each state. What is counted as a message: of a fork on the table, to ask for it, to get it and "
  + "to put it back; of the waiter, to ask, to be seated and to leave; of Chandy and Misra, each request and each fork "
  + "that is sent.";
// How much longer a strip is than the longest run.
const SPARE = 1.08;
const TOO_LARGE = "This plan has too many sites or meals to be run four times here. The ring of five fits.";

function labelled(words, control) {
  const label = textElement("label", words);
  label.append(" ", control);
  return label;
}

function choiceOf(options) {
  const menu = document.createElement("select");
  menu.append(...options.map(([words, value]) => new Option(words, value)));
  return menu;
}

export class CompareView {
  // `box` is a section. `work` does a piece of work once what was asked for before is done.
  constructor(box, work) {
    Object.assign(this, { box, work, start: null, plan: null });
    this.turns = choiceOf([["one after the other", "round"], ["by chance", "chance"]]);
    this.seed = Object.assign(document.createElement("input"), { type: "number", min: 0, max: 999999, value: 1 });
    this.stops = document.createElement("select");
    this.button = textElement("button", "Run all four", "main");
    this.button.type = "button";
    this.ways = textElement("div", "", "ways");
    this.note = textElement("p", "", "note");
    const heading = textElement("h2", "Four ways beside each other");
    heading.id = box.getAttribute("aria-labelledby");
    const row = textElement("div", "", "choose");
    row.append(labelled("Turns go", this.turns), labelled("Seed", this.seed));
    row.append(labelled("Stops for good:", this.stops), this.button);
    box.append(heading, textElement("p", COMPARE_WORDS, "note"), row, this.ways, this.note);
    this.button.addEventListener("click", () => this.run());
    for (const control of [this.turns, this.seed, this.stops]) {
      control.addEventListener("change", () => this.hasRun && this.run());
    }
  }

  // Takes the plan of a schedule. What was shown of another one goes.
  show({ plan, program, state }) {
    if (plan === this.plan) return;
    Object.assign(this, { plan, program, hasRun: false });
    const isSmall = isComparable(state);
    setText(this.note, isSmall ? "" : TOO_LARGE);
    for (const control of [this.turns, this.seed, this.stops, this.button]) control.disabled = !isSmall;
    this.names = state.sites.map(({ name }) => name);
    const ways = { meal: "in its first meal", after: "after its first meal" };
    const stops = this.names.flatMap((name, site) => {
      return Object.entries(ways).map(([key, words]) => new Option(`${name}, ${words}`, `${site} ${key}`));
    });
    this.stops.replaceChildren(new Option("nobody", ""), ...stops);
    this.ways.replaceChildren();
  }

  // Runs all four, and brings them into view. `who` says who stops: "nobody", or as in "c meal" and "c after" a site in
  // its first meal or after it.
  async runFor(who) {
    const [name, when] = who.split(" ");
    const site = this.names.indexOf(name);
    this.stops.value = site < 0 ? "" : `${site} ${when}`;
    await this.run();
    this.box.scrollIntoView();
  }

  // Runs all four, and shows what came of it.
  run() {
    const { plan, program, names } = this;
    return this.work(async () => {
      const [state] = await program.states(plan, new Uint32Array(0), [0]);
      const [site, when] = this.stops.value.split(" ");
      const stop = site === "" ? null : { site: Number(site), in: when };
      const seed = Math.max(0, Math.floor(Number(this.seed.value) || 0));
      const outcomes = [];
      for (const way of WAYS) {
        const turns = turnsOf(names.length, this.turns.value, seed);
        outcomes.push(await runOf(way.open({ program, plan, state }), turns, stop));
      }
      if (plan !== this.plan) return;
      this.hasRun = true;
      // Behind the last turn of all there is still space, so that who waits for ever is seen to do so in each strip.
      const most = Math.ceil(SPARE * Math.max(1, ...outcomes.map(({ turn }) => turn)));
      this.ways.replaceChildren(...outcomes.map((it, number) => this.cardOf(WAYS[number], it, most)));
    });
  }

  cardOf({ name, note, why, isProved }, outcome, most) {
    const card = textElement("section", "", isProved ? "way by-rules" : "way");
    const { meals, jobs, messages, longest, overtaken, waiting } = outcome;
    const rows = [
      ["Meals", `${meals} of ${jobs}`],
      ["Messages", meals ? `${messages}, ${(messages / meals).toFixed(1)} a meal` : `${messages}, and no meal`],
      ["Longest wait", waiting.length ? "for ever" : `${longest} turns`],
      ["Meals of a neighbour meanwhile", `${overtaken} at most`],
    ];
    const list = document.createElement("dl");
    for (const [words, value] of rows) list.append(textElement("dt", words), textElement("dd", value));
    const end = textElement("p", endOf(outcome, this.names), waiting.length ? "end bad" : "end");
    card.append(textElement("h3", name), textElement("p", note, "note"), this.stripOf(outcome, most), list, end);
    card.append(textElement("p", why, "note why"));
    return card;
  }

  // A row for each site: a thin line while it waits, a bar while it eats, and a cross where it stopped.
  stripOf({ spans, stopped, turn, waiting }, most) {
    const strip = textElement("div", "", "strip");
    // The names have the same width in all strips, with and without a cross.
    strip.style.setProperty("--names", `${Math.max(...this.names.map(({ length }) => length)) + 2}ch`);
    spans.forEach((own, site) => {
      const svg = element("svg", { viewBox: `0 0 ${most} 10`, preserveAspectRatio: "none" });
      svg.setAttribute("aria-hidden", "true");
      for (const { phase, from, to } of own.filter((it) => it.phase !== "thinking")) {
        const [y, height] = phase === "eating" ? [1, 8] : [4, 2];
        // Who stops in a meal never ends it.
        const end = site === stopped && from === own.at(-1).from ? most : to;
        element("rect", { class: phase, x: from, y, width: Math.max(end - from, 0.5), height }, svg);
      }
      if (waiting.includes(site)) {
        element("rect", { class: "hungry ever", x: turn, y: 4, width: most - turn, height: 2 }, svg);
      }
      strip.append(textElement("span", site === stopped ? `${this.names[site]} ✗` : this.names[site]), svg);
    });
    return strip;
  }
}
