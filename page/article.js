// The article: its figures are parts of the page, each with a run of its own. The text is plain HTML.

import { codeLinesOf } from "./code.js";
import { CompareView } from "./compare_view.js";
import { WORDS, keyOf } from "./glossary.js";
import { drawLegend, setOff, setText, textElement } from "./marks.js";
import { NaiveTable } from "./naive.js";
import { Picture, doesWhat, isIdle } from "./picture.js";
import { programOf } from "./program.js";
import { Queue } from "./queue.js";
import { Schedule } from "./schedule.js";

// A run by the proved rules. It follows a list of choices, and then the first enabled event.
class ProvedRun {
  constructor(schedule) {
    this.schedule = schedule;
  }

  get state() {
    return this.schedule.state;
  }

  get at() {
    return this.schedule.at;
  }

  get last() {
    return this.at === 0 ? null : this.state.last;
  }

  get words() {
    return this.last?.words ?? "The start";
  }

  get events() {
    return this.state.enabled;
  }

  get hasNext() {
    return this.events.length > 0;
  }

  step() {
    return this.schedule.choose(this.schedule.next("first", 0));
  }

  choose(number) {
    return this.schedule.choose(number);
  }

  go(count) {
    return this.schedule.go(count);
  }
}

// A run of plain forks, by a table of the page.
class PlainRun {
  constructor(table) {
    Object.assign(this, { table, last: null, events: [] });
  }

  get state() {
    return this.table.state();
  }

  get at() {
    return this.table.events;
  }

  get words() {
    return this.table.said();
  }

  get hasNext() {
    return this.table.hasNext();
  }

  step() {
    this.table.step();
  }

  go(count) {
    this.table.go(count);
  }
}

function buttonOf(words, press, kind = "") {
  const button = textElement("button", words, kind);
  button.type = "button";
  button.addEventListener("click", () => {
    if (button.getAttribute("aria-disabled") !== "true") press();
  });
  return button;
}

// A picture of a run, with what happened last, the buttons that step it, and the events that may happen next.
class Figure {
  constructor(box, run, work) {
    Object.assign(this, { box, run, kinds: box.dataset.kinds?.split(" ") ?? ["forks", "arrows"] });
    this.lines = [...box.querySelectorAll(".lines span")];
    const canvas = textElement("div", "", "canvas");
    const svg = document.createElementNS("http://www.w3.org/2000/svg", "svg");
    svg.setAttribute("role", "img");
    canvas.append(svg);
    this.picture = new Picture(svg, () => {});
    this.said = textElement("p", "", "said");
    this.said.setAttribute("aria-live", "polite");
    const does = (act) => () => work(async () => {
      await act();
      this.show();
    });
    this.step = buttonOf("Step", does(() => run.step()), "main");
    this.back = buttonOf("Back", does(() => run.go(run.at - 1)));
    this.again = buttonOf("Again", does(() => run.go(0)));
    this.choose = (number) => does(() => run.choose(number))();
    const row = textElement("div", "", "row");
    row.append(this.step, this.back, this.again);
    this.list = textElement("div", "", "row events");
    this.legend = textElement("ul", "", "legend");
    this.explained = textElement("p", "", "note explained-here");
    box.prepend(canvas, this.said, row, this.list, this.legend, this.explained);
    box.classList.add("stage", ...this.kinds);
    box.classList.toggle("waiting", this.isPlain);
    this.open(canvas);
    new ResizeObserver(() => this.open(canvas)).observe(canvas);
  }

  get isPlain() {
    return this.run instanceof PlainRun;
  }

  // Draws the picture for the size that it has.
  open({ clientWidth: width, clientHeight: height }) {
    if (width === 0 || (width === this.width && height === this.height)) return;
    Object.assign(this, { width, height });
    this.picture.open(this.run.state, { width, height, rem: 1 });
    this.show();
  }

  show() {
    const { run } = this;
    const { state } = run;
    if (this.width) {
      this.picture.show(state);
      this.picture.mark(run.last);
    }
    setText(this.said, run.last?.rule ? `${run.words}: ${run.last.rule}` : run.words);
    this.said.classList.toggle("caught", this.isPlain && run.table.isCaught());
    setOff(this.step, !run.hasNext);
    for (const button of [this.back, this.again]) setOff(button, run.at === 0);
    this.list.replaceChildren(...run.events.map(({ words, number }) => {
      return buttonOf(words, () => this.choose(number), "quiet");
    }));
    const { lines } = codeLinesOf(run.last);
    this.lines.forEach((line, number) => line.classList.toggle("lit", lines.includes(number)));
    drawLegend(this.legend, this.had(state), (words) => this.explain(words));
  }

  // What a legend has to explain.
  had({ sites, edges, links }) {
    const letters = new Set(links.flatMap((link) => link.letters));
    return {
      kinds: new Set(this.kinds), letters, isPlain: this.isPlain, arrows: new Set(edges.map(isIdle)),
      phases: new Set(sites.map(doesWhat)), forks: new Set(edges.map(({ dirty }) => dirty)),
      hasLast: this.run.last !== null, hasClosed: edges.some((edge) => edge.said?.every((it) => it.close_put)),
    };
  }

  explain(words) {
    const entry = WORDS.find(({ key }) => key === keyOf(words));
    if (entry) setText(this.explained, `${entry.title}: ${entry.text}`);
  }
}

function fail(fault) {
  const line = document.getElementById("fault");
  setText(line, fault ? `The figures don't work: ${fault.message}` : "");
  line.hidden = !fault;
}

// Begins a figure: its plan is one of the page's.
async function openFigure(box, program, work) {
  const { plan: path, way, choices } = box.dataset;
  const { text } = program.catalog.plans.find((it) => it.path === path);
  const schedule = new Schedule(program, path, text);
  await schedule.open(choices ? choices.split(",").map(Number) : [], 0);
  if (way === "compare") {
    const section = textElement("section", "", "compare");
    section.setAttribute("aria-labelledby", `${box.id}-name`);
    box.prepend(section);
    new CompareView(section, work).show(schedule);
    return;
  }
  const run = way === "plain" ? new PlainRun(new NaiveTable(schedule.state)) : new ProvedRun(schedule);
  new Figure(box, run, work);
}

async function beginArticle() {
  const queue = new Queue({ busy: document.querySelector("main"), note: () => {}, ended: fail });
  const work = (doing) => queue.do(doing);
  const program = await programOf();
  // All are asked for at once, so that the page is at work until the last of them is there.
  for (const box of document.querySelectorAll("figure.live")) work(() => openFigure(box, program, work));
}

beginArticle().catch(fail);
