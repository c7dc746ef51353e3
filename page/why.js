// Why things are as they are: what each hungry site waits for, or of one site what it holds, lacks and may do, and why
// not the rest.

import { textElement } from "./marks.js";
import { doesWhat, isIdle, mealsOf } from "./picture.js";
import { otherEnd, ruleOf, waitsOf, whyNot, wordsAhead } from "./sentences.js";

// What shows all of one site: in the picture a tap on a site does what the site may do.
const HOW = "The name of a site in the table of sites shows all that it holds and may do.";

function listOf(items) {
  const list = document.createElement("ul");
  list.append(...items);
  return list;
}

function lineOf(bold, text) {
  const item = document.createElement("li");
  item.append(textElement("b", bold), text);
  return item;
}

// A line for each hungry site of these, with what it waits for.
function waitLines(state, sites) {
  return sites.filter((site) => state.sites[site].phase === "hungry").map((site) => {
    const waits = waitsOf(state, site);
    const { name } = state.sites[site];
    return waits.length ? lineOf(name, ` waits: ${waits.join("; ")}`) : lineOf(name, " has all its forks, and may eat");
  });
}

function whereIs(fork, site, neighbour) {
  if (fork.to === undefined) return `at ${neighbour}`;
  return fork.to === site ? "on its way here" : `on its way to ${neighbour}`;
}

// What a site holds, and what it lacks, of each of its edges.
function holdings(state, site) {
  const [holds, lacks] = [[], []];
  for (const edge of state.edges) {
    if (!edge.ends.includes(site)) continue;
    const name = state.sites[otherEnd(edge, site)].name;
    const fork = `the fork shared with ${name}`;
    if (edge.fork.at === site) holds.push(`${fork} (${edge.dirty ? "dirty" : "clean"})`);
    else lacks.push(`${fork} (${whereIs(edge.fork, site, name)})`);
    if (edge.token.at === site) holds.push(`the token for ${name}`);
  }
  return { holds, lacks };
}

// Which sites go before this one and which after it, by its edges.
function precedenceOf(state, site) {
  const own = state.edges.filter((edge) => edge.ends.includes(site) && edge.preferred !== undefined);
  const names = (edges) => edges.map((edge) => state.sites[otherEnd(edge, site)].name).join(", ");
  const first = own.filter((edge) => edge.preferred !== site);
  const before = names(first.filter((edge) => !isIdle(edge)));
  const idle = names(first.filter(isIdle));
  const after = names(own.filter((edge) => edge.preferred === site));
  const parts = [before && `after ${before}`, idle && `after ${idle} once asked`, after && `before ${after}`];
  return parts.filter(Boolean).join("; ");
}

export class Why {
  // `parts` has the heading, the box, the button that closes it, and what is done at a choice.
  constructor(parts) {
    Object.assign(this, parts);
    this.shown = [];
  }

  // Shows of the sites what they wait for, or all of the site that is selected.
  show(state, selected, sites) {
    const shown = [state, selected, sites.length];
    if (shown.every((it, turn) => it === this.shown[turn])) return;
    this.shown = shown;
    this.close.hidden = selected === null;
    if (selected === null) this.showWaits(state, sites);
    else this.showSite(state, selected);
  }

  showWaits(state, sites) {
    this.heading.textContent = "Who waits, and for what";
    const lines = waitLines(state, sites);
    const waits = lines.length ? listOf(lines) : textElement("p", "No site is hungry.");
    this.box.replaceChildren(waits, textElement("p", HOW, "note"));
  }

  showSite(state, number) {
    const site = state.sites[number];
    this.heading.textContent = `${site.name}: ${doesWhat(site)}, ${mealsOf(site)} of ${site.jobs} meals`;
    const { holds, lacks } = holdings(state, number);
    const lines = [
      lineOf("Holds: ", holds.join("; ") || "nothing"), lineOf("Lacks: ", lacks.join("; ") || "no fork"),
      ...waitLines(state, [number]),
    ];
    const goes = precedenceOf(state, number);
    if (goes) lines.push(lineOf("Goes: ", goes));
    this.box.replaceChildren(listOf(lines));
    this.addEvents(state, number);
  }

  addEvents(state, number) {
    const may = state.enabled.filter((event) => event.site === number);
    this.box.append(textElement("h3", "May do now"));
    const items = may.map((event) => this.eventItem(event));
    this.box.append(items.length ? listOf(items) : textElement("p", "nothing", "note"));
    this.box.append(textElement("h3", "May not"));
    const rest = whyNot(state, number).filter(({ kind }) => kind !== "take");
    this.box.append(listOf(rest.map(({ words, why }) => lineOf(words, `: ${why}`))));
  }

  eventItem(event) {
    const item = document.createElement("li");
    const button = textElement("button", wordsAhead(event), "inline");
    button.type = "button";
    button.addEventListener("click", (it) => { if (it.detail <= 1) this.choose(event.number); });
    item.append(button, ` ${ruleOf(event)}`);
    return item;
  }
}
