// The tables of the sites and the edges. A cell is touched only if its text is another, and the rows of what the last
// event changed are marked.

import { FEW, outline, phaseMark, setAttribute, setText, textElement } from "./marks.js";
import { countsBefore, doesWhat, mealsOf } from "./picture.js";
import { otherEnd, roleText } from "./sentences.js";

function emptyRows(body, count, width) {
  body.closest(".scroll").classList.toggle("few", count <= FEW);
  body.replaceChildren(...Array.from({ length: count }, () => {
    const row = document.createElement("tr");
    row.append(...Array.from({ length: width }, () => document.createElement("td")));
    return row;
  }));
}

export class SiteTable {
  constructor(table, select) {
    Object.assign(this, { table, select });
  }

  open(state) {
    const body = this.table.tBodies[0];
    emptyRows(body, state.sites.length, 4);
    state.sites.forEach(({ name }, site) => {
      const [first, does] = body.rows[site].cells;
      const button = textElement("button", name, "name");
      button.type = "button";
      button.title = "What this site holds, lacks and may do";
      button.addEventListener("click", () => this.select(site));
      first.append(button);
      does.append(phaseMark("thinking"), textElement("span", ""));
    });
  }

  show(state, event, selected) {
    const counts = countsBefore(state);
    state.sites.forEach((site, number) => {
      const row = this.table.tBodies[0].rows[number];
      const [first, does, meals, before] = row.cells;
      const group = does.firstChild.firstChild;
      setAttribute(group, "class", `site ${site.phase}`);
      setAttribute(group.firstChild, "d", outline(site.phase, 7));
      // After its last meal a site has none left to drop.
      const quits = site.resigns && !site.quit && site.left > 0;
      setText(does.lastChild, ` ${doesWhat(site)}${quits ? ", quits after a failed meal" : ""}`);
      const failed = site.failed?.length ? `, failed: ${site.failed.join(", ")}` : "";
      setText(meals, `${mealsOf(site)} of ${site.jobs}${failed}`);
      setText(before, counts[number]);
      setAttribute(first.firstChild, "aria-pressed", number === selected);
      setAttribute(row, "class", number === event?.site ? "last" : "");
    });
  }
}

export class EdgeTable {
  constructor(table) {
    this.table = table;
  }

  open(state) {
    this.hasValues = state.edges.some((edge) => (edge.value ?? null) !== null);
    emptyRows(this.table.tBodies[0], state.edges.length, this.hasValues ? 7 : 6);
    const head = this.table.tHead.rows[0];
    while (head.cells.length > 6) head.lastElementChild.remove();
    if (this.hasValues) head.append(textElement("th", "Value"));
  }

  show(state, event) {
    const name = (site) => state.sites[site].name;
    const where = (place) => ("at" in place ? `at ${name(place.at)}` : `on its way to ${name(place.to)}`);
    state.edges.forEach((edge, number) => {
      const row = this.table.tBodies[0].rows[number];
      const texts = [
        String(number), ...edge.ends.map((site, turn) => `${name(site)} ${endText(edge, turn)}`),
        `${edge.dirty ? "dirty" : "clean"}, ${where(edge.fork)}`, where(edge.token), firstText(state, edge),
      ];
      if (this.hasValues) texts.push(String(edge.value));
      texts.forEach((text, cell) => setText(row.cells[cell], text));
      setAttribute(row, "class", number === event?.edge ? "last" : "");
    });
  }
}

function endText(edge, turn) {
  const said = edge.said[turn];
  return `${roleText(edge.roles[turn])}${said.close_put ? ", closed" : said.done_put ? ", said done" : ""}`;
}

function firstText(state, edge) {
  if (edge.preferred === undefined || edge.preferred === null) return "";
  return `${state.sites[edge.preferred].name} before ${state.sites[otherEnd(edge, edge.preferred)].name}`;
}
