// The picture of a state: the sites, and on each edge its fork, its token and the letters in its links. The arrow of an
// edge goes from the end that has precedence to the other one.

import {
  between, commonOf, element, forkMark, outline, setAttribute, setText, shortened, tokenMark, wordMark,
} from "./marks.js";
import { drawCallout } from "./callout.js";
import { roleText } from "./sentences.js";
import { SHOWN, SITE, TURN, linesOf, placesOf, pointOf } from "./places.js";

// The size that a picture is drawn for. It is drawn larger where there is space for it, with its letters.
const DRAWN = { width: 600, height: 400 };
// The radius of what is hit by a click on a site, and on a mark, at least.
const HIT = { site: 10, mark: 5 };
// Which letter an event moves, and to which mark it belongs.
const MOVED = { fork: "forks", request: "tokens", done: "words", close: "words" };
// How far a letter reaches before and behind its middle, in sizes of the marks; a fork as far as it is long.
const REACH = 0.4;
// How far from the site that takes them letters on their way are, as a part of the edge.
const WAY = 0.45;
// Up to how many letters a name beside a small site is upright. A longer one goes along the radius.
const UPRIGHT = 2;

// What a site does, in a word or two.
export function doesWhat(site) {
  if (site.quit) return "quit";
  if (site.phase === "thinking" && site.left === 0) return "done";
  return site.phase;
}

// How many meals of a site have ended.
export function mealsOf(site) {
  return site.eaten - (site.phase === "eating" ? 1 : 0);
}

// How long the head of an arrow is.
function headWidth({ size }) {
  return between(5, size * 0.5, 13);
}

// How many sites go before each one along the arrows: its neighbours that go before it, those before them, and so on.
export function countsBefore({ sites, edges, order }) {
  const before = sites.map(() => new Set());
  // The order has each site behind all that go before it.
  for (const site of order ?? []) {
    for (const { ends, preferred } of edges) {
      if (preferred === site || !ends.includes(site)) continue;
      before[site].add(preferred);
      for (const other of before[preferred]) before[site].add(other);
    }
  }
  return before.map((those) => those.size);
}

// What was clicked, by the data of its mark.
function thingOf({ site, edge, mark, to, letter }) {
  if (site !== undefined) return { site: Number(site) };
  return { edge: Number(edge), mark, ...(to === undefined ? {} : { to: Number(to), letter }) };
}

export class Picture {
  constructor(svg, click) {
    this.svg = svg;
    svg.addEventListener("click", (event) => {
      const thing = event.target.closest(".fork, .token, .word, .site")?.dataset;
      if (thing) click(thingOf(thing));
    });
  }

  // Draws what stays the same through all states of a plan: all sites, or one in the middle with its neighbours.
  open(state, room, focus = null) {
    this.focus = focus;
    const scale = Math.max(room.rem, Math.min(room.width / DRAWN.width, room.height / DRAWN.height));
    const [width, height] = [room.width / scale, room.height / scale];
    this.svg.replaceChildren();
    this.svg.setAttribute("viewBox", `0 0 ${width} ${height}`);
    const isShown = ({ ends }) => focus === null || ends.includes(focus);
    this.numbers = [...state.edges.keys()].filter((edge) => isShown(state.edges[edge]));
    this.hasValues = state.edges.some((edge) => (edge.value ?? null) !== null);
    const ends = focus === null ? state.sites.keys() : [focus, ...this.numbers.flatMap((it) => state.edges[it].ends)];
    const sites = [...new Set(ends)].sort((one, other) => one - other);
    const edges = this.numbers.map((edge) => ({ ends: state.edges[edge].ends.map((site) => sites.indexOf(site)) }));
    const { places } = placesOf(sites.map((site) => state.sites[site]), edges, width, height);
    this.openMarks(state, sites, places, linesOf(places, edges));
  }

  openMarks(state, sites, places, lines) {
    const [edges, lanes, drawn, marks] = [1, 2, 3, 4].map(() => element("g", {}, this.svg));
    const byEdge = (make) => new Map(this.numbers.map((edge, turn) => [edge, make(lines[turn], edge)]));
    this.lines = byEdge((line) => line);
    this.edges = byEdge((line, edge) => this.openEdge(line, edge, edges));
    this.common = commonOf(sites.map((site) => state.sites[site].name));
    this.lanes = byEdge(() => element("g", {}, lanes));
    this.sites = new Map(sites.map((site, turn) => {
      return [site, this.openSite(places[turn], state.sites[site], site, drawn)];
    }));
    this.tokens = byEdge((line, edge) => this.hit(tokenMark(line.size, marks), line, { edge, mark: "token" }));
    this.forks = byEdge((line, edge) => {
      return this.hit(forkMark(line.laid.fork * line.size, marks), line, { edge, mark: "fork" });
    });
    this.words = byEdge(() => element("g", {}, marks));
    this.marked = [];
  }

  // Has a mark be hit by a click near it too, and say what it is.
  hit(mark, { size }, data) {
    Object.assign(mark.dataset, data);
    mark.prepend(element("circle", { class: "hit", r: between(HIT.mark, 0.75 * size, 18) }));
    return mark;
  }

  openEdge(line, edge, inside) {
    const group = element("g", { class: "edge" }, inside);
    const ends = { x1: line.from.x, y1: line.from.y, x2: line.to.x, y2: line.to.y };
    element("line", { ...ends, class: "tinge" }, group).style.strokeWidth = `${0.6 * line.size}px`;
    element("line", { ...ends, class: "line" }, group);
    const title = element("title", {}, group);
    const at = pointOf(line, line.length / 2);
    const wide = headWidth(line);
    const tip = `M${-wide / 2},${-wide * 0.55}L${wide / 2},0L${-wide / 2},${wide * 0.55}Z`;
    const head = element("path", { class: "head", d: tip }, group);
    const label = this.hasValues ? element("text", this.valuePlace(line), group) : null;
    return { group, title, head, label, place: at, key: null };
  }

  // A value stands beside the edge, on the outer side.
  valuePlace(line) {
    const far = line.size + 14;
    const { width, height } = this.svg.viewBox.baseVal;
    const sides = [far, -far].map((beside) => pointOf(line, line.length / 2, beside));
    const [one, other] = sides.map(({ x, y }) => Math.hypot(x - width / 2, y - height / 2));
    return sides[one > other ? 0 : 1];
  }

  openSite(place, site, number, inside) {
    const at = `translate(${place.x},${place.y})`;
    const group = element("g", { class: "site", transform: at, "data-site": number }, inside);
    // A small site is hit by a click beside it too.
    element("circle", { class: "hit", r: Math.max(HIT.site, place.radius) }, group);
    const halo = element("path", { class: "halo" }, group);
    const shape = element("path", { class: "shape" }, group);
    const title = element("title", {}, group);
    const texts = [];
    if (place.radius < SITE.name) {
      this.nameBeside(place, site, group);
    } else {
      // The site in the middle of a star has its rank there.
      const isWide = place.radius >= SITE.phase && place.angle !== null;
      const rows = place.radius >= SITE.meals ? [-11, 5, 19] : isWide ? [-4, 11] : [4];
      // A hungry site is narrower where its name is if there are rows below it.
      const wide = (rows.length === 3 ? 1.55 : 1.75) * place.radius;
      const size = between(10, wide / (0.64 * Math.min(site.name.length, SHOWN)), 17);
      const name = element("text", { class: "name", y: rows[0], "font-size": size }, group);
      name.textContent = shortened(site.name, Math.floor(wide / (0.64 * size)), this.common);
      const kind = place.radius < SITE.phase + 3 ? "small tight" : "small";
      for (const y of rows.slice(1)) texts.push(element("text", { class: kind, y }, group));
    }
    return { group, halo, shape, title, texts, rank: this.openRank(place, group), place, key: null };
  }

  // How many sites go before this one: beside a large site, in a small one.
  openRank({ radius, angle }, group) {
    if (radius < 7) return null;
    const isBeside = radius >= SITE.name;
    const far = isBeside ? 0.85 * radius + 5 : 0;
    // Outwards, where no edge is. The site in the middle of a star has edges all round.
    const isLeft = Math.cos(angle) < -0.1;
    const isLow = Math.sin(angle) > 0.1;
    const [x, y] = angle === null ? [0, 0.6 * radius] : [isLeft ? -far : far, isLow ? far : -far];
    const kind = `rank ${isBeside ? "outside" : "inside"}`;
    const badge = element("g", { class: kind, transform: `translate(${x},${y})` }, group);
    if (isBeside) element("circle", { r: 10 }, badge);
    return element("text", { "font-size": isBeside ? 12 : Math.min(12, 1.25 * radius) }, badge);
  }

  // The name of a small site, outside of the circle and along its radius.
  nameBeside(place, site, group) {
    if (place.isCell) {
      this.nameInCell(place, site, group);
      return;
    }
    const name = element("text", { class: "beside", "font-size": place.radius < 7 ? 10 : 11 }, group);
    name.textContent = shortened(site.name, place.letters, this.common);
    const angle = place.angle ?? -TURN / 4;
    if (site.name.length <= UPRIGHT) {
      const out = 1.3 * place.radius + 9;
      for (const [key, part] of [["x", Math.cos(angle)], ["y", Math.sin(angle)]]) name.setAttribute(key, out * part);
      name.setAttribute("text-anchor", "middle");
      return;
    }
    const isLeft = Math.cos(angle) < -0.001;
    const far = 1.3 * place.radius + 5;
    const degrees = (angle * 360) / TURN + (isLeft ? 180 : 0);
    name.setAttribute("transform", `rotate(${degrees})`);
    name.setAttribute("x", isLeft ? -far : far);
    name.setAttribute("text-anchor", isLeft ? "end" : "start");
  }

  // The name of a small site of a grid: below and to the right of it, where no edge is.
  nameInCell(place, site, group) {
    const far = Math.max(0.8 * place.radius + 3, 9);
    const at = { x: far, y: far + 4, "text-anchor": "start", "font-size": 10 };
    const name = element("text", { class: "beside", ...at }, group);
    name.textContent = shortened(site.name, place.letters, this.common);
  }

  // Draws a state, of which only what differs from the one before is touched.
  show(state) {
    const counts = state.order ? countsBefore(state) : [];
    for (const [site, drawn] of this.sites) this.showSite(state.sites[site], drawn, counts[site]);
    for (const [number, drawn] of this.edges) {
      const edge = state.edges[number];
      const links = state.links.slice(2 * number, 2 * number + 2);
      const key = JSON.stringify([edge, links, edge.ends.map((site) => state.sites[site].name)]);
      if (drawn.key === key) continue;
      drawn.key = key;
      this.showEdge(state, edge, number);
      this.lanes.get(number).replaceChildren();
      this.words.get(number).replaceChildren();
      for (const link of links) if (link.letters.length) this.showLink(link);
    }
    setAttribute(this.svg, "aria-label", textOf(state));
  }

  showSite(site, drawn, before) {
    const does = doesWhat(site);
    const failed = site.failed?.length ?? 0;
    const key = [site.phase, does, site.eaten, failed, before].join();
    if (drawn.key === key) return;
    drawn.key = key;
    for (const kind of ["thinking", "hungry", "eating"]) drawn.group.classList.toggle(kind, site.phase === kind);
    for (const kind of ["quit", "done"]) drawn.group.classList.toggle(kind, does === kind);
    drawn.group.classList.toggle("failed", failed > 0);
    drawn.shape.setAttribute("d", outline(site.phase, drawn.place.radius));
    drawn.halo.setAttribute("d", outline(site.phase, drawn.place.radius + 5));
    const meals = `${mealsOf(site)} of ${site.jobs}`;
    const goes = before === undefined ? "" : `; ${before} before it`;
    drawn.title.textContent = `${site.name}: ${does}, ${meals} meals${failed ? `, ${failed} failed` : ""}${goes}`;
    const lines = [does, failed ? `${meals}, ${failed}✗` : meals];
    drawn.texts.forEach((text, row) => setText(text, lines[row]));
    if (drawn.rank) setText(drawn.rank, before ?? "");
  }

  // Puts the fork and the token of an edge at the end that has them, and turns its arrow.
  showEdge(state, edge, number) {
    const [drawn, line] = [this.edges.get(number), this.lines.get(number)];
    const [low, high] = edge.ends.map((site) => state.sites[site].name);
    const value = edge.value ?? null;
    const first = edge.preferred === undefined || edge.preferred === null ? null : state.sites[edge.preferred].name;
    const [one, other] = [0, 1].map((end) => roleText(edge.roles?.[end]));
    setText(drawn.title, `edge ${number}: ${low} ${one}, ${high} ${other}`
      + `${value === null ? "" : `, value ${value}`}${first === null ? "" : `; ${first} goes first`}`);
    if (drawn.label) setText(drawn.label, `=${value}`);
    const closed = edge.said?.filter((it) => it.close_put).length ?? 0;
    drawn.group.classList.toggle("closing", closed === 1);
    drawn.group.classList.toggle("closed", closed === 2);
    drawn.group.classList.toggle("caught", edge.isCaught === true);
    drawn.group.classList.toggle("idle", isIdle(edge));
    const turned = edge.preferred === edge.ends[1] ? 180 : 0;
    drawn.head.style.visibility = first === null ? "hidden" : "";
    this.put(drawn.head, drawn.place, line.angle + turned);
    this.showMarks(edge, number, line);
  }

  showMarks(edge, number, line) {
    const [fork, token] = [this.forks.get(number), this.tokens.get(number)];
    for (const kind of ["dirty", "clean"]) {
      const isSo = (kind === "dirty") === edge.dirty;
      fork.classList.toggle(kind, isSo);
      this.edges.get(number).group.classList.toggle(kind, isSo);
    }
    const { laid, size } = line;
    if (edge.fork.at !== undefined) {
      // Whoever has a fork has it by its handle.
      const end = edge.ends.indexOf(edge.fork.at);
      this.put(fork, this.pointAt(line, end, (laid.fork / 2) * size), line.angle + (end ? -90 : 90));
    } else if (edge.fork.isFree) {
      this.put(fork, pointOf(line, line.length / 2), line.angle);
    }
    token.style.visibility = edge.token === null ? "hidden" : "";
    if (edge.token?.at !== undefined) {
      this.put(token, this.pointAt(line, edge.ends.indexOf(edge.token.at), laid.token * size, laid.beside * size));
    }
  }

  // The point so far behind where the marks of an end begin, and so far beside the line, where letters to it go.
  pointAt(line, end, far, beside = 0) {
    const along = line.begin[end] + far;
    return pointOf(line, end ? line.length - along : along, end ? beside : -beside);
  }

  // Draws the letters of a link along its edge, the first of them in front. They are about in the middle, so that none
  // looks as if it had arrived, and a little nearer to the site that takes them.
  showLink({ edge, from, to, letters }) {
    const [line, lane] = [this.lines.get(edge), this.lanes.get(edge)];
    const { size, laid } = line;
    const end = from < to ? 1 : 0;
    const beside = Math.max(laid.beside * size, size * 0.5 + 3);
    const whole = line.length - line.begin[0] - line.begin[1];
    const [begin, tip] = [whole, 4].map((it) => this.pointAt(line, end, it, beside));
    const path = element("g", { class: letters.every((it) => it === "request") ? "lane-of-request" : "" }, lane);
    element("line", { class: "lane", x1: begin.x, y1: begin.y, x2: tip.x, y2: tip.y }, path);
    const turned = `translate(${tip.x},${tip.y}) rotate(${line.angle + (end ? 0 : 180)})`;
    const tall = Math.min(4, 0.3 * size);
    const head = `M${-tall},${-1.2 * tall}L${tall},0L${-tall},${1.2 * tall}Z`;
    element("path", { class: "tip", d: head, transform: turned }, path);
    const word = { edge, mark: "word", to };
    const halves = letters.map((letter) => (letter === "fork" ? laid.fork / 2 : REACH) * size);
    const long = halves.reduce((sum, half) => sum + 2 * half + 2, 0);
    // Many letters reach to the site. Where a token is held on the line, they wait behind it.
    let far = Math.max(laid.beside ? 10 : 1.9 * size, WAY * whole - long / 2);
    for (const [turn, letter] of letters.entries()) {
      const { [turn]: half } = halves;
      const at = this.pointAt(line, end, far + half, beside);
      far += 2 * half + 2;
      if (letter === "fork") this.put(this.forks.get(edge), at, line.angle + (end ? -90 : 90));
      else if (letter === "request") this.put(this.tokens.get(edge), at);
      else this.put(this.hit(wordMark(letter, size, this.words.get(edge)), line, { ...word, letter }), at);
    }
  }

  put(mark, { x, y }, turned = 0) {
    mark.place = { x, y };
    mark.style.transform = `translate(${x.toFixed(1)}px, ${y.toFixed(1)}px) rotate(${turned.toFixed(1)}deg)`;
  }

  // Marks what an event changed: its site, its edge, and the letter that it sent or took. Null marks nothing.
  mark(event) {
    for (const node of this.marked) node.classList.remove("last");
    this.marked = [];
    if (!event) return;
    const moved = this[MOVED[event.letter]]?.get(event.edge);
    this.marked = [this.sites.get(event.site)?.group, this.edges.get(event.edge)?.group, moved].filter(Boolean);
    for (const node of this.marked) node.classList.add("last");
  }

  // Lights up a site and an edge, if they are numbers.
  light(site, edge) {
    this.sites?.forEach((drawn, number) => drawn.group.classList.toggle("lit", number === site));
    this.edges?.forEach((drawn, number) => drawn.group.classList.toggle("lit", number === edge));
  }

  // Has words point at a thing, such as "site e" or "fork a-b", or at nothing. Returns the words if there is no space
  // for them.
  point({ sites, edges }, thing, words) {
    this.callout?.remove();
    this.callout = null;
    const [kind, name] = thing.split(" ");
    const nameOfEdge = ([low, high]) => `${sites[low].name}-${sites[high].name}`;
    const edge = edges.findIndex(({ ends }) => [ends, [...ends].reverse()].some((it) => nameOfEdge(it) === name));
    const site = this.sites.get(sites.findIndex((it) => it.name === name))?.place;
    const marks = { fork: this.forks, token: this.tokens, arrow: this.edges };
    const at = site ?? marks[kind]?.get(edge)?.place;
    if (!at) return "";
    const far = (kind === "fork" ? 0.8 : 0.5) * (this.lines.get(edge)?.size ?? 0);
    this.callout = drawCallout(this.svg, { radius: far, ...at }, words ?? "", this.boxes());
    return this.callout ? "" : words ?? "";
  }

  // What words in the picture should not cover.
  boxes() {
    const box = ({ x, y }, far) => ({ x, y, wide: far, high: far });
    const found = [...this.sites.values()].map(({ place }) => box(place, 1.2 * place.radius + 8));
    for (const [edge, { size }] of this.lines) {
      for (const [marks, far] of [[this.edges, 0.4], [this.forks, 0.95], [this.tokens, 0.5]]) {
        const { place } = marks.get(edge);
        if (place) found.push(box(place, far * size));
      }
    }
    return found;
  }

  // Whether there is space for how many meals of a site have ended.
  hasMeals() {
    return [...this.sites.values()].some(({ texts }) => texts.length === 2);
  }

  select(site) {
    this.sites?.forEach((drawn, number) => drawn.group.classList.toggle("selected", number === site));
  }
}

// Whether the arrow of an edge does not count yet: the holder of the dirty fork has taken no request for it.
export function isIdle({ fork, token, dirty }) {
  return dirty === true && fork.at !== undefined && token?.at !== fork.at;
}

// Where a fork or a token is, in words.
function placeText({ at, to, isFree }, names) {
  if (isFree) return "on the table";
  return at === undefined ? `on its way to ${names[to]}` : `at ${names[at]}`;
}

// What a picture shows of an edge, in words.
export function textOfEdge({ ends, fork, token, dirty, preferred }, names) {
  const kind = dirty === null ? "" : dirty ? "dirty " : "clean ";
  const parts = [`${kind}fork ${placeText(fork, names)}`];
  if (token) parts.push(`token ${placeText(token, names)}`);
  if ((preferred ?? null) !== null) parts.push(`${names[preferred]} goes first`);
  return `${names[ends[0]]} and ${names[ends[1]]}: ${parts.join(", ")}`;
}

// What a picture shows, in words: of few sites all, of many how many do what.
function textOf(state) {
  if (state.sites.length <= 16) {
    const words = (site) => `${site.name} ${doesWhat(site)}, ${mealsOf(site)} of ${site.jobs} meals`;
    const names = state.sites.map(({ name }) => name);
    return [...state.sites.map(words), ...state.edges.map((edge) => textOfEdge(edge, names))].join("; ");
  }
  const count = (phase) => state.sites.filter((site) => site.phase === phase).length;
  const counts = ["thinking", "hungry", "eating"].map((phase) => `${count(phase)} ${phase}`);
  return `${state.sites.length} sites: ${counts.join(", ")}`;
}
