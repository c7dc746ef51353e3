// What pictures are made of: elements, the outline of a site by its phase, and the marks for forks, tokens and words.

const SVG = "http://www.w3.org/2000/svg";
// Up to which length a fork is a dot, and up to which size a token has no question mark.
const DOT = { fork: 11.5, token: 12 };
// Where a dirty fork has sauce and a clean one shines, each with how far it reaches.
const SAUCE = [[-7.5, -7.5, 2.9], [0, -3.5, 2.5], [7.5, -8.8, 2.3], [5, 0.6, 2.3]];
const SHINE = [[9, -10, 5.4], [-8.5, 3.5, 4]];

// Up to how many rows a list is shown whole.
export const FEW = 10;

export const between = (least, number, most) => Math.max(least, Math.min(number, most));

export function element(name, attributes = {}, inside = null) {
  const made = document.createElementNS(SVG, name);
  for (const [key, value] of Object.entries(attributes)) made.setAttribute(key, value);
  inside?.append(made);
  return made;
}

export function textElement(name, text, kind = "") {
  const made = document.createElement(name);
  made.textContent = text;
  if (kind) made.className = kind;
  return made;
}

// A choice and its words: a radio button or a box, in a label.
export function choiceElement(type, name, value, text) {
  const [label, choice] = [document.createElement("label"), document.createElement("input")];
  Object.assign(choice, { type, name, value });
  label.append(choice, textElement("span", text));
  return label;
}

// Elements in a row.
export function rowElement(...parts) {
  const row = textElement("div", "", "row");
  row.append(...parts);
  return row;
}

// Changes an attribute or a text only if it is another, since a change costs the browser a new layout.
export function setAttribute(node, name, value) {
  if (node.getAttribute(name) !== String(value)) node.setAttribute(name, value);
}

export function setText(node, text) {
  if (node.textContent !== String(text)) node.textContent = text;
}

// Takes a button out of use. It keeps the focus, which `disabled` would take away.
export function setOff(button, isOff) {
  setAttribute(button, "aria-disabled", isOff);
}

// With how many letters all these names begin.
export function commonOf(names) {
  const [first, ...others] = names;
  let count = 0;
  while (others.length && count < first.length && others.every((name) => name[count] === first[count])) count += 1;
  return count;
}

// A name with so many letters at most. Names often differ in their last letters, so the middle is left out. What comes
// behind the `common` letters with which all names begin stays, if it fits.
export function shortened(name, most, common = 0) {
  if (name.length <= most) return name;
  const own = common && name.length - common < most ? name.length - common : 0;
  const tail = Math.max(own, Math.min(4, Math.floor((most - 1) / 2)));
  return `${name.slice(0, Math.max(own ? 0 : 1, most - 1 - tail))}…${tail ? name.slice(-tail) : ""}`;
}

// The outline of a site by its phase, round (0, 0).
export function outline(phase, radius) {
  if (phase === "hungry") {
    const far = 1.26 * radius;
    return `M0,${-far}L${far},0L0,${far}L${-far},0Z`;
  }
  if (phase === "eating") {
    const half = 0.94 * radius;
    const bend = 0.22 * radius;
    const side = 2 * (half - bend);
    return `M${bend - half},${-half}h${side}q${bend},0 ${bend},${bend}v${side}q0,${bend} ${-bend},${bend}h${-side}`
      + `q${-bend},0 ${-bend},${-bend}v${-side}q0,${-bend} ${bend},${-bend}Z`;
  }
  return `M${radius},0A${radius},${radius} 0 1 0 ${-radius},0A${radius},${radius} 0 1 0 ${radius},0Z`;
}

// A fork whose handle points down, or a dot if it is small. A dirty one is full of sauce, and a clean one shines.
export function forkMark(long, inside) {
  const group = element("g", { class: "fork" }, inside);
  if (long < DOT.fork) {
    element("circle", { class: "dot", r: long * 0.44 }, group);
    return group;
  }
  const path = "M-7.5,-11V-5Q-7.5,2 0,2Q7.5,2 7.5,-5V-11M0,-11V12";
  const scaled = element("g", { transform: `scale(${long / 27})` }, group);
  for (const kind of ["halo", "outer", "inner"]) element("path", { class: kind, d: path }, scaled);
  for (const [cx, cy, r] of SAUCE) element("circle", { class: "sauce", cx, cy, r }, scaled);
  for (const [x, y, far] of SHINE) element("path", { class: "shine", d: starPath(x, y, far) }, scaled);
  return group;
}

// A star with four rays.
function starPath(x, y, far) {
  const near = 0.22 * far;
  const points = [[0, -1], [1, 0], [0, 1], [-1, 0]].flatMap(([right, down]) => [
    `${x + far * right},${y + far * down}`, `${x + near * (right - down)},${y + near * (down + right)}`,
  ]);
  return `M${points.join("L")}Z`;
}

// A token: the right to ask for the fork.
export function tokenMark(size, inside) {
  const group = element("g", { class: "token" }, inside);
  const side = size * 0.74;
  element("rect", { x: -side / 2, y: -side / 2, width: side, height: side, rx: side * 0.24 }, group);
  if (size >= DOT.token) element("text", { "font-size": side * 0.85 }, group).textContent = "?";
  return group;
}

// A letter that says Done or Close.
export function wordMark(word, size, inside) {
  const group = element("g", { class: "word" }, inside);
  const side = Math.max(size * 0.7, 7);
  element("circle", { r: side / 2 }, group);
  element("text", { "font-size": side * 0.78 }, group).textContent = word === "done" ? "D" : "C";
  return group;
}

// A small picture of a site's phase, for lines of text.
export function phaseMark(phase) {
  const svg = element("svg", { viewBox: "-10 -10 20 20", class: "small-mark", "aria-hidden": "true" });
  element("path", { class: "shape", d: outline(phase, 7) }, element("g", { class: `site ${phase}` }, svg));
  return svg;
}

// What a legend may have: words, what is drawn for them, and whether a picture has it that shows some kinds of marks.
const shape = (phase) => (inside) => {
  const group = element("g", { class: `site ${phase}` }, inside);
  element("path", { class: "shape", d: outline(phase.split(" ")[0], 7.5) }, group);
};
const fork = (kind) => (inside) => forkMark(21, inside).classList.add(kind);
const arrow = (kind) => (inside) => {
  const group = element("g", { class: `edge ${kind}` }, inside);
  element("line", { x1: -10, y1: 0, x2: 10, y2: 0 }, group);
  element("path", { class: "head", d: "M-4,-5L6,0L-4,5Z" }, group);
};
const hasPhase = (does) => ({ phases }) => phases.has(does);
const hasLetter = (letter) => ({ letters }) => letters.has(letter);
const LEGEND = [
  ["thinking", shape("thinking"), hasPhase("thinking")],
  ["hungry", shape("hungry"), hasPhase("hungry")],
  ["eating", shape("eating"), hasPhase("eating")],
  ["fork", fork("plain"), ({ kinds, isPlain }) => isPlain && kinds.has("forks")],
  ["dirty fork", fork("dirty"), ({ kinds, forks, isPlain }) => !isPlain && kinds.has("forks") && forks.has(true)],
  ["clean fork", fork("clean"), ({ kinds, forks, isPlain }) => !isPlain && kinds.has("forks") && forks.has(false)],
  ["token", (inside) => tokenMark(18, inside), ({ kinds, isPlain }) => !isPlain && kinds.has("tokens")],
  ["letter Done", (inside) => wordMark("done", 18, inside), hasLetter("done")],
  ["letter Close", (inside) => wordMark("close", 18, inside), hasLetter("close")],
  ["on its way", (inside) => {
    element("line", { class: "lane", x1: -10, y1: 0, x2: 4, y2: 0 }, inside);
    element("path", { class: "tip", d: "M3,-4L9,0L3,4Z" }, inside);
  }, ({ letters }) => letters.size > 0],
  ["goes before", arrow("ranked"), ({ kinds, isPlain, arrows }) => {
    return !isPlain && kinds.has("arrows") && arrows.has(false);
  }],
  ["goes before, once it asks", arrow("ranked idle"), ({ kinds, isPlain, arrows }) => {
    return !isPlain && kinds.has("arrows") && arrows.has(true);
  }],
  ["goes before, and gives nothing", arrow("caught"), ({ kinds, isPlain }) => isPlain && kinds.has("arrows")],
  ["how many go before", (inside) => {
    const group = element("g", { class: "rank" }, element("g", { class: "counts" }, inside));
    element("circle", { r: 9 }, group);
    element("text", { "font-size": 12 }, group).textContent = "2";
  }, ({ kinds, isPlain }) => !isPlain && kinds.has("counts")],
  ["0 of 2: meals that ended", null, ({ hasMeals }) => hasMeals],
  ["changed last", (inside) => {
    element("path", { class: "halo", d: outline("thinking", 8) }, element("g", { class: "site last" }, inside));
  }, ({ hasLast }) => hasLast],
  ["chosen site", shape("thinking selected"), ({ hasChosen }) => hasChosen],
  ["done", shape("thinking done"), hasPhase("done")],
  ["quit", shape("thinking quit"), hasPhase("quit")],
  ["closed edge", (inside) => {
    element("line", { x1: -10, y1: 0, x2: 10, y2: 0 }, element("g", { class: "edge closed" }, inside));
  }, ({ hasClosed }) => hasClosed],
];

// Draws the legend of what a picture has: each mark with what it means. A tap on its words explains them.
export function drawLegend(list, had, explain) {
  const entries = LEGEND.filter(([, , isThere]) => isThere(had));
  const key = entries.map(([words]) => words).join();
  if (list.dataset.key === key) return;
  list.dataset.key = key;
  list.made ??= new Map();
  list.replaceChildren(...entries.map(([words, draw]) => {
    if (!list.made.has(words)) list.made.set(words, legendItem(words, draw, explain));
    return list.made.get(words);
  }));
}

function legendItem(words, draw, explain) {
  const item = document.createElement("li");
  if (draw) draw(element("svg", { viewBox: "-11 -11 22 22", "aria-hidden": "true" }, item));
  const button = textElement("button", words, "explained");
  button.type = "button";
  button.addEventListener("click", () => explain(words));
  item.append(button);
  return item;
}
