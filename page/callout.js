// A few words in the picture, in a box beside the thing that they are about.

import { element } from "./marks.js";

// How many letters a row of the box has at most, how wide a letter is, how high a row is, and the size of its letters,
// in the order in which boxes are tried.
const BOXES = [
  { letters: 18, wide: 8, high: 17, font: 13 }, { letters: 12, wide: 8, high: 17, font: 13 },
  { letters: 13, wide: 6.6, high: 14, font: 11 },
];
// Which part of a box may cover other things.
const COVERS = 0.05;
// How far a box is from its thing, in the order in which places are tried, and in how many directions.
const TRIED = { far: [14, 30, 55, 90], ways: 16 };
// What it costs that the leader crosses another thing, and at which parts of its way that is looked for.
const CROSSED = { cost: 400, parts: [0, 0.25, 0.5, 0.75] };

function rowsOf(words, letters) {
  const rows = [""];
  for (const word of words.split(" ")) {
    if (rows.at(-1) && rows.at(-1).length + word.length >= letters) rows.push("");
    rows.push(`${rows.pop()} ${word}`.trim());
  }
  return rows;
}

// How much of a box, which is so far to all sides of its middle, covers another.
function covered(one, other) {
  const wide = one.wide + other.wide - Math.abs(one.x - other.x);
  const high = one.high + other.high - Math.abs(one.y - other.y);
  return Math.max(0, wide) * Math.max(0, high);
}

// How many things a leader crosses from its thing so far in a direction, besides those that the thing is on.
function crossed(thing, right, down, far, others) {
  const has = (it, x, y) => Math.abs(it.x - x) < it.wide && Math.abs(it.y - y) < it.high;
  const points = CROSSED.parts.map((part) => thing.radius + part * far);
  return others.filter((it) => {
    return !has(it, thing.x, thing.y) && points.some((out) => has(it, thing.x + right * out, thing.y + down * out));
  }).length;
}

// The best place for a box beside a thing: within the picture, off what is drawn there, and near.
function bestBox(size, thing, { width, height }, others) {
  let best = null;
  for (const far of TRIED.far) {
    for (let way = 0; way < TRIED.ways; way += 1) {
      const angle = (2 * Math.PI * way) / TRIED.ways;
      const [right, down] = [Math.cos(angle), Math.sin(angle)];
      const out = thing.radius + far + Math.abs(right) * size.wide + Math.abs(down) * size.high;
      const box = { ...size, x: thing.x + right * out, y: thing.y + down * out };
      const left = Math.max(0, size.wide + 3 - box.x, box.x + size.wide + 3 - width);
      const over = Math.max(0, size.high + 3 - box.y, box.y + size.high + 3 - height);
      const covers = others.reduce((sum, it) => sum + covered(box, it), 0) + 1000 * (left + over);
      box.covers = covers;
      const cost = covers + CROSSED.cost * crossed(thing, right, down, out - thing.radius, others) + 2 * far;
      if (!best || cost < best.cost) best = { ...box, cost };
    }
  }
  return best;
}

// The first of the boxes that has a place where it covers nothing else, or null.
function boxOf(words, thing, room, others) {
  for (const size of BOXES) {
    const rows = rowsOf(words, size.letters);
    const [wide, high] = [Math.max(...rows.map((it) => it.length)) * size.wide + 18, rows.length * size.high + 10];
    const found = bestBox({ wide: wide / 2, high: high / 2 }, thing, room, others);
    if (found.covers <= COVERS * wide * high) return { ...size, ...found, rows, wide, high, row: size.high };
  }
  return null;
}

// Draws a box with words for a thing, which has a place and a radius. Others are what it should not cover. Returns null
// where there is no space for it.
export function drawCallout(svg, thing, words, others) {
  const box = boxOf(words, thing, svg.viewBox.baseVal, others);
  if (!box) return null;
  const group = element("g", { class: "callout" }, svg);
  const { x, y, rows, wide, high, row, font } = box;
  const far = Math.hypot(thing.x - x, thing.y - y);
  const [right, down] = [(x - thing.x) / far, (y - thing.y) / far];
  const tip = `${thing.x + right * thing.radius},${thing.y + down * thing.radius}`;
  const leader = `M${x - 7 * down},${y + 7 * right}L${tip}L${x + 7 * down},${y - 7 * right}Z`;
  element("path", { class: "leader", d: leader }, group);
  element("rect", { x: x - wide / 2, y: y - high / 2, width: wide, height: high, rx: 8 }, group);
  rows.forEach((text, turn) => {
    const made = element("text", { x, y: y + (turn - (rows.length - 1) / 2) * row }, group);
    made.style.fontSize = `${font}px`;
    made.textContent = text;
  });
  return group;
}
