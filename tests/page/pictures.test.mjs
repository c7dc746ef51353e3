// Where the parts of a picture are, what they look like, and the colours of the page.
import assert from "node:assert/strict";
import test from "node:test";

import { between, commonOf, outline, shortened } from "../../page/marks.js";
import { SITE, linesOf, placesOf, pointOf } from "../../page/places.js";
import { scheduleOf, textOf } from "./rules.mjs";

const named = (count) => Array.from({ length: count }, (_, it) => ({ name: `s${it}` }));
const edgesOf = (pairs) => pairs.map((ends) => ({ ends }));
const upTo = (count) => [...Array(count).keys()];
const ring = (count) => edgesOf(upTo(count).map((it) => [it, (it + 1) % count]));
const star = (count) => edgesOf(upTo(count - 1).map((it) => [0, it + 1]));
const path = (count) => edgesOf(upTo(count - 1).map((it) => [it, it + 1]));
const grid = (wide, high) => edgesOf(upTo(wide * high).flatMap((it) => [
  ...(it % wide < wide - 1 ? [[it, it + 1]] : []), ...(it < wide * (high - 1) ? [[it, it + wide]] : []),
]));
const rows = (places, side) => new Set(places.map((it) => Math.round(it[side]))).size;

for (const [wide, high] of [[3, 3], [2, 2], [4, 3], [3, 5]]) {
  test(`a grid of ${wide} by ${high} is drawn as one, with its longer side across`, () => {
    const { places } = placesOf(named(wide * high), grid(wide, high), 600, 400);
    const isRing = wide === 2;
    const wanted = isRing ? [3, 3] : [Math.max(wide, high), Math.min(wide, high)];
    assert.deepEqual([rows(places, "x"), rows(places, "y"), places.length], [...wanted, wide * high]);
  });
}

test("the plan of a grid of three by three is drawn as one", async () => {
  const { sites, edges } = (await scheduleOf("plans/grid.toml")).state;
  const { places } = placesOf(sites, edges, 600, 400);
  assert.deepEqual([rows(places, "x"), rows(places, "y"), places.length], [3, 3, 9]);
});

test("a row of sites is drawn as one", () => {
  const { places } = placesOf(named(6), path(6), 600, 400);
  assert.deepEqual([rows(places, "x"), rows(places, "y")], [6, 1]);
});

test("the site that all others have an edge with is in the middle", () => {
  const { places: [hub, ...others] } = placesOf(named(9), star(9), 600, 400);
  assert.deepEqual([hub.angle, Math.round(hub.x), rows(others, "x") > 2], [null, 300, true]);
  const far = others.map(({ x, y }) => Math.hypot(x - hub.x, y - hub.y));
  assert.ok(Math.min(...far) > hub.radius + others[0].radius);
});

const SHAPES = { ring, star, path };
for (const [name, shape] of Object.entries(SHAPES)) {
  for (const count of [4, 5, 9, 16, 40]) {
    test(`the sites of a ${name} of ${count} are in the picture, and apart`, () => {
      const { places } = placesOf(named(count), shape(count), 600, 400);
      for (const { x, y, radius } of places) {
        assert.ok(radius >= SITE.least && radius <= SITE.most);
        assert.ok(x > 0 && x < 600 && y > 0 && y < 400);
      }
      places.forEach((one, at) => places.slice(at + 1).forEach((other) => {
        assert.ok(Math.hypot(one.x - other.x, one.y - other.y) > 1.5 * Math.max(one.radius, other.radius));
      }));
    });
  }
}

test("one site and two sites have places", () => {
  const [one] = placesOf(named(1), [], 600, 400).places;
  assert.deepEqual([one.x, one.y], [300, 200]);
  const [low, high] = placesOf(named(2), ring(2).slice(1), 600, 400).places;
  assert.ok(low.x < high.x && Math.round(low.y) === Math.round(high.y));
});

test("the marks of an end are in its own half of the line", () => {
  for (const edges of [ring(5), star(6), grid(3, 3)]) {
    const count = Math.max(...edges.flatMap(({ ends }) => ends)) + 1;
    const { places } = placesOf(named(count), edges, 600, 400);
    for (const line of linesOf(places, edges)) {
      assert.deepEqual([line.from, line.to], [places[line.low], places[line.high]]);
      for (const begin of line.begin) assert.ok(begin >= 0 && begin < line.length / 2);
      const { x, y } = pointOf(line, line.length);
      assert.ok(Math.hypot(x - line.to.x, y - line.to.y) < 1e-6);
      const side = pointOf(line, 0, 7);
      assert.ok(Math.abs(Math.hypot(side.x - line.from.x, side.y - line.from.y) - 7) < 1e-6);
      assert.ok(Math.abs((side.x - line.from.x) * line.along.x + (side.y - line.from.y) * line.along.y) < 1e-6);
    }
  }
});

test("long names leave space in a low picture, so that no mark covers a site", () => {
  for (const edges of [ring(8), star(13), star(9)]) {
    const count = Math.max(...edges.flatMap(({ ends }) => ends)) + 1;
    const sites = named(count).map(({ name }) => ({ name: name.repeat(9) }));
    const { places } = placesOf(sites, edges, 800, 240);
    for (const { begin, from, to } of linesOf(places, edges)) {
      assert.ok(begin[0] > 0.8 * from.radius && begin[1] > 0.8 * to.radius, `${begin} ${from.radius} ${to.radius}`);
    }
  }
});

test("names that are cut keep in what they differ", () => {
  assert.deepEqual([8, 5, 1].map((most) => shortened("abcdefgh", most)), ["abcdefgh", "ab…gh", "a…"]);
  assert.deepEqual([commonOf(["fork_1", "fork_12"]), commonOf(["a"]), commonOf(["x", "y"])], [6, 0, 0]);
  const names = upTo(20).map((it) => `philosopher_${it}`);
  for (const most of [4, 6, 9, 14]) {
    const cut = names.map((it) => shortened(it, most, commonOf(names)));
    assert.equal(new Set(cut).size, names.length, cut.join());
    assert.ok(cut.every((it) => it.length <= most), cut.join());
  }
});

test("each phase has an outline of its own", () => {
  const drawn = ["thinking", "hungry", "eating"].map((phase) => outline(phase, 10));
  assert.equal(new Set(drawn).size, 3);
  for (const it of drawn) assert.match(it, /^M[^Za-y]?.*Z$/);
  assert.deepEqual([between(1, 0, 3), between(1, 2, 3), between(1, 4, 3)], [1, 2, 3]);
});

// ---- Colours

// The blocks of the page's style that have its colours: light ones, dark ones if the machine asks for them, and if the
// reader does.
const STYLE = textOf("page/page.css");
const BLOCKS = [":root {", ":root:not([data-theme=\"light\"]) {", "[data-theme=\"dark\"] {"].map((head) => {
  const begin = STYLE.indexOf(head) + head.length;
  const block = STYLE.slice(begin, STYLE.indexOf("}", begin));
  return new Map([...block.matchAll(/--([\w-]+): (#\w+);/g)].map((it) => it.slice(1)));
});
const numbersOf = (colour) => colour.match(/\w\w/g).map((two) => parseInt(two, 16));
// The two values of each name, light and dark, as three numbers up to 255.
const COLOURS = new Map([...BLOCKS[0]].map(([name, light]) => {
  return [name, { light: numbersOf(light), dark: numbersOf(BLOCKS[1].get(name) ?? light) }];
}));

test("the dark colours are the same twice, and no browser needs a function for them", () => {
  assert.deepEqual(BLOCKS[1], BLOCKS[2]);
  assert.ok(BLOCKS[0].size > 20 && BLOCKS[1].size > 20);
  assert.doesNotMatch(STYLE, /light-dark\(|:has\(/);
});

// Which colours differ from what they are drawn on, and the least contrast.
const CONTRASTS = [
  ...["ink", "faint"].flatMap((it) => [[it, "card", 4.5], [it, "page", 4.5]]), ["ink", "last", 4.5],
  ...["main", "hungry", "eating", "token", "rank"].map((it) => [`on-${it}`, it, 4.5]),
  ...["rank", "fault", "right", "fork", "clean", "token"].map((it) => [it, "card", 4.5]),
  ...["edge", "wait", "meal", "mark"].map((it) => [it, "card", 3]),
];

// How light a colour is, as WCAG has it.
function lightOf(colour) {
  const [red, green, blue] = colour.map((it) => it / 255).map((it) => {
    return it <= 0.04045 ? it / 12.92 : ((it + 0.055) / 1.055) ** 2.4;
  });
  return 0.2126 * red + 0.7152 * green + 0.0722 * blue + 0.05;
}

for (const scheme of ["light", "dark"]) {
  test(`colours differ from what they are drawn on: ${scheme}`, () => {
    for (const [ink, ground, least] of CONTRASTS) {
      const [low, high] = [ink, ground].map((it) => lightOf(COLOURS.get(it)[scheme])).sort((one, other) => one - other);
      assert.ok(high / low >= least, `${ink} on ${ground}: ${high / low}`);
    }
  });
}
