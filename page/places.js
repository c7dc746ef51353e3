// Where the sites of a picture stand, and where the marks on its edges.

import { between } from "./marks.js";

export const TURN = 2 * Math.PI;
// The radius of a site: the least, the largest, and from which on its name, its phase and its meals fit inside.
export const SITE = { least: 5, most: 46, name: 21, phase: 26, meals: 37 };
// How large a mark on an edge is, and from which size on forks are long.
const MARK = { least: 5, wide: 8, most: 28 };
// How many letters of a name a picture shows.
export const SHOWN = 14;
// How wide a letter of a name beside its site is, the least number of letters there, and which part of the way from the
// middle of a picture to its edge the longest name takes at most.
const BESIDE = { wide: 6, least: 5, part: 0.35 };

// The site in the middle of a star, or null if the edges are none.
function hubOf(count, edges) {
  if (count < 4 || edges.length !== count - 1) return null;
  const hub = edges[0].ends.find((site) => edges.every((edge) => edge.ends.includes(site)));
  return hub ?? null;
}

// The sites with which each site has an edge.
export function neighboursOf(count, edges) {
  const near = Array.from({ length: count }, () => []);
  for (const { ends: [low, high] } of edges) {
    near[low].push(high);
    near[high].push(low);
  }
  return near;
}

// How many edges each site is away from this one, undefined if none lead there.
function distancesFrom(begin, near) {
  const far = [];
  far[begin] = 0;
  for (const queue = [begin]; queue.length;) {
    const site = queue.shift();
    for (const other of near[site]) {
      if (far[other] !== undefined) continue;
      far[other] = far[site] + 1;
      queue.push(other);
    }
  }
  return far;
}

// The column and row of each site if the edges are a grid whose upper corners are these, else null. The distances from
// two corners of a row tell both.
function cellsBetween(left, right, near, edges) {
  const [one, two] = [distancesFrom(left, near), distancesFrom(right, near)];
  const wide = one[right];
  const cells = near.map((_, site) => {
    return { x: (one[site] - two[site] + wide) / 2, y: (one[site] + two[site] - wide) / 2 };
  });
  const isCell = ({ x, y }) => Number.isInteger(x) && Number.isInteger(y) && x >= 0 && x <= wide && y >= 0;
  if (!cells.every(isCell)) return null;
  const high = Math.max(...cells.map(({ y }) => y));
  const areAll = new Set(cells.map(({ x, y }) => y * (wide + 1) + x)).size === cells.length;
  const isFull = cells.length === (wide + 1) * (high + 1) && edges.length === wide * (high + 1) + (wide + 1) * high;
  const isNear = ({ ends: [low, top] }) => {
    return Math.abs(cells[low].x - cells[top].x) + Math.abs(cells[low].y - cells[top].y) === 1;
  };
  return areAll && isFull && edges.every(isNear) ? cells : null;
}

// The cells of a grid or of a row of sites, with the longer side across. Null if the edges are neither.
function gridOf(count, edges) {
  if (count < 3 || count === edges.length) return null;
  const near = neighboursOf(count, edges);
  const isRow = edges.length === count - 1;
  const corners = near.flatMap((others, site) => (others.length === (isRow ? 1 : 2) ? [site] : []));
  if (corners.length !== (isRow ? 2 : 4)) return null;
  const found = corners.slice(1).map((corner) => cellsBetween(corners[0], corner, near, edges)).filter(Boolean);
  const wideOf = (cells) => Math.max(...cells.map(({ x }) => x));
  return found.sort((one, other) => wideOf(other) - wideOf(one))[0] ?? null;
}

function gridPlaces(cells, width, height) {
  const wide = Math.max(...cells.map(({ x }) => x));
  const high = Math.max(...cells.map(({ y }) => y));
  const step = { x: width / (wide + 1), y: height / (high + 1) };
  const radius = between(SITE.least, Math.min(step.x * 0.2, high ? step.y * 0.22 : Infinity), SITE.most);
  // A name beside a small site is between four edges.
  const letters = between(1, Math.floor((step.x - Math.max(0.8 * radius + 3, 9) - 9) / BESIDE.wide), SHOWN);
  const isSmall = radius < SITE.name;
  const drawn = { radius, angle: -TURN / 4, letters: isSmall ? letters : SHOWN, isCell: isSmall && high > 0 };
  const places = cells.map(({ x, y }) => ({ x: (x + 0.5) * step.x, y: (y + 0.5) * step.y, ...drawn }));
  return { width, height, places };
}

// The point of a seat round an ellipse, whose first seat is at the top, or with two on the left.
function seatAt(seat, count, far) {
  const angle = (count === 2 ? Math.PI : -TURN / 4) + (TURN * seat) / count;
  return { x: far.x * Math.cos(angle), y: far.y * Math.sin(angle), angle };
}

// How large the sites round an ellipse may be, if the edges are to have space between them.
function radiusOf(count, far, hub, passes) {
  const seats = Array.from({ length: count }, (_, seat) => seatAt(seat, count, far));
  const apart = seats.map((it, seat) => {
    const next = seats[(seat + 1) % count];
    return count === 1 ? Infinity : Math.hypot(it.x - next.x, it.y - next.y);
  });
  const near = hub === null ? Infinity : Math.min(far.x, far.y);
  const most = passes ? 0.6 * far.y * (1 - Math.cos(TURN / count)) : SITE.most;
  return between(SITE.least, Math.min(0.21 * Math.min(...apart, near), most), SITE.most);
}

// The radii of the ellipse. One of many sites is nearly a circle, since their names stand along its radius.
function radiiOf(count, wide, high) {
  if (count === 1) return { x: 0, y: 0 };
  if (count === 2) return { x: Math.min(wide, 230), y: 0 };
  const most = count > 12 ? 1.15 : 1.6;
  return { x: Math.min(wide, most * high), y: Math.min(high, most * wide) };
}

// The places round an ellipse, or round the site in the middle of a star.
function roundPlaces(sites, edges, width, height) {
  const hub = hubOf(sites.length, edges);
  const count = hub === null ? sites.length : sites.length - 1;
  // In a low picture names are short, so that there is space for the sites and their edges.
  const most = Math.floor((BESIDE.part * Math.min(width, height)) / 2 / BESIDE.wide);
  const letters = between(BESIDE.least, most, SHOWN);
  const longest = Math.min(letters, Math.max(...sites.map((site) => site.name.length)));
  // An edge that passes by one site is to leave space for it.
  const isPassed = ({ ends: [low, high] }) => [2, count - 2].includes(high - low);
  const passes = hub === null && count > 4 && edges.some(isPassed);
  let radius = SITE.most;
  let far = { x: 0, y: 0 };
  for (let turn = 0; turn < 6; turn += 1) {
    const edge = 1.26 * radius + 12 + (radius < SITE.name ? 4 + BESIDE.wide * longest : 0);
    far = radiiOf(count, Math.max(20, width / 2 - edge), Math.max(20, height / 2 - edge));
    radius = radiusOf(count, far, hub, passes);
  }
  let seat = 0;
  const places = sites.map((_, site) => {
    if (site === hub) {
      // Its name fits inside it where its edges can spare that.
      const near = Math.min(far.x, far.y);
      const most = Math.min(26, Math.max(0.3 * near, Math.min(SITE.name, 0.36 * near)));
      return { x: width / 2, y: height / 2, radius: Math.max(radius, most), angle: null, letters };
    }
    const at = seatAt(seat, count, far);
    seat += 1;
    return { x: width / 2 + at.x, y: height / 2 + at.y, radius, angle: Math.atan2(at.y, at.x), letters };
  });
  return { width, height, places: centred(places, height) };
}

// The same in the middle of the height: five sites round an ellipse have more space below than above.
function centred(places, height) {
  const ys = places.map(({ y }) => y);
  const up = (Math.min(...ys) + Math.max(...ys) - height) / 2;
  return places.map((it) => ({ ...it, y: it.y - up }));
}

// Where all sites are, in a picture so wide and high.
export function placesOf(sites, edges, width, height) {
  const cells = gridOf(sites.length, edges);
  return cells ? gridPlaces(cells, width, height) : roundPlaces(sites, edges, width, height);
}

// The least angle between two edges of each site, a whole turn if there are none.
function anglesOf(places, edges) {
  const at = places.map(() => []);
  for (const { ends: [low, high] } of edges) {
    const angle = Math.atan2(places[high].y - places[low].y, places[high].x - places[low].x);
    at[low].push(angle);
    at[high].push(angle + Math.PI);
  }
  return at.map((angles) => {
    const sorted = angles.map((angle) => (angle + 2 * TURN) % TURN).sort((one, other) => one - other);
    return Math.min(TURN, ...sorted.slice(1).map((angle, before) => angle - sorted[before]));
  });
}

// How long a fork is, how far from its end a token is held, and how far beside the line, in sizes of the marks. Where
// the edges of a site are near one another, forks are small, and tokens are held behind them.
const LAID = {
  wide: { fork: 1.9, token: 0.4, beside: 1, across: 1.7 },
  narrow: { fork: 0.95, token: 1.36, beside: 0, across: 0.8 },
};
// How far from the middle of a line the marks of an end begin at most, in sizes of the marks.
const HALF = 1.9;

// For each edge its line, and how far from each end its marks are.
export function linesOf(places, edges) {
  const angles = anglesOf(places, edges);
  const lines = edges.map(({ ends: [low, high] }) => {
    const [from, to] = [places[low], places[high]];
    const length = Math.hypot(to.x - from.x, to.y - from.y);
    const along = { x: (to.x - from.x) / length, y: (to.y - from.y) / length };
    return { from, to, low, high, length, along, angle: (Math.atan2(along.y, along.x) * 360) / TURN };
  });
  const free = lines.map((line) => line.length - 1.2 * (line.from.radius + line.to.radius));
  // So wide are two edges of a site apart, where the marks are as far out as they may be.
  const apart = lines.map((line) => {
    return 0.9 * line.length * Math.sin(Math.min(angles[line.low], angles[line.high], Math.PI) / 2);
  });
  const size = between(MARK.least, Math.min(Math.min(...free) / 5.2, Math.max(...apart)), MARK.most);
  // How far out the marks of a site have to begin, so that those of two edges have space beside each other.
  const outOf = (site, across) => (angles[site] < 2 ? (across * size) / (2 * Math.sin(angles[site] / 2)) : 0);
  const isWide = size >= MARK.wide && lines.every(({ low, high, length }) => {
    return [low, high].every((site) => outOf(site, LAID.wide.across) <= length / 2 - HALF * size);
  });
  const laid = isWide ? LAID.wide : LAID.narrow;
  for (const line of lines) {
    Object.assign(line, { size, laid });
    line.begin = [[line.low, line.from], [line.high, line.to]].map(([site, place]) => {
      // On a short line the marks stay in their own half, though they cover the site then.
      const half = line.length / 2 - HALF * size;
      return Math.max(0, Math.min(Math.max(1.22 * place.radius + 2, outOf(site, laid.across)), half));
    });
  }
  return lines;
}

// The point of a line that is so far from its lower end, and so far beside it.
export function pointOf(line, far, beside = 0) {
  return {
    x: line.from.x + line.along.x * far - line.along.y * beside,
    y: line.from.y + line.along.y * far + line.along.x * beside,
  };
}
