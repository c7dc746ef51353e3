// The timeline: a row for each site, a bar for each meal, a line for each wait, an arrow for each move of a fork. Only
// what is in view is drawn, so that it takes as long with many events as with few.

import { between, commonOf, element, setAttribute, shortened } from "./marks.js";
import { Spans, firstBehind, spanAt } from "./spans.js";

const TOP = 18;
// How wide an event is: the least, what it gets if there are few, and the most, in points.
const EVENT = { least: 0.001, fit: 16, most: 32 };
// How far apart two numbers of events are at least, in points.
const APART = 52;
// How wide a digit of such a number is.
const DIGIT = 7;
// From which width of an event on the moves of forks have their arrows, and how many are drawn at most.
const ARROWS = { from: 2.5, most: 3000 };

// How high a row is, by how many there are.
function rowHeight(count) {
  return count <= 6 ? 19 : count <= 12 ? 17 : 13;
}

// A step between numbers: 1, 2 or 5 and noughts.
function stepOf(wide) {
  for (let ten = 1; ; ten *= 10) {
    for (const step of [ten, 2 * ten, 5 * ten]) if (step * wide >= APART) return step;
  }
}

export class Timeline {
  // `parts` has the elements, `jump`, which is called with the place that the reader chose, and `takeOther`, which is
  // called if that is in the row of the list that was left.
  constructor(parts) {
    Object.assign(this, parts);
    this.left = 0;
    this.isFitted = true;
    Object.assign(this, { version: null, other: null });
    this.scroll.addEventListener("scroll", () => {
      this.left = this.scroll.scrollLeft;
      this.drawView();
    });
    this.scroll.addEventListener("wheel", (event) => {
      if (!event.ctrlKey && !event.altKey) return;
      event.preventDefault();
      this.zoom(event.deltaY < 0 ? 1.25 : 0.8, event.clientX - this.scroll.getBoundingClientRect().left);
    }, { passive: false });
    this.listenToPointer();
    new ResizeObserver(() => this.measure()).observe(this.scroll);
  }

  // A press of a mouse goes to its place, and a drag along. A finger taps to go to a place, and drags to move the
  // timeline.
  listenToPointer() {
    // The place behind the event that is pressed.
    const behind = (event) => {
      const far = event.clientX - this.scroll.getBoundingClientRect().left + this.left;
      return between(0, Math.ceil(far / this.wide), this.end);
    };
    this.scroll.addEventListener("pointerdown", (event) => {
      // What is pressed outside of the inside is the scroll bar.
      if (event.button !== 0 || event.pointerType !== "mouse" || event.target === this.scroll) return;
      if (this.isOnOther(event)) {
        this.takeOther();
        return;
      }
      this.view.setPointerCapture(event.pointerId);
      this.jump(behind(event));
    });
    this.scroll.addEventListener("click", (event) => {
      if (event.pointerType === "mouse" || event.target === this.scroll) return;
      if (this.isOnOther(event)) this.takeOther();
      else this.jump(behind(event));
    });
    this.scroll.addEventListener("pointermove", (event) => {
      if (event.pointerType === "mouse" && event.buttons === 1 && this.view.hasPointerCapture(event.pointerId)) {
        this.jump(behind(event));
      }
      this.tellOf(event, behind(event) - 1);
    });
  }

  // The row under the pointer.
  rowAt(event) {
    return Math.floor((event.clientY - this.view.getBoundingClientRect().top - TOP) / this.row);
  }

  isOnOther(event) {
    return this.other !== null && this.rowAt(event) === this.titles.length;
  }

  // Tells what the site under the pointer does there.
  tellOf(event, place) {
    const site = this.rowAt(event);
    const name = this.titles?.[site];
    if (name !== undefined) this.hint(spanAt(this.spans, site, name, place));
    else this.hint(this.isOnOther(event) ? "a tap takes back the choice, and these events follow again" : "");
  }

  measure() {
    const { clientWidth } = this.scroll;
    // While the picture is as large as the window, there is no timeline.
    if (clientWidth === 0) return;
    this.room = clientWidth;
    this.left = this.scroll.scrollLeft;
    if (!this.spans) return;
    this.fit();
    this.drawAll();
  }

  // Draws the events of a schedule up to an end if they are others than before, and below them those of a list that was
  // left.
  draw(schedule, other, end = schedule.list.length) {
    const { events, state, version } = schedule;
    if (this.schedule === schedule && this.version === version && this.other === other && this.end === end) return;
    const isOther = this.schedule !== schedule;
    const isSame = version === this.version || schedule.cut >= this.spans?.length;
    const isLonger = !isOther && isSame && end >= this.spans.length;
    const hasRows = !isOther && (this.other === null) === (other === null);
    Object.assign(this, { schedule, version, other, end, total: Math.max(end, other?.list.length ?? 0) });
    if (isLonger) this.spans.extend(events, end);
    else this.spans = new Spans(events, state.sites, state.edges, end);
    if (!hasRows) this.openSites(state.sites);
    if (isOther) this.isFitted = true;
    this.fit();
    this.drawAll();
  }

  openSites(sites) {
    this.titles = sites.map((site) => site.name);
    this.row = rowHeight(sites.length);
    this.height = TOP + (sites.length + (this.other ? 1 : 0)) * this.row + 4;
    const size = Math.min(13, this.row - 2);
    const most = this.scroll.parentElement.clientWidth < 500 ? 9 : 16;
    const longest = Math.max(...sites.map((site) => Math.min(site.name.length, most)));
    const width = longest * size * 0.62 + 12;
    const common = commonOf(this.titles);
    this.names.replaceChildren();
    this.names.setAttribute("width", width);
    this.names.setAttribute("height", this.height);
    this.titles.concat(this.other ? "left" : []).forEach((name, number) => {
      const at = { x: width - 8, y: this.y(number) + size * 0.36, "font-size": size };
      element("text", at, this.names).textContent = shortened(name, most, common);
    });
    this.room = this.scroll.clientWidth;
  }

  y(site) {
    return TOP + (site + 0.5) * this.row;
  }

  // Makes events as wide as fits, unless the reader has zoomed.
  fit() {
    const least = Math.max(EVENT.least, (this.room - 14) / Math.max(this.total, 1));
    if (this.isFitted) this.wide = Math.min(least, EVENT.fit);
    else this.wide = between(Math.min(least, EVENT.fit), this.wide, EVENT.most);
  }

  // Makes events so many times as wide, and keeps the event under the point where it is.
  zoom(times, point = this.cursorX()) {
    if (!this.spans) return;
    const place = (this.left + point) / this.wide;
    this.isFitted = false;
    this.wide *= times;
    this.fit();
    this.drawAll();
    this.scroll.scrollLeft = place * this.wide - point;
    this.left = this.scroll.scrollLeft;
    this.drawView();
  }

  zoomOut() {
    this.isFitted = true;
    if (!this.spans) return;
    this.fit();
    this.drawAll();
  }

  cursorX() {
    return between(0, this.at * this.wide - this.left, this.room);
  }

  drawAll() {
    this.width = Math.max(this.room, this.total * this.wide + 14);
    this.inside.style.width = `${this.width}px`;
    this.view.style.width = `${this.room}px`;
    this.view.style.height = `${this.height}px`;
    // To ask how far it is scrolled would cost a layout. If it gets narrower, the browser scrolls it and says so.
    this.left = between(0, this.left, this.width - this.room);
    this.drawView();
  }

  // Draws what is in view.
  drawView() {
    if (!this.spans) return;
    const [from, to] = [this.left / this.wide - 1, (this.left + this.room) / this.wide + 1];
    setAttribute(this.svg, "width", this.room);
    setAttribute(this.svg, "height", this.height);
    this.svg.replaceChildren();
    const end = Math.min(this.room, this.x(this.spans.length));
    const bases = this.titles.map((_, site) => `M0,${this.y(site)}H${end}`).join("");
    element("path", { class: "base", d: bases }, this.svg);
    this.drawNumbers(from, to);
    for (const kind of ["waits", "meals", "failed"]) {
      const path = this.titles.map((_, site) => this.rowPath(kind, site, from, to)).join("");
      if (path) element("path", { class: kind, d: path }, this.svg);
    }
    if (this.wide >= ARROWS.from) this.drawMoves(from, to);
    if (this.other) this.drawOther();
    this.placeCursor();
  }

  x(place) {
    return Math.round((place * this.wide - this.left) * 10) / 10;
  }

  drawNumbers(from, to) {
    const step = stepOf(this.wide);
    let ticks = "";
    for (let place = Math.max(0, Math.ceil(from / step) * step); place <= Math.min(to, this.total); place += step) {
      ticks += `M${this.x(place)},${TOP - 4}V${this.height}`;
      // The last number has no space behind its place.
      const x = Math.min(this.x(place) + 2, this.room - DIGIT * String(place).length);
      element("text", { class: "number", x, y: 11 }, this.svg).textContent = place;
    }
    element("path", { class: "tick", d: ticks }, this.svg);
  }

  // The path of the meals or the waits of a site that are in view. Those that would be less than a point apart are one.
  rowPath(kind, site, from, to) {
    const row = this.spans[kind === "failed" ? "meals" : kind][site];
    const half = kind === "waits" ? 2 : this.row * 0.31;
    const [top, bottom] = [this.y(site) - half, this.y(site) + half];
    const parts = [];
    for (let place = firstBehind(row, from); place < row.length && row[place].from <= to; place += 1) {
      if (kind === "failed" && !row[place].hasFailed) continue;
      const inset = kind !== "waits" && this.wide > 4 ? 1 : 0;
      const begin = this.x(row[place].from) + inset;
      const end = Math.max(this.x(row[place].to ?? this.spans.length) - inset, begin + 0.7);
      const last = parts.at(-1);
      if (last && begin - last.end < 0.7) last.end = end;
      else parts.push({ begin, end });
    }
    return parts.map(({ begin, end }) => `M${begin},${top}H${end}V${bottom}H${begin}Z`).join("");
  }

  drawMoves(from, to) {
    const { moves, given: sent } = this.spans;
    let [lines, heads] = ["", ""];
    let count = 0;
    const first = firstBehind(moves, from);
    const drawn = [...moves.slice(first, first + ARROWS.most), ...sent.values()];
    for (const { site, from: given, other, to: taken } of drawn) {
      if (count >= ARROWS.most) break;
      if (given > to) continue;
      count += 1;
      const begin = { x: this.x(given + 0.5), y: this.y(site) };
      const end = { x: this.x(taken === null ? this.spans.length : taken + 0.5), y: this.y(other) };
      lines += `M${begin.x - 2},${begin.y}a2,2 0 1 0 4,0a2,2 0 1 0 -4,0`;
      lines += `M${begin.x},${begin.y}L${end.x},${end.y}`;
      if (taken !== null) heads += headPath(begin, end);
    }
    element("path", { class: "moves", d: lines }, this.svg);
    element("path", { class: "heads", d: heads }, this.svg);
  }

  // The events of the list that was left, from where it was.
  drawOther() {
    const [from, to] = [this.other.at, this.other.list.length].map((it) => between(0, this.x(it), this.room));
    const middle = this.y(this.titles.length);
    const box = `M${from},${middle - 5}H${Math.max(to, from + 4)}V${middle + 5}H${from}Z`;
    element("path", { class: "other", d: box }, this.svg);
  }

  placeCursor() {
    const x = between(-2, this.x(this.at ?? 0), this.room);
    this.cursor.style.transform = `translateX(${x}px)`;
    this.veil.style.transform = `translateX(${Math.max(0, x)}px)`;
  }

  // Shows where in the list the picture is.
  show(at) {
    this.at = at;
    const far = at * this.wide;
    const most = this.width - this.room;
    // Where all events are in view there is nothing to scroll.
    if (most > 0 && (far < this.left || far > this.left + this.room - 20)) {
      this.left = between(0, far - this.room / 2, most);
      this.scroll.scrollLeft = this.left;
      this.drawView();
    } else {
      this.placeCursor();
    }
  }
}

// The head of an arrow that goes from a point to another.
function headPath(begin, end) {
  const angle = Math.atan2(end.y - begin.y, end.x - begin.x);
  const corner = (turn) => {
    const at = angle + turn;
    return `${(end.x - 7 * Math.cos(at)).toFixed(1)},${(end.y - 7 * Math.sin(at)).toFixed(1)}`;
  };
  return `M${corner(0.45)}L${end.x},${end.y}L${corner(-0.45)}Z`;
}
