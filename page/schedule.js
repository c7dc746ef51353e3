// A plan and the choices on it: which events were done, which may follow, and the state after each of them, as the
// program tells it.

import { FAILED, KINDS, TAKEN } from "./columns.js";
import { between } from "./marks.js";

// How many states are kept, the least and the most, and of how many letters in all.
const KEPT = { least: 40, most: 300, letters: 30e6 };
// How many states before the one that is wanted are asked for with it, of how many letters, and how near the reader may
// come to the first that is kept before those are asked for.
const BEFORE = { states: 20, letters: 1.5e6, margin: 8 };

// A number below `count` for this seed and place, the same each time.
export function drawn(seed, place, count) {
  let mixed = (seed ^ Math.imul(place + 1, 0x9e3779b1)) >>> 0;
  for (const factor of [0x85ebca6b, 0xc2b2ae35]) {
    mixed = Math.imul(mixed ^ (mixed >>> 15), factor) >>> 0;
  }
  return ((mixed ^ (mixed >>> 16)) >>> 0) % count;
}

function letterOf(event) {
  if (event.kind === "take") return TAKEN[event.letter];
  return event.kind === "end" && event.failed ? FAILED : KINDS[event.kind];
}

// The events of a list in columns, so that many take little memory.
class Events {
  constructor({ sites, edges, kinds } = { sites: [], edges: [], kinds: "" }) {
    Object.assign(this, { sites, edges, kinds: [...kinds] });
  }

  get length() {
    return this.kinds.length;
  }

  // The same up to `count`, and then this event.
  with(count, event) {
    for (const column of [this.sites, this.edges, this.kinds]) column.length = count;
    this.sites.push(event.site);
    this.edges.push(event.edge);
    this.kinds.push(letterOf(event));
  }
}

export class Schedule {
  constructor(program, path, plan) {
    Object.assign(this, { program, path, plan });
    // The choices, of which so many are done. A list that was handed out is never changed.
    this.list = new Uint32Array(0);
    this.at = 0;
    this.state = null;
    this.states = new Map();
    this.events = new Events();
    // Counts the changes of the list, so that who draws the events knows whether they are others.
    this.version = 0;
    // Where the list was cut off by its last change.
    this.cut = 0;
    this.isOfThreads = false;
    // From which place of the list on the reader picked all events.
    this.own = 0;
    // How many events of the list the reader has seen.
    this.seen = 0;
    // How many of the choices that it was opened with were left out, and where that is said.
    this.left = { count: 0, at: 0 };
    // About how many letters a state has.
    this.letters = BEFORE.letters;
    // What is asked for while the reader looks at a state.
    this.pending = null;
  }

  // What differs between two states of a schedule.
  get key() {
    return `${this.version} ${this.at}`;
  }

  // Has a list of choices, of which `at` are done, all if it is null. Those that name no event are left out.
  async open(list, at) {
    const events = list.length ? await this.program.events(this.plan, list) : null;
    this.list = Uint32Array.from(events?.done ?? []);
    this.events = new Events(events ?? undefined);
    this.states.clear();
    this.version += 1;
    this.cut = 0;
    this.seen = 0;
    this.own = this.list.length;
    await this.go(between(0, at ?? Math.min(list.length, this.list.length), this.list.length));
    this.left = { count: Math.max(0, list.length - this.list.length), at: this.at };
  }

  // Asks for the states after so many choices, and keeps them, if the list is still the same by then.
  async fetch(places) {
    const { list } = this;
    const states = await this.program.states(this.plan, list.slice(0, places.at(-1)), places);
    if (list !== this.list) return;
    this.letters = JSON.stringify(states[0]).length;
    states.forEach((state, turn) => this.keep(places[turn], state));
  }

  keep(count, state) {
    this.states.delete(count);
    this.states.set(count, state);
    const most = between(KEPT.least, KEPT.letters / this.letters, KEPT.most);
    if (this.states.size > most) this.states.delete(this.states.keys().next().value);
  }

  // Goes to where so many choices are done. A step back asks for the states before that one too, some of them
  // meanwhile: the rules only go on, and a place behind them is reached from the start.
  async go(count) {
    const isBack = count === this.at - 1;
    if (!this.states.has(count)) await this.pending;
    if (!this.states.has(count)) await this.fetch(isBack ? this.placesBefore(count) : [count]);
    this.at = count;
    this.seen = Math.max(this.seen, count);
    this.state = this.states.get(count);
    if (isBack) this.askBefore();
  }

  // This place, and some of those before it whose states are not kept.
  placesBefore(count) {
    const first = count - between(0, Math.floor(BEFORE.letters / this.letters), Math.min(BEFORE.states, count));
    const places = Array.from({ length: count - first + 1 }, (_, turn) => first + turn);
    return places.filter((place) => place === count || !this.states.has(place));
  }

  // Asks for what is before while the reader looks, if not enough of it is kept.
  askBefore() {
    let place = this.at - 1;
    while (this.states.has(place)) place -= 1;
    if (this.pending || place < 0 || this.at - place > BEFORE.margin) return;
    // A fault is reported when the state is asked for again.
    this.pending = this.fetch(this.placesBefore(place)).catch(() => {}).finally(() => {
      this.pending = null;
    });
  }

  // Does the enabled event with this number, which the reader picked or not. If another was to follow, all that was to
  // follow is forgotten.
  async choose(number, isPicked = true) {
    if (this.at < this.list.length && this.list[this.at] === number) {
      await this.go(this.at + 1);
      return;
    }
    const list = new Uint32Array(this.at + 1);
    list.set(this.list.subarray(0, this.at));
    list[this.at] = number;
    const [state] = await this.program.states(this.plan, list, [list.length]);
    for (const count of [...this.states.keys()]) if (count > this.at) this.states.delete(count);
    this.events.with(this.at, this.state.enabled[number]);
    this.cut = this.at;
    this.own = isPicked ? Math.min(this.own, this.at) : list.length;
    this.list = list;
    this.at = list.length;
    this.seen = list.length;
    this.state = state;
    this.isOfThreads = false;
    this.version += 1;
    this.keep(this.at, state);
  }

  // The number of the event that follows: that of the list, or else the first or a random one. Null if none is enabled.
  next(by, seed) {
    if (this.at < this.list.length) return this.list[this.at];
    const count = this.state.enabled.length;
    if (count === 0) return null;
    return by === "random" ? drawn(seed, this.at, count) : 0;
  }
}
