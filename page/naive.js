// What happens without the rules: plain forks, which a hungry site takes one by one and holds until it has eaten. This
// is no work of the proved program: the page computes it by itself, to show the deadlock beside the real thing.

import { neighboursOf } from "./places.js";
import { otherEnd } from "./sentences.js";

// The sites of a ring in the graph, in turn, or null if there is none.
function ringOf(count, edges) {
  const near = neighboursOf(count, edges);
  const before = new Map();
  const path = [];
  const search = (site, from) => {
    before.set(site, from);
    path.push(site);
    for (const other of near[site]) {
      if (other === from) continue;
      if (path.includes(other)) return path.slice(path.indexOf(other));
      const found = before.has(other) ? null : search(other, site);
      if (found) return found;
    }
    path.pop();
    return null;
  };
  for (let site = 0; site < count; site += 1) {
    const found = before.has(site) ? null : search(site, null);
    if (found) return found;
  }
  return null;
}

export class NaiveTable {
  constructor({ sites, edges }) {
    Object.assign(this, { names: sites.map(({ name }) => name), jobs: sites.map((site) => site.jobs), edges });
    this.ring = ringOf(sites.length, edges);
    // In a ring each site takes the fork towards the next one first, which is the unlucky order.
    this.order = sites.map((_, site) => {
      const own = [...edges.keys()].filter((edge) => edges[edge].ends.includes(site));
      const next = this.ring?.includes(site) ? this.ring[(this.ring.indexOf(site) + 1) % this.ring.length] : null;
      return own.sort((one, other) => edges[other].ends.includes(next) - edges[one].ends.includes(next) || one - other);
    });
    this.turns = this.ring ?? sites.map((_, site) => site);
    this.reset();
  }

  reset() {
    this.phases = this.names.map(() => "thinking");
    this.eaten = this.names.map(() => 0);
    this.holders = this.edges.map(() => null);
    this.turn = 0;
    this.events = 0;
    this.words = "The start: all forks are on the table";
  }

  wanted(site) {
    return this.order[site].find((edge) => this.holders[edge] !== site);
  }

  // Does what the site can do, and returns it in words, or null if it can do nothing.
  act(site) {
    const name = this.names[site];
    if (this.phases[site] === "thinking") {
      if (this.eaten[site] >= this.jobs[site]) return null;
      this.phases[site] = "hungry";
      return `${name} grows hungry`;
    }
    if (this.phases[site] === "eating") {
      this.phases[site] = "thinking";
      for (const edge of this.order[site]) this.holders[edge] = null;
      return `${name} ends its meal, and puts its forks back`;
    }
    const edge = this.wanted(site);
    if (edge === undefined) {
      this.phases[site] = "eating";
      this.eaten[site] += 1;
      return `${name} begins meal ${this.eaten[site]}`;
    }
    if (this.holders[edge] !== null) return null;
    this.holders[edge] = site;
    return `${name} picks up the fork between it and ${this.names[otherEnd(this.edges[edge], site)]}`;
  }

  // Does the next event, one site after the other. Returns whether there was one.
  step() {
    for (let tries = 0; tries < this.turns.length; tries += 1) {
      const words = this.act(this.turns[this.turn]);
      this.turn = (this.turn + 1) % this.turns.length;
      if (words === null) continue;
      this.words = words;
      this.events += 1;
      return true;
    }
    return false;
  }

  // Whether a site can do something: one that eats, one that thinks and has a meal left, or one whose fork is free.
  hasNext() {
    return this.turns.some((site) => {
      if (this.phases[site] === "thinking") return this.eaten[site] < this.jobs[site];
      if (this.phases[site] === "eating") return true;
      const edge = this.wanted(site);
      return edge === undefined || this.holders[edge] === null;
    });
  }

  // Goes to where so many events are done, or as many as there are.
  go(count) {
    if (count < this.events) this.reset();
    while (this.events < count && this.step());
    return this;
  }

  // Whom each hungry site waits for: the one that has the fork it wants next.
  waitsFor(site) {
    const edge = this.phases[site] === "hungry" ? this.wanted(site) : undefined;
    return edge === undefined || this.holders[edge] === null ? null : { edge, holder: this.holders[edge] };
  }

  // Whether all sites of the ring wait for one another.
  isCaught() {
    return this.ring !== null && this.ring.every((site) => this.waitsFor(site) !== null);
  }

  said() {
    if (this.isCaught()) {
      // Each holds the fork towards the next one, and waits for the one before it.
      const sites = [this.ring[0], ...this.ring.slice(1).reverse()];
      const holder = (site) => this.names[this.waitsFor(site).holder];
      const waits = sites.map((site, turn) => `${this.names[site]} ${turn ? "" : "waits "}for ${holder(site)}`);
      return `Deadlock: ${waits.join(", ")}. None of them can ever eat.`;
    }
    if (this.ring === null) return `${this.words}. (Without a ring of sites plain forks can't deadlock.)`;
    return this.words;
  }

  // The state, as a picture takes one.
  state() {
    const isCaught = this.isCaught();
    const waits = this.names.map((_, site) => this.waitsFor(site));
    const waiter = (edge) => waits.findIndex((it) => it?.edge === edge);
    return {
      sites: this.names.map((name, site) => (
        { name, phase: this.phases[site], eaten: this.eaten[site], jobs: this.jobs[site], left: 1 }
      )),
      edges: this.edges.map(({ ends }, edge) => ({
        ends,
        fork: this.holders[edge] === null ? { isFree: true } : { at: this.holders[edge] },
        token: null,
        dirty: null,
        // As by the rules, the arrow goes from the end that goes first: from the holder to the one that waits.
        preferred: waiter(edge) < 0 ? null : this.holders[edge],
        isCaught: isCaught && waiter(edge) >= 0,
      })),
      links: this.edges.flatMap(() => [{ letters: [] }, { letters: [] }]),
    };
  }
}
