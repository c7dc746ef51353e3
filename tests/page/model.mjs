// The model of docs/MODEL.md, written from that page alone: the sites with what they have put and taken at each edge,
// and what of it is counted. It shares no code with the page, so that what the page says can be held against it.

const FORK = "fork";
const REQUEST = "request";

export class Model {
  // The start of a plan: names, numbers of jobs, whether sites resign, and the two sites of each edge, the lower first.
  // `acts` has what each job of a site does, if the plan says it: whether it `fails`, and what it has the value of each
  // edge be, which it adds to or sets.
  constructor(sites, edges) {
    this.edges = edges.map(({ ends }) => ends);
    this.sites = sites.map(({ name, jobs, resigns, acts = [] }) => (
      { name, jobs, resigns, acts, phase: "thinking", begun: 0, failed: [], mustQuit: false, hasQuit: false }
    ));
    this.values = edges.map(({ value }) => value ?? null);
    // The log of each fork: the meals of its ends, and its ways from one end to the other.
    this.logs = edges.map(() => []);
    // For each edge and end: the letters that this end has put there, those that it has taken, and whether the log of
    // the fork in hand is empty or ends in a meal.
    this.places = this.edges.map(() => [0, 1].map(() => ({ put: [], taken: [], usedSince: true })));
  }

  endOf(edge, site) {
    return this.edges[edge].indexOf(site);
  }

  otherOf(edge, site) {
    return this.edges[edge][1 - this.endOf(edge, site)];
  }

  edgesOf(site) {
    return this.edges.flatMap((ends, edge) => (ends.includes(site) ? [edge] : []));
  }

  placeOf(edge, site) {
    return this.places[edge][this.endOf(edge, site)];
  }

  count(list, letter) {
    return list.filter((it) => it === letter).length;
  }

  // How many letters of a kind a site has more than it has put, with what it began with.
  held(edge, site, letter, first) {
    const { put, taken } = this.placeOf(edge, site);
    const begins = this.endOf(edge, site) === first ? 1 : 0;
    return begins + this.count(taken, letter) - this.count(put, letter);
  }

  hasFork(edge, site) {
    return this.held(edge, site, FORK, 0) === 1;
  }

  hasToken(edge, site) {
    return this.held(edge, site, REQUEST, 1) === 1;
  }

  // The letters on their way to a site: those that the other end has put and this one has not taken.
  onWay(edge, site) {
    const other = this.placeOf(edge, this.otherOf(edge, site));
    return other.put.slice(this.placeOf(edge, site).taken.length);
  }

  // A fork is dirty if nothing was written into its log yet, or a meal last. `usedSince` says so of the fork in hand.
  isDirty(edge, site) {
    return this.hasFork(edge, site) && this.placeOf(edge, site).usedSince;
  }

  isClean(edge, site) {
    return this.hasFork(edge, site) && !this.isDirty(edge, site);
  }

  // The end that has precedence: it holds the fork clean, or the fork is on its way to it, or the other holds it dirty.
  firstOf(edge) {
    return this.edges[edge].find((site) => {
      const other = this.otherOf(edge, site);
      return this.isClean(edge, site) || this.onWay(edge, site).includes(FORK) || this.isDirty(edge, other);
    });
  }

  // How many sites go before one: its neighbours with precedence, those before them, and so on.
  before(site, found = new Set()) {
    for (const edge of this.edgesOf(site)) {
      const first = this.firstOf(edge);
      if (first === site || found.has(first)) continue;
      found.add(first);
      this.before(first, found);
    }
    return found;
  }

  jobsLeft(site) {
    const { hasQuit, jobs, begun } = this.sites[site];
    return hasQuit ? 0 : jobs - begun;
  }

  hasPut(edge, site, letter) {
    return this.placeOf(edge, site).put.includes(letter);
  }

  hasTaken(edge, site, letter) {
    return this.placeOf(edge, site).taken.includes(letter);
  }

  // Whether a step of a site may happen, by the table of steps.
  may(kind, site, edge = null) {
    const { phase, mustQuit, hasQuit } = this.sites[site];
    const [fork, token] = edge === null ? [] : [this.hasFork(edge, site), this.hasToken(edge, site)];
    const isClosed = edge !== null && this.hasPut(edge, site, "close");
    const steps = {
      hungry: () => phase === "thinking" && this.jobsLeft(site) > 0 && !mustQuit && !hasQuit,
      ask: () => phase === "hungry" && token && !fork && !isClosed,
      give: () => phase !== "eating" && fork && token && this.isDirty(edge, site) && !isClosed,
      begin: () => phase === "hungry" && this.edgesOf(site).every((it) => this.isReady(it, site)),
      end: () => phase === "eating",
      quit: () => phase === "thinking" && mustQuit,
      done: () => phase === "thinking" && this.jobsLeft(site) === 0 && !this.hasPut(edge, site, "done") && !isClosed,
      close: () => this.hasPut(edge, site, "done") && this.hasTaken(edge, site, "done") && !isClosed,
      take: () => this.onWay(edge, site).length > 0,
    };
    return steps[kind]();
  }

  // Whether a fork keeps no hungry site from a meal.
  isReady(edge, site) {
    return this.isClean(edge, site) || (this.hasFork(edge, site) && !this.hasToken(edge, site));
  }

  // A meal of a site, of which the log of this fork and the value of its edge know.
  eatsWith(edge, site) {
    const { name, begun, acts } = this.sites[site];
    this.placeOf(edge, site).usedSince = true;
    this.logs[edge].push(`${name}#${begun}`);
    const { add = 0, set } = acts[begun - 1] ?? {};
    if (this.values[edge] !== null) this.values[edge] = set ?? this.values[edge] + add;
  }

  // The most events of a plan: three for each job, eight for each edge, and four on each edge for each job of its ends.
  bound() {
    const jobs = (sites) => sites.reduce((sum, it) => sum + this.sites[it].jobs, 0);
    const ofEdges = this.edges.reduce((sum, ends) => sum + 8 + 4 * jobs(ends), 0);
    return 3 * jobs([...this.sites.keys()]) + ofEdges;
  }

  // Does an event. Whether a meal failed is the plan's.
  does({ kind, site, edge, failed }) {
    const it = this.sites[site];
    const put = (letter) => this.placeOf(edge, site).put.push(letter);
    const steps = {
      hungry: () => { it.phase = "hungry"; },
      ask: () => put(REQUEST),
      give: () => {
        put(FORK);
        this.logs[edge].push(`to ${this.sites[this.otherOf(edge, site)].name}`);
      },
      begin: () => {
        Object.assign(it, { phase: "eating", begun: it.begun + 1 });
        for (const own of this.edgesOf(site)) this.eatsWith(own, site);
      },
      end: () => {
        it.phase = "thinking";
        if (failed) it.failed.push(it.begun);
        it.mustQuit = failed === true && it.resigns === true && this.jobsLeft(site) > 0;
      },
      quit: () => Object.assign(it, { mustQuit: false, hasQuit: true }),
      done: () => put("done"),
      close: () => put("close"),
      take: () => {
        const [letter] = this.onWay(edge, site);
        this.placeOf(edge, site).taken.push(letter);
        if (letter === FORK) this.placeOf(edge, site).usedSince = false;
      },
    };
    steps[kind]();
  }
}
