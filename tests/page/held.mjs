// Holds what was read of the page in random states against the model of docs/MODEL.md, each text of it. It is given
// runs as tests/test_sentences.py reads them, and says which texts are false, and how many there were.
import fs from "node:fs";

import { Model } from "./model.mjs";
import { ROLES_TRUE, TRUE, WAITS_TRUE, edgeTo, numberOf, read } from "./questions.mjs";

// What an event does, by its kind and its letter.
const RULES = {
  hungry: "a site that thinks and has meals left may grow hungry",
  ask: "request rule: a hungry site that holds the token and not the fork sends the token",
  give: "release rule: a site that does not eat and holds the token gives a dirty fork, clean",
  begin: "a hungry site that holds all its forks, each clean or with no request taken, eats",
  end: "a site that eats ends its meal; its forks stay dirty until they are sent",
  quit: "a site that resigns drops the meals that it has left after one failed",
  done: "a site without meals left says over each edge that it asks no more",
  close: "a site that said done over an edge, and took done there, closes it",
  "take request": "a token that arrives is held",
  "take fork": "a fork that arrives is held, clean",
  "take done": "a neighbour that says done asks no more",
  "take close": "a neighbour that closes sends nothing more",
};
// Which lines of the algorithm an event follows.
const CODE = {
  hungry: ["  when thinking: grow hungry"],
  ask: ["  when hungry, the token here, the fork not:", "    send the token"],
  give: ["  when both here, the fork dirty, not eating:", "    wash the fork; send it; keep the token"],
  begin: [
    "  when hungry, and all forks here,", "  each clean, or its token not here:",
    "    eat; its forks are dirty from now on",
  ],
  end: ["  when it has eaten: think"],
  "take request": ["  when a token arrives: keep it"],
  "take fork": ["  when a fork arrives: keep it; it is clean"],
};
const CHECKS = {
  "neighbours apart": "No two neighbours eat at the same time",
  "one fork": "Each edge has one fork",
  "one token": "Each edge has one token",
  "no ring of arrows": "The order of the sites fits all arrows, so no way along arrows comes back",
  "bounded events": "There are no more events than the bound of the plan",
};
const START = "all forks are dirty; of each two neighbours one has the fork, and the other the token to ask for it";
// More sites or edges than these, and the page shows one with its neighbours.
const MANY = { sites: 16, edges: 40 };

const keyOf = ({ kind, letter }) => (kind === "take" ? `take ${letter}` : kind);
const counted = (count, one, many = `${one}s`) => `${count} ${count === 1 ? one : many}`;

// The model, with what the page says in words of it, and what has happened.
class WordedModel extends Model {
  constructor({ sites, edges }) {
    super(sites.map((it) => ({ ...it, jobs: it.acts.length })), edges);
    Object.assign(this, { done: [], choices: [], phases: [this.sites.map(({ phase }) => phase)], right: 0, asked: 0 });
    this.isCrowded = sites.length > MANY.sites || edges.length > MANY.edges;
  }

  name(site) {
    return this.sites[site].name;
  }

  doesWhat(site) {
    const { phase, hasQuit } = this.sites[site];
    if (hasQuit) return "quit";
    return phase === "thinking" && this.jobsLeft(site) === 0 ? "done" : phase;
  }

  // How many meals have ended, of how many.
  meals(site) {
    const { begun, phase, jobs } = this.sites[site];
    return `${begun - (phase === "eating" ? 1 : 0)} of ${jobs}`;
  }

  // What is at an end, or on its way to one.
  where(has, letter, edge) {
    const at = this.edges[edge].find((site) => has.call(this, edge, site));
    if (at !== undefined) return { at, words: `at ${this.name(at)}` };
    const to = this.edges[edge].find((site) => this.onWay(edge, site).includes(letter));
    return { to, words: `on its way to ${this.name(to)}` };
  }

  fork(edge) {
    const isDirty = this.edges[edge].some((site) => this.isDirty(edge, site));
    return { ...this.where(this.hasFork, "fork", edge), kind: isDirty ? "dirty" : "clean" };
  }

  token(edge) {
    return this.where(this.hasToken, "request", edge);
  }

  role(edge, site) {
    const [fork, token] = [this.hasFork(edge, site), this.hasToken(edge, site)];
    if (fork) return token ? "has the fork, and was asked for it" : "has the fork";
    return token ? "has the token" : "has asked for the fork";
  }

  // Whether the one that goes first can still be passed by the holder of the fork, which has taken no request for it.
  isPale(edge) {
    const { at } = this.fork(edge);
    return at !== undefined && at !== this.firstOf(edge) && this.isReady(edge, at);
  }

  // The events that may happen, by their words.
  enabled() {
    const found = new Map();
    const add = (site, words, kind, edge = null, letter = null) => {
      if (this.may(kind, site, edge)) found.set(`${this.name(site)} ${words}`, { kind, site, edge, letter });
    };
    this.sites.forEach(({ begun, acts }, site) => {
      add(site, "grows hungry", "hungry");
      add(site, `begins meal ${begun + 1}`, "begin");
      add(site, `ends meal ${begun}${acts[begun - 1]?.fails ? ", which fails" : ""}`, "end");
      add(site, "quits", "quit");
      for (const edge of this.edgesOf(site)) {
        const other = this.name(this.otherOf(edge, site));
        const [letter] = this.onWay(edge, site);
        add(site, `asks ${other} for their fork`, "ask", edge, "request");
        add(site, `gives ${other} their fork`, "give", edge, "fork");
        add(site, `says done to ${other}`, "done", edge, "done");
        add(site, `closes to ${other}`, "close", edge, "close");
        const what = ["fork", "request"].includes(letter) ? `the ${letter}` : letter;
        add(site, `takes ${what} of ${other}`, "take", edge, letter);
      }
    });
    return found;
  }

  // Does the event with these words.
  go(words) {
    const event = this.enabled().get(words);
    if (!event) throw new Error(`${words} is not enabled`);
    const failed = / fails$/.test(words);
    this.does({ ...event, failed });
    this.last = { ...event, words: words.replace(/ fails$/, " failed") };
    this.done.push(this.last);
    this.phases.push(this.sites.map(({ phase }) => phase));
  }
}

// Compares, and counts.
export class Held {
  constructor(model) {
    Object.assign(this, { m: model, count: 0, faults: [] });
  }

  // Two values, of which lists and tables are compared by what is in them.
  same(where, said, wanted) {
    const isTable = (it) => typeof it === "object" && it !== null;
    if (!isTable(said) || !isTable(wanted)) {
      this.count += 1;
      if (said !== wanted) this.faults.push(`${where}: ${JSON.stringify(said)}; the model: ${JSON.stringify(wanted)}`);
      return;
    }
    for (const key of new Set([...Object.keys(said), ...Object.keys(wanted)])) {
      this.same(`${where} ${key}`, said[key], wanted[key]);
    }
  }

  // A sentence that is a question to the model.
  asked(where, question) {
    this.count += 1;
    try {
      if (!question()) this.faults.push(`${where}: false`);
    } catch (fault) {
      this.faults.push(`${where}: ${fault.message}`);
    }
  }

  all(said) {
    const { m } = this;
    m.focus = m.isCrowded ? m.hub() : null;
    this.whole(said);
    this.picture(said.picture);
    this.tables(said);
    this.reasons(said.reasons, null, m.shown());
    for (const it of said.each) this.site(it);
    for (const it of said.taps ?? []) this.tap(it);
    for (const it of said.hints ?? []) this.hint(it);
    if ("asked" in said) this.questions(said.asked);
    return this;
  }

  // What is said of the state as a whole.
  whole({ title, last, picture, legend, checks, count, off, enabled, none, many, logs, line, code, beside, timeline }) {
    const { m } = this;
    const [at, bound] = [m.done.length, m.bound()];
    const may = m.enabled();
    const isOver = may.size === 0;
    this.same("title", title, "A plan of your own · Dining philosophers");
    const ends = [
      ...m.sites.filter(({ failed }) => failed.length).map(({ name }) => `; ${name} had a failed meal`),
      ...m.sites.filter(({ hasQuit }) => hasQuit).map(({ name }) => `; ${name} quit`),
    ].join("");
    const rule = isOver ? `the end: no event is enabled any more${ends}` : at === 0 ? START : RULES[keyOf(m.last)];
    this.same("last", last, [at === 0 ? "The start" : m.last.words, rule, rule]);
    this.same("legend", legend, m.legend(picture.sites.some(({ inside }) => inside.length > 1)));
    const marks = Object.entries(CHECKS).map(([words, sentence]) => {
      const sign = m.holds(words) ? "✓" : "✗";
      return [`${sign} ${words}`, `${sentence}: proved of every state, and checked in this one`, "holds"];
    });
    this.same("checks", checks, marks);
    this.same("count", count, [
      isOver ? `event ${at}, the end; at most ${bound}` : `event ${at} of at most ${bound}`,
      Math.max(isOver ? at : bound, 1), at || (isOver ? 1 : 0),
    ]);
    this.same("off", off, {
      reset: at === 0, back: at === 0, step: isOver, play: isOver, first: isOver, random: isOver,
    });
    this.events(enabled, none, many);
    const values = (edge) => (m.values[edge] === null ? "" : ` = ${m.values[edge]}`);
    this.same("logs", logs, [...m.edges.map((those, edge) => {
      const log = m.logs[edge].length ? ` ${m.logs[edge].join(", ")}` : "";
      return `edge ${edge} ${those.map((it) => m.name(it)).join(" ")}:${log}${values(edge)}`;
    }), `events ${at} of ${bound}`]);
    const choices = m.choices.join(",");
    const saved = "Save the text of your plan as plan.toml. ";
    this.same("line", line, [
      `./dine replay${choices && ` --choices ${choices}`} < plan.toml`,
      `${saved}It does these events, and then the first enabled one until there is none.`, choices || "none", "",
    ]);
    const lit = m.last && CODE[keyOf(m.last)];
    this.same("code", code, [lit ?? [], m.codeNote(lit)]);
    const meals = m.sites.reduce((sum, { begun, phase }) => sum + begun - (phase === "eating" ? 1 : 0), 0);
    const ended = `${counted(meals, "meal has", "meals have")} ended`;
    if (beside !== null) this.same("beside", beside, isOver ? `The end: all is done. ${ended}.`
      : `No deadlock: ${counted(may.size, "event")} may happen next. ${ended}.`);
    if (isOver) this.asked("all is done", () => m.sites.every((_, it) => m.jobsLeft(it) === 0));
    this.same("timeline", timeline, {
      name: "The run so far",
      note: at === 0 ? "bar: a meal; ochre line: a wait; arrow: a fork on its way"
        : `${at} of ${counted(at, "event")}: ${m.last.words}`,
      values: [String(at), String(at), `event ${at} of ${at}`],
    });
  }

  // The list of events, each with its number, its words and its rule.
  events(listed, none, many) {
    const { m } = this;
    const shown = m.shown();
    const may = new Map([...m.enabled()].filter(([, { site }]) => shown.includes(site)));
    this.same("events", listed.map(([, words]) => words).sort(), [...may.keys()].sort());
    for (const [, words, rule] of listed) {
      const event = may.get(words);
      this.same(words, rule, event && RULES[keyOf(event)]);
    }
    const numbers = listed.map(([number]) => Number(number));
    this.asked("numbers rise", () => {
      return numbers.every((it, turn) => it < m.enabled().size && it > (numbers[turn - 1] ?? -1));
    });
    const all = m.enabled().size;
    if (all === may.size) this.same("numbers", numbers, numbers.map((_, turn) => turn));
    const left = all ? "none of these sites: turn the focus off to see the others" : "none: nothing is left to do";
    this.same("none", none, may.size ? [] : [left]);
    this.same("many", many, ["May happen next", may.size < all ? `${may.size} of ${all}` : all ? String(all) : ""]);
  }

  picture({ label, sites, edges, letters }) {
    const { m } = this;
    this.same("label", label, m.label());
    const last = m.last ?? {};
    this.same("drawn", sites.map(({ site }) => site).sort((one, other) => one - other), m.shown());
    for (const { site, title, inside, before, looks } of sites) {
      const { name, phase, failed } = m.sites[site];
      const [does, meals, ahead] = [m.doesWhat(site), m.meals(site), m.before(site).size];
      const fails = failed.length ? `, ${failed.length} failed` : "";
      this.same("title", title, `${name}: ${does}, ${meals} meals${fails}; ${ahead} before it`);
      const rows = [does, failed.length ? `${meals}, ${failed.length}✗` : meals];
      this.same(`inside ${name}`, inside, rows.slice(0, inside.length));
      if (before !== null) this.same(`badge ${name}`, before, String(ahead));
      const kinds = [does !== phase && does, failed.length && "failed", last.site === site && "last"].filter(Boolean);
      this.same(`looks ${name}`, looks.split(" ").sort(), [phase, ...kinds].sort());
    }
    const drawn = m.edges.map((_, edge) => edge).filter((edge) => m.focus === null || m.edges[edge].includes(m.focus));
    this.same("edges", edges.length, drawn.length);
    edges.forEach((it, turn) => this.edge(it, drawn[turn]));
    const wanted = drawn.flatMap((edge) => m.edges[edge].flatMap((to) => {
      const words = m.onWay(edge, to).filter((letter) => ["done", "close"].includes(letter));
      return words.map((letter) => `${letter === "done" ? "D" : "C"} ${letter} ${to}`);
    }));
    this.same("letters", [...letters].sort(), wanted.sort());
  }

  edge({ title, label, looks, fork, token, nearFork, nearToken, first }, edge) {
    const { m } = this;
    const [low, high] = m.edges[edge].map((it) => `${m.name(it)} ${m.role(edge, it)}`);
    const value = m.values[edge] === null ? "" : `, value ${m.values[edge]}`;
    this.same("title", title, `edge ${edge}: ${low}, ${high}${value}; ${m.name(m.firstOf(edge))} goes first`);
    this.same("value", label, m.values[edge] === null ? null : `=${m.values[edge]}`);
    const { kind, at } = m.fork(edge);
    const closed = m.edges[edge].filter((it) => m.hasPut(edge, it, "close")).length;
    const isLast = (letter) => m.last?.edge === edge && (letter === undefined || m.last.letter === letter) && "last";
    const kinds = [["", "closing", "closed"][closed], m.isPale(edge) && "idle", isLast()].filter(Boolean);
    this.same(`looks of edge ${edge}`, looks.split(" ").sort(), [kind, ...kinds].sort());
    this.same(`fork of edge ${edge}`, fork, [kind, isLast("fork")].filter(Boolean).join(" "));
    this.same(`token of edge ${edge}`, token, isLast("request") || "");
    this.same(`arrow of edge ${edge}`, first, m.firstOf(edge));
    // What is on its way may be in either half of the line.
    if (at !== undefined) this.same(`fork of edge ${edge} is drawn`, nearFork, at);
    const where = m.token(edge).at;
    if (where !== undefined) this.same(`token of edge ${edge} is drawn`, nearToken, where);
  }

  tables({ sites, edges }) {
    const { m } = this;
    this.same("sites", sites, m.sites.map(({ name, resigns, failed }, site) => {
      const quits = resigns && m.jobsLeft(site) > 0 ? ", quits after a failed meal" : "";
      const fails = failed.length ? `, failed: ${failed.join(", ")}` : "";
      const cells = [name, ` ${m.doesWhat(site)}${quits}`, `${m.meals(site)}${fails}`, String(m.before(site).size)];
      return { cells, isLast: m.last?.site === site };
    }));
    this.same("edges", edges, m.edges.map((those, edge) => {
      const end = (it) => {
        const said = m.hasPut(edge, it, "close") ? ", closed" : m.hasPut(edge, it, "done") ? ", said done" : "";
        return `${m.name(it)} ${m.role(edge, it)}${said}`;
      };
      const { kind, words } = m.fork(edge);
      const first = m.firstOf(edge);
      const goes = `${m.name(first)} before ${m.name(m.otherOf(edge, first))}`;
      const value = m.values[edge] === null ? [] : [String(m.values[edge])];
      const cells = [String(edge), ...those.map(end), `${kind}, ${words}`, m.token(edge).words, goes, ...value];
      return { cells, isLast: m.last?.edge === edge };
    }));
  }

  // What a hungry site waits for: each sentence, and each name in it.
  waits(it, line) {
    const { m } = this;
    const missing = m.edgesOf(it).filter((edge) => !m.isReady(edge, it));
    if (!missing.length) {
      this.same(`${m.name(it)} waits`, line, " has all its forks, and may eat");
      return;
    }
    const named = [];
    for (const sentence of line.replace(/^ waits: /, "").split("; ")) {
      this.asked(`${m.name(it)} waits: ${sentence}`, () => {
        const { isTrue, names } = read(WAITS_TRUE, sentence);
        const those = names.map((name) => edgeTo(m, it, numberOf(m, name)));
        named.push(...those);
        return those.every((edge) => edge >= 0 && isTrue(m, it, edge, m.otherOf(edge, it)));
      });
    }
    this.same(`${m.name(it)} waits for`, named.sort((one, other) => one - other), missing);
  }

  // What the card of reasons says of all sites, or of one.
  reasons({ heading, parts }, site, shown) {
    const { m } = this;
    if (site === null) {
      const hungry = shown.filter((it) => m.sites[it].phase === "hungry");
      const [lines, note] = parts;
      this.same("heading", heading, "Who waits, and for what");
      this.same("note", note, "The name of a site in the table of sites shows all that it holds and may do.");
      if (!hungry.length) this.same("no line", lines, "No site is hungry.");
      else this.same("who waits", [...lines].map(([name]) => name), hungry.map((it) => m.name(it)));
      if (hungry.length) hungry.forEach((it, turn) => this.waits(it, lines[turn]?.[1] ?? ""));
      return;
    }
    const name = m.name(site);
    this.same("heading", heading, `${name}: ${m.doesWhat(site)}, ${m.meals(site)} meals`);
    const [lines, may, events, mayNot, reasons] = parts;
    this.same("headings", [may, mayNot, parts.length], ["May do now", "May not", 5]);
    const wanted = m.holdings(site);
    const at = lines.findIndex(([bold]) => bold === name);
    if (m.sites[site].phase === "hungry") this.waits(site, lines[at]?.[1] ?? "");
    this.same(name, lines.filter((_, turn) => turn !== at), wanted);
    this.own(site, events, reasons);
  }

  // The events of a site: those that it may do, and why not the rest.
  own(site, events, reasons) {
    const { m } = this;
    const may = [...m.enabled()].filter(([, it]) => it.site === site);
    const listed = may.map(([words, it]) => [words, ` ${RULES[keyOf(it)]}`]);
    const sorted = (rows) => [...rows].sort(([one], [other]) => (one < other ? -1 : 1));
    if (listed.length) this.same(`${m.name(site)} may`, sorted(events), sorted(listed));
    else this.same(`${m.name(site)} may`, events, "nothing");
    const found = reasons.map(([words, why]) => this.reason(words, why.replace(/^: /, ""), site));
    const all = ["hungry", "begin", "end", "quit"].filter((kind) => !m.may(kind, site));
    const ofEdges = m.edgesOf(site).flatMap((edge) => ["give", "ask", "done", "close"]
      .filter((kind) => !m.may(kind, site, edge)).map((kind) => `${kind} ${edge}`));
    this.same(`${m.name(site)} may not`, found.sort(), [...all, ...ofEdges].sort());
  }

  // Why an event can't happen. Returns which event it is.
  reason(words, why, site = numberOf(this.m, words.split(" ")[0])) {
    const { m } = this;
    const { kind, edge } = m.eventIn(words);
    const where = `${words}: ${why}`;
    this.asked(words, () => words.startsWith(`${m.name(site)} `) && kind && !m.may(kind, site, edge));
    if (kind === "begin" && m.sites[site].phase === "hungry") {
      this.waits(site, ` waits: ${why}`);
    } else {
      this.asked(where, () => {
        const { isTrue, names } = read(TRUE, why);
        return isTrue(m, site, edge) && names.every((it) => it === m.name(m.otherOf(edge, site)));
      });
    }
    return edge === null ? kind : `${kind} ${edge}`;
  }

  // The site that is selected.
  site({ site, name, isPressed, shown, heading, parts }) {
    const { m } = this;
    m.focus = m.isCrowded ? site : null;
    this.same("selected", [name, isPressed], [m.name(site), "true"]);
    this.same("shown", [...shown].sort((one, other) => one - other), m.shown());
    this.reasons({ heading, parts }, site, m.shown());
    m.focus = m.isCrowded ? m.hub() : null;
  }

  // What is said of a thing that has no event.
  tap({ site, edge, mark, to, letter, said: [words, why] }) {
    const { m } = this;
    const may = [...m.enabled().values()];
    if (site !== undefined) {
      const { name, phase, hasQuit } = m.sites[site];
      this.asked(`${name} has no event of its own`, () => {
        return !may.some((it) => it.site === site && !["ask", "give", "take"].includes(it.kind));
      });
      const left = hasQuit ? "has quit" : "has nothing to do";
      this.same(`tap on ${name}`, words, `${name} ${phase === "hungry" ? "can't eat yet" : left}`);
      if (phase === "hungry") this.waits(site, ` waits: ${why}`);
      else this.same(`tap on ${name}`, why, hasQuit ? "it eats no more" : "it has eaten all its meals");
      const [ended, all] = m.meals(site).split(" of ");
      if (why === "it has eaten all its meals") this.same(`tap on ${name}`, ended, all);
      return;
    }
    const where = mark === "word" ? { to } : m[mark](edge);
    const what = mark === "word" ? letter : { fork: "fork", token: "request" }[mark];
    if (where.at === undefined) {
      const taker = m.name(where.to);
      const giver = m.name(m.otherOf(edge, where.to));
      this.same(`tap on ${mark}`, [words, why], [
        `${taker} can't take it yet`, `another letter of ${giver} is to be taken first`,
      ]);
      this.asked(`${what} is not the first`, () => {
        const [first, ...others] = m.onWay(edge, where.to);
        return first !== what && others.includes(what);
      });
      return;
    }
    this.asked(words, () => words.startsWith("not now: "));
    const event = words.replace(/^not now: /, "");
    this.same(`tap on ${mark} of edge ${edge}`, this.reason(event, why, where.at),
      `${mark === "fork" || m.hasFork(edge, where.at) ? "give" : "ask"} ${edge}`);
  }

  // What the timeline says of a site at an event.
  hint({ site, event, hint }) {
    const { m } = this;
    const phaseAt = (it) => m.phases[it]?.[site];
    const found = /^(\S+) (waits|eats meal (\d+)), events (\d+) to (\d+)(; it failed)?$/.exec(hint);
    const phase = phaseAt(event);
    if (!found) {
      // The event that ends a meal is one of the meal still.
      this.same(`hint at ${event}`, [hint, phase], ["", "thinking"]);
      return;
    }
    const [, name, does, meal, from, to, failed] = found;
    const [begin, end] = [Number(from), Number(to)];
    this.same(`hint: ${hint}`, name, m.name(site));
    this.asked(hint, () => begin <= event && event <= end && end <= m.done.length);
    const kinds = (kind) => m.done.slice(0, begin).filter((it) => it.site === site && it.kind === kind).length;
    const [first, last] = [m.done[begin - 1], m.done[end - 1]];
    const isAll = (kind, to) => m.phases.slice(begin, to + 1).every((it) => it[site] === kind);
    if (does === "waits") {
      const [before, behind] = [phaseAt(begin - 1), phaseAt(end + 1)];
      this.asked(hint, () => isAll("hungry", end) && before === "thinking" && behind !== "hungry");
      return;
    }
    this.asked(hint, () => first.kind === "begin" && first.site === site && kinds("begin") === Number(meal));
    const isEnded = last.kind === "end" && last.site === site;
    this.asked(hint, () => (isEnded || end === m.done.length) && isAll("eating", isEnded ? end - 1 : end));
    this.same(hint, failed !== undefined, isEnded && / failed$/.test(last.words));
  }

  // What is asked, and what is said of the answers.
  questions(asked) {
    const { m } = this;
    const may = m.enabled();
    this.same("asked", asked === null, may.size === 0);
    if (asked === null) return;
    this.same("asked", [asked.name, asked.hidden], ["What may happen next?", true]);
    this.same("answers", asked.answers.length, asked.events.length);
    asked.events.forEach((words, turn) => {
      const said = asked.answers[turn];
      if (may.has(words)) {
        this.same(words, said, `✗ Wrong. It may happen: ${RULES[keyOf(may.get(words))]}`);
        return;
      }
      this.asked(said, () => said.startsWith("✓ Right. It may not happen: "));
      this.reason(words, said.replace("✓ Right. It may not happen: ", ""));
    });
    m.asked += asked.events.length;
    m.right += asked.events.filter((it) => !may.has(it)).length;
    this.same("score", asked.score, `${m.right} of ${m.asked} right so far`);
  }
}

// What the page says of a state in one text, by the model.
Object.assign(WordedModel.prototype, {
  label() {
    if (this.sites.length > MANY.sites) {
      const count = (phase) => this.sites.filter((it) => it.phase === phase).length;
      const counts = ["thinking", "hungry", "eating"].map((phase) => `${count(phase)} ${phase}`);
      return `${this.sites.length} sites: ${counts.join(", ")}`;
    }
    const sites = this.sites.map(({ name }, site) => `${name} ${this.doesWhat(site)}, ${this.meals(site)} meals`);
    const edges = this.edges.map((those, edge) => {
      const { kind, words } = this.fork(edge);
      const names = those.map((it) => this.name(it)).join(" and ");
      const token = this.token(edge).words;
      return `${names}: ${kind} fork ${words}, token ${token}, ${this.name(this.firstOf(edge))} goes first`;
    });
    return [...sites, ...edges].join("; ");
  },

  // The marks that a picture of the state has while no site is chosen, by whether it has space for how many meals of a
  // site have ended.
  legend(hasMeals) {
    const all = this.edges.map((_, edge) => edge);
    const does = this.sites.map((_, site) => this.doesWhat(site));
    const letters = this.edges.flatMap((ends, edge) => ends.flatMap((it) => this.onWay(edge, it)));
    const isClosed = (edge) => this.edges[edge].every((it) => this.hasPut(edge, it, "close"));
    const marks = {
      thinking: does.includes("thinking"), hungry: does.includes("hungry"), eating: does.includes("eating"),
      "dirty fork": all.some((edge) => this.fork(edge).kind === "dirty"),
      "clean fork": all.some((edge) => this.fork(edge).kind === "clean"),
      token: true, "letter Done": letters.includes("done"), "letter Close": letters.includes("close"),
      "on its way": letters.length > 0,
      "goes before": all.some((edge) => !this.isPale(edge)),
      "goes before, once it asks": all.some((edge) => this.isPale(edge)),
      "how many go before": true, "0 of 2: meals that ended": hasMeals, "changed last": this.done.length > 0,
      done: does.includes("done"), quit: does.includes("quit"), "closed edge": all.some(isClosed),
    };
    return Object.keys(marks).filter((it) => marks[it]);
  },

  codeNote(lit) {
    if (!this.last) return "Do an event, and its lines light up.";
    const other = ": this is no line of the algorithm: it is how sites of this program come to an end.";
    return `${this.last.words}${lit ? "" : other}`;
  },

  // Whether a check holds.
  holds(words) {
    const all = this.edges.map((_, edge) => edge);
    const once = (has, letter) => all.every((edge) => {
      const held = this.edges[edge].filter((it) => has.call(this, edge, it)).length;
      const sent = this.edges[edge].flatMap((it) => this.onWay(edge, it)).filter((it) => it === letter).length;
      return held + sent === 1;
    });
    return {
      "neighbours apart": () => this.edges.every((ends) => !ends.every((it) => this.sites[it].phase === "eating")),
      "one fork": () => once(this.hasFork, "fork"),
      "one token": () => once(this.hasToken, "request"),
      "no ring of arrows": () => this.sites.every((_, it) => !this.before(it).has(it)),
      "bounded events": () => this.done.length <= this.bound(),
    }[words]();
  },

  // The site that most edges have, and those that a picture of it shows.
  hub() {
    const counts = this.sites.map((_, it) => this.edgesOf(it).length);
    return counts.indexOf(Math.max(...counts));
  },

  shown() {
    const all = [...this.sites.keys()];
    if (this.focus === null || this.focus === undefined) return all;
    return all.filter((it) => it === this.focus || edgeTo(this, it, this.focus) >= 0);
  },

  // What a site holds, lacks, and before and after whom it goes.
  holdings(site) {
    const [holds, lacks] = [[], []];
    const goes = { after: [], once: [], before: [] };
    for (const edge of this.edgesOf(site)) {
      const name = this.name(this.otherOf(edge, site));
      const { at, to, kind } = this.fork(edge);
      const where = to === undefined ? `at ${name}` : to === site ? "on its way here" : `on its way to ${name}`;
      if (at === site) holds.push(`the fork shared with ${name} (${kind})`);
      else lacks.push(`the fork shared with ${name} (${where})`);
      if (this.hasToken(edge, site)) holds.push(`the token for ${name}`);
      goes[this.firstOf(edge) === site ? "before" : this.isPale(edge) ? "once" : "after"].push(name);
    }
    const parts = [
      goes.after.length && `after ${goes.after.join(", ")}`,
      goes.once.length && `after ${goes.once.join(", ")} once asked`,
      goes.before.length && `before ${goes.before.join(", ")}`,
    ].filter(Boolean);
    return [
      ["Holds: ", holds.join("; ") || "nothing"], ["Lacks: ", lacks.join("; ") || "no fork"],
      ...(parts.length ? [["Goes: ", parts.join("; ")]] : []),
    ];
  },

  // The event that words name, which may not happen.
  eventIn(words) {
    const [name] = words.split(" ");
    const site = numberOf(this, name);
    const { begun } = this.sites[site];
    const next = this.jobsLeft(site) > 0 ? `begins meal ${begun + 1}` : "begins another meal";
    const own = { "grows hungry": "hungry", [next]: "begin", "ends a meal": "end", quits: "quit" };
    const rest = words.slice(name.length + 1);
    if (own[rest]) return { kind: own[rest], edge: null };
    const forms = { ask: /^asks (\S+) for their fork$/, give: /^gives (\S+) their fork$/, done: /^says done to (\S+)$/,
      close: /^closes to (\S+)$/, take: /^takes a letter of (\S+)$/ };
    for (const [kind, form] of Object.entries(forms)) {
      const found = form.exec(rest);
      if (found) return { kind, edge: edgeTo(this, site, numberOf(this, found[1])) };
    }
    return { kind: null, edge: null };
  },
});

// The same model again, so that what is asked of one is not counted twice.
function copyOf(model) {
  return Object.assign(Object.create(WordedModel.prototype), structuredClone({ ...model }));
}

// Of so many texts of a state one is altered.
const SOME = 7;
// What is not altered: what only says which thing is meant, where a mark on its way is drawn, and the events that are
// asked about, since others may be as true.
const NAMING = new Set(["site", "event", "edge", "mark", "to", "letter", "nearFork", "nearToken", "events"]);

// What was read, once for some texts of it with another in their place: a name that is another, or a word more.
function* altered(said, names, path = []) {
  const at = path.reduce((it, key) => it[key], said);
  if (typeof at === "object" && at !== null) {
    for (const key of Object.keys(at)) if (!NAMING.has(key)) yield* altered(said, names, [...path, key]);
    return;
  }
  const [key, ...above] = [...path].reverse();
  const whole = structuredClone(said);
  const parent = above.reverse().reduce((it, step) => it[step], whole);
  const name = typeof at === "string" ? names.find((it) => at.split(/[\s,:;()]+/).includes(it)) : undefined;
  const other = names.find((it) => it !== name);
  if (name) parent[key] = at.replace(new RegExp(`(?<![\\w-])${name}(?![\\w-])`), other);
  else parent[key] = typeof at === "number" ? at + 1 : typeof at === "boolean" ? !at : `${at ?? ""} not`;
  yield { whole, path: path.join(" "), from: at, to: parent[key] };
}

// Whether all that was read is true, and can be read at all.
function isPassed(model, said) {
  try {
    return new Held(model).all(said).faults.length === 0;
  } catch {
    return false;
  }
}

// Holds the states of runs, and in some of them also whether each text that is altered is found.
export function held(runs, isAltered = () => false) {
  const result = { states: 0, texts: 0, faults: [], altered: 0, unfound: [] };
  for (const { plan, states } of runs) {
    const model = new WordedModel(plan);
    for (const { done, said } of states) {
      done.forEach(({ words }) => model.go(words));
      model.choices.push(...done.map(({ number }) => number));
      const before = copyOf(model);
      const { count, faults } = new Held(model).all(said);
      result.states += 1;
      result.texts += count;
      const where = `${plan.name}, after ${model.done.length} events`;
      result.faults.push(...faults.map((it) => `${where}: ${it}`));
      if (!isAltered(result.states) || faults.length) continue;
      let turn = result.states;
      for (const { whole, path, from, to } of altered(said, plan.sites.map(({ name }) => name))) {
        turn += 1;
        if (turn % SOME) continue;
        result.altered += 1;
        if (isPassed(copyOf(before), whole)) result.unfound.push(`${where}: ${path}: ${from}; ${to}`);
      }
    }
  }
  return result;
}

if (process.argv[2] === "-") {
  const every = Number(process.argv[3]);
  process.stdout.write(JSON.stringify(held(JSON.parse(fs.readFileSync(0, "utf8")), (count) => count % every === 0)));
}
