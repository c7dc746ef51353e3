// What a tap on a thing of the picture does: the enabled event of a site, of a fork or of a token. If there is none,
// the page says why.

import { otherEnd, waitsOf, whyNot } from "./sentences.js";

// The events of a site itself, in the order in which a tap takes them.
const OWN_EVENTS = ["begin", "end", "quit", "hungry", "done", "close"];

const none = (words, why) => ({ event: null, words, why });

// Why a site can do nothing by itself.
function whyNothing(state, site) {
  const { name, phase, left, quit } = state.sites[site];
  if (phase === "hungry") return none(`${name} can't eat yet`, waitsOf(state, site).join("; "));
  if (quit) return none(`${name} has quit`, "it eats no more");
  return none(`${name} has nothing to do`, left === 0 ? "it has eaten all its meals" : `it is ${phase}`);
}

function ofSite(state, site) {
  const own = state.enabled.filter((it) => it.site === site);
  const event = OWN_EVENTS.map((kind) => own.find((it) => it.kind === kind)).find(Boolean);
  return event ? { event } : whyNothing(state, site);
}

// What the words of an event that is not enabled are followed by.
function refused(state, site, edge, kind) {
  const found = whyNot(state, site).find((it) => it.edge === edge && it.kind === kind);
  return none(`not now: ${found.words}`, found.why);
}

// The event that takes what is on its way along an edge, if it is its turn to be taken.
function taken(state, edge, to, letter) {
  const isIt = (it) => it.kind === "take" && it.edge === edge && it.site === to && it.letter === letter;
  const event = state.enabled.find(isIt);
  const names = [to, otherEnd(state.edges[edge], to)].map((site) => state.sites[site].name);
  if (event) return { event };
  return none(`${names[0]} can't take it yet`, `another letter of ${names[1]} is to be taken first`);
}

function ofMark(state, { edge, mark, to: receiver, letter: word }) {
  if (mark === "word") return taken(state, edge, receiver, word);
  const [place, letter, kind] = { fork: ["fork", "fork", "give"], token: ["token", "request", "ask"] }[mark];
  const { at, to } = state.edges[edge][place];
  if (at === undefined) return taken(state, edge, to, letter);
  // A token beside the fork has been sent to ask for it: what can be done is to give the fork.
  const does = mark === "token" && state.edges[edge].fork.at === at ? "give" : kind;
  const event = state.enabled.find((it) => it.kind === does && it.edge === edge && it.site === at);
  return event ? { event } : refused(state, at, edge, does);
}

// The event of a thing as `event`, or null with `words` and `why` that say what can't be done. The thing is `{ site }`,
// or `{ edge, mark }` with the mark "fork" or "token", or a letter on its way with the mark "word", `to` and `letter`.
export function eventOf(state, thing) {
  return thing.site !== undefined ? ofSite(state, thing.site) : ofMark(state, thing);
}
