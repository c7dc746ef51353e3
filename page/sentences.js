// The codes of the program in sentences: what a hungry site waits for, and why an event is not enabled.

// What a hungry site waits for, with the names of the neighbours, and how one says a word of them.
const WAITS = {
  not_asked: (it) => `it may ask ${it}, and has not done so yet`,
  request_sent: (it, of) => `its ${of("request")} to ${it} ${of("is", "are")} on ${of("its", "their")} way`,
  may_give: (it, of) => `${it} ${of("was", "were")} asked, and ${of("has", "have")} to give up the dirty fork`,
  eats: (it, of) => `${it} ${of("eats", "eat")} with the fork, and ${of("gives", "give")} it after the meal`,
  keeps_clean: (it, of) =>
    `${it} ${of("keeps", "keep")} the clean ${of("fork")} until ${of("it has", "they have")} eaten`,
  fork_sent: (it, of) => `the ${of("fork")} from ${it} ${of("is", "are")} on ${of("its", "their")} way`,
  owes: (it, of) => `it has to give the dirty ${of("fork")} to ${it} first`,
};

const WHY_NOT = {
  take: { no_letter: () => "no letter is on its way to it" },
  give: {
    closed: () => "it has closed the edge",
    no_fork: () => "it does not hold the fork",
    not_asked: (it) => `no request of ${it} has arrived that is still open`,
    eating: () => "it eats with it, and gives it after the meal",
    clean: () => "the fork is clean: a clean fork is kept until its holder has eaten (release rule)",
  },
  ask: {
    closed: () => "it has closed the edge",
    has_fork: () => "it holds the fork already",
    asked: () => "the token is not here: it has asked already",
    not_hungry: () => "it is not hungry: only a hungry site asks (request rule)",
  },
  done: {
    said: () => "it has said so already",
    jobs_left: () => "it has meals left",
    eating: () => "it eats its last meal",
  },
  close: {
    closed: () => "it has closed already",
    not_said: () => "it has not said done",
    not_heard: (it) => `${it} is not done, as far as it knows`,
  },
  end: { not_eating: () => "it does not eat" },
  begin: { not_hungry: () => "it is not hungry", eating: () => "it eats already" },
  quit: {
    never_resigns: () => "the plan lets it go on after a failed meal",
    no_fault: () => "no meal of it has failed while others were left",
    eating: () => "it eats",
    has_quit: () => "it has quit already",
  },
  hungry: {
    hungry: () => "it is hungry already",
    eating: () => "it eats",
    must_quit: () => "its last meal failed, so it has to quit",
    has_quit: () => "it has quit",
    no_jobs: () => "it has no meal left",
  },
};

// An event in words, whether it is enabled or not.
const EVENTS = {
  take: (site, it) => `${site} takes a letter of ${it}`,
  give: (site, it) => `${site} gives ${it} their fork`,
  ask: (site, it) => `${site} asks ${it} for their fork`,
  done: (site, it) => `${site} says done to ${it}`,
  close: (site, it) => `${site} closes to ${it}`,
  end: (site) => `${site} ends a meal`,
  begin: (site, it, next) => `${site} begins ${next ? `meal ${next}` : "another meal"}`,
  quit: (site) => `${site} quits`,
  hungry: (site) => `${site} grows hungry`,
};

// An event that is not enabled, in words. Only a site with a meal left has a next one.
function wordsOf(kind, { name, eaten, left }, neighbour = "") {
  return EVENTS[kind](name, neighbour, left > 0 ? eaten + 1 : 0);
}

// What is said of an end of an edge, by what it has there.
const ROLES = {
  owner: "has the fork",
  asked: "has the fork, and was asked for it",
  rester: "has the token",
  waiter: "has asked for the fork",
};

export function roleText(role) {
  return ROLES[role] ?? role ?? "";
}

// The rule of an event, with the page's word for a job. A request that is on its way keeps nobody from a meal, though
// its sender has asked.
export function ruleOf({ rule }) {
  return rule.replace(/\bjobs\b/g, "meals").replace("or not asked for", "or with no request taken");
}

// An enabled event in words. The program says of a meal that it failed, also where it is still to end.
export function wordsAhead({ words }) {
  return words.replace(/, which failed$/, ", which fails");
}

export function otherEnd(edge, site) {
  return edge.ends[0] === site ? edge.ends[1] : edge.ends[0];
}

// Names as one lists them: a, b and c.
function listed(names) {
  return names.length < 2 ? names.join("") : `${names.slice(0, -1).join(", ")} and ${names.at(-1)}`;
}

// What keeps a hungry site from eating, a sentence for each kind of wait.
export function waitsOf(state, site) {
  const names = new Map();
  for (const { from, why } of state.sites[site].waits ?? []) {
    names.set(why, [...(names.get(why) ?? []), state.sites[from].name]);
  }
  return [...names].map(([why, those]) => {
    const of = (one, many = `${one}s`) => (those.length > 1 ? many : one);
    return (WAITS[why] ?? (() => why))(listed(those), of);
  });
}

function reason(kind, code, neighbour) {
  return (WHY_NOT[kind]?.[code] ?? (() => code))(neighbour);
}

// Why an event that is about no edge is not enabled. A site without meals can't be hungry.
function ownReason(kind, code, { left, quit }) {
  if (kind === "begin" && code === "not_hungry" && left === 0) return quit ? "it has quit" : "it has no meal left";
  return reason(kind, code, "");
}

// Why events of a site are not enabled: its own, and then those of each of its edges. Each has its kind, its edge, its
// words and its reason.
export function whyNot(state, site) {
  const { why_not: own } = state.sites[site];
  const found = [];
  for (const [kind, code] of Object.entries(own ?? {})) {
    if (code === null) continue;
    const why = code === "waits" ? waitsOf(state, site).join("; ") : ownReason(kind, code, state.sites[site]);
    found.push({ kind, edge: null, code, words: wordsOf(kind, state.sites[site]), why });
  }
  state.edges.forEach((edge, number) => {
    if (!edge.ends.includes(site) || !edge.why_not) return;
    const neighbour = state.sites[otherEnd(edge, site)].name;
    for (const [kind, code] of Object.entries(edge.why_not[edge.ends.indexOf(site)])) {
      if (code === null) continue;
      const words = wordsOf(kind, state.sites[site], neighbour);
      found.push({ kind, edge: number, code, words, why: reason(kind, code, neighbour) });
    }
  });
  return found;
}
