// The words of the page, each with what it means, and where a text has them. Words of a text have the colours of what
// they name.

// For each entry: its key, what it is called, what it means, and the forms by which a text has it.
const ENTRIES = [
  ["site", "site",
    "Who thinks, grows hungry and eats: a philosopher. In a program it is a worker with a thread. A blue ring is "
    + "round the site that you chose by its name.",
    "sites?"],
  ["neighbours", "neighbours",
    "Two sites that share a fork. A line joins them in the picture. Neighbours never eat at the same time.",
    "neighbours?"],
  ["fork", "fork",
    "What two neighbours share: there is one for each two of them. A site eats only while it has all its "
    + "forks. In a program it is the right to use what is shared.",
    "forks?"],
  ["hungry", "hungry",
    "A hungry site wants to eat. It asks for the forks that it lacks. A site that thinks wants nothing.",
    "hungry"],
  ["meal", "meal",
    "What a site does from the event that begins it to the one that ends it: it eats. The text of a plan "
    + "calls it a job. In the picture 0 of 2 says that of two meals of a site none has ended.",
    "meals?|eats|eating|eat"],
  ["dirty", "dirty",
    "A fork is dirty at the start, and from a meal on until it is sent. Who is asked for a dirty fork gives "
    + "it, unless it eats: then after the meal.",
    "dirty"],
  ["clean", "clean",
    "A fork is washed when it is sent, so it arrives clean. Who has it keeps it until it has eaten.",
    "clean"],
  ["token", "token",
    "The right to ask for a fork: there is one for each fork. With a site that lacks the fork: it has not "
    + "asked yet. On its way: it is a request. Beside the fork: the other one has asked. With the sender of a "
    + "fork that is on its way: the sender may ask for it again.",
    "tokens?"],
  ["request", "request",
    "A token on its way. To ask for a fork, a hungry site sends the token. A request counts once it has "
    + "arrived.",
    "requests?"],
  ["takes", "takes",
    "A site takes what was sent to it: only then has it arrived, and only then does the site know. To send "
    + "and to take are two events.",
    "takes?"],
  ["arrow", "arrow, goes before",
    "An arrow leads from the one of two neighbours that goes first to the other. If the fork is clean, that "
    + "is who has it or gets it. If it is dirty, it is who lacks it. An arrow counts once that one has asked "
    + "and the request has arrived. Until then it is pale, and the other may still eat. Others call it "
    + "precedence.",
    "arrows?|goes? first|goes? before|precedence"],
  ["badge", "badge",
    "The number beside a site: how many go before it along the arrows, its neighbours, those before them, "
    + "and so on.",
    "badges?"],
  ["ring", "ring of arrows",
    "Arrows on which one walks from a site to the next and comes back to where one began. The rules never "
    + "make one. Sites that sit in a circle are a ring of sites: that is another thing.",
    "rings?"],
  ["deadlock", "deadlock",
    "Sites that are hungry and wait for one another, so that none of them can ever eat.",
    "deadlock"],
  ["dawdles", "dawdles",
    "A site dawdles while it could do something and does not: it may take long to begin or to end a meal, to "
    + "give a fork or to take a request.",
    "dawdles?"],
  ["event", "event",
    "One step of one site: it grows hungry, asks, gives a fork, takes what was sent, begins or ends a meal, "
    + "says Done or Close, or quits. An event may happen if the rules allow it now.",
    "events?"],
  ["eager", "eager",
    "An eager site takes what was sent to it only if it can do nothing else.",
    "eager"],
  ["polite", "polite",
    "A polite site takes what was sent to it also before each meal.",
    "polite"],
  ["done", "Done, Close",
    "Two letters at the end. Done (D) says: I shall ask for this fork no more. Close (C) says: I shall send "
    + "nothing more. A site whose meals have ended sends them, so that threads know when to stop.",
    ""],
  ["quits", "fails, quits",
    "A plan can say that a job fails. A site of which the plan says that it resigns quits then: it drops the "
    + "meals that are left.",
    ""],
  ["plan", "plan",
    "Which sites there are, how many meals each has, and which are neighbours.",
    "plans?"],
  ["edge", "edge",
    "Two neighbours and what is between them: their fork, its token, and what they send each other. In the picture it "
    + "is a line.",
    "edges?"],
  ["thread", "thread",
    "A part of a program that runs at the same time as the others. Each site has one, which does what the rules allow.",
    "threads?"],
  ["log", "log of a fork",
    "What a fork has seen, in turn: e#1 is meal 1 of e, and to d is its way to d.",
    ""],
  ["bound", "at most",
    "No run of this plan has more events than this number, whatever happens next.",
    ""],
  ["seed", "seed, choices",
    "The random steps come from the seed: with the same seed the same events happen. The choices are the "
    + "numbers of the events that happened, in turn.",
    ""],
  ["step", "Step, First, Random, Play",
    "Step does the next event: that of the list or the lesson, or else one of those that may happen, the "
    + "first or a random one, as Step takes says. First and Random pick one whatever follows. Play steps on by "
    + "itself.",
    ""],
  ["back", "Back, Undo, Reset",
    "Back goes one event back, and Reset to the start: the events stay in the list. Undo takes back your "
    + "last choice, and what it replaced is there again.",
    ""],
];
export const WORDS = ENTRIES.map(([key, title, text, forms]) => ({ key, title, text, forms }));

// The words that have the colour of their mark.
const COLOURS = { dirty: "dirty", clean: "clean", token: "token", hungry: "hungry", meal: "eating", arrow: "arrow" };
// Of the forms of a meal only these have its colour.
const EATS = /^(eats|eating)$/i;
const FORMS = WORDS.filter(({ forms }) => forms);
const PATTERN = new RegExp(`\\*([^*]+)\\*|\\b(?:${FORMS.map(({ forms }) => `(${forms})`).join("|")})\\b`, "gi");

function colourOf(key, text) {
  if (key === "meal" && !EATS.test(text)) return "";
  return COLOURS[key] ?? "";
}

// The parts of a text: each has its text, and if it is a word of the glossary its key, its colour and whether it is the
// first of its kind. What is between stars is stressed.
export function partsOf(text) {
  const parts = [];
  const seen = new Set();
  let end = 0;
  for (const found of text.matchAll(PATTERN)) {
    if (found.index > end) parts.push({ text: text.slice(end, found.index) });
    end = found.index + found[0].length;
    if (found[1] !== undefined) {
      parts.push({ text: found[1], colour: "stressed" });
      continue;
    }
    const { key } = FORMS[found.slice(2).findIndex((it) => it !== undefined)];
    parts.push({ text: found[0], key, colour: colourOf(key, found[0]), isFirst: !seen.has(key) });
    seen.add(key);
  }
  if (end < text.length) parts.push({ text: text.slice(end) });
  return parts;
}

// The entry of a line of the legend, by its words.
export function keyOf(words) {
  const names = {
    thinking: "hungry", eating: "meal", "dirty fork": "dirty", "clean fork": "clean", "on its way": "takes",
    "letter Done": "done", "letter Close": "done", "how many go before": "badge",
    "0 of 2: meals that ended": "meal", "changed last": "event",
    "goes before": "arrow", "goes before, once it asks": "arrow",
    "goes before, and gives nothing": "arrow", "closed edge": "done", quit: "quits",
  };
  return names[words] ?? (WORDS.some(({ key }) => key === words) ? words : "site");
}
