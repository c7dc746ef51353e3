// What the sentences of the page say, each as a question to the model of docs/MODEL.md.
import assert from "node:assert/strict";

const NAME = "([\\w-]+)";
const NAMES = "((?:[\\w-]+, )*[\\w-]+(?: and [\\w-]+)?)";

// What each sentence says, as a question to the model. `it` is the site that it is about, `n` the neighbour that it
// names, and `e` their edge.
export const TRUE = {
  // Why an event is not enabled.
  "no letter is on its way to it": (m, it, e) => m.onWay(e, it).length === 0,
  "it has closed the edge": (m, it, e) => m.hasPut(e, it, "close"),
  "it does not hold the fork": (m, it, e) => !m.hasFork(e, it),
  [`no request of ${NAME} has arrived that is still open`]: (m, it, e) => m.hasFork(e, it) && !m.hasToken(e, it),
  "it eats with it, and gives it after the meal": (m, it, e) => {
    return m.sites[it].phase === "eating" && m.hasFork(e, it) && m.hasToken(e, it);
  },
  "the fork is clean: a clean fork is kept until its holder has eaten \\(release rule\\)": (m, it, e) => {
    return m.isClean(e, it);
  },
  "it holds the fork already": (m, it, e) => m.hasFork(e, it),
  "the token is not here: it has asked already": (m, it, e) => {
    return !m.hasToken(e, it) && !m.hasFork(e, it) && m.hasPut(e, it, "request");
  },
  "it is not hungry: only a hungry site asks \\(request rule\\)": (m, it) => m.sites[it].phase !== "hungry",
  "it has said so already": (m, it, e) => m.hasPut(e, it, "done"),
  "it has meals left": (m, it) => m.jobsLeft(it) > 0,
  "it eats its last meal": (m, it) => m.sites[it].phase === "eating" && m.jobsLeft(it) === 0,
  "it has closed already": (m, it, e) => m.hasPut(e, it, "close"),
  "it has not said done": (m, it, e) => !m.hasPut(e, it, "done"),
  [`${NAME} is not done, as far as it knows`]: (m, it, e) => !m.hasTaken(e, it, "done"),
  "it does not eat": (m, it) => m.sites[it].phase !== "eating",
  "it is not hungry": (m, it) => m.sites[it].phase !== "hungry",
  "it eats already": (m, it) => m.sites[it].phase === "eating",
  "it has no meal left": (m, it) => m.jobsLeft(it) === 0,
  "the plan lets it go on after a failed meal": (m, it) => !m.sites[it].resigns,
  "no meal of it has failed while others were left": (m, it) => !m.sites[it].mustQuit && !m.sites[it].hasQuit,
  "it eats": (m, it) => m.sites[it].phase === "eating",
  "it has quit already": (m, it) => m.sites[it].hasQuit,
  "it is hungry already": (m, it) => m.sites[it].phase === "hungry",
  "its last meal failed, so it has to quit": (m, it) => m.sites[it].mustQuit,
  "it has quit": (m, it) => m.sites[it].hasQuit,
};

// What a hungry site waits for: each name is asked about by itself.
export const WAITS_TRUE = {
  [`it may ask ${NAMES}, and has not done so yet`]: (m, it, e) => m.hasToken(e, it) && !m.hasFork(e, it),
  [`its requests? to ${NAMES} (?:is|are) on (?:its|their) way`]: (m, it, e, n) => m.onWay(e, n).includes("request"),
  [`${NAMES} (?:was|were) asked, and (?:has|have) to give up the dirty fork`]: (m, it, e, n) => {
    return m.isDirty(e, n) && m.hasToken(e, n) && m.sites[n].phase !== "eating";
  },
  [`${NAMES} eats? with the fork, and gives? it after the meal`]: (m, it, e, n) => {
    return m.hasFork(e, n) && m.hasToken(e, n) && m.sites[n].phase === "eating";
  },
  [`${NAMES} keeps? the clean forks? until (?:it has|they have) eaten`]: (m, it, e, n) => {
    return m.isClean(e, n) && m.hasToken(e, n) && m.sites[n].phase === "hungry";
  },
  [`the forks? from ${NAMES} (?:is|are) on (?:its|their) way`]: (m, it, e) => m.onWay(e, it).includes("fork"),
  [`it has to give the dirty forks? to ${NAMES} first`]: (m, it, e) => m.isDirty(e, it) && m.hasToken(e, it),
};

export const ROLES_TRUE = {
  "has the fork": (m, it, e) => m.hasFork(e, it) && !m.hasToken(e, it),
  "has the fork, and was asked for it": (m, it, e) => m.hasFork(e, it) && m.hasToken(e, it),
  "has the token": (m, it, e) => !m.hasFork(e, it) && m.hasToken(e, it),
  "has asked for the fork": (m, it, e) => !m.hasFork(e, it) && !m.hasToken(e, it) && m.hasPut(e, it, "request"),
};

// Each table with its forms as they are looked for.
const FORMS = new Map([TRUE, WAITS_TRUE, ROLES_TRUE].map((table) => {
  return [table, Object.entries(table).map(([form, isTrue]) => [new RegExp(`^${form}$`), isTrue])];
}));

// The names that a sentence has, and the question that it stands for.
export function read(table, sentence) {
  for (const [form, isTrue] of FORMS.get(table)) {
    const found = form.exec(sentence);
    if (found) return { isTrue, names: (found[1] ?? "").split(/, | and /).filter(Boolean) };
  }
  return assert.fail(`no question for: ${sentence}`);
}

export const numberOf = (m, name) => m.sites.findIndex((it) => it.name === name);
export const edgeTo = (m, it, n) => {
  return m.edges.findIndex((ends) => it !== n && ends.includes(it) && ends.includes(n));
};
