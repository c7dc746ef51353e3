// Reads every text that the page has of a state. tests/test_sentences.py puts it behind tests/page/looks.js, and
// tests/page/held.mjs holds what was read against a model.

const partsOf = (node) => [...node.childNodes].map((it) => it.textContent);
const press = (it) => it.dispatchEvent(new MouseEvent("click", { bubbles: true }));
const isOff = (name) => one(`#${name}`).getAttribute("aria-disabled") === "true";

// Which of these classes an element has.
const classesOf = (it, names) => names.split(" ").filter((name) => it.classList.contains(name)).join(" ");

// The picture: of each site and each edge what is written and drawn there.
function readPicture() {
  const sites = all("#picture .site").map((it) => ({
    site: Number(it.dataset.site),
    title: it.querySelector("title").textContent,
    inside: [...it.querySelectorAll(".small")].map((line) => line.textContent),
    before: it.querySelector(".rank text")?.textContent ?? null,
    looks: classesOf(it, "thinking hungry eating done quit failed last"),
  }));
  const points = all("#picture .site").map(siteAt);
  const marks = { fork: all("#picture .fork"), token: all("#picture .token") };
  const arrows = headings();
  const edges = all("#picture .edge").map((it, turn) => {
    const near = (mark) => {
      const far = points.map((point) => apart(point, markAt(marks[mark][turn])));
      return sites[far.indexOf(Math.min(...far))].site;
    };
    return {
      title: it.querySelector("title").textContent,
      label: it.querySelector("text")?.textContent ?? null,
      looks: classesOf(it, "dirty clean closing closed idle last"),
      fork: classesOf(marks.fork[turn], "dirty clean last"),
      token: classesOf(marks.token[turn], "last"),
      nearFork: near("fork"),
      nearToken: near("token"),
      first: sites[arrows[turn]].site,
    };
  });
  const letters = all("#picture .word").map((it) => `${it.textContent} ${it.dataset.letter} ${it.dataset.to}`);
  return { label: one("#picture").getAttribute("aria-label"), sites, edges, letters };
}

function readTimeline() {
  const slider = one("#timeline-scroll");
  const values = ["max", "now", "text"].map((it) => slider.getAttribute(`aria-value${it}`));
  return { name: text("#timeline-name"), note: text("#timeline-note"), values };
}

// What is said of a site at a place of the timeline, once a pointer is there.
function readHints(count, chance) {
  const slider = one("#timeline-scroll");
  const end = Number(slider.getAttribute("aria-valuemax"));
  if (end === 0) return [];
  const [view, svg] = [one("#timeline-view").getBoundingClientRect(), one("#timeline")];
  const row = (Number(svg.getAttribute("height")) - 22) / count;
  const wide = Math.min(16, (Number(svg.getAttribute("width")) - 14) / end);
  return Array.from({ length: count }, (_, site) => {
    const event = 1 + Math.floor(((chance * (site + 7)) % 1) * end);
    const [clientX, clientY] = [view.left + (event - 0.5) * wide, view.top + 18 + (site + 0.5) * row];
    slider.dispatchEvent(new PointerEvent("pointermove", { clientX, clientY, pointerType: "mouse" }));
    return { site, event, hint: text("#timeline-hint") };
  });
}

// What is said of the sites as a whole, or of the one that is selected: headings, lists and lines, in turn.
function readReasons() {
  const partOf = (it) => (it.matches("ul") ? [...it.children].map(partsOf) : it.textContent);
  return { heading: text("#why-name"), parts: [...one("#why").children].map(partOf) };
}

function readAll() {
  const rows = (where) => all(`${where} tbody tr`).map((row) => ({
    cells: [...row.cells].map((it) => it.textContent), isLast: row.classList.contains("last"),
  }));
  const button = (it) => [...it.querySelectorAll("kbd, .words, small")].map((part) => part.textContent);
  const { max, value: now } = one("#progress");
  return {
    title: document.title,
    last: [text("#last b"), text("#last span"), one("#last span").title],
    picture: readPicture(),
    legend: texts("#legend button"),
    checks: all("#checks li").map((it) => [it.textContent, it.title, it.className]),
    count: [text("#count"), max, now],
    off: Object.fromEntries(["reset", "back", "step", "play", "first", "random"].map((it) => [it, isOff(it)])),
    enabled: all("#enabled button").map(button),
    none: texts("#enabled .none"),
    many: [text("#enabled-name"), text("#many")],
    reasons: readReasons(),
    sites: rows("#sites"),
    edges: rows("#edges"),
    logs: text("#logs").split("\n"),
    line: [text("#line"), text("#line-note"), ...partsOf(one("#choices"))],
    code: [texts("#code-lines .lit"), text("#code-note")],
    beside: one("#real-note").hidden ? null : text("#real-note"),
    timeline: readTimeline(),
  };
}

// All that is said of one site once it is selected, which the one before it is no longer then.
function readSite(site) {
  const button = all("#sites button.name")[site];
  button.click();
  const shown = all("#picture .site").map((it) => Number(it.dataset.site));
  const isPressed = button.getAttribute("aria-pressed");
  return { site, name: button.textContent, isPressed, shown, ...readReasons() };
}

function readEach(sites) {
  const found = sites.map(readSite);
  all("#sites button.name")[sites.at(-1)].click();
  return found;
}

// What is said of things of the picture that have no event, once they are tapped: of each site, and of every third
// mark.
function readTaps(turn) {
  const events = texts("#enabled .words");
  const names = texts("#sites button.name");
  const ends = all("#edges tbody tr").map(({ cells }) => [1, 2].map((it) => cells[it].textContent.split(" ")[0]));
  const has = (form) => events.some((it) => new RegExp(`^${form}$`).test(it));
  const own = (name) => has(`${name} (grows hungry|begins .*|ends .*|quits|says done .*|closes .*)`);
  const [fork, token] = [/gives|takes the fork/, /asks|gives|takes the request/];
  const ofEdge = (edge, form) => events.some((it) => {
    return form.test(it) && ends[edge].every((name) => it.split(" ").includes(name));
  });
  const found = [];
  const tap = (it, thing) => {
    press(it);
    found.push({ ...thing, said: [text("#last b"), text("#last span")] });
  };
  // Where one site and its neighbours are shown, a tap on another one shows that.
  const isFocused = !one("#focus-switch").hidden;
  for (const it of isFocused ? [] : all("#picture .site")) {
    const site = Number(it.dataset.site);
    if (own(names[site])) continue;
    tap(it, { site });
    press(it);
  }
  all("#picture :is(.fork, .token)").filter((_, at) => at % 3 === turn % 3).forEach((it) => {
    const mark = it.matches(".fork") ? "fork" : "token";
    const edge = Number(it.dataset.edge);
    if (!ofEdge(edge, mark === "fork" ? fork : token)) tap(it, { edge, mark });
  });
  all("#picture .word").forEach((it) => {
    const { edge, to, letter } = it.dataset;
    const [from] = ends[edge].filter((name) => name !== names[to]);
    if (has(`${names[to]} takes ${letter} of ${from}`)) return;
    tap(it, { edge: Number(edge), mark: "word", to: Number(to), letter });
  });
  return found;
}

// What is asked in a state, and what is said of answers of which none is ticked.
function readQuestions() {
  if (isOff("first")) return null;
  one("#predict").click();
  const asked = { name: text("#enabled-name"), events: texts("#quiz label span"), hidden: one("#enabled").hidden };
  one("#quiz button").click();
  const said = { ...asked, answers: texts("#quiz label small"), score: text("#quiz output") };
  one("#predict").click();
  return said;
}

// Does enabled events, each by a chance from 0 to 1, and calls back with their numbers and words and with all that is
// then said: of these sites, or of each if they are null. `chance` picks the places of the timeline that are asked for.
async function readOn(chances, sites, chance, then) {
  const done = [];
  for (const it of chances) {
    const buttons = all("#enabled button");
    if (!buttons.length) break;
    const button = buttons[Math.floor(it * buttons.length)];
    const [number, words] = ["kbd", ".words"].map((part) => button.querySelector(part).textContent);
    done.push({ number: Number(number), words });
    button.click();
    await new Promise(rest);
  }
  const names = [...all("#sites tbody tr").keys()];
  const said = { ...readAll(), each: readEach(sites ?? names) };
  // Half of the states are tapped, and half asked about.
  const more = event() % 2 ? { asked: readQuestions(), hints: readHints(names.length, chance) }
    : { taps: readTaps(event() / 2) };
  // In one text, since a driver takes long for a table of many.
  then(JSON.stringify({ done, said: { ...said, ...more } }));
}
