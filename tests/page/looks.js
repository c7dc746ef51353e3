// What the tests look at in a page. tests/chromium.py puts it before each script that runs there.

const one = (where) => document.querySelector(where);
const all = (where) => [...document.querySelectorAll(where)];
const count = (where) => all(where).length;
const text = (where) => one(where).textContent;
const texts = (where) => all(where).map((it) => it.textContent);
const value = (where) => one(where).value;
const focus = (where) => one(where).focus();
// How many events are done, and which choices.
const event = () => Number(/event (\d+)/.exec(text("#count"))[1]);
const choices = () => text("#choices b").match(/\d+/g)?.map(Number) ?? [];
// Which moment of a lesson is shown: its number, its title, and how many events are done.
const moment = () => [text("#moment-count"), text("#moment-title"), event()];
const isIdle = () => one("main").getAttribute("aria-busy") === "false";

// Calls back once the page is at rest. Waiting costs the page nothing.
function rest(then) {
  const watch = new MutationObserver(() => look());
  const look = () => {
    if (!isIdle()) return;
    watch.disconnect();
    then();
  };
  watch.observe(one("main"), { attributeFilter: ["aria-busy"] });
  look();
}

// Calls back once the page is at rest and the next frame is drawn.
const drawn = (then) => rest(() => requestAnimationFrame(() => setTimeout(then)));

// Calls back once the page is at rest, with how many events are done.
const done = (then) => rest(() => then(count("#count") ? event() : null));

// Does an event for each of these chances from 0 to 1, by one of the buttons for events, until none is enabled. Calls
// back with how many events are done then, and with the checks that failed behind one of them.
async function stepped(then, chances) {
  const broken = [];
  for (const it of chances) {
    const listed = all("#enabled button");
    if (listed.length === 0) break;
    const buttons = [...all("#first, #random, #step"), ...listed];
    buttons[Math.floor(it * buttons.length)].click();
    await new Promise(rest);
    broken.push(...texts("#checks .broken"));
  }
  then([event(), broken]);
}

// Calls back with an element once the page is at rest and no mark flies.
const landed = (then, where) => rest(async () => {
  await Promise.allSettled(document.getAnimations().map((it) => it.finished));
  then(one(where));
});

// Shows another address, as the way back of the browser does, with focus and scroll as in a page that was just loaded.
// Calls back once it is drawn: in its first frame the picture takes the size of its place.
function went(then, said) {
  document.activeElement.blur();
  scrollTo(0, 0);
  history.replaceState(null, "", `${location.href.replace(/#.*/s, "")}${said && "#"}${said}`);
  dispatchEvent(new HashChangeEvent("hashchange"));
  drawn(then);
}

// Has nothing stored, and switches and fields as they are at first, and calls back once the page is at rest.
function reset(then) {
  all("dialog[open]").forEach((it) => it.close());
  if (document.body.matches(".large")) one("#large").click();
  all("input[id][type=checkbox]").forEach((it) => { if (it.checked !== it.defaultChecked) it.click(); });
  all("#seed, #speed, #find-count").forEach((it) => { it.value = it.defaultValue; });
  one("#pick").value = "random";
  one("#speed").dispatchEvent(new Event("input"));
  delete document.documentElement.dataset.theme;
  localStorage.clear();
  rest(then);
}

// Calls back with how many events are done and where the first fork is, for each frame until the page is at rest.
function flight(then, seen = []) {
  seen.push([event(), new DOMMatrix(getComputedStyle(one("#picture .fork")).transform).e]);
  if (isIdle()) then(seen);
  else requestAnimationFrame(() => flight(then, seen));
}

// What the page says of a state, by its parts. Classes are sorted, and which event follows in the list is left out.
function said() {
  const parts = ["last", "picture", "enabled", "why", "count", "logs", "line", "sites", "edges", "checks"];
  const sorted = (_, names) => {
    const left = names.split(" ").filter((it) => it && it !== "next").sort();
    return left.length ? ` class="${left.join(" ")}"` : "";
  };
  return Object.fromEntries(parts.map((it) => [it, one(`#${it}`).innerHTML.replace(/ class="([^"]*)"/g, sorted)]));
}

// Which of these parts are not visible, or not whole in the window.
const unseen = (...parts) => parts.filter((where) => {
  const box = one(where)?.getBoundingClientRect();
  const isIn = (it) => it.top >= 0 && it.left >= 0 && it.right <= innerWidth + 1 && it.bottom <= innerHeight + 1;
  return !(box?.width > 0 && box.height > 0 && isIn(box));
});

// Where a site and a mark are, in the picture's own points.
const pointIn = ({ e, f }) => ({ x: e, y: f });
const siteAt = (it) => pointIn(it.transform.baseVal[0].matrix);
const markAt = (it) => pointIn(new DOMMatrix(it.style.transform || "none"));
const apart = (here, there) => Math.hypot(here.x - there.x, here.y - there.y);

// The site from which the arrow of each edge goes: the one at the end that is farther from its tip.
const headings = () => all("#picture .edge").map((edge) => {
  const line = edge.querySelector("line");
  const { e, f, a, b } = new DOMMatrix(edge.querySelector(".head").style.transform);
  const ends = [1, 2].map((end) => ({ x: line[`x${end}`].baseVal.value, y: line[`y${end}`].baseVal.value }));
  const [low, high] = ends.map((it) => apart(it, { x: e + 10 * a, y: f + 10 * b }));
  return all("#picture .site").findIndex((site) => apart(siteAt(site), ends[low > high ? 0 : 1]) < 1);
});

// For each edge the site to which a mark of this kind is nearer, and how near two of those marks are to each other.
function nearest(kind, edges) {
  const [sites, marks] = [all("#picture .site").map(siteAt), all(`#picture .${kind}`).map(markAt)];
  const near = edges.map(([low, high], edge) => {
    return apart(sites[low], marks[edge]) < apart(sites[high], marks[edge]) ? low : high;
  });
  const least = Math.min(...marks.flatMap((it, at) => marks.slice(at + 1).map((other) => apart(it, other))));
  return [near, least];
}

// The kinds of marks that are seen in the picture that is shown.
function kinds() {
  const isShown = (it) => getComputedStyle(it).display !== "none" && getComputedStyle(it).visibility === "visible";
  const marks = { forks: ".fork", tokens: ".token", arrows: ".head", counts: ".rank" };
  const side = one(".side-by:not([hidden])");
  return Object.keys(marks).filter((kind) => [...side.querySelectorAll(marks[kind])].some(isShown));
}

// The kinds of marks that the legend has words for.
function named() {
  const words = {
    forks: ["fork", "dirty fork", "clean fork"], tokens: ["token"],
    arrows: ["goes before", "goes before, once it asks", "goes before, and gives nothing"],
    counts: ["how many go before"],
  };
  const shown = all("#legend li").map((it) => it.lastChild.textContent);
  return Object.keys(words).filter((kind) => words[kind].some((it) => shown.includes(it)));
}

// What of the words in the picture is outside of it, or covers a site.
function misplaced() {
  const callout = one(".side-by:not([hidden]) .callout rect");
  if (!callout) return "";
  const [box, room] = [callout, callout.ownerSVGElement].map((it) => it.getBoundingClientRect());
  const covers = (it) => it.left < box.right && it.right > box.left && it.top < box.bottom && it.bottom > box.top;
  const shapes = [...callout.ownerSVGElement.querySelectorAll(".site .shape")];
  const sites = shapes.filter((it) => covers(it.getBoundingClientRect()));
  const isIn = box.left >= room.left && box.right <= room.right && box.top >= room.top && box.bottom <= room.bottom;
  return isIn ? sites.map((it) => it.parentNode.textContent).join() : "outside";
}

// All that is seen of a moment of a lesson.
const momentSeen = () => ({
  moment: moment(), note: texts("#moment-note p").join(" "), choices: choices(), kinds: kinds(), named: named(),
  callout: texts(".side-by:not([hidden]) .callout text").join(" "), pointed: text("#pointed").replace(/^.*?: /, ""),
  misplaced: misplaced(),
});

const isSeen = (it) => it.getClientRects().length > 0 && getComputedStyle(it).visibility === "visible";
const labelOf = (it) => it.id || it.textContent.trim().slice(0, 30) || it.className;

// The controls that are beyond the sides of the window, or cut off by what is round them and does not scroll.
function cutOff() {
  const isHidden = (style) => ["hidden", "clip"].includes(style);
  return all("button, select, input, textarea, .switches label, .switch").filter(isSeen).filter((it) => {
    const box = it.getBoundingClientRect();
    if (box.left < -1 || box.right > innerWidth + 1) return true;
    for (let above = it.parentElement; above && above !== document.body; above = above.parentElement) {
      const [room, { overflowX, overflowY }] = [above.getBoundingClientRect(), getComputedStyle(above)];
      if (isHidden(overflowX) && (box.left < room.left - 1 || box.right > room.right + 1)) return true;
      if (isHidden(overflowY) && (box.top < room.top - 1 || box.bottom > room.bottom + 1)) return true;
    }
    return false;
  }).map(labelOf);
}

// The texts in the picture that a fork, a token or a letter covers to an eighth at least, and the badges.
function coveredTexts() {
  const boxOf = (it) => {
    const boxes = [...it.children].filter((part) => !part.matches(".hit")).map((part) => part.getBoundingClientRect());
    const side = (name, of) => of(...boxes.map((box) => box[name]));
    return { left: side("left", Math.min), right: side("right", Math.max), top: side("top", Math.min),
      bottom: side("bottom", Math.max) };
  };
  const marks = all(".side-by:not([hidden]) .canvas :is(.fork, .token, .word)").filter(isSeen).map(boxOf);
  return all(".side-by:not([hidden]) .canvas .site text").filter((it) => isSeen(it) && it.textContent).filter((it) => {
    const box = it.getBoundingClientRect();
    return marks.some((mark) => {
      const wide = Math.min(box.right, mark.right) - Math.max(box.left, mark.left);
      const high = Math.min(box.bottom, mark.bottom) - Math.max(box.top, mark.top);
      return wide > 1 && high > 1 && wide * high > box.width * box.height / 8;
    });
  }).map((it) => it.textContent);
}

// Which parts of the page lie over one another that should not: cards, and the parts of the picture's card. A card that
// does not scroll has all of its parts within it.
function overlaps() {
  const isIn = (box, room) => box.bottom <= room.bottom + 1 && box.right <= room.right + 1;
  const beyond = all(".room > .card, .side > .card").filter(isSeen).flatMap((card) => {
    if (getComputedStyle(card).overflowY !== "visible") return [];
    const parts = [...card.children, ...card.querySelectorAll(".canvas")].filter(isSeen);
    const room = card.getBoundingClientRect();
    return parts.filter((it) => !isIn(it.getBoundingClientRect(), room)).map((it) => `${labelOf(it)} beyond its card`);
  });
  return [...beyond, ...coveringParts()];
}

// What is wrong in a window of this width: how far it scrolls sideways, and what should not be where it is.
const faultsOfLayout = (width) => [
  Math.max(0, document.documentElement.scrollWidth - width), cutOff(), coveredTexts(), overlaps(),
];

// How wide the page is with letters of each of these sizes, in points.
function widthsWith(...letters) {
  const { documentElement: root } = document;
  const found = letters.map((it) => {
    root.style.fontSize = `${it}px`;
    return root.scrollWidth;
  });
  root.style.fontSize = "";
  return found;
}

function coveringParts() {
  const groups = [all("main .card"), [...one(".picture").children], [...one(".steps").children]];
  const apart = (one_, other) => one_.right <= other.left + 1 || other.right <= one_.left + 1
    || one_.bottom <= other.top + 1 || other.bottom <= one_.top + 1;
  return groups.flatMap((parts) => {
    const seen = parts.filter((it) => isSeen(it) && getComputedStyle(it).position !== "sticky");
    const boxes = seen.map((it) => it.getBoundingClientRect());
    return boxes.flatMap((box, at) => boxes.slice(at + 1).flatMap((other, more) => {
      return apart(box, other) ? [] : [`${labelOf(seen[at])} over ${labelOf(seen[at + 1 + more])}`];
    }));
  });
}
