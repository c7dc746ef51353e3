// The teacher's sheet and the handout: the drawn moment and its answers are as the proved module says, and the moments
// that the sheet names are in the lessons.
import assert from "node:assert/strict";
import fs from "node:fs";
import test from "node:test";

import { countsBefore } from "../../page/picture.js";
import { scheduleOf, textOf } from "./rules.mjs";

const HANDOUT = textOf("lessons/handout.html");
const SHEET = textOf("lessons/TEACHING.md");
const [, PLAN, CHOICES] = /data-plan="([^"]*)"\s+data-choices="([^"]*)"/.exec(HANDOUT);
const NEAR = /translate\(([\d.-]+),([\d.-]+)\)/;

async function moment() {
  const { state } = await scheduleOf(PLAN, CHOICES.split(",").map(Number));
  const nameOf = (site) => (site === undefined ? undefined : state.sites[site].name);
  return { state, nameOf, ends: ({ ends }) => ends.map(nameOf).join(" ") };
}

// What is drawn: each element that has these words, with its attributes and its place. The legend has no places.
function drawn(words) {
  const found = [...HANDOUT.matchAll(/<g ([^>]*)>/g)].filter(([, all]) => all.includes(words) && NEAR.test(all));
  return found.map(([, all]) => {
    const pairs = [...all.matchAll(/([\w-]+)="([^"]*)"/g)].map(([, key, value]) => [key, value]);
    const [, x, y] = NEAR.exec(all).map(Number);
    return { ...Object.fromEntries(pairs), x, y };
  });
}

test("the handout shows the sites, forks and tokens of its moment", async () => {
  const { state, nameOf, ends } = await moment();
  assert.deepEqual(drawn("data-site").map((it) => [it["data-site"], it["data-phase"]]),
    state.sites.map(({ name, phase }) => [name, phase]));
  const placeOf = (it) => [it["data-edge"], it["data-at"], it["data-to"]];
  const forks = drawn('class="fork').map((it) => [...placeOf(it), it["data-is"], it.class]);
  assert.deepEqual(forks, state.edges.map((edge) => {
    const is = edge.dirty ? "dirty" : "clean";
    return [ends(edge), nameOf(edge.fork.at), nameOf(edge.fork.to), is, `fork ${is}`];
  }));
  assert.deepEqual(drawn('class="token').map(placeOf),
    state.edges.map((edge) => [ends(edge), nameOf(edge.token.at), nameOf(edge.token.to)]));
});

test("each mark of the handout is nearer to the site that has it", () => {
  const places = Object.fromEntries(drawn("data-site").map((it) => [it["data-site"], it]));
  const held = drawn("data-edge").filter((it) => it["data-at"]);
  assert.equal(held.length, 8);
  for (const it of held) {
    const other = it["data-edge"].split(" ").find((end) => end !== it["data-at"]);
    const far = (name) => Math.hypot(places[name].x - it.x, places[name].y - it.y);
    assert.ok(far(it["data-at"]) < far(other), `${it.class} of ${it["data-edge"]}`);
  }
});

test("the answers of the sheet are those of the rules", async () => {
  const { state, nameOf } = await moment();
  const answers = SHEET.split("## The handout, with answers")[1].replace(/\s+/g, " ");
  assert.ok(SHEET.includes(`#plan=${PLAN}&choices=${CHOICES}\``));
  const events = `${state.enabled.map(({ words }) => words).join(". ")}. `;
  assert.ok(answers.includes(`2. ${events}`), events);
  const arrows = state.edges.map(({ ends, preferred }) => {
    return `${nameOf(preferred)} to ${nameOf(ends.find((it) => it !== preferred))}`;
  });
  const said = /1\. (.*?)\. Before/.exec(answers)[1];
  assert.deepEqual(said.split(/, and |, /).sort(), arrows.sort());
  const counts = /Before a go (\d), before b (\d), before c (\d), before d (\d), before e none/.exec(answers).slice(1);
  assert.deepEqual([...counts.map(Number), 0], countsBefore(state));
});

test("the moments that the sheet names are in the lessons", () => {
  const folder = new URL("../../lessons/", import.meta.url);
  const lessons = fs.readdirSync(folder).filter((it) => it.endsWith(".toml")).map((it) => textOf(`lessons/${it}`));
  const titles = lessons.flatMap((it) => [...it.matchAll(/^title = "(.*)"$/gm)].map(([, title]) => title));
  const table = SHEET.split("|---|---|---|")[1].split("\n\n")[0];
  const inTable = [...table.matchAll(/\*\*(.*?)\*\*/g)];
  const inBrackets = [...SHEET.matchAll(/\((\*\*[^()]*\*\*)\)/g)].map(([, it]) => it).join(" ");
  const inAnswers = [...inBrackets.matchAll(/\*\*([^*]*)\*\*/g)];
  assert.ok(inTable.length > 8 && inAnswers.length > 8);
  for (const [, name] of [...inTable, ...inAnswers]) {
    assert.ok(titles.includes(name.replace(/\s+/g, " ")), name);
  }
});
