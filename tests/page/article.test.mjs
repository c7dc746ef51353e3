// The article: its lines of the algorithm are those of the page, and its figures begin as the text says.
import assert from "node:assert/strict";
import test from "node:test";

import { CODE } from "../../page/code.js";
import { scheduleOf, textOf } from "./rules.mjs";

const ARTICLE = textOf("page/article.html");

test("the lines of the algorithm are those of the page", () => {
  const [, lines] = /<pre class="lines"[^>]*>\n(.*?)\n<\/pre>/s.exec(ARTICLE);
  assert.deepEqual(lines.split("\n").map((it) => it.replace(/<\/?span>/g, "")), CODE);
});

test("the choices of each figure name enabled events", async () => {
  const figures = [...ARTICLE.matchAll(/data-plan="([^"]*)"[^>]*?data-choices="([^"]*)"/gs)];
  assert.equal(figures.length, 2);
  for (const [, plan, choices] of figures) {
    const list = choices.split(",").map(Number);
    const { list: done, state } = await scheduleOf(plan, list);
    assert.deepEqual([...done], list);
    assert.ok(state.sites.every(({ phase }) => plan.includes("ring") || phase === "thinking"));
  }
});

test("at the start of the ring a has both forks, nobody has asked, and all four go before it", async () => {
  const { state } = await scheduleOf("plans/ring_of_five.toml");
  const own = state.edges.filter(({ ends }) => ends.includes(0));
  assert.ok(own.every(({ fork, token, dirty }) => fork.at === 0 && token.at !== 0 && dirty));
  assert.ok(own.every(({ preferred }) => preferred !== 0));
  assert.deepEqual(state.order.at(-1), 0);
});
