// The words that the page explains, and the lessons that use them.
import assert from "node:assert/strict";
import fs from "node:fs";
import test from "node:test";

import { WORDS, keyOf, partsOf } from "../../page/glossary.js";

const HOME = new URL("../../", import.meta.url);
const textOf = (path) => fs.readFileSync(new URL(path, HOME), "utf8");

test("each word is explained once, and by others than itself", () => {
  const keys = WORDS.map(({ key }) => key);
  assert.equal(new Set(keys).size, keys.length);
  for (const { key, title, text } of WORDS) assert.ok(title && text.endsWith(".") && text.length < 420, key);
});

test("the parts of a text are the text, and the first of each word is known", () => {
  const text = "A dirty fork: ask me. *Who* eats? The forks of e are dirty, and a meal follows.";
  const parts = partsOf(text);
  assert.equal(parts.map((it) => it.text).join(""), text.replaceAll("*", ""));
  const explained = parts.filter(({ isFirst }) => isFirst).map(({ key }) => key);
  assert.deepEqual(explained, ["dirty", "fork", "meal"]);
  const colours = parts.filter(({ colour }) => colour).map(({ colour }) => colour);
  assert.deepEqual(colours, ["dirty", "stressed", "eating", "dirty"]);
  assert.deepEqual(partsOf(""), []);
  assert.deepEqual(partsOf("retake"), [{ text: "retake" }]);
});

test("what a legend may have is explained", () => {
  const names = textOf("page/marks.js").match(/^ {2}\["([^"]+)", /gm).map((it) => /"([^"]+)"/.exec(it)[1]);
  assert.ok(names.length > 10);
  const keys = WORDS.map(({ key }) => key);
  for (const name of names) assert.ok(keys.includes(keyOf(name)), name);
  assert.deepEqual(["eating", "letter Done", "goes before"].map(keyOf), ["meal", "done", "arrow"]);
});

test("the lessons have one word for one thing", () => {
  for (const path of fs.readdirSync(new URL("lessons/", HOME)).filter((it) => it.endsWith(".toml"))) {
    const others = /\b(friends?|tickets?|cycles?|philosopher|nodes?|processes)\b/;
    assert.doesNotMatch(textOf(`lessons/${path}`), others, path);
  }
});

test("no two modules of the page have a name in common, since the page in one file joins them", () => {
  const names = new Map();
  for (const file of fs.readdirSync(new URL("page/", HOME)).filter((it) => it.endsWith(".js") && it !== "worker.js")) {
    const declared = /^(?:export )?(?:async )?(?:function\*?|class|const|let) (?:(\w+)|\[([^\]]+)\])/gm;
    for (const [, one, several] of textOf(`page/${file}`).matchAll(declared)) {
      for (const name of (one ?? several).split(/,\s*/)) names.set(name, [...names.get(name) ?? [], file]);
    }
  }
  assert.deepEqual([...names].filter(([, files]) => files.length > 1), []);
});
