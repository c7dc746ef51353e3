// The session of the page: who is told of a change, and that nothing else changes it; and which modules need which.
import assert from "node:assert/strict";
import fs from "node:fs";
import test from "node:test";

import { Session } from "../../page/session.js";

const FOLDER = new URL("../../page/", import.meta.url);
const NAMES = fs.readdirSync(FOLDER).filter((it) => it.endsWith(".js"));

// The modules that a module imports, and those that they import.
function neededBy(name, found = new Set()) {
  for (const [, it] of fs.readFileSync(new URL(name, FOLDER), "utf8").matchAll(/ from "\.\/(\w+\.js)";$/gm)) {
    if (!found.has(it)) neededBy(it, found.add(it));
  }
  return found;
}

test("listeners are called in their turn, for a plan before the change, and once there is a plan", () => {
  const [session, calls] = [new Session(), []];
  for (const [kind, name] of [["change", "one"], ["plan", "plan"], ["change", "other"]]) {
    session.on(kind, ({ selected }) => calls.push(`${name} ${selected}`));
  }
  session.change({ selected: 1 });
  session.open({ schedule: {}, selected: 2 });
  session.set({ selected: 3 });
  session.change();
  assert.deepEqual(calls, ["plan 2", "one 2", "other 2", "one 3", "other 3"]);
});

test("only the session changes its state, and what was read of it stays", () => {
  const session = new Session();
  const { state } = session;
  session.change({ selected: 1 });
  assert.deepEqual([state.selected, session.state.selected], [null, 1]);
  assert.throws(() => { session.state.selected = 2; }, TypeError);
});

test("no module needs itself, and what changes the session needs nothing that shows it", () => {
  assert.ok(neededBy("page.js").size > 30);
  assert.deepEqual(NAMES.filter((it) => neededBy(it).has(it)), []);
  for (const name of ["session.js", "steps.js", "teach.js"]) {
    assert.deepEqual(["parts.js", "view.js", "page.js"].filter((it) => neededBy(name).has(it)), [], name);
  }
});
