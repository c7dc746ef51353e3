// Where the tables, keys and values of a plan's text are, so that a refusal can name a line and a key. It reads as much
// of TOML as plans have. The program decides whether a text is a plan.

// The keys of each table, with the version from which they are allowed and the kind of their values.
// words keys, by tools/words
const PLAN_KEYS = {
  "document": {
    "version": [1, "number"],
    "site": [1, "array"],
    "edge": [1, "array"]
  },
  "site": {
    "name": [1, "text"],
    "jobs": [1, "array"],
    "on_fault": [2, "text"]
  },
  "job": {
    "name": [1, "text"],
    "turns": [1, "number"],
    "fails": [1, "truth"],
    "add": [2, "number"],
    "set": [2, "number"]
  },
  "edge": {
    "ends": [1, "array"],
    "value": [2, "number"]
  }
};
// end
// words limits, by tools/words
export const LIMITS = {
  "MAX_SITES": 64,
  "MAX_EDGES": 512,
  "MAX_TURNS": 1000000,
  "MAX_NAME": 32,
  "MAX_JOBS": 1000,
  "MAX_NUMBER": 1000000
};
// end
// What is to be mended for a cause for which one key, or the length of one list, says enough: the value of a key, with
// what is said of it or the words that may be there; a number above a limit; or the first that is too many. `first` is
// said of the earlier one that has the same value. features/explain.py reads the list as JSON.
const MENDED = {
  "SiteTwice": { "key": "name", "said": "this name is taken", "first": "by this site" },
  "TooManySites": { "list": "site", "most": "MAX_SITES" },
  "TurnsTooLarge": { "numbers": ["turns"], "most": "MAX_TURNS" },
  "Loop": { "key": "ends", "said": "an edge joins two different sites" },
  "EdgeTwice": { "key": "ends", "said": "these two are joined already", "first": "by this edge" },
  "TooManyEdges": { "list": "edge", "most": "MAX_EDGES" },
  "ActTooLarge": { "numbers": ["add", "set"], "most": "MAX_NUMBER" },
  "ValueTooLarge": { "numbers": ["value"], "most": "MAX_NUMBER" },
  "UnknownPolicy": { "key": "on_fault", "words": ["go", "resign"] }
};
const NEEDED_KEYS = { site: "name", job: "name", edge: "ends" };
const KINDS_SAID = {
  number: "a whole number from 0", text: "a text in quotes", truth: "true or false", array: "an array",
};
const NAME = new RegExp(`^[\\w-]{1,${LIMITS.MAX_NAME}}$`);
const NO_VALUE = "here a value is missing";

const TOKENS = {
  space: /(?:[ \t\r\n]|#[^\n]*)*/y,
  text: /"""[^]*?"""|'''[^]*?'''|"(?:\\.|[^"\\\n])*"|'[^'\n]*'/y,
  key: /(?:[\w-]+|"(?:\\.|[^"\\\n])*"|'[^'\n]*')(?:[ \t]*\.[ \t]*[\w-]+)*/y,
  bare: /[^,\]}\n#]*[^,\]}\n#\s]/y,
};

class Reader {
  constructor(text) {
    Object.assign(this, { text, at: 0, tables: [{ kind: "document", from: 0, to: 0, pairs: [] }], lists: {} });
  }

  match(name) {
    TOKENS[name].lastIndex = this.at;
    const found = TOKENS[name].exec(this.text);
    if (found) this.at += found[0].length;
    return found?.[0] ?? null;
  }

  skip() {
    this.match("space");
    return this.text[this.at];
  }

  // Goes behind this letter, or gives up here.
  expect(letter, said) {
    if (this.skip() !== letter) throw new Error(said);
    this.at += 1;
  }

  read() {
    let table = this.tables[0];
    while (this.skip() !== undefined) {
      if (this.text[this.at] === "[") table = this.header();
      else this.pair(table);
    }
    return this.tables;
  }

  // A table of this kind of a list, such as the sites, with its number there.
  add(kind, from, to, place) {
    const table = { kind, from, to, pairs: [], place };
    this.tables.push(table);
    return table;
  }

  header() {
    const from = this.at;
    const count = this.text.startsWith("[[", from) ? 2 : 1;
    this.at += count;
    this.skip();
    const name = this.match("key");
    if (name === null) throw new Error("here a name of a table is missing");
    for (let turn = 0; turn < count; turn += 1) this.expect("]", "here ] is missing");
    const kind = name.split(".").at(-1).replace(/^jobs$/, "job");
    this.lists[kind] = (this.lists[kind] ?? -1) + 1;
    return this.add(kind, from, this.at, kind === "job" ? this.lists.site : this.lists[kind]);
  }

  pair(table) {
    const from = this.at;
    const key = this.match("key")?.replace(/^["']|["']$/g, "");
    if (key === undefined) throw new Error("here a key is missing");
    const to = this.at;
    this.expect("=", "here = is missing");
    // A value is in the line of its key.
    const behind = this.at;
    this.skip();
    if (this.text.slice(behind, this.at).includes("\n")) this.at = behind - 1;
    table.pairs.push({ key, from, to, value: this.value(key, table) });
  }

  value(key, table) {
    const from = this.at;
    const letter = this.text[from];
    const items = [];
    if (letter === "[") this.items(items, "]", () => this.value(key, table));
    else if (letter === "{") this.inline(key, table, from);
    else if (/["']/.test(letter) && this.match("text") === null) throw new Error("here a quote is not closed");
    else if (letter === "=" || (!/["']/.test(letter) && this.match("bare") === null)) throw new Error(NO_VALUE);
    const raw = this.text.slice(from, this.at);
    return { from, to: this.at, items, raw, kind: kindOfValue(letter, raw) };
  }

  // The items of an array, up to the letter that ends it.
  items(found, end, one) {
    this.at += 1;
    while (this.skip() !== end) {
      if (this.text[this.at] === undefined) throw new Error(`here ${end} is missing`);
      found.push(one());
      if (this.skip() === ",") this.at += 1;
      else if (this.skip() !== end) throw new Error(`here , or ${end} is missing`);
    }
    this.at += 1;
  }

  // A table in braces: of a list of the document, or of the jobs of a site.
  inline(key, above, from) {
    const kind = key === "jobs" ? "job" : key;
    if (kind !== "job") this.lists[kind] = (this.lists[kind] ?? -1) + 1;
    const table = this.add(kind, from, from + 1, kind === "job" ? above.place : this.lists[kind]);
    this.items([], "}", () => this.pair(table));
  }
}

function kindOfValue(letter, raw) {
  if (letter === "[") return "array";
  if (letter === "{") return "table";
  if (letter === "\"" || letter === "'") return "text";
  if (raw === "true" || raw === "false") return "truth";
  return /^\+?[0-9_]+$/.test(raw) ? "number" : "other";
}

const spot = ({ from, to }, said) => ({ from, to, said });
const numberIn = (value) => Number(value.raw.replaceAll("_", ""));
const grouped = (limit) => limit.toLocaleString("en");
const textIn = (value) => value.raw.replace(/^["']|["']$/g, "");
const pairOf = (table, key) => table.pairs.find((it) => it.key === key);

// How many letters of two words differ at least, by which the nearest of some words is found.
function distance(one, other) {
  let row = [...Array(other.length + 1).keys()];
  [...one].forEach((letter, place) => {
    const next = [place + 1];
    [...other].forEach((it, at) => {
      next.push(Math.min(next[at] + 1, row[at + 1] + 1, row[at] + (letter === it ? 0 : 1)));
    });
    row = next;
  });
  return row.at(-1);
}

function nearestOf(word, words) {
  const [best] = [...words].sort((one, other) => distance(word, one) - distance(word, other));
  if (best !== undefined && distance(word, best) <= Math.max(1, word.length / 2)) return `did you mean "${best}"?`;
  return `there is ${words.slice(0, 8).map((it) => `"${it}"`).join(", ")}`;
}

function unknownKeys(tables) {
  const version = numberIn(pairOf(tables[0], "version")?.value ?? { raw: "1" });
  return tables.flatMap(({ kind, pairs }) => pairs.flatMap((pair) => {
    const known = PLAN_KEYS[kind] ?? {};
    const allowed = Object.keys(known).filter((key) => known[key][0] <= version);
    if (allowed.includes(pair.key)) return [];
    const said = known[pair.key] ? `this key needs version = ${known[pair.key][0]}` : nearestOf(pair.key, allowed);
    return [spot(pair, said)];
  }));
}

function wrongKinds(tables) {
  return tables.flatMap(({ kind, pairs }) => pairs.flatMap(({ key, value }) => {
    const wanted = PLAN_KEYS[kind]?.[key]?.[1];
    if (wanted && value.kind !== wanted) return [spot(value, `${key} has to be ${KINDS_SAID[wanted]}`)];
    if (key === "ends" && value.items.length !== 2) return [spot(value, "ends has to have two names")];
    if (wanted !== "array") return [];
    const inner = key === "ends" ? "text" : "table";
    return value.items.filter((it) => it.kind !== inner).map((it) => spot(it, `each of ${key} has to be a ${inner}`));
  }));
}

// The tables of the site or the edge with this number: a site has those of its jobs too.
function tablesOf(tables, kind, number) {
  return tables.filter((it) => (it.kind === kind || (kind === "site" && it.kind === "job")) && it.place === number);
}

function badNames(tables) {
  return tables.flatMap((table) => {
    const value = pairOf(table, "name")?.value;
    return value && !NAME.test(textIn(value)) ? [spot(value, "this name")] : [];
  });
}

function largeNumbers(tables, keys, most) {
  const values = tables.flatMap((table) => keys.map((key) => pairOf(table, key)?.value).filter(Boolean));
  return values.filter((value) => numberIn(value) > most).map((value) => spot(value, `at most ${grouped(most)}`));
}

// What MENDED says of a cause, of the tables of its site or edge.
function spotsByForm({ key, said, words, numbers, list, most }, tables, own) {
  if (numbers) return largeNumbers(own, numbers, LIMITS[most]);
  if (list) return [spot(tables.filter((it) => it.kind === list)[LIMITS[most]], `${list} ${LIMITS[most] + 1}`)];
  const { value } = pairOf(own[0], key);
  return [spot(value, said ?? nearestOf(textIn(value), words))];
}

// What a cause is about, the first to mend in front. `kind` and `number` are those of its site or edge. A cause that is
// neither in MENDED nor here is about its site or edge as a whole.
function spotsOf(cause, tables, kind, number) {
  const own = tablesOf(tables, kind, number);
  const missing = () => tables.filter((it) => NEEDED_KEYS[it.kind] && !pairOf(it, NEEDED_KEYS[it.kind]));
  const names = () => tables.filter((it) => it.kind === "site").map((it) => textIn(pairOf(it, "name").value));
  const causes = {
    Version: () => [spot(pairOf(tables[0], "version")?.value ?? { from: 0, to: 0 }, "write version = 1, or 2")],
    UnknownKey: () => unknownKeys(tables),
    MissingKey: () => missing().map((it) => spot(it, `${NEEDED_KEYS[it.kind]} is missing in this ${it.kind}`)),
    WrongKind: () => wrongKinds(tables),
    BadName: () => badNames(own),
    TooManyJobs: () => [spot(pairOf(own[0], "jobs"), `more than ${grouped(LIMITS.MAX_JOBS)}`)],
    UnknownEnd: () => pairOf(own[0], "ends").value.items.filter((it) => !names().includes(textIn(it)))
      .map((it) => spot(it, nearestOf(textIn(it), names()))),
    TwoActs: () => own.filter((it) => pairOf(it, "add") && pairOf(it, "set"))
      .map((it) => spot(pairOf(it, "set"), "add is there too")),
  };
  if (MENDED[cause]) return spotsByForm(MENDED[cause], tables, own);
  return causes[cause]?.() ?? own.map((it) => spot(it, `this ${it.kind}`));
}

// Where in a text a refusal is to be mended, and what is said of that, or null. `kind` and `number` are those of its
// site or edge.
export function spotOf(cause, text, kind, number) {
  const reader = new Reader(text);
  let tables;
  try {
    tables = reader.read();
  } catch (fault) {
    return cause === "NotToml" ? { from: reader.at, to: reader.at + 1, said: fault.message } : null;
  }
  if (cause === "NotToml") return repeatedKey(tables) ?? longNumber(tables);
  try {
    return spotsOf(cause, tables, kind, number)[0] ?? null;
  } catch {
    return null;
  }
}

// A number that is too long for TOML.
function longNumber(tables) {
  const values = tables.flatMap(({ pairs }) => pairs.map(({ value }) => value));
  const found = values.find(({ raw }) => /^[+-]?[0-9_]{19,}$/.test(raw));
  return found ? spot(found, "a whole number has at most 64 bits") : null;
}

// A key that a table has twice, which TOML forbids.
function repeatedKey(tables) {
  for (const { pairs } of tables) {
    const again = pairs.find(({ key }, place) => pairs.findIndex((it) => it.key === key) < place);
    if (again) return spot(again, "this key is there already");
  }
  return null;
}
