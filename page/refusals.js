// Why a plan is refused, in a sentence, and the line of its text that it is about. features/explain.py reads the
// sentences too, so they are written as JSON.

import { spotOf } from "./plan_places.js";

// words causes, by tools/words
const SENTENCES = {
  "NotToml": "The text is no TOML, or no UTF-8.",
  "Version": "The plan has no version, or one that is not the whole number 1 or 2.",
  "UnknownKey": "A table has a key that plans do not have there, or not in this version.",
  "MissingKey": "A site or a job has no name, or an edge no ends.",
  "WrongKind": "A value is of the wrong kind, such as a text for a number, or is a number below 0.",
  "BadName": "The name of this site, or of one of its jobs, is not 1 to 32 ASCII letters, digits, _ or -.",
  "SiteTwice": "An earlier site has the name of this site.",
  "NoSite": "There is no site.",
  "TooManySites": "There are more than 64 sites.",
  "TooManyJobs": "This site has more than 1,000 jobs.",
  "TurnsTooLarge": "A job of this site has turns above 1,000,000.",
  "UnknownEnd": "An end of this edge is no site's name.",
  "Loop": "Both ends of this edge are one site.",
  "EdgeTwice": "An earlier edge joins the two sites of this one.",
  "TooManyEdges": "There are more than 512 edges.",
  "TwoActs": "A job of this site has both add and set.",
  "ActTooLarge": "A job of this site has add or set above 1,000,000.",
  "ValueTooLarge": "The value of this edge is above 1,000,000.",
  "UnknownPolicy": "on_fault of this site is neither go nor resign."
};
// end

// A fault in words that the page shows at its head: the sentence of a refusal, or the line as it is.
export function faultText(line, text) {
  const { sentence } = refusalOf(line, text);
  return sentence === line ? line : `The plan is refused. ${sentence}`;
}

// The sentence for the program's line, with the line of the text and what is to be mended there, and the range of that
// in the text, or null.
export function refusalOf(line, text) {
  const [, name, table, number] = /plan refused: \d+ (\w+)(?: at (site|edge) (\d+))?/.exec(line) ?? [];
  if (!SENTENCES[name]) return { sentence: line, range: null };
  const spot = spotOf(name, text, table, Number(number ?? 0));
  const where = table ? ` It is ${table} ${number}, counted from 0.` : "";
  if (!spot) return { sentence: SENTENCES[name] + where, range: null };
  const row = text.slice(0, spot.from).split("\n").length;
  const what = text.slice(spot.from, spot.to).split("\n")[0].trim();
  const thing = what && what.length <= 40 ? `, ${what}` : "";
  const said = `${spot.said}${spot.said.endsWith("?") ? "" : "."}`;
  return { sentence: `${SENTENCES[name]} Line ${row}${thing}: ${said}`, range: { from: spot.from, to: spot.to } };
}
