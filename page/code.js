// The algorithm in twelve lines, from the rules of the paper, and which of them an event follows.

export const CODE = [
  "each site, again and again:",
  "  when thinking: grow hungry",
  "  when hungry, the token here, the fork not:",
  "    send the token",
  "  when both here, the fork dirty, not eating:",
  "    wash the fork; send it; keep the token",
  "  when a token arrives: keep it",
  "  when a fork arrives: keep it; it is clean",
  "  when hungry, and all forks here,",
  "  each clean, or its token not here:",
  "    eat; its forks are dirty from now on",
  "  when it has eaten: think",
];
// The lines that events of a kind follow.
const CODE_OF = { hungry: [1], ask: [2, 3], give: [4, 5], begin: [8, 9, 10], end: [11] };
const TAKES = { request: [6], fork: [7] };
const NO_LINE = "is no line of the algorithm: it is how sites of this program come to an end.";

// The lines that an event follows, none if it is null, and what is said of it.
export function codeLinesOf(event) {
  if (!event) return { lines: [], note: "Do an event, and its lines light up." };
  const lines = (event.kind === "take" ? TAKES[event.letter] : CODE_OF[event.kind]) ?? [];
  return { lines, note: lines.length ? event.words : `${event.words}: this ${NO_LINE}` };
}
