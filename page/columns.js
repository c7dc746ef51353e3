// The letter by which the program names an event in a column: by its kind, a Take by the letter that is taken, and the
// end of a meal that failed.

// words columns, by tools/words
export const KINDS = { give: "g", end: "e", begin: "b", quit: "q", hungry: "h", ask: "a", done: "d", close: "c" };
export const TAKEN = { fork: "G", request: "A", done: "D", close: "C" };
export const FAILED = "x";
// end
