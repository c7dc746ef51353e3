// The session: what the page shows, and who listens to it; and where the page finds its elements. The types are read by
// `tsc --allowJs --checkJs`.

/** @type {(name: string) => any} */
export const found = (name) => document.getElementById(name);

/** @typedef {{ list: Uint32Array, at: number, isOfThreads: boolean, own: number }} List choices, as of a Schedule */
/** @typedef {{ text: string, choices: string, at?: number, [key: string]: any }} Moment as lessons/README.md has it */
/** @typedef {{ path: string, title: string, moments: Moment[] }} Lesson moments, and the path of their file */
/** @typedef {List & { path: string | null, plan: string, state: any, [key: string]: any }} Schedule of schedule.js */
/** @typedef {{ catalog: any, isServed: boolean, [key: string]: any }} Program of program.js */
/** @typedef {import("./naive.js").NaiveTable} NaiveTable */

/**
 * @typedef {object} State
 * @property {Program | null} program the program that is asked
 * @property {Map<string, string>} plans the texts of the plans that it offers, by their paths
 * @property {Lesson[]} lessons the lessons that it offers
 * @property {Schedule | null} schedule the schedule that is shown
 * @property {(List & { other: List | null })[]} past what can be undone
 * @property {List | null} other the list that was left for another choice
 * @property {string} wanted the text of the plan that was asked for last, which may be refused
 * @property {number | null} selected the site that was clicked
 * @property {Lesson | null} lesson the lesson that is shown
 * @property {number} moment the number of its moment
 * @property {number[]} way the choices that lead on from there
 * @property {{ skip: (value?: any) => void } | null} walk what plays the events up to a moment
 * @property {NaiveTable | null} naive the table without the rules
 * @property {boolean} isPlain whether that table is shown alone
 * @property {string[] | null} kinds the kinds of marks that the picture shows, if a moment says which
 * @property {boolean} isFront whether the page shows its front door
 * @property {boolean} isOpen whether the reader wants to see in a moment what may happen
 * @property {boolean} isTurned whether something else is shown than before, so that the way back leads there
 * @property {number | null} best the score of the challenge that the address named
 * @property {{ words: string, why: string, key: string } | null} touched what can't be done with what was tapped
 * @property {{ words: string, version: number } | null} finding what was found of the run that is shown
 */

/** @typedef {(state: Readonly<State>) => void} Listener */
/** @typedef {"plan" | "change"} Kind */

// What the page shows. Only these methods change it, and they call what draws it. So a step imports nothing that draws.
export class Session {
  constructor() {
    /** @type {Readonly<State>} */
    this.state = Object.freeze({
      program: null, plans: new Map(), lessons: [], schedule: null, past: [], other: null, wanted: "", selected: null,
      lesson: null, moment: 0, way: [], walk: null, naive: null, isPlain: false, kinds: null,
      isFront: false, isOpen: false, isTurned: false, best: null, touched: null, finding: null,
    });
    /** @type {Record<Kind, Listener[]>} */
    this.listeners = { plan: [], change: [] };
  }

  /** Adds a listener, called behind those that are there. @param {Kind} kind @param {Listener} listener */
  on(kind, listener) {
    this.listeners[kind].push(listener);
  }

  /** Sets parts of the state. The next change shows them. @param {Partial<State>} parts */
  set(parts) {
    this.state = Object.freeze({ ...this.state, ...parts });
  }

  /** Sets parts of the state, and calls the listeners if a plan is shown. @param {Partial<State>} parts */
  change(parts = {}) {
    this.set(parts);
    if (this.state.schedule) for (const listener of this.listeners.change) listener(this.state);
  }

  /** Opens a plan: its listeners are called before those of a change. @param {Partial<State>} parts */
  open(parts) {
    this.set(parts);
    for (const listener of this.listeners.plan) listener(this.state);
    this.change();
  }
}

export const session = new Session();

/** The seed that the reader wrote, a whole number from 0 to 999,999. */
export function seed() {
  return Math.max(0, Math.min(Math.floor(Number(found("seed").value) || 0), 999999));
}

/** How many events are played in a second. */
export function rate() {
  return 2 ** Number(found("speed").value);
}
