// What the parts of the bidder's page share: the one state that shown.js reads, the form, and what
// is known of receipts and of closed rounds. A part changes the state by `set`, and the page draws
// what has changed.

import {answers} from "./link.js";
import {Past} from "./past.js";
import {Receipts} from "./receipts.js";
import {Sheet} from "./sheet.js";

/**
 * What this tab knows of the server: who asks it, whether what is loaded may be old, and a number
 * for each time that bids were asked for or accepted.
 */
export const server = {
  /** @type {import("./api.js").Asker | null} */
  asker: null,
  isDoubted: false,
  turn: 0,
};
// lets the other tabs of this browser know that bids were submitted, and nothing about them
export const tabs = new BroadcastChannel("sheets");
export const sheet = new Sheet();
export const past = new Past();
export const receipts = new Receipts((receipt) => {
  const { count, strange } = receipts;
  set({ receipt, evidence: { count, strange } });
});

/** @type {import("./shown.js").State} */
export let state = {
  me: null,
  terms: null,
  form: null,
  inForce: null,
  sending: null,
  act: null,
  receipt: null,
  evidence: {count: 0, strange: []},
  undo: "",
  old: null,
  lines: [],
  news: 0,
  worth: null,
  link: answers(""),
  time: {phase: null, words: "", seconds: null, results: ""},
};

/** @type {{ show: () => void, rows: () => void }} */
let drawing;

/** Says what draws the bars, and what draws the rows, once something has changed. */
export function drawBy(given) { drawing = given; }

/** Changes the state, without drawing. */
export function put(change) { state = {...state, ...change }; }

/** Changes the state, and draws the bars. */
export function set(change) {
  put(change);
  if (state.me) drawing.show();
}

/** Draws the rows, and judges the form as it is now. */
export const draw = () => drawing.rows();

export const read = () => sheet.read(state.terms.prices);

/** What follows an act: `kind` says which, `more` what it was about. */
export const acted = (kind, more = {}) => set({act: {kind, round: state.me.round, ...more}});
