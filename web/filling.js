// Changes the form: by keys, as a whole, by an undo, and by the draft that this tab has stored.

import {draftOf, keepDraft} from "./draft.js";
import {timeOfDay} from "./page.js";
import {afterKey, shown} from "./shown.js";
import {acted, draw, put, read, set, sheet, state} from "./store.js";

const MOST_UNDO = 100;
const SOON = 300; // milliseconds after a key until the draft is kept
const undos = []; // { what, copy }: the form before each change
let auction = ""; // the mark of the auction that a draft is of
let timer = 0;

/** Says which auction drafts are of. */
export function draftsOf(mark) { auction = mark; }

/** Keeps the form as it is, so that a change can be taken back. */
export function remember(what) {
  undos.push({ what, copy: sheet.copy() });
  if (undos.length > MOST_UNDO) undos.shift();
  put({ undo: what });
}

export function undo() {
  const last = undos.pop();
  if (!last) return;
  sheet.restore(last.copy);
  put({ undo: undos.at(-1)?.what ?? "" });
  draw();
  acted("filled", { words: `Undone: ${last.what}.` });
  keepSoon();
}

/** Forgets the changes of a round that is closed. */
export function forget() {
  undos.length = 0;
  put({ undo: "", lines: [] });
}

/** What follows a key. */
export function typed() {
  set(afterKey({...state, form: read() }));
  keepSoon();
}

/**
 * Changes the whole form in one step that can be taken back, and says that this submits nothing.
 */
export function fill(what, take, words) {
  remember(what);
  take();
  filled(words);
}

export function filled(words) {
  put({ lines: [] });
  draw();
  acted("filled", { words: words + " Nothing is submitted yet." });
  keepSoon();
}

export function maintain() {
  const words = "The form has bids to maintain your demand at the clock prices.";
  fill("maintain", () => sheet.maintain(state.me.demands), words);
}

export function copyInForce() {
  const take = () => sheet.take(state.inForce.bids);
  fill("copying the bids in force", take, "The form has your bids in force.");
}

export const empty = () => fill("clear", () => sheet.clear(), "The form is empty.");

// -- The draft

function keepSoon() {
  clearTimeout(timer);
  timer = setTimeout(keep, SOON);
}

/** Keeps the draft, or forgets it if the form has nothing that the server does not have. */
export function keep() {
  clearTimeout(timer);
  if (!state.me) return;
  const { name, round } = state.me, rows = shown(state).isUnsaved ? sheet.toJSON() : [];
  keepDraft({ auction, bidder: name, round, time: timeOfDay(), rows });
}

/**
 * Takes the draft of this tab, if it has other entries than the form, and returns what is said of
 * it. One of an earlier round can be taken without its prices.
 */
export function takeDraft(me, count) {
  const draft = me.ended ? null : draftOf(auction, me.name, count);
  if (!draft || JSON.stringify(draft.rows) === JSON.stringify(sheet.toJSON())) return "";
  if (draft.round > me.round) return "";
  if (draft.round < me.round) {
    put({ old: draft });
    return `This tab has entries for round ${draft.round}, which is closed.`;
  }
  remember("the draft");
  sheet.fromJSON(draft.rows);
  return `Your entries of ${draft.time} are back. They are not submitted.`;
}

/** Takes the quantities of a draft of an earlier round. */
export function takeOld() {
  const { round, rows } = state.old;
  put({ old: null });
  const words = `The form has your quantities of round ${round}, at the clock prices.`;
  fill("taking the old quantities", () => sheet.fromJSON(rows, true), words);
}
