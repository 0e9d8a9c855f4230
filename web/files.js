// The files that a bidder's person uploads to the page, and those that the page saves.

import {readBids, readValues, save, writtenBids, writtenRound} from "./csv.js";
import {fill} from "./filling.js";
import {judged} from "./judging.js";
import {bidsOfFile, loadedWords} from "./kept.js";
import {counted, lastClosed} from "./page.js";
import {acted, draw, past, put, receipts, sheet, state} from "./store.js";

/** The text of the file that was chosen, or null if it cannot be read. */
async function textOf(event) {
  const [file] = event.target.files, text = await file.text().catch(() => null);
  event.target.value = ""; // so that the same file can be chosen again
  if (text === null) acted("failed", { words: "The file cannot be read." });
  return text;
}

const MOST_LINES = 1000; // that are listed

/** Lists the wrong lines of a file or a paste. */
function tellLines(lines, words) {
  put({ lines: lines.slice(0, MOST_LINES) });
  acted("failed", { words: `Not ${words}: ${counted(lines.length, "wrong line")}.` });
}

/** Takes bids by product, from a file or a paste. */
export function takeText(text, what, words) {
  const { bids, wrong } = readBids(state.terms.products, text);
  if (wrong.length) return tellLines(wrong, words);
  fill(what, () => sheet.take(bids), `${counted(bids.length, "bid")} ${words}.`);
}

export async function upload(event) {
  const text = await textOf(event);
  if (text !== null) takeText(text, "upload", "uploaded");
}

export function download() {
  const { bids, isReadable } = judged(state), { me, terms } = state;
  if (!isReadable) return acted("notSaved");
  save(`bids-${me.name}-${me.round}.csv`, writtenBids(terms.products, bids));
}

/** Gives the round to the person as a file that can be filled in and uploaded. */
export function downloadRound() {
  const { me, terms } = state;
  const sold = past.products(lastClosed(me)) ?? null;
  const text = writtenRound(terms, sold, (p) => sheet.steps(p));
  save(`round-${me.round}-${me.name}.csv`, text);
}

/** Takes what blocks are worth from a file, which stays in this tab's memory only. */
export async function uploadValues(event) {
  const text = await textOf(event);
  if (text === null) return;
  const { worth, wrong } = readValues(state.terms.products, text);
  if (wrong.length) return tellLines(wrong, "loaded");
  const count = counted(worth.filter((values) => values.length > 0).length, "product");
  put({ worth, lines: [] });
  draw();
  acted("filled", { words: `The values of ${count} are loaded, in this tab only.` });
}

/** Takes the bids of past rounds from a receipts file. */
export async function uploadReceipts(event) {
  const text = await textOf(event);
  if (text === null) return;
  const found = await bidsOfFile(text, receipts.commitment, state.me.name);
  if (!found.fault) past.take(found.rounds);
  acted(found.fault ? "failed" : "filled", { words: loadedWords(found) });
}
