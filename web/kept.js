// Bids of past rounds from a bidder's own receipts file, as `Download receipts` writes it: a line
// for the commitment, and one for each receipt, which has the bids if that tab sent them. Nothing
// here reads the page, so tests run it in Node.

import {hashOf, isSigned} from "./receipts.js";

/** The lines of a file that are JSON; null for others. */
const linesOf = (text) => text.split("\n").filter((line) => line.trim() !== "").map((line) => {
  try {
    return JSON.parse(line);
  } catch {
    return null;
  }
});

/** The bids of a receipt, if the file has them and they are those that were signed; or null. */
async function bidsOf({ sent, body, round }) {
  if (typeof sent !== "string" || await hashOf(sent) !== body) return null;
  try {
    const sheet = JSON.parse(sent);
    return sheet.round === round && Array.isArray(sheet.bids) ? sheet.bids : null;
  } catch {
    return null;
  }
}

/**
 * The bids of each round by a receipts file of this bidder and auction: those of the last sheet of
 * a round. Returns them as `rounds`, the numbers of rounds whose last sheet has no bids in the file
 * as `unknown`, and what is wrong with the file as `fault`, or "".
 */
export async function bidsOfFile(text, commitment, bidder) {
  const receipts = linesOf(text).filter((line) => line === null || line.sheet !== undefined);
  const result = { rounds: new Map(), unknown: [], fault: "" };
  const wrong = (fault) => ({...result, fault });
  if (!commitment) return wrong("this auction has no commitment to check receipts by");
  if (receipts.length === 0) return wrong("the file has no receipts");
  const last = new Map();
  for (const receipt of receipts) {
    if (receipt === null) return wrong("a line is not a receipt");
    if (receipt.mock !== commitment.mock)
      return wrong(`a receipt is of the ${receipt.mock ? "mock" : "real"} auction`);
    if (receipt.auction !== commitment.auction) return wrong("a receipt is of another auction");
    if (receipt.bidder !== bidder) return wrong("a receipt is of another bidder");
    if (!await isSigned(commitment.key, receipt)) return wrong("a receipt has a wrong signature");
    if ((last.get(receipt.round)?.sheet ?? 0) < receipt.sheet) last.set(receipt.round, receipt);
  }
  for (const [round, receipt] of last) {
    const bids = await bidsOf(receipt);
    if (bids)
      result.rounds.set(round, bids);
    else
      result.unknown.push(round);
  }
  return result;
}

/** What is said after a receipts file was loaded. */
export function loadedWords({rounds, unknown, fault}) {
  if (fault) return `Not loaded: ${fault}.`;
  const list = (numbers) => [...numbers].sort((a, b) => a - b).join(", ");
  const some = rounds.size ? `Bids of ${rounds.size === 1 ? "round" : "rounds"} ` +
      `${list(rounds.keys())} are loaded.`
                           : "The file has no bids.";
  return unknown.length ? `${some} Those of ${list(unknown)} are not in the file.` : some;
}
