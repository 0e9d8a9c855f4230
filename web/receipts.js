// Receipts of accepted sheets, and refusals of late ones: this tab fetches, checks and keeps them.
// docs/formats.md has their form.

import {pause} from "./api.js";
import {save} from "./csv.js";
import {evidenceOf, keepEvidence} from "./draft.js";

const PATIENCE = 5000, EVERY = 200; // milliseconds to wait in all, and between two requests

const bytesOf = (text) => new TextEncoder().encode(text);

/** The SHA-256 of a text, in letters. */
export async function hashOf(text) {
  const hash = new Uint8Array(await crypto.subtle.digest("SHA-256", bytesOf(text)));
  return Array.from(hash, (byte) => byte.toString(16).padStart(2, "0")).join("");
}

/** What is signed: the end of the first line, and the names of the others. */
const RECEIPT = {
  first: "receipt 2",
  names: ["auction", "bidder", "by", "round", "sheet", "taken", "body", "text"],
};
export const REFUSAL = {
  first: "refusal 1",
  names: ["auction", "bidder", "by", "number", "time"],
};

/**
 * Whether the committed key has signed a receipt, or a refusal. A browser without Ed25519 does not
 * know, and the answer is yes.
 */
export async function isSigned(key, page, {first, names} = RECEIPT) {
  const lines = names.map((name) => `${name} ${page[name]}\n`);
  const spki = Uint8Array.from([...atob(key)].map((letter) => letter.charCodeAt(0)));
  const pairs = String(page.signature).match(/../g) ?? [];
  const signature = Uint8Array.from(pairs.map((pair) => parseInt(pair, 16)));
  const kind = page.mock === true ? "mock " : "";
  const text = bytesOf(`clock_auction ${kind}${first}\n${lines.join("")}`);
  const { subtle } = crypto;
  const read = await subtle.importKey("spki", spki, "Ed25519", false, ["verify"]).catch(() => null);
  return !read || subtle.verify("Ed25519", read, signature, text);
}

/** What a file may have of a receipt, or a refusal: the operator could add what makes it none. */
const partsOf = (page, { names }) => Object.fromEntries(
  [...names, "signature", "mock"].filter((name) => name in page).map((name) => [name, page[name]])
);

/** The body of a sheet, as `api.js` sends it. */
const textOf = (round, bids) => JSON.stringify({ bids, round });

/** The lines of a bidder's file, in the form of docs/formats.md. */
export function fileOf(commitment, bidder, sent, receipts, refusals = []) {
  const texts = sent.map((text) => ({ sent: text }));
  const lines = [commitment, { bidder }, ...texts, ...receipts, ...refusals];
  return lines.map((line) => JSON.stringify(line) + "\n").join("");
}

/**
 * The receipts, those with `sent` that this tab sent: each text that was sent counts for one
 * receipt. `bodies` has the digests of the texts.
 */
export function withSent(receipts, sent, bodies) {
  const left = sent.map((text, n) => ({ text, body: bodies[n] }));
  return receipts.map((receipt) => {
    const place = left.findIndex(({ body }) => body === receipt.body);
    return place < 0 ? receipt : {...receipt, sent: left.splice(place, 1)[0].text };
  });
}

export class Receipts {
  commitment = null;
  #asker;
  #bidder = "";
  #kept = [];                  // as the operator signed them
  #refusals = [];              // of late sheets, as the operator signed them
  #sent = [];                  // each text that this tab sent and that was not refused
  #shown = [];                 // the receipts, with what was sent
  #before = Promise.resolve(); // sheets get their receipts one after the other

  /**
   * `changed` takes { kind, round, isLate, isMock, time }: what is known of the receipt of the last
   * accepted sheet, or of the refusal of a late one.
   */
  constructor(changed) { this.changed = changed; }

  /** How many receipts and refusals this tab has. */
  get count() { return this.#kept.length + this.#refusals.length; }

  /** The receipts of sheets that this tab did not send. */
  get strange() { return this.#shown.filter(({ sent }) => sent === undefined); }

  /**
   * Begins with what this tab has of a bidder, also before a reload, and with the receipts since
   * then, if receipts are made at all.
   */
  async begin(asker, bidder, round) {
    this.commitment ??= await asker.commitment().catch(() => null);
    [this.#asker, this.#bidder] = [asker, bidder];
    const evidence = evidenceOf(this.commitment?.auction, bidder);
    [this.#kept, this.#sent, this.#refusals] =
      [evidence.receipts, evidence.sent, evidence.refusals];
    const last = this.#kept.at(-1)?.round ?? round;
    for (let one = last; one <= round; one++) await this.#takeAll(one);
    await this.#takeRefusal(); // of before, so that a new one is known by its number
    await this.#keep();
    this.changed(null);
  }

  /** Notes a sheet before it is sent, so that its receipt is known as this tab's own. */
  async note(round, bids) {
    this.#sent.push(textOf(round, bids));
    await this.#keep();
  }

  /** Forgets a sheet that was refused: no receipt can be of it. */
  async refused(round, bids) {
    const place = this.#sent.lastIndexOf(textOf(round, bids));
    if (place >= 0) this.#sent.splice(place, 1);
    await this.#keep();
  }

  /**
   * Waits for the receipt of a sheet that was accepted, and says that it is there, missing, or
   * wrong.
   */
  expect(round, bids) {
    const text = textOf(round, bids);
    const times = this.#sent.filter((one) => one === text).length;
    this.#before = this.#before.then(() => this.commitment && this.#await(round, text, times));
  }

  /** Waits for the signed refusal of a sheet that came too late, and says what came. */
  expectRefusal(round) {
    this.#before = this.#before.then(() => this.commitment && this.#awaitRefusal(round));
  }

  async #awaitRefusal(round) {
    const tell = async (kind, time = "") => {
      await this.#keep();
      const isMock = this.commitment.mock === true;
      this.changed({ kind, round, isLate: true, isMock, time });
    };
    await tell("waiting");
    for (const end = Date.now() + PATIENCE;;) {
      const refusal = await this.#takeRefusal();
      if (refusal) return tell(refusal.isWrong ? "wrong" : "here", refusal.time);
      if (Date.now() > end) return tell("missing");
      await pause(EVERY);
    }
  }

  /** The last refusal, if this tab does not have it yet. */
  async #takeRefusal() {
    const refusal = this.commitment && await this.#asker.refusal().catch(() => null);
    if (!refusal || refusal.number <= (this.#refusals.at(-1)?.number ?? 0)) return null;
    const { auction, key, mock } = this.commitment;
    const isMine =
      refusal.auction === auction && refusal.bidder === this.#bidder && refusal.mock === mock;
    if (!isMine || !await isSigned(key, refusal, REFUSAL)) return { isWrong: true };
    this.#refusals.push(partsOf(refusal, REFUSAL));
    return refusal;
  }

  /** Takes the receipts of a closed round that came late, or are of sheets of someone else. */
  closed(round) {
    this.#before = this.#before.then(async () => {
      await this.#takeAll(round);
      await this.#keep();
      this.changed(null);
    });
  }

  /** A text that was sent several times needs a receipt for each: an earlier one may be late. */
  async #await(round, sent, times) {
    const body = await hashOf(sent);
    const isBody = (one) => one.round === round && one.body === body;
    const end = Date.now() + PATIENCE;
    const tell = async (kind) => {
      await this.#keep();
      this.changed({ kind, round, isMock: this.commitment.mock === true });
    };
    await tell("waiting");
    for (;;) {
      const receipt = await this.#take(round);
      if (receipt?.body === null) return tell("wrong");
      if (this.#kept.filter(isBody).length >= times) return tell("here");
      if (!receipt && Date.now() > end) return tell("missing");
      if (!receipt) await pause(EVERY);
    }
  }

  /** Takes all receipts of a round that are there. */
  async #takeAll(round) {
    while ((await this.#take(round))?.body)
      ;
  }

  /** The next receipt of a round, if it is there; without a body if it is wrong. */
  async #take(round) {
    const sheet = 1 + this.#kept.filter((one) => one.round === round).length;
    const receipt = this.commitment && await this.#asker.receipt(round, sheet).catch(() => null);
    if (!receipt) return null;
    const { auction, key, mock } = this.commitment;
    const named = [receipt.auction, receipt.bidder, receipt.round, receipt.sheet];
    const wanted = [auction, this.#bidder, round, sheet];
    const isOwn = named.join() === wanted.join() && receipt.mock === mock;
    if (!isOwn || !await isSigned(key, receipt)) return { body: null };
    this.#kept.push(partsOf(receipt, RECEIPT));
    return receipt;
  }

  /** Keeps what this tab has, and finds which receipts are of its own sheets. */
  async #keep() {
    const evidence = { receipts: this.#kept, sent: this.#sent, refusals: this.#refusals };
    keepEvidence(this.commitment?.auction, this.#bidder, evidence);
    const bodies = await Promise.all(this.#sent.map(hashOf));
    this.#shown = withSent(this.#kept, this.#sent, bodies);
  }

  /**
   * Gives all receipts and refusals to the person, with what this tab sent, as a file for
   * `auction check-receipts`.
   */
  save() {
    const text = fileOf(this.commitment, this.#bidder, this.#sent, this.#shown, this.#refusals);
    save(`receipts-${this.#bidder}.jsonl`, text);
  }
}
