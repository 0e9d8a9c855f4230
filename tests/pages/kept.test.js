// Bids of past rounds from a receipts file: only what was signed, and only of this bidder and
// auction.

import assert from "node:assert/strict";
import crypto from "node:crypto";
import test from "node:test";

import { bidsOfFile, loadedWords } from "../../web/kept.js";

const { privateKey, publicKey } = crypto.generateKeyPairSync("ed25519");
const key = publicKey.export({ type: "spki", format: "der" }).toString("base64");
const COMMITMENT = { auction: "a".repeat(64), key };
const sha = (text) => crypto.createHash("sha256").update(text).digest("hex");
const NAMES = ["auction", "bidder", "by", "round", "sheet", "taken", "body", "text"];

function signed(given) {
  const lines = NAMES.map((name) => `${name} ${given[name]}\n`).join("");
  const kind = given.mock ? "mock " : "";
  const text = Buffer.from(`clock_auction ${kind}receipt 2\n${lines}`);
  return { ...given, signature: crypto.sign(null, text, privateKey).toString("hex") };
}

/** A receipt of a sheet with one bid, with what was sent unless `isKnown` is false. */
function receipt(round, sheet, quantity, more = {}, isKnown = true) {
  const sent = JSON.stringify({ bids: [{ price: 100, product: 0, quantity }], round });
  const given = {
    auction: COMMITMENT.auction, bidder: "X", by: "X", taken: "2026-12-01T10:00:00Z",
    round, sheet, body: sha(sent), text: "t", ...more,
  };
  return { ...signed(given), ...(isKnown ? { sent } : {}) };
}

const file = (...lines) => (
  [COMMITMENT, ...lines].map((line) => `${JSON.stringify(line)}\n`).join(""));
const read = (...lines) => bidsOfFile(file(...lines), COMMITMENT, "X");
const quantities = ({ rounds }) => (
  [...rounds].map(([round, bids]) => [round, bids.map(({ quantity }) => quantity)]));

test("the bids of a round are those of its last sheet", async () => {
  const found = await read(receipt(1, 1, 2), receipt(1, 2, 1), receipt(2, 1, 0));
  assert.deepEqual(quantities(found), [[1, [1]], [2, [0]]]);
  assert.equal(loadedWords(found), "Bids of rounds 1, 2 are loaded.");
});

test("an earlier sheet is not taken for a last one that is not in the file", async () => {
  const found = await read(receipt(1, 1, 2), receipt(1, 2, 1, {}, false), receipt(2, 1, 1));
  assert.deepEqual([quantities(found), found.unknown], [[[2, [1]]], [1]]);
  assert.equal(
    loadedWords(found), "Bids of round 2 are loaded. Those of 1 are not in the file.");
});

test("bids that are not those that were signed are not taken", async () => {
  const one = receipt(1, 1, 2);
  const found = await read({ ...one, sent: one.sent.replace("100", "101") });
  assert.deepEqual([found.rounds.size, found.unknown], [0, [1]]);
});

test("bids that name another round are not taken", async () => {
  const sent = receipt(2, 1, 1).sent;
  const found = await read({ ...signed({ ...receipt(1, 1, 1), body: sha(sent) }), sent });
  assert.deepEqual([found.rounds.size, found.unknown], [0, [1]]);
});

// What is wrong with a file, and what is said.
for (const [name, lines, words] of [
  ["of another auction", [receipt(1, 1, 1, { auction: "b".repeat(64) })], "another auction"],
  ["of a mock auction", [receipt(1, 1, 1, { mock: true })], "of the mock auction"],
  ["of another bidder", [receipt(1, 1, 1, { bidder: "Y" })], "another bidder"],
  ["a wrong signature", [{ ...receipt(1, 1, 1), round: 2 }], "wrong signature"],
  ["no receipts", [], "has no receipts"],
]) {
  test(`nothing is taken of a file: ${name}`, async () => {
    const found = await read(...lines);
    assert.equal(found.rounds.size, 0);
    assert.ok(loadedWords(found).startsWith("Not loaded: ") && found.fault.includes(words));
  });
}

test("a mock auction takes its own receipts only", async () => {
  const mock = { ...COMMITMENT, mock: true };
  const own = await bidsOfFile(file(receipt(1, 1, 1, { mock: true })), mock, "X");
  assert.equal(own.fault, "");
  const other = await bidsOfFile(file(receipt(1, 1, 1)), mock, "X");
  assert.equal(other.fault, "a receipt is of the real auction");
  const { mock: _, ...unmarked } = receipt(1, 1, 1, { mock: true });
  const marked = { ...receipt(1, 1, 1), mock: true };
  assert.equal((await read(unmarked)).fault, "a receipt has a wrong signature");
  const found = await bidsOfFile(file(marked), mock, "X");
  assert.equal(found.fault, "a receipt has a wrong signature");
});

test("a file that is no receipts file is refused", async () => {
  const found = await bidsOfFile("product,quantity,price\n", COMMITMENT, "X");
  assert.equal(found.fault, "a line is not a receipt");
});

test("without a commitment nothing can be checked", async () => {
  assert.ok((await bidsOfFile(file(receipt(1, 1, 1)), null, "X")).fault);
});
