// What the page knows of receipts: which are of its own sheets, and the file that it saves.

import assert from "node:assert/strict";
import crypto from "node:crypto";
import test from "node:test";

import { strangeWords } from "../../web/message.js";
import { fileOf, isSigned, Receipts, REFUSAL, withSent } from "../../web/receipts.js";

const receipt = (sheet, body, by = "") => ({ round: 1, sheet, body, by });
const sheets = (receipts) => receipts.map(({ sent }) => sent);

test("a receipt of a sheet that was sent has what was sent", () => {
  const found = withSent([receipt(1, "a"), receipt(2, "b")], ["A", "B"], ["a", "b"]);
  assert.deepEqual(sheets(found), ["A", "B"]);
});

test("a sheet that was put in has none", () => {
  assert.deepEqual(sheets(withSent([receipt(1, "a")], ["B"], ["b"])), [undefined]);
});

test("a sheet that was sent once and put in again has one", () => {
  const twice = [receipt(1, "a"), receipt(2, "a")];
  assert.deepEqual(sheets(withSent(twice, ["A"], ["a"])), ["A", undefined]);
  assert.deepEqual(sheets(withSent(twice, ["A", "A"], ["a", "a"])), ["A", "A"]);
});

test("nothing is said if all were sent", () => assert.equal(strangeWords([]), ""));

test("one that was not sent is named, with its person", () => {
  assert.equal(
    strangeWords([receipt(2, "a", "bob")]),
    "One sheet in your name was not sent from this tab: sheet 2 of round 1, by bob. " +
    "If none of your people sent it, call the auditor.");
});

test("of several that were not sent, the last one is named", () => {
  assert.equal(
    strangeWords([receipt(2, "a"), receipt(3, "a")]),
    "2 sheets in your name were not sent from this tab, the last one sheet 3 of round 1. " +
    "If none of your people sent it, call the auditor.");
});

test("the file has the commitment, the bidder, what was sent, and the receipts", () => {
  const lines = fileOf({ key: "k" }, "X", ["A"], [receipt(1, "a")]).split("\n");
  assert.deepEqual(lines.slice(0, 3), ['{"key":"k"}', '{"bidder":"X"}', '{"sent":"A"}']);
  assert.deepEqual([JSON.parse(lines[3]), lines[4]], [receipt(1, "a"), ""]);
});

// Which receipts a page takes: those that are marked as its commitment is.

const { privateKey, publicKey } = crypto.generateKeyPairSync("ed25519");
const KEY = publicKey.export({ type: "spki", format: "der" }).toString("base64");
const AUCTION = "a".repeat(64), MOCK = { mock: true };

/** A receipt of an empty sheet, signed as one of a mock auction or not. */
function signedReceipt(isMock, sheet = 1) {
  const body = crypto.createHash("sha256").update('{"bids":[],"round":1}').digest("hex");
  const lines = [`clock_auction ${isMock ? "mock " : ""}receipt 2`, `auction ${AUCTION}`,
    "bidder X", "by ", "round 1", `sheet ${sheet}`, "taken ", `body ${body}`, "text t"];
  const text = Buffer.from(lines.map((line) => line + "\n").join(""));
  const signature = crypto.sign(null, text, privateKey).toString("hex");
  return { auction: AUCTION, bidder: "X", by: "", round: 1, sheet, taken: "", body, text: "t",
    signature };
}

/** What a page of X says of the receipt of its sheet, if its commitment has this mark. */
async function said(mark, given) {
  let isThere = false;
  const asker = {
    commitment: async () => ({ auction: AUCTION, chain: null, key: KEY, ...mark }),
    receipt: async (_, sheet) => (isThere && sheet === 1 ? given : null),
    refusal: async () => null,
  };
  let done;
  const answer = new Promise((resolve) => { done = resolve; });
  const own = new Receipts((found) => found && found.kind !== "waiting" && done(found));
  await own.begin(asker, "X", 1);
  isThere = true;
  await own.note(1, []);
  own.expect(1, []);
  return answer;
}

for (const [name, mark, given, kind] of [
  ["of its own kind, real", {}, signedReceipt(false), "here"],
  ["of its own kind, mock", MOCK, { ...signedReceipt(true), ...MOCK }, "here"],
  ["of a mock auction, in a real one", {}, { ...signedReceipt(true), ...MOCK }, "wrong"],
  ["of a real auction, in a mock one", MOCK, signedReceipt(false), "wrong"],
  ["whose mark was taken off", {}, signedReceipt(true), "wrong"],
  ["whose mark was added", MOCK, { ...signedReceipt(false), ...MOCK }, "wrong"],
  ["whose mark is a word", MOCK, { ...signedReceipt(false), mock: "true" }, "wrong"],
])
  test(`a receipt ${name}: ${kind}`, async () =>
    assert.deepEqual(await said(mark, given), { kind, round: 1, isMock: mark === MOCK }));

test("bids that were sent twice do not get the first receipt for the second", async () => {
  let asked = 0;
  const asker = {
    commitment: async () => ({ auction: AUCTION, chain: null, key: KEY }),
    receipt: async (_, sheet) => {
      if (sheet > 2 || asked === 0) return null;
      return sheet === 1 || ++asked > 3 ? signedReceipt(false, sheet) : null;
    },
    refusal: async () => null,
  };
  let done;
  const counted = new Promise((resolve) => { done = resolve; });
  const own = new Receipts((found) => found?.kind === "here" && done(own.count));
  await own.begin(asker, "X", 1);
  asked = 1;
  await own.note(1, []);
  await own.note(1, []);
  own.expect(1, []);
  assert.equal(await counted, 2);
});

// ---- What the committed key has signed

const HASH = "a".repeat(64);
const TAKEN = "2026-11-30T13:00:00Z";
const PAGES = {
  receipt: {
    given: [undefined],
    page: {
      auction: HASH, bidder: "X", by: "", round: 1, sheet: 2, taken: TAKEN, body: HASH, text: HASH,
    },
    message: `clock_auction receipt 2\nauction ${HASH}\nbidder X\nby \nround 1\nsheet 2\n` +
      `taken ${TAKEN}\nbody ${HASH}\ntext ${HASH}\n`,
  },
  refusal: {
    given: [REFUSAL],
    page: { auction: HASH, bidder: "X", by: "bob", number: 3, time: TAKEN },
    message: `clock_auction refusal 1\nauction ${HASH}\nbidder X\nby bob\nnumber 3\n` +
      `time ${TAKEN}\n`,
  },
};
for (const [name, { given, page, message }] of Object.entries(PAGES)) {
  const signature = crypto.sign(null, Buffer.from(message), privateKey).toString("hex");
  test(`a ${name} is signed as docs/formats.md says`, async () => {
    assert.equal(await isSigned(KEY, { ...page, signature }, ...given), true);
  });
  for (const part of Object.keys(page)) {
    test(`a ${name} with another ${part} is not signed`, async () => {
      assert.equal(await isSigned(KEY, { ...page, [part]: "9", signature }, ...given), false);
    });
  }
  for (const wrong of ["", "x", "0".repeat(128), null]) {
    test(`a ${name} with the signature ${wrong} is not signed`, async () => {
      assert.equal(await isSigned(KEY, { ...page, signature: wrong }, ...given), false);
    });
  }
}

test("a refusal is one of the mock auction exactly if its mark is signed", async () => {
  const { page, message } = PAGES.refusal;
  const signed = message.replace("clock_auction", "clock_auction mock");
  const signature = crypto.sign(null, Buffer.from(signed), privateKey).toString("hex");
  const marked = { ...page, signature, mock: true };
  assert.equal(await isSigned(KEY, marked, REFUSAL), true);
  assert.equal(await isSigned(KEY, { ...page, signature }, REFUSAL), false);
});

test("a refusal is not taken for a receipt", async () => {
  const { page, message } = PAGES.refusal;
  const signature = crypto.sign(null, Buffer.from(message), privateKey).toString("hex");
  assert.equal(await isSigned(KEY, { ...page, signature }), false);
});

test("the file has refusals after the receipts", () => {
  const { page } = PAGES.refusal;
  const lines = fileOf({ key: "k" }, "X", [], [receipt(1, "a")], [page]).trim().split("\n");
  assert.deepEqual(JSON.parse(lines.at(-1)), page);
});
