// What a row of the grid asks for, in words, and what is in force of it.

import assert from "node:assert/strict";
import test from "node:test";

import { effectOf, inForceOf, isAbove, rankOf } from "../../web/effects.js";

const PRODUCT = { name: "A", units: 1, supply: 2, cap: 4, opening: 100 };

/** A view of one product: `held` blocks, price points as typed, and more. */
function view(given = {}) {
  const { held = 2, round = 2, ended = false, steps = [["", ""]], demand = 3, ...more } = given;
  const typed = steps.map(([quantity, price]) => ({ quantity, price }));
  return {
    me: { round, ended, demands: [held] },
    terms: { products: [PRODUCT], prices: [{ start: 100, clock: 110 }] },
    sold: [{ demand }],
    submitted: new Map(),
    steps: () => typed,
    isAsked: () => typed.some(({ quantity, price }) => quantity + price !== ""),
    isWrong: () => false,
    ...more,
  };
}

for (const [name, given, kind, words] of [
  ["a missing bid", {}, "missing", "Missing bid: asks for 0 at $100."],
  [
    "a missing bid without excess demand",
    { demand: null },
    "missing",
    "Missing bid: asks for 0 at $100. No excess demand: only if others increase.",
  ],
  ["nothing held, nothing asked", { held: 0 }, "", ""],
  ["maintain", { steps: [["2", ""]] }, "", "Maintain 2."],
  ["0 blocks of none", { held: 0, steps: [["0", ""]] }, "", ""],
  ["reduce", { steps: [["1", "105"]] }, "change", "Reduce 2 to 1."],
  [
    "reduce without excess demand",
    { steps: [["1", "105"]], demand: null },
    "change",
    "Reduce 2 to 1. No excess demand: only if others increase.",
  ],
  ["increase", { steps: [["4", "105"]] }, "change", "Increase 2 to 4."],
  ["what cannot be read", { steps: [["x", ""]] }, "", ""],
  ["round 1", { round: 1, held: 0, steps: [["2", ""]] }, "", ""],
  ["after the end", { ended: true }, "", ""],
  [
    "more than it is worth",
    { steps: [["2", ""]], worth: [[200, 109]] },
    "above",
    "Maintain 2. Its last block is worth less than the clock price.",
  ],
  ["as much as it is worth", { steps: [["2", ""]], worth: [[200, 110]] }, "", "Maintain 2."],
]) {
  test(`a row says: ${name}`, () => {
    assert.deepEqual(effectOf(view(given), 0, 0), [kind, words]);
  });
}

test("a second price point counts from the first", () => {
  const steps = [["1", "103"], ["0", "107"]];
  assert.deepEqual(effectOf(view({ steps }), 0, 1), ["change", "Reduce 1 to 0."]);
});

const BID = { product: 0, quantity: 1, price: 105 };
for (const [name, steps, bids, words] of [
  ["nothing", [["1", "105"]], [], ""],
  ["the same", [["1", "$105"]], [BID], "✓ in force"],
  ["another price", [["1", "106"]], [BID], "In force: 1 at $105"],
  ["the clock price", [["1", ""]], [{ ...BID, price: 110 }], "✓ in force"],
  ["more price points", [["1", "105"]], [BID, BID, BID], "✓ in force, 2 more"],
]) {
  test(`a row says what is in force: ${name}`, () => {
    assert.equal(inForceOf(view({ steps, submitted: new Map([[0, bids]]) }), 0, 0), words);
  });
}

test("a row is above its worth by its last block, or by what is held", () => {
  assert.ok(isAbove(view({ worth: [[200]] }), 0), "2 held, of which one is worth something");
  assert.ok(!isAbove(view({ worth: [[200]], steps: [["1", ""]] }), 0));
  assert.ok(!isAbove(view({ steps: [["4", ""]] }), 0), "nobody has said what it is worth");
});

test("rows that ask for attention come first", () => {
  const ranks = [
    view({ isWrong: () => true }),
    view(),
    view({ steps: [["1", ""]] }),
    view({ steps: [["2", ""]] }),
    view({ held: 0 }),
  ].map((given) => rankOf(given, 0));
  assert.deepEqual(ranks, [0, 1, 2, 3, 4]);
});
