// The review before a submission, in a table of forms, and that it never says too little of the
// cost.

import assert from "node:assert/strict";
import test from "node:test";

import { linesOf, mostCost, reviewOf } from "../../web/review.js";
import { bid, force, form, KEEP, state } from "./states.js";

const lines = (change) => (
  linesOf(state(change)).map(({ id, products, blocks, names }) => [id, products, blocks, names]));

// The form, with a demand of two blocks of A, and the lines: kind, products, blocks, names.
for (const [name, bids, wanted] of [
  ["maintain", KEEP, [["keep", 1, 2, "A"]]],
  ["reduce", [bid(0, 1, 105)], [["fall", 1, 1, "A"]]],
  ["give up", [bid(0, 0, 105)], [["up", 1, 2, "A"]]],
  ["a missing bid", [], [["missing", 1, 2, "A"]]],
  ["increase", [bid(0, 3, 110)], [["rise", 1, 1, "A"]]],
  ["a new product", [...KEEP, bid(1, 1, 55)], [["rise", 1, 1, "B"], ["keep", 1, 2, "A"]]],
  ["no blocks of a product without demand", [...KEEP, bid(1, 0, 55)], [["keep", 1, 2, "A"]]],
  ["the last of two price points", [bid(0, 1, 105), bid(0, 0, 108)], [["up", 1, 2, "A"]]],
]) {
  test(`the review has lines for: ${name}`, () => {
    assert.deepEqual(lines({ form: form(bids) }), wanted);
  });
}

test("a line names three products, and says how many more there are", () => {
  const given = state();
  const [product] = given.terms.products;
  const products = Array.from({ length: 9 }, (_, n) => ({ ...product, name: `P${n}` }));
  const prices = products.map(() => ({ start: 100, clock: 110 }));
  const me = { ...given.me, demands: products.map(() => 1) };
  const terms = { ...given.terms, products, prices, held: me.demands };
  const [line] = linesOf({ ...given, me, terms, form: form([]) });
  assert.equal(line.names, "P0, P1, P2 and 6 more");
});

test("the sums are the cost, the most cost, activity, and eligibility", () => {
  const { sums } = reviewOf(state({ form: form([bid(0, 1, 105)]) }), "");
  assert.deepEqual(sums.map(([name, value]) => [name, value]), [
    ["If all bids are applied", "$105"],
    ["At most", "$220"],
    ["Activity", "1"],
    ["Eligibility after", "≥ 2"],
  ]);
});

test("in round 1 all bids are applied, so there is one cost, and eligibility is certain", () => {
  const given = state({ round: 1, demands: [0, 0], form: form([bid(0, 1, 100)]) });
  const { sums } = reviewOf(given, "");
  assert.deepEqual(sums.map(([name, value]) => [name, value]), [
    ["If all bids are applied", "$100"], ["Activity", "1"], ["Eligibility after", "2"],
  ]);
});

test("whatever is applied, and wherever prices end, it costs no more than the most", () => {
  for (let held = 0; held < 3; held++) {
    for (let asked = -1; asked < 4; asked++) {
      const bids = asked < 0 ? [] : [bid(0, asked, 110)];
      const given = state({ demands: [held, 1], form: form(bids) });
      const [low, high] = [Math.min(held, Math.max(asked, 0)), Math.max(held, asked)];
      for (let blocks = low; blocks <= high; blocks++) {
        for (let price = 100; price <= 110; price++) {
          for (const other of [50, 55]) {
            assert.ok(BigInt(blocks * price + other) <= mostCost(given));
          }
        }
      }
    }
  }
});

// The state, and what the button says; none if nothing can be submitted.
for (const [name, change, doubt, yes] of [
  ["nothing submitted yet", {}, "", "Submit 1 bid, $220"],
  ["a doubt", {}, "1 missing bid.", "Submit anyway"],
  ["in force already", { inForce: force(KEEP) }, "", ""],
  ["paused", { time: { phase: "paused" } }, "", ""],
  ["a row that cannot be read", { form: form([], [{ product: 0, step: 0, text: "x" }]) }, "", ""],
]) {
  test(`the review's button: ${name}`, () => {
    assert.equal(reviewOf(state(change), doubt).yes, yes);
  });
}
