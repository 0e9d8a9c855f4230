// What the public page shows, in a table of states.

import assert from "node:assert/strict";
import test from "node:test";

import { begun, fileOf, pointsOf, rowsOf, shown, wanted } from "../../web/published.js";

const PRODUCTS = [
  { name: "A", units: 1, supply: 2, cap: 2, opening: 100 },
  { name: "B", units: 1, supply: 3, cap: 3, opening: 50 },
];
const sold = (start, posted, clock, demand, next) => ({ start, posted, clock, demand, next });
const ROUND_1 = {
  digest: "a".repeat(64),
  products: [sold(100, 100, 100, 3, 110), sold(50, 50, 50, null, 55)],
};
const ROUND_2 = {
  digest: "b".repeat(64),
  products: [sold(100, 110, 110, null, null), sold(50, 50, 55, null, null)],
};
const state = (round, ended, pages = {}, more = {}) => ({
  ...begun(),
  products: PRODUCTS,
  now: { round, ended },
  rounds: new Map(Object.entries(pages).map(([n, page]) => [Number(n), page])),
  ...more,
});

test("before anything is known, nothing is shown", () => {
  const now = shown(begun());
  assert.equal(now.isKnown, false);
  assert.deepEqual([now.rows, now.facts, now.choices, now.progress], [[], [], [], ""]);
});

test("before round 1 is closed, products, supply and opening prices are shown", () => {
  const now = shown(state(1, false));
  assert.deepEqual(now.facts.map(([name, value]) => [name, value]), [
    ["Closed rounds", "0"],
    ["Products", "2"],
    ["Blocks for sale", "5"],
    ["Total at opening prices", "$350"],
  ]);
  const seen = now.rows.map((row) => [row.name, row.supply, row.start, row.clock, row.posted]);
  assert.deepEqual(seen, [["A", 2, 100, 100, null], ["B", 3, 50, 50, null]]);
  assert.deepEqual(now.choices, [[1, "1, not closed"]]);
  assert.equal(now.caption, "Prices of round 1, which is not closed");
  assert.equal(now.canSave, false);
});

test("the newest closed round is shown, and rounds to choose from are newest first", () => {
  const now = shown(state(3, false, { 1: ROUND_1, 2: ROUND_2 }));
  assert.equal(now.chosen, 2);
  assert.deepEqual(now.choices.map(([n]) => n), [3, 2, 1]);
  assert.equal(now.digest, "b".repeat(64));
});

test("a closed round has posted prices, demand and excess", () => {
  const rows = rowsOf(state(2, false, { 1: ROUND_1 }));
  assert.deepEqual(
    rows.map(({ posted, demand, isExcess, excess }) => [posted, demand, isExcess, excess]),
    [[100, 3, true, 1], [50, 3, false, 0]]
  );
});

test("the round to come has the last posted prices, and the next clock prices", () => {
  const rows = rowsOf(state(2, false, { 1: ROUND_1 }, { round: 2 }));
  const seen = rows.map(({ start, clock, posted }) => [start, clock, posted]);
  assert.deepEqual(seen, [[100, 110, null], [50, 55, null]]);
});

test("a round that a person has chosen stays when another one is closed", () => {
  const pages = { 1: ROUND_1, 2: ROUND_2 };
  assert.equal(shown(state(2, false, { 1: ROUND_1 }, { round: 1 })).chosen, 1);
  assert.equal(shown(state(3, false, pages, { round: 1 })).chosen, 1);
  assert.equal(shown(state(2, true, pages, { round: 3 })).chosen, 2, "there is no round 3");
});

// What is known, and the rounds that are loaded, in their order.
for (const [name, given, rounds] of [
  ["before the first closing none", state(1, false), []],
  ["at first the newest one", state(76, false), Array.from({ length: 75 }, (_, n) => 75 - n)],
  ["the chosen one before others", state(4, false, {}, { round: 2 }), [2, 3, 1]],
  ["only those that are missing", state(4, false, { 3: ROUND_1 }), [2, 1]],
  ["none that is not published", state(3, false, {}, { absent: new Set([2]) }), [1]],
  ["the last one at the end", state(2, true), [2, 1]],
  ["nothing if the round is not known", begun(), []],
]) {
  test(`rounds are loaded: ${name}`, () => assert.deepEqual(wanted(given), rounds));
}

test("what is still to be loaded is said, and then no longer", () => {
  const some = Object.fromEntries([...Array(12)].map((_, n) => [n + 1, ROUND_1]));
  assert.equal(shown(state(77, false, some)).progress, "Loading closed rounds: 12 of 76.");
  assert.equal(shown(state(2, false, { 1: ROUND_1 })).progress, "");
});

test("closed rounds that are not published are spoken of", () => {
  const none = state(3, false, {}, { absent: new Set([1, 2]) });
  assert.equal(shown(none).progress, "The operator has published no closed round yet.");
  assert.equal(shown(none).chosen, 3);
  assert.deepEqual(shown(none).rows, [], "the prices of round 3 are not known");
  const one = state(3, false, { 2: ROUND_2 }, { absent: new Set([1]) });
  assert.equal(shown(one).progress, "1 of 2 closed rounds are not published.");
});

test("the state of the auction is added up", () => {
  const facts = shown(state(2, false, { 1: ROUND_1 })).facts;
  assert.deepEqual(facts.map(([name, value]) => [name, value]), [
    ["Closed rounds", "1"],
    ["Products with excess demand", "1 of 2"],
    ["Excess demand, in blocks", "1"],
    ["Total at posted prices", "$350"],
  ]);
});

test("totals above what a number holds are exact", () => {
  const product = { name: "A", units: 1, supply: 1000, cap: 1, opening: 10 ** 12 };
  const products = Array.from({ length: 4096 }, () => product);
  const { facts } = shown({ ...state(1, false), products });
  assert.equal(facts[3][1], "$4,096,000,000,000,000,000");
});

test("the winners have what they won and pay", () => {
  const won = { bidders: [{ name: "X", demands: [1, 2], pays: 210 }] };
  const now = shown(state(2, true, { 1: ROUND_1, 2: ROUND_2 }, { won }));
  assert.deepEqual(now.winners, [{ name: "X", blocks: 3, pays: 210, products: ["A: 1", "B: 2"] }]);
  assert.deepEqual(now.facts[4], ["Proceeds", "$210", "what the winners pay"]);
  assert.equal(now.round, "Ended after round 2");
});

test("a product has its price and excess by round", () => {
  const points = pointsOf(state(3, false, { 2: ROUND_2, 1: ROUND_1 }), 0);
  const seen = points.map(({ round, price, blocks }) => [round, price, blocks]);
  assert.deepEqual(seen, [[1, 100, 1], [2, 110, 0]]);
});

test("the file has a line for each product of each round, from round 1 on", () => {
  const lines = fileOf(state(3, false, { 2: ROUND_2, 1: ROUND_1 }));
  assert.deepEqual(lines.slice(0, 3), [
    ["round", "product", "supply", "start", "clock", "posted", "demand", "next"],
    [1, "A", 2, 100, 100, 100, 3, 110],
    [1, "B", 3, 50, 50, 50, "", 55],
  ]);
  assert.equal(lines.length, 5);
});
