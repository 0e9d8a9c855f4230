// What is said after a closing.

import assert from "node:assert/strict";
import test from "node:test";

import { carriedWords, changeWords, fallWords } from "../../web/closing.js";

const PRODUCTS = { products: [{ name: "A" }, { name: "B" }] };
const me = (round, demands, eligibility, ended = false) => ({ round, demands, eligibility, ended });
const said = (before, after) => changeWords(before, after, PRODUCTS).filter(Boolean).join(" ");

for (const [name, before, after, words] of [
  [
    "nothing changed",
    me(1, [2, 0], 4),
    me(2, [2, 0], 4),
    "Round 1 is closed. Your processed demand did not change.",
  ],
  [
    "demand and eligibility",
    me(1, [0, 0], 4),
    me(2, [2, 0], 3),
    "Round 1 is closed. Your processed demand changed in 1 of 2 products. "
      + "Your eligibility fell from 4 to 3.",
  ],
  [
    "the end",
    me(2, [2, 1], 4),
    me(2, [1, 0], 4, true),
    "The auction has ended after round 2. Your processed demand changed in 2 of 2 products.",
  ],
]) {
  test(`after a closing: ${name}`, () => assert.equal(said(before, after), words));
}

test("a round that falls is another server's", () => {
  const [words] = fallWords({ round: 5 }, { round: 2 });
  assert.match(words, /fell from 5 to 2: another server answers/);
});

for (const [name, counts, isUnknown, words] of [
  ["nothing to say", [0, 0, 0], false, ""],
  ["one of each", [1, 1, 1], false, "In the form, 1 row maintains demand at the new clock price; "
    + "1 row is empty; 1 row that you had not submitted keeps its quantity: not submitted yet."],
  ["many", [2, 2, 2], false, "In the form, 2 rows maintain demand at the new clock price; "
    + "2 rows are empty; 2 rows that you had not submitted keep their quantity: "
    + "not submitted yet."],
  ["not known what was submitted", [0, 0, 1], true,
    "In the form, 1 row keeps its quantity: not submitted yet."],
]) {
  test(`how the form was prepared: ${name}`, () => {
    const [maintained, emptied, left] = counts;
    assert.equal(carriedWords({ maintained, emptied, left }, isUnknown), words);
  });
}
