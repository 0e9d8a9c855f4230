// How long pages wait after a closing, and which rows of a table are shown, in which order.

import assert from "node:assert/strict";
import test from "node:test";

import { spread } from "../../web/api.js";
import { countWords, isFound, searched, sorted, turned } from "../../web/choosing.js";

// Products, a random part, and the milliseconds to wait.
for (const [products, random, wait] of [
  [1, 0.999, 0], [6, 0.5, 1], [230, 0.5, 57], [3000, 0.5, 750], [4096, 0.999, 1498], [4096, 0, 0],
]) {
  test(`after a closing of ${products} products a page waits ${wait} ms`, () => {
    assert.equal(spread(products, random), wait);
  });
}

test("pages of one closing ask at different times", () => {
  const waits = new Set(Array.from({ length: 512 }, () => spread(3233)));
  assert.ok(waits.size > 300);
  assert.ok([...waits].every((wait) => wait >= 0 && wait < 1500));
});

// A search, and whether it finds "AL-county-0019".
for (const [text, isThere] of [
  ["", true], ["  ", true], ["al", true], ["-0019", true], ["county al", true], ["AL 19", true],
  ["0020", false], ["al xx", false],
]) {
  test(`the search "${text}" ${isThere ? "finds" : "does not find"} a name`, () => {
    assert.equal(isFound("AL-county-0019", searched(text)), isThere);
  });
}

const VALUES = [3, 1, 2, 1];
const NAMES = ["B-10", "B-9", "A-2", "B-9"];
for (const [name, by, isDown, places] of [
  ["as they are", null, false, [0, 1, 2, 3]],
  ["rising", (p) => VALUES[p], false, [1, 3, 2, 0]],
  ["falling, equal ones as they are", (p) => VALUES[p], true, [0, 2, 1, 3]],
  ["by name, numbers as numbers", (p) => NAMES[p], false, [2, 1, 3, 0]],
]) {
  test(`rows are sorted: ${name}`, () => {
    assert.deepEqual(sorted([0, 1, 2, 3], by, isDown), places);
  });
}

test("a head sorts rising, falling, and then as before; another one begins again", () => {
  const start = { id: null, isDown: false };
  const rising = turned(start, "a"), falling = turned(rising, "a");
  assert.deepEqual([rising, falling], [{ id: "a", isDown: false }, { id: "a", isDown: true }]);
  assert.deepEqual(turned(falling, "a"), start);
  assert.deepEqual(turned(falling, "b"), { id: "b", isDown: false });
});

test("rows are counted, of all if some are left out", () => {
  assert.equal(countWords(3233, 3233, "product"), "3,233 products");
  assert.equal(countWords(1, 1, "product"), "1 product");
  assert.equal(countWords(7, 3233, "product"), "7 of 3,233");
});
