// Charts by round: what is drawn can be read with 1 round and with 76, and with small and great
// numbers.

import assert from "node:assert/strict";
import test from "node:test";

import { labelled, placeAt, plotOf, sparkOf, ticks } from "../../web/chart.js";

const LETTER = 7;
const points = (count, price = (n) => 100 + n, blocks = (n) => n % 7) => (
  Array.from({ length: count }, (_, n) => (
    { round: n + 1, price: price(n), blocks: blocks(n), other: n % 2 ? null : n })));
const CHARTS = {
  "one round": points(1),
  "two rounds": points(2),
  "76 rounds": points(76),
  "a price that never changes": points(9, () => 100),
  "a dollar's rise": points(9, (n) => 100 + (n > 4 ? 1 : 0)),
  "the highest prices": points(76, (n) => 10 ** 12 - n),
  "no blocks": points(9, undefined, () => 0),
  "commitments above what a number holds": points(9, (n) => 10n ** 18n + BigInt(n) * 10n ** 16n),
};
const WIDTHS = [280, 420, 900];

for (const [low, high, most, wanted] of [
  [0, 1, 2, [0, 1]],
  [0, 7, 2, [0, 5]],
  [100, 100, 4, [100]],
  [1200, 1630, 4, [1200, 1400, 1600]],
  [1, 3, 4, [1, 2, 3]],
  [101, 104, 2, [102, 104]],
]) {
  test(`an axis from ${low} to ${high} has ${wanted}`, () => {
    assert.deepEqual(ticks(low, high, most), wanted);
  });
}

test("no axis has more than its most numbers and one, or a number outside", () => {
  for (let low = 0; low < 40; low++) {
    for (let range = 1; range < 400; range += 7) {
      const found = ticks(low, low + range, 4);
      assert.ok(found.length >= 1 && found.length <= 5, `${low} to ${low + range}: ${found}`);
      assert.ok(found.every((n) => n >= low && n <= low + range || found.length === 1));
    }
  }
});

test("the last round is always written, and no two numbers are nearer than their space", () => {
  for (const count of [1, 5, 76]) {
    for (const step of [3, 11, 60]) {
      const places = labelled(count, step, 27);
      assert.equal(places.at(-1), count - 1);
      places.slice(1).forEach((place, n) => assert.ok((place - places[n]) * step >= 27));
    }
  }
});

/** The boxes of the texts of a chart, by a width of seven pixels a letter. */
const boxes = (shapes) => shapes.filter(([tag]) => tag === "text").map(([, given, text]) => {
  const wide = LETTER * text.length;
  const left = given.x - { start: 0, middle: wide / 2, end: wide }[given["text-anchor"]];
  return { text, left, right: left + wide, top: given.y - 10, bottom: given.y + 2 };
});

for (const [name, given] of Object.entries(CHARTS)) {
  for (const wide of WIDTHS) {
    test(`all of a chart is within ${wide} pixels, and no two numbers overlap: ${name}`, () => {
      const shapes = plotOf(given, wide);
      const words = boxes(shapes);
      for (const box of words) assert.ok(box.left >= 0 && box.right <= wide, box.text);
      words.forEach((a, n) => words.slice(n + 1).forEach((b) => {
        const apart = a.right <= b.left || b.right <= a.left || a.bottom <= b.top
          || b.bottom <= a.top;
        assert.ok(apart, `${a.text} and ${b.text}`);
      }));
      for (const [tag, each] of shapes) {
        if (tag === "rect") assert.ok(each.height >= 0 && each.width >= 1.5 && each.x >= 0);
        if (tag === "circle") assert.ok(Number.isFinite(each.cx) && Number.isFinite(each.cy));
      }
    });
  }
}

test("a bar is as high as its blocks, and the highest one is 64 pixels high", () => {
  const bars = plotOf([0, 1, 4].map((blocks, n) => ({ round: n + 1, price: 1, blocks })), 400)
    .filter(([tag]) => tag === "rect").map(([, { height }]) => height);
  assert.deepEqual(bars, [0, 16, 64]);
});

test("an unknown aggregate demand is left out of its line", () => {
  const [[, line]] = plotOf(points(5), 400).filter(([, given]) => given.class === "other");
  assert.equal(line.points.split(" ").length, 3);
});

test("the cursor finds each of 76 rounds", () => {
  const given = points(76);
  const middles = plotOf(given, 900).filter(([tag]) => tag === "rect")
    .map(([, { x, width }]) => x + width / 2);
  middles.forEach((x, place) => assert.equal(placeAt(given, 900, x), place));
  assert.equal(placeAt(given, 900, 0), 0);
  assert.equal(placeAt(given, 900, 900), 75);
});

test("a small chart has its line within it, also of one round", () => {
  for (const count of [1, 2, 76]) {
    for (const [tag, given] of sparkOf(points(count))) {
      if (tag !== "polyline") continue;
      const numbers = given.points.split(/[ ,]/).map(Number);
      numbers.forEach((n, place) => assert.ok(n >= 0 && n <= (place % 2 ? 22 : 96)));
    }
  }
});
