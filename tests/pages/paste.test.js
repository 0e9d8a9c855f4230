// What is pasted into the grid.

import assert from "node:assert/strict";
import test from "node:test";

import { cellsOf, isBlock, isByProduct, placed } from "../../web/paste.js";

test("cells of a spreadsheet", () => {
  assert.deepEqual(cellsOf("1\t105\r\n2\t\r\n"), [["1", "105"], ["2", ""]]);
  assert.deepEqual(cellsOf("1\n\n3"), [["1"], [""], ["3"]]);
});

for (const [text, is] of [
  ["7", false],
  ["7\n", false],
  ["7\r\n", false],
  ["7\t8", true],
  ["7\n8", true],
]) {
  test(`more than one cell is a block: ${JSON.stringify(text)}`, () => {
    assert.equal(isBlock(text), is);
  });
}

test("a block goes down and to the right, in the order that is shown", () => {
  const keys = ["2.0", "0.0", "1.0"];
  assert.deepEqual(placed([["1", "9"], ["2", "8"]], keys, 1, "quantity"), {
    left: 0,
    entries: [
      { key: "0.0", field: "quantity", text: "1" },
      { key: "0.0", field: "price", text: "9" },
      { key: "1.0", field: "quantity", text: "2" },
      { key: "1.0", field: "price", text: "8" },
    ],
  });
});

test("cells without a place are counted", () => {
  const keys = ["2.0", "0.0", "1.0"];
  assert.equal(placed([["1"], ["2"], ["3"]], keys, 1, "price").left, 1);
  assert.equal(placed([["1", "2"]], keys, 0, "price").left, 1);
});

test("bids by product are not a block", () => {
  const names = new Set(["A-1", "B"]);
  assert.ok(isByProduct("product,quantity,price\nA-1,2,\nB,1,55", names));
  assert.ok(isByProduct("A-1\t2\t105\nB\t1\t", names));
  assert.ok(!isByProduct("1\t105\n2\t", names));
});
