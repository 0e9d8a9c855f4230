// What each key asks for in a field of the grid.

import assert from "node:assert/strict";
import test from "node:test";

import { besideOf, meantBy } from "../../web/grid_keys.js";

const PLACE = { field: "quantity", count: 100, page: 20, isRange: false, isUntouched: true };

/** A key as it is written in the table: "Shift+ArrowDown". */
function pressed(text) {
  const parts = text === "+" ? ["+"] : text.split("+");
  const key = parts.at(-1);
  return { key, shift: parts.includes("Shift"), control: parts.includes("Control") };
}

// The key, what differs of the place, and what it asks for.
for (const [text, change, meant] of [
  ["ArrowDown", {}, { act: "go", by: 1 }],
  ["ArrowUp", {}, { act: "go", by: -1 }],
  ["Control+ArrowDown", {}, { act: "go", by: 100 }],
  ["PageUp", {}, { act: "go", by: -20 }],
  ["Shift+ArrowDown", {}, { act: "extend", by: 1 }],
  ["Shift+ArrowDown", { field: "add" }, { act: "go", by: 1 }],
  ["Enter", {}, { act: "go", by: 1 }],
  ["Shift+Enter", {}, { act: "go", by: -1 }],
  ["Enter", { field: "add" }, { act: "add" }],
  ["Control+Enter", {}, null],
  ["Control+Home", {}, { act: "move", by: -100 }],
  ["Control+End", {}, { act: "move", by: 100 }],
  ["Home", {}, null],
  ["Escape", {}, { act: "escape" }],
  ["+", {}, { act: "add" }],
  ["+", { field: "add" }, null],
  ["Control+d", {}, { act: "fill" }],
  ["d", {}, null],
  ["Control+z", {}, { act: "undo" }],
  ["Control+z", { isUntouched: false }, null],
  ["Control+Shift+Z", {}, null],
  ["Delete", {}, null],
  ["Delete", { isRange: true }, { act: "clear" }],
  ["Backspace", { isRange: true }, { act: "clear" }],
  ["7", { isRange: true }, null],
]) {
  const where = Object.keys(change).length ? ` with ${JSON.stringify(change)}` : "";
  test(`${text}${where} asks for ${meant ? JSON.stringify(meant) : "nothing"}`, () => {
    assert.deepEqual(meantBy(pressed(text), { ...PLACE, ...change }), meant);
  });
}

const text = (from, to, length) => ({ from, to, length });
// A field, the direction, what is selected of its text, and the field next to it.
for (const [name, field, by, selected, beside] of [
  ["all of a quantity is selected", "quantity", 1, text(0, 3, 3), "price"],
  ["the cursor is in the middle", "quantity", 1, text(1, 1, 3), null],
  ["the cursor is at the end", "quantity", 1, text(3, 3, 3), "price"],
  ["the cursor is at the beginning of a price", "price", -1, text(0, 0, 3), "quantity"],
  ["a part is selected", "price", -1, text(0, 2, 3), null],
  ["there is no field beside it", "quantity", -1, text(0, 0, 0), null],
  ["the button has no text", "add", -1, text(undefined, undefined, 0), "price"],
]) {
  test(`left and right: ${name}`, () => assert.equal(besideOf(field, by, selected), beside));
}
