// The form: what is read as a number, how a closing prepares it, copies for undo, and its draft.

import assert from "node:assert/strict";
import test from "node:test";

import { readBids, written, writtenBids } from "../../web/csv.js";
import { auctionMark, draftOf, keepDraft } from "../../web/draft.js";
import { Sheet } from "../../web/sheet.js";

const PRICES = [{ start: 100, clock: 110 }, { start: 50, clock: 55 }, { start: 10, clock: 11 }];
const A = [{ name: "A" }];

/** A form of these quantities and prices, each a price point of product 0. */
function formOf(typed) {
  const sheet = new Sheet();
  typed.forEach(([quantity, price], step) => {
    if (step) sheet.addStep(0);
    sheet.type(0, step, "quantity", quantity);
    sheet.type(0, step, "price", price);
  });
  return sheet;
}

// What is typed as a quantity and a price, and the bid that it is, or null. An empty price is the
// clock price, 110.
const NUMBERS = [
  ["2", "105", [2, 105]],
  [" 2 ", " $105 ", [2, 105]],
  ["2", "", [2, 110]],
  ["1,000", "$1,000,000", [1000, 1000000]],
  ["0", "$ 7", [0, 7]],
  ["2", "1,00", null],
  ["2", "1,0000", null],
  ["2", "-1", null],
  ["2", "1.5", null],
  ["2", "1e3", null],
  ["$2", "105", null],
  ["", "105", null],
  ["x", "", null],
  ["2", "$", null],
  ["2", "€105", null],
  ["2", "1000000000000000", null],
  ["2", "999999999999999", [2, 999999999999999]],
];

for (const [quantity, price, wanted] of NUMBERS) {
  test(`typed: ${quantity} at ${price}`, () => {
    const { bids } = formOf([[quantity, price]]).read(PRICES);
    assert.deepEqual(bids.length ? [bids[0].quantity, bids[0].price] : null, wanted);
  });
  for (const line of [`A;${quantity};${price}`, `A,"${quantity}","${price}"`]) {
    test(`a line of a file: ${line}`, () => {
      const { bids, wrong } = readBids(A, line);
      assert.deepEqual(bids.length ? [bids[0].quantity, bids[0].price ?? 110] : null, wanted);
      assert.equal(wrong.length, wanted ? 0 : 1);
    });
  }
}

// A line of a file, and the price of its bid; undefined for a line that is wrong.
for (const [line, wanted] of [
  ["A,2,$18,000", 18000],
  ["A,2,18,000", 18000],
  ["A\t2\t18000", 18000],
  ["A,2,", null],
  ["A,1,000,18,000", undefined],
  ["A,2,180,00", undefined],
  ["A,2", undefined],
  ["B,2,1", undefined],
]) {
  test(`a line of a file has a price, or is wrong: ${line}`, () => {
    const { bids, wrong } = readBids(A, line);
    assert.equal(wrong.length ? undefined : bids[0].price, wanted);
  });
}

test("bids that are saved are read again", () => {
  const products = [{ name: "A" }, { name: 'B "2", north' }];
  const bids = [{ product: 0, quantity: 2, price: 105 }, { product: 1, quantity: 0, price: 7 }];
  const [first] = bids;
  const again = readBids(products, writtenBids(products, [first]));
  assert.deepEqual(again, { bids: [first], wrong: [] });
  assert.equal(written([['a"b', "c,d", 7]]), '"a""b","c,d",7\r\n');
});

test("products are numbered from 0, unless the name of one is a number", () => {
  assert.equal(readBids(A, "0,1,7").bids[0].product, 0);
  assert.deepEqual(readBids([{ name: "7" }, { name: "1" }], "1,1,7").bids[0].product, 1);
  assert.match(readBids([{ name: "7" }], "0,1,7").wrong[0], /no product is called 0/);
});

// How a closing prepares the form, of one product: what it is about, what is typed, what was
// submitted, and the processed demand. Then what the form has, and the numbers of rows that are
// maintained, emptied, and left.
const bid = (quantity, price) => ({ product: 0, quantity, price });
const CLOSINGS = [
  ["submitted, and maintained", [["2", ""]], [bid(2, 110)], 2, [["2", ""]], [1, 0, 0]],
  ["a reduction that was not applied", [["1", "105"]], [bid(1, 105)], 2, [["2", ""]], [1, 0, 0]],
  ["a reduction that was applied", [["1", "$105"]], [bid(1, 105)], 1, [["1", ""]], [1, 0, 0]],
  ["given up", [["0", "105"]], [bid(0, 105)], 0, [["", ""]], [0, 1, 0]],
  [
    "two price points, of which one was applied",
    [["1", "103"], ["0", "107"]],
    [bid(1, 103), bid(0, 107)],
    1,
    [["1", ""]],
    [1, 0, 0],
  ],
  ["nothing typed or submitted, and still there", [], [], 2, [["2", ""]], [1, 0, 0]],
  ["nothing at all", [], [], 0, [["", ""]], [0, 0, 0]],
  ["typed after the submission", [["1", "105"]], [bid(2, 110)], 2, [["1", ""]], [0, 0, 1]],
  ["typed, and nothing submitted", [["1", "105"]], [], 2, [["1", ""]], [0, 0, 1]],
  [
    "a price point added after the submission",
    [["1", "103"], ["0", "107"]],
    [bid(1, 103)],
    1,
    [["0", ""]],
    [0, 0, 1],
  ],
  ["a row that cannot be read", [["x", "105"]], [bid(1, 105)], 1, [["x", ""]], [0, 0, 1]],
  ["cleared after the submission", [], [bid(2, 110)], 2, [["", ""]], [0, 0, 1]],
];

for (const [name, typed, sent, held, wanted, counts] of CLOSINGS) {
  test(`the form after a closing: ${name}`, () => {
    const sheet = formOf(typed);
    const { maintained, emptied, left } = sheet.carry(sent, [held], PRICES.slice(0, 1));
    assert.deepEqual(sheet.steps(0).map(({ quantity, price }) => [quantity, price]), wanted);
    assert.deepEqual([maintained, emptied, left], counts);
  });
}

test("a copy of the form stays as it was", () => {
  const sheet = new Sheet();
  sheet.maintain([2, 0, 1]);
  const copy = sheet.copy();
  const before = JSON.stringify(sheet.read(PRICES));
  sheet.type(0, 0, "quantity", "1");
  sheet.addStep(2);
  sheet.clear();
  sheet.restore(copy);
  assert.equal(JSON.stringify(sheet.read(PRICES)), before);
});

/** A session storage, and a form and an auction whose draft it has. */
function drafted() {
  const kept = new Map();
  globalThis.sessionStorage = {
    getItem: (name) => kept.get(name) ?? null,
    setItem: (name, text) => kept.set(name, text),
    removeItem: (name) => kept.delete(name),
  };
  const sheet = new Sheet();
  const auction = auctionMark([{ name: "A" }]);
  sheet.type(1, 0, "quantity", "x");
  sheet.type(0, 0, "price", "105");
  keepDraft({ auction, bidder: "X", round: 2, time: "10:20", rows: sheet.toJSON() });
  return { kept, sheet, auction };
}

test("a draft has what was typed", () => {
  const { sheet, auction } = drafted();
  const again = new Sheet();
  again.fromJSON(draftOf(auction, "X", 3).rows);
  assert.deepEqual(again.read(PRICES).wrong, sheet.read(PRICES).wrong);
});

test("a draft is of one bidder, one auction, and its products", () => {
  const { auction } = drafted();
  assert.equal(draftOf(auction, "Y", 3), null);
  assert.equal(draftOf(auctionMark([{ name: "B" }]), "X", 3), null);
  assert.equal(draftOf(auction, "X", 1), null, "a product that is not there");
});

test("prices of an earlier round are left out", () => {
  const { auction } = drafted();
  const again = new Sheet();
  again.fromJSON(draftOf(auction, "X", 3).rows, true);
  assert.deepEqual(again.steps(0), [{ quantity: "", price: "" }]);
});

test("a form without anything that is typed leaves no draft", () => {
  const { auction } = drafted();
  keepDraft({ auction, bidder: "X", round: 2, time: "", rows: [] });
  assert.equal(draftOf(auction, "X", 3), null);
});

for (const rows of [[[0]], [[0, 7]], [[0, [7]]], 7]) {
  test(`a draft of another form is not taken: ${JSON.stringify(rows)}`, () => {
    const { kept, auction } = drafted();
    kept.set("draft", JSON.stringify({ auction, bidder: "X", round: 2, rows }));
    assert.equal(draftOf(auction, "X", 3), null);
  });
}

test("a draft that is not JSON is not taken", () => {
  const { kept, auction } = drafted();
  kept.set("draft", "{");
  assert.equal(draftOf(auction, "X", 3), null);
});
