// What a bidder's page shows of closed rounds, and the files that it makes of them.

import assert from "node:assert/strict";
import test from "node:test";

import { readBids, readValues, writtenRound } from "../../web/csv.js";
import { keepSheets, sheetsOf } from "../../web/draft.js";
import {
  bidWords, fileOf, ownWords, pointsOf, pointWords, productByRound, progressWords, shownPast,
  totalsByRound,
} from "../../web/history.js";

const PRODUCTS = [
  { name: "A", units: 1, supply: 2, cap: 2, opening: 100 },
  { name: "B", units: 2, supply: 3, cap: 3, opening: 50 },
];
const sold = (start, clock, posted, demand) => ({ start, clock, posted, demand, next: null });
const ROUNDS = new Map([
  [1, [sold(100, 100, 100, 3), sold(50, 50, 50, 4)]],
  [2, [sold(100, 110, 110, null), sold(50, 55, 53, null)]],
]);
const RESULTS = new Map([
  [1, { demands: [2, 1], activity: 4, eligibility: 5 }],
  [2, { demands: [1, 0], activity: 1, eligibility: 4 }],
]);
const BIDS = [{ product: 0, quantity: 1, price: 110 }, { product: 1, quantity: 0, price: 53 }];
const known = (more = {}) => ({
  products: PRODUCTS,
  rounds: ROUNDS,
  results: RESULTS,
  bids: new Map([[2, { bids: BIDS, time: "10:20:38" }]]),
  last: 2,
  round: 2,
  product: null,
  isNarrow: false,
  ...more,
});

test("before the first closing nothing is there", () => {
  const none = known({ rounds: new Map(), results: new Map(), last: 0, round: 0 });
  const now = shownPast(none);
  assert.deepEqual([now.isThere, now.own], [false, "No round is closed yet."]);
  assert.deepEqual([now.rows, now.points, now.byRound], [[], [], []]);
});

test("a round has prices, demand, excess, the bidder's bids and processed demand", () => {
  const [a, b] = shownPast(known()).rows;
  const seen = ({ name, start, clock, posted, demand, excess, bids, blocks }) => (
    [name, start, clock, posted, demand, excess, bids, blocks]);
  assert.deepEqual(seen(a), ["A", 100, 110, 110, null, 0, "1 at $110", 1]);
  assert.deepEqual(seen(b), ["B", 50, 55, 53, null, 0, "0 at $53", 0]);
});

test("a product has each of its rounds, the last one first", () => {
  const rows = productByRound(known(), 0);
  const seen = rows.map(({ round, posted, excess, bids, blocks }) => (
    [round, posted, excess, bids, blocks]));
  assert.deepEqual(seen, [[2, 110, 0, "1 at $110", 1], [1, 100, 1, "not known", 2]]);
});

test("the totals of a round are blocks, commitment, activity and eligibility", () => {
  const seen = totalsByRound(known()).map((row) => (
    [row.round, row.blocks, row.commitment, row.activity, row.eligibility, row.bids]));
  assert.deepEqual(seen, [[2, 1, 110n, 1, 4, 2], [1, 3, 250n, 4, 5, null]]);
});

test("the chart has the rounds from the first one on", () => {
  assert.deepEqual(pointsOf(known({ product: 0 })), [
    { round: 1, price: 100, blocks: 2, other: 3 },
    { round: 2, price: 110, blocks: 1, other: null },
  ]);
  assert.deepEqual(pointsOf(known()).map(({ price, blocks, other }) => [price, blocks, other]), [
    [250n, 3, 5], [110n, 1, 4],
  ]);
});

test("each point of a chart is said", () => {
  const of = known({ product: 0 });
  assert.deepEqual(pointsOf(of).map(pointWords(of)), [
    "round 1: 100 dollars, 2 of 3 asked for", "round 2: 110 dollars, 1",
  ]);
  const totals = pointsOf(known()).map(pointWords(known()));
  assert.equal(totals[0], "round 1: 250 dollars, 3 blocks, eligibility 5");
});

// What is known of the bids of a round, and what is said.
for (const [name, bids, words] of [
  ["seen by this tab", { bids: BIDS, time: "10:20:38" }, "as this tab last saw them, at 10:20:38."],
  ["of a receipts file", { bids: BIDS }, "Your bids are those of your receipts file."],
  ["not known", null, "Which bids were in force is not known here"],
]) {
  test(`the page says where bids come from: ${name}`, () => {
    assert.ok(ownWords(known({ bids: new Map([[2, bids]]) })).includes(words));
  });
}

test("bids that are not known are not called none", () => {
  assert.equal(bidWords(undefined), "not known");
  assert.equal(bidWords([]), "no bid");
  assert.equal(bidWords([1, 2, 3].map((n) => ({ quantity: n, price: n }))),
    "1 at $1 … 3 at $3 (3 price points)");
});

test("rounds that are not loaded are counted", () => {
  assert.equal(progressWords(known()), "");
  assert.equal(progressWords(known({ last: 76 })), "Loading closed rounds: 2 of 76.");
  assert.equal(ownWords(known({ last: 3, round: 3 })), "Loading round 3 …");
});

test("only products with bids or demand, if that is asked for", () => {
  const results = new Map([[2, { demands: [0, 0], activity: 0, eligibility: 0 }]]);
  const bids = new Map([[2, { bids: BIDS.slice(1) }]]);
  const { rows } = shownPast(known({ isNarrow: true, results, bids }));
  assert.deepEqual(rows.map(({ name }) => name), ["B"]);
});

test("the file of results has what the bidder had and bid, and its cost", () => {
  assert.deepEqual(fileOf(known()).map((line) => line.join("|")), [
    "round|product|supply|start|clock|posted|aggregate demand|bids|processed demand"
      + "|cost at posted price",
    "1|A|2|100|100|100|3|not known|2|200",
    "1|B|3|50|50|50|4|not known|1|50",
    "2|A|2|100|110|110||1 at $110|1|110",
    "2|B|3|50|55|53||0 at $53|0|0",
  ]);
});

test("blocks cost their posted price, not the clock price", () => {
  const results = new Map([[2, { demands: [0, 2], activity: 4, eligibility: 4 }]]);
  const [, , b] = fileOf(known({ results, bids: new Map() }));
  assert.equal(b, undefined, "without bids and demand there is no line");
  const [, line] = fileOf(known({ results, bids: new Map() }));
  assert.deepEqual([line[1], line.at(-1)], ["B", 106]);
});

// ---- The bids that this tab keeps

test("the bids that a tab saw survive a reload, for the same auction and bidder only", () => {
  const store = new Map();
  globalThis.sessionStorage = {
    getItem: (name) => store.get(name) ?? null,
    setItem: (name, text) => store.set(name, text),
  };
  keepSheets("mark", "X", new Map([[2, { bids: BIDS, time: "10:20" }], [3, null]]));
  assert.deepEqual([...sheetsOf("mark", "X")], [[2, { bids: BIDS, time: "10:20" }]]);
  assert.equal(sheetsOf("mark", "Y").size, 0);
  assert.equal(sheetsOf("other", "X").size, 0);
  store.set("sheets", "{");
  assert.equal(sheetsOf("mark", "X").size, 0);
});

test("if there is no space, the oldest rounds go", () => {
  let kept = "";
  globalThis.sessionStorage = {
    getItem: () => kept,
    setItem: (_, text) => {
      if (text.length > 180) throw new Error("quota");
      kept = text;
    },
  };
  const sheets = new Map([1, 2, 3, 4, 5, 6].map((round) => [round, { bids: BIDS, time: "10:20" }]));
  keepSheets("mark", "X", sheets);
  assert.deepEqual([...sheetsOf("mark", "X").keys()], [3, 4, 5, 6]);
});

// ---- A round to fill in

const TERMS = {
  products: PRODUCTS,
  prices: [{ start: 100, clock: 110 }, { start: 50, clock: 55 }],
  held: [2, 0],
};
const EMPTY = [{ quantity: "", price: "" }];

test("a round to fill in has supply, units, cap, prices and demands of each product", () => {
  const lines = writtenRound(TERMS, ROUNDS.get(1), () => EMPTY).split("\r\n");
  assert.deepEqual(lines.slice(0, 3), [
    "product,units,supply,cap,start,clock,aggregate demand,processed demand,quantity,price",
    "A,1,2,2,100,110,3,2,,",
    "B,2,3,3,50,55,4,0,,",
  ]);
});

// What is typed into the file's lines, and the bids that are read.
for (const [name, fill, bids] of [
  ["nothing", ["", ""], []],
  ["one product", ["1,105", ""], [[0, 1, 105]]],
  ["the clock price", ["", "0,"], [[1, 0, null]]],
  ["numbers of three digits everywhere", ["100,100", "200,200"], [[0, 100, 100], [1, 200, 200]]],
]) {
  test(`a round that is filled in can be uploaded: ${name}`, () => {
    const lines = writtenRound(TERMS, ROUNDS.get(1), () => EMPTY).trimEnd().split("\r\n");
    const filled = [lines[0], ...lines.slice(1).map((line, n) => (
      fill[n] ? line.slice(0, -1) + fill[n] : line))].join("\r\n");
    const read = readBids(PRODUCTS, filled);
    assert.deepEqual(read.wrong, []);
    assert.deepEqual(read.bids.map(({ product, quantity, price }) => [product, quantity, price]),
      bids);
  });
}

test("what the form has is in the file, and is read again", () => {
  const typed = [{ quantity: "1", price: "105" }, { quantity: "0", price: "108" }];
  const text = writtenRound(TERMS, null, (p) => (p ? EMPTY : typed));
  assert.deepEqual(readBids(PRODUCTS, text).bids, [
    { product: 0, quantity: 1, price: 105 }, { product: 0, quantity: 0, price: 108 },
  ]);
});

for (const [name, line, words] of [
  ["a field too few", "A,1,2,2,100,110,3,2,1", "not as many fields"],
  ["no product of the auction", "C,1,2,2,100,110,3,2,1,105", "no product is called C"],
  ["no number", "A,1,2,2,100,110,3,2,one,105", "the quantity is not a whole number"],
]) {
  test(`a wrong line of a filled round is named: ${name}`, () => {
    const [head] = writtenRound(TERMS, null, () => EMPTY).split("\r\n");
    const { bids, wrong } = readBids(PRODUCTS, `${head}\n${line}\n`);
    assert.equal(bids.length, 0);
    assert.ok(wrong.length === 1 && wrong[0].includes(words), wrong[0]);
  });
}

test("the columns of a file may be in another order", () => {
  const { bids } = readBids(PRODUCTS, "price,quantity,product\n105,1,A\n");
  assert.deepEqual(bids, [{ product: 0, quantity: 1, price: 105 }]);
});

// ---- What blocks are worth

for (const [name, text, worth, wrong] of [
  ["nothing", "", [[], []], 0],
  ["both, with a head", "product,first,second\nA,120,90\nB,60\n", [[120, 90], [60]], 0],
  ["of a spreadsheet", "A;$1,200;900;\r\n;;\r\n", [[1200, 900], []], 0],
  ["no product of the auction", "C,1\nA,5\n", [[5], []], 1],
  ["no number", "A,1,x\n", [[], []], 1],
]) {
  test(`values of a file: ${name}`, () => {
    const found = readValues(PRODUCTS, text);
    assert.deepEqual([found.worth, found.wrong.length], [worth, wrong]);
  });
}
