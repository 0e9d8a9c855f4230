// The columns of the grid of bids, and the groups of rows that can be shown by themselves. Each is
// a function of the view `v`, which grid.js stores, and of the place `p` of a product.

import {dollars, make, number} from "./page.js";

/** How much the posted price rose in the last round, in percent. */
const riseOf = (sold) => (sold ? (100 * (sold.posted - sold.start)) / sold.start : 0);
const excessOf = (sold, product) =>
  (!sold || sold.demand === null ? 0 : sold.demand - product.supply);

/**
 * The columns: head, whether it is of numbers, a value to sort by, and the cell of a product. `v`
 * is the view.
 */
export const COLUMNS = [
  {id: "name", head: "Product", by: (v, p) => v.terms.products[p].name},
  {
    id: "units",
    head: "Units",
    tip: "Bidding units of a block",
    by: (v, p) => v.terms.products[p].units,
    cell: (v, p) => [number(v.terms.products[p].units)]
  },
  {
    id: "cap",
    head: "Cap",
    tip: "The most blocks of the product that a bidder may ask for",
    by: (v, p) => v.terms.products[p].cap,
    cell: (v, p) => [number(v.terms.products[p].cap)]
  },
  {
    id: "supply",
    head: "Supply",
    by: (v, p) => v.terms.products[p].supply,
    cell: (v, p) => [number(v.terms.products[p].supply)]
  },
  {id: "demand", head: "Aggregate demand", by: (v, p) => v.sold?.[p].demand ?? 0, cell: demandCell},
  {
    id: "excess",
    head: "Excess",
    tip: "Excess demand: aggregate demand above supply",
    by: (v, p) => excessOf(v.sold?.[p], v.terms.products[p]),
    cell: excessCell
  },
  {
    id: "start",
    head: "Start-of-round price",
    end: "Posted price",
    by: (v, p) => v.terms.prices[p].start,
    cell: (v, p) => [dollars(v.terms.prices[p].start)]
  },
  {
    id: "rise",
    head: "Rise",
    tip: "How much the posted price rose in the last round",
    by: (v, p) => riseOf(v.sold?.[p]),
    cell: riseCell
  },
  {
    id: "clock",
    head: "Clock price",
    end: "To pay",
    by: (v, p) => (v.me.ended ? costOf(v, p) : v.terms.prices[p].clock),
    cell: (v, p) => [dollars(v.me.ended ? costOf(v, p) : v.terms.prices[p].clock)]
  },
  {
    id: "worth",
    head: "Worth to you",
    tip: "What your first block of the product is worth to you, your second one, and so on",
    by: (v, p) => v.worth?.[p]?.[0] ?? 0,
    cell: worthCell
  },
  {
    id: "held",
    head: "Processed demand",
    end: "Blocks won",
    by: (v, p) => v.me.demands[p],
    cell: heldCell
  },
  {id: "quantity", head: "Bid quantity", by: (v, p) => v.asked(p, "quantity")},
  {id: "price", head: "Bid price", by: (v, p) => v.asked(p, "price")},
  {id: "effect", head: "Effect, and bid in force", by: (v, p) => v.rank(p)},
];
/** What the blocks of a product cost at its posted price. */
const costOf = ({ me, terms }, p) => me.demands[p] * terms.prices[p].start;
const WORTH = 3; // values that a cell has space for

function demandCell({ sold, terms }, p) {
  if (!sold) return [make("span", { class: "none" }, "–")];
  const { demand } = sold[p];
  return demand === null
    ? [make("span", { class: "none" }, `≤ ${number(terms.products[p].supply)}`)]
    : [number(demand)];
}

function excessCell({ sold, terms }, p) {
  const excess = excessOf(sold?.[p], terms.products[p]);
  return excess ? [make("b", {}, `+${number(excess)}`)]
                : [make("span", { class: "none" }, sold ? "no" : "–")];
}

function riseCell({ sold }, p) {
  const rise = riseOf(sold?.[p]);
  return rise ? [`+${Number(rise.toFixed(1))}%`]
              : [make("span", { class: "none" }, sold ? "0%" : "–")];
}

function worthCell({ worth }, p) {
  if (!worth) return [];
  const values = worth[p] ?? [];
  if (!values.length) return [make("span", { class: "none" }, "nothing")];
  return [make(
    "span", { title: values.map(dollars).join(", ") },
    values.slice(0, WORTH).map(dollars).join(" · ") + (values.length > WORTH ? " …" : "")
  )];
}

function heldCell({ me, before }, p) {
  const was = before(p);
  return [
    number(me.demands[p]), ...(was === null ? [] : [make("small", {}, `was ${number(was)}`)])
  ];
}

/** The groups of rows that can be shown alone: name, and whether a product is in it. */
export const GROUPS = [
  {id: "all", name: "All", isIn: () => true},
  {id: "fault", name: "With an error", isIn: (v, p) => v.isWrong(p)},
  {id: "missing", name: "Missing bid", isIn: (v, p) => v.me.demands[p] > 0 && !v.isAsked(p)},
  {id: "held", name: "With demand", isIn: (v, p) => v.me.demands[p] > 0},
  {id: "bid", name: "With a bid", isIn: (v, p) => v.isAsked(p)},
  {
    id: "excess",
    name: "Excess demand",
    isIn: (v, p) => Boolean(v.sold) && v.sold[p].demand !== null
  },
  {id: "changed", name: "Changed", isIn: (v, p) => v.before(p) !== null},
  {id: "above", name: "Above worth", isIn: (v, p) => v.isAbove(p)},
];
/** The groups that are listed only if they have rows. */
export const RARE = ["fault", "missing", "changed"];
