// What a bidder's page shows of closed rounds, as a pure function of what is known of them: the
// results, the bidder's own results, and its bids. Nothing here reads the page, so tests run it in
// Node.

import {counted, dollars, excessOf, number, sum} from "./page.js";

/**
 * @typedef {{ product: number, quantity: number, price: number }} Bid
 * @typedef {{ bids: Bid[], time?: string }} Seen bids, and when this tab saw them
 * @typedef {object} Known
 * @property {any[]} products
 * @property {Map<number, any[]>} rounds the products of each closed round that is loaded
 * @property {Map<number, any>} results the bidder's own results of it
 * @property {Map<number, Seen | null>} bids its bids, as far as they are known
 * @property {number} last the last closed round
 * @property {number} round the round that is shown
 * @property {number | null} product the product of the chart, or null for the totals
 * @property {boolean} isNarrow whether only products with bids or demand are shown
 */

/** The closed rounds of which everything is loaded, the first one first. */
const loaded = ({ rounds, results }
) => [...rounds.keys()].filter((round) => results.has(round)).sort((a, b) => a - b);

/** Bids for a product in few words: both of two price points, or the first and the last of more. */
export function bidWords(bids) {
  if (!bids) return "not known";
  if (bids.length === 0) return "no bid";
  const each = bids.map((bid) => `${number(bid.quantity)} at ${dollars(bid.price)}`);
  return each.length < 3 ? each.join(", ")
                         : `${each[0]} … ${each[each.length - 1]} (${each.length} price points)`;
}

const bidsFor = ({ bids }, round, p) =>
  bids.get(round)?.bids.filter(({ product }) => product === p);

/** What a product was in a round: prices, demand, and what the bidder had of it. */
function rowOf(known, round, p) {
  const sold = known.rounds.get(round)[p];
  const product = known.products[p];
  const blocks = known.results.get(round).demands[p];
  return {
    p,
    round,
    name: product.name,
    supply: product.supply,
    start: sold.start,
    clock: sold.clock,
    posted: sold.posted,
    demand: sold.demand,
    excess: excessOf(sold, product),
    bids: bidWords(bidsFor(known, round, p)),
    blocks,
    cost: blocks * sold.posted,
  };
}

/** The rows of the round that is shown. */
export function rowsOf(known) {
  const { round, rounds, results, products, bids, isNarrow } = known;
  if (!rounds.has(round) || !results.has(round)) return [];
  const mine = new Set(bids.get(round)?.bids.map(({ product }) => product));
  const { demands } = results.get(round);
  return [...products.keys()].filter(
                               (p) => !isNarrow || demands[p] > 0 || mine.has(p)
  ).map((p) => rowOf(known, round, p));
}

/** What a product was in each round, the last one first. */
export const productByRound = (known, p) =>
  loaded(known).reverse().map((round) => ({...rowOf(known, round, p), name: `Round ${round}`}));

/** What the bidder had in each round, the last one first. */
export function totalsByRound(known) {
  return loaded(known).reverse().map((round) => {
    const { demands, activity, eligibility } = known.results.get(round);
    const sold = known.rounds.get(round);
    const bids = known.bids.get(round)?.bids;
    return {
      round,
      name: `Round ${round}`,
      blocks: sum(demands),
      commitment: demands.reduce((all, n, p) => all + BigInt(n) * BigInt(sold[p].posted), 0n),
      activity,
      eligibility,
      bids: bids ? bids.length : null,
    };
  });
}

/** The points of the chart of a product, or of the bidder's totals. */
export function pointsOf(known, p = known.product) {
  if (p === null) {
    return totalsByRound(known).reverse().map(
      ({ round, commitment, blocks, eligibility }) =>
        ({ round, price: commitment, blocks, other: eligibility })
    );
  }
  return loaded(known).map((round) => {
    const { posted, blocks, demand } = rowOf(known, round, p);
    return { round, price: posted, blocks, other: demand };
  });
}

/** What is said of a point of the chart. */
export const pointWords = ({product}) =>
  (product === null
     ? ({round, price, blocks, other}) => `round ${round}: ${number(price)} dollars, ` +
       `${counted(blocks, "block")}, eligibility ${number(other)}`
     : ({round, price, blocks, other}) => `round ${round}: ${number(price)} dollars, ` +
       `${number(blocks)}${other === null ? "" : ` of ${number(other)} asked for`}`);

/** What the chart has, in words. */
export function chartWords({product, products}) {
  if (product === null)
    return "All products: commitment (line), blocks (bars), eligibility (dashed)";
  const { name } = products[product];
  return `${name}: posted price (line), processed demand (bars), aggregate demand (dashed)`;
}

/** What is said of the round that is shown. */
export function ownWords(known) {
  const { last, round, rounds, results, bids } = known;
  if (last === 0) return "No round is closed yet.";
  if (!rounds.has(round) || !results.has(round)) return `Loading round ${round} …`;
  const { demands, activity, eligibility } = results.get(round);
  const words =
    `Your results of round ${round}: processed demand ${counted(sum(demands), "block")}, ` +
    `activity ${number(activity)}, eligibility ${number(eligibility)}.`;
  const seen = bids.get(round);
  if (!seen)
    return `${words} Which bids were in force is not known here: a receipts file may have them.`;
  if (!seen.time) return `${words} Your bids are those of your receipts file.`;
  return `${words} Your bids are shown as this tab last saw them, at ${seen.time}.`;
}

/** How much is loaded, in words, until all is. */
export function progressWords(known) {
  const count = loaded(known).length;
  return count === known.last ? "" : `Loading closed rounds: ${count} of ${known.last}.`;
}

/**
 * Everything that is shown of closed rounds.
 * @param {Known} known
 */
export function shownPast(known) {
  const { last, product, round } = known;
  return {
    own: ownWords(known),
    isThere: last > 0,
    progress: last ? progressWords(known) : "",
    choices: Array.from({ length: last }, (_, n) => [last - n, String(last - n)]),
    chosen: String(round),
    isTotals: product === null,
    rows: rowsOf(known),
    points: loaded(known).length ? pointsOf(known) : [],
    chart: chartWords(known),
    byRound: product === null ? totalsByRound(known) : productByRound(known, product),
  };
}

/** The rows of a file with the bidder's results of all rounds that are loaded. */
export function fileOf(known) {
  const head = ["round", "product", "supply", "start", "clock", "posted", "aggregate demand"];
  const lines = loaded(known).flatMap(
    (round) => rowsOf({...known, round, isNarrow: true })
                 .map(
                   (row) =>
                     [round,
                      row.name,
                      row.supply,
                      row.start,
                      row.clock,
                      row.posted,
                      row.demand ?? "",
                      row.bids,
                      row.blocks,
                      row.cost,
  ]
                 )
  );
  return [[...head, "bids", "processed demand", "cost at posted price"], ...lines];
}
