// What the public page shows, as a pure function of one state. Nothing here reads the page, a
// clock, or the network, so tests run all of it in Node.

import {excessOf, lastClosed, number, sum} from "./page.js";

/**
 * @typedef {object} State
 * @property {any[]} products empty before they are loaded
 * @property {{ round: number, ended: boolean } | null} now the state of the auction, if it is known
 * @property {Map<number, any>} rounds the closed rounds that are loaded
 * @property {Set<number>} absent the closed rounds that are not published
 * @property {any} won the winners, or null
 * @property {number | null} round the round that a person has chosen, or null for the newest
 * @property {number} product the product of the chart
 * @property {string} fault what a request failed with, or ""
 */

/** The state of the public page at first. */
export const begun = () => ({
  products: [],
  now: null,
  rounds: new Map(),
  absent: new Set(),
  won: null,
  round: null,
  product: 0,
  fault: "",
});

/**
 * The rounds to load, in this order: the chosen or newest one, then the others from the last on.
 */
export function wanted({now, rounds, absent, round}) {
  const last = now ? lastClosed(now) : 0;
  const first = round !== null && round <= last ? [round] : [];
  const others = Array.from({ length: last }, (_, n) => last - n);
  return [...new Set([...first, ...others])].filter((n) => !rounds.has(n) && !absent.has(n));
}

/** The round that is shown: a closed one, or the one to come, whose prices are known already. */
export function roundOf({now, rounds, round}) {
  const last = now ? lastClosed(now) : 0;
  const isThere = (n) => rounds.has(n) || n === last + 1;
  if (round !== null && isThere(round) && !(now?.ended && round > last)) return round;
  for (let n = last; n > 0; n--)
    if (rounds.has(n)) return n;
  return now?.ended ? last : last + 1;
}

/** The prices of a product in a round that is not closed. */
function coming(product, before) {
  if (!before) return { start: product.opening, clock: product.opening };
  return { start: before.posted, clock: before.next ?? before.posted };
}

/**
 * A row for each product. The round to come has its prices only if the round before it is loaded.
 */
export function rowsOf(state) {
  const round = roundOf(state);
  const page = state.rounds.get(round);
  const before = state.rounds.get(round - 1);
  if (!page && round > 1 && !before) return [];
  return state.products.map((product, p) => {
    const sold = page?.products[p];
    const prices = sold ?? coming(product, before?.products[p]);
    return {
      p,
      name: product.name,
      supply: product.supply,
      units: product.units,
      start: prices.start,
      clock: prices.clock,
      posted: sold?.posted ?? null,
      demand: sold ? sold.demand ?? product.supply : null,
      isExcess: Boolean(sold && sold.demand !== null),
      excess: sold ? excessOf(sold, product) : null,
    };
  });
}

/** What is known of a product, by round. */
export function pointsOf({rounds, products}, p) {
  return [...rounds.keys()].sort((a, b) => a - b).map((round) => {
    const sold = rounds.get(round).products[p];
    const excess = excessOf(sold, products[p]);
    return {
      round,
      price: sold.posted,
      blocks: excess,
      other: sold.demand,
      start: sold.start,
      clock: sold.clock
    };
  });
}

/** What is said of a point of the chart. */
export const pointWords = ({round, price, blocks}) =>
  `round ${round}: ${number(price)} dollars, ${number(blocks)}`;

/** What all blocks cost at some prices. How many blocks are sold is public only at the end. */
const gross = (products, priceOf) => products.reduce(
  (all, product, p) => all + BigInt(priceOf(product, p)) * BigInt(product.supply), 0n
);

/** The facts about the auction: name, value, and a note. */
export function factsOf(state) {
  const { products, now, rounds, won } = state;
  const last = now ? lastClosed(now) : 0;
  const page = rounds.get(last);
  const sold = [
    ["Products", number(products.length)],
    ["Blocks for sale", number(sum(products.map(({ supply }) => supply)))],
  ];
  const dollars = (n) => `$${number(n)}`;
  if (last === 0) {
    const opening = gross(products, (product) => product.opening);
    return [
      ["Closed rounds", "0"],
      ...sold,
      ["Total at opening prices", dollars(opening), "if all blocks are sold"],
    ];
  }
  const above = page?.products.filter(({ demand }) => demand !== null).length;
  const excess = page && sum(products.map((product, p) => excessOf(page.products[p], product)));
  const total = page && gross(products, (_, p) => page.products[p].posted);
  return [
    ["Closed rounds", number(last)],
    ["Products with excess demand", page ? `${number(above)} of ${number(products.length)}` : "–"],
    ["Excess demand, in blocks", number(excess ?? null)],
    ["Total at posted prices", page ? dollars(total) : "–", "if all blocks are sold"],
    ...(won ? [["Proceeds", dollars(proceeds(won)), "what the winners pay"]] : []),
  ];
}

const proceeds = (won) => won.bidders.reduce((all, { pays }) => all + BigInt(pays), 0n);

/** What is said while rounds are loaded, or of those that are not published. */
function progressOf(state) {
  const { now, rounds, absent } = state;
  const last = now ? lastClosed(now) : 0;
  if (last === 0) return "";
  if (rounds.size + absent.size < last)
    return `Loading closed rounds: ${number(rounds.size)} of ${number(last)}.`;
  if (absent.size === last) return "The operator has published no closed round yet.";
  if (absent.size === 0) return "";
  return `${number(absent.size)} of ${number(last)} closed rounds are not published.`;
}

/** The rounds to choose from, the newest first: number and text. */
function choicesOf({ now }) {
  if (!now) return [];
  const last = lastClosed(now);
  const closed = Array.from({ length: last }, (_, n) => [last - n, String(last - n)]);
  return now.ended ? closed : [[last + 1, `${last + 1}, not closed`], ...closed];
}

/** A row for each bidder, at the end. */
function winnersOf({ won, products }) {
  return (won?.bidders ?? []
  ).map(({ name, demands, pays }) => ({
          name,
          blocks: sum(demands),
          pays,
          products: demands.flatMap(
            (blocks, p) => (blocks ? [`${products[p].name}: ${number(blocks)}`] : [])
          ),
        }));
}

/** How a round is called in a caption. */
function captionOf(state, round) {
  const { now, rounds } = state;
  if (rounds.has(round)) return `Results of round ${round}`;
  return now && round > lastClosed(now) ? `Prices of round ${round}, which is not closed`
                                        : `Round ${round}`;
}

/**
 * Everything that the public page shows.
 * @param {State} state
 */
export function shown(state) {
  const { products, now, rounds, product } = state;
  const round = roundOf(state);
  const called = now?.ended ? `Ended after round ${now.round}` : `Round ${now?.round ?? ""}`;
  const { digest, published } = rounds.get(round) ?? {};
  return {
    isKnown: now !== null && products.length > 0,
    round: now ? called : "",
    title: now ? `${now.ended ? "Ended" : called} · results · clock auction` : "",
    facts: products.length ? factsOf(state) : [],
    choices: choicesOf(state),
    chosen: round,
    caption: captionOf(state, round),
    rows: products.length ? rowsOf(state) : [],
    points: products.length && rounds.size ? pointsOf(state, product) : [],
    name: products[product]?.name ?? "",
    digest: digest ?? "",
    published: published ?? "",
    progress: progressOf(state),
    winners: winnersOf(state),
    hasWinners: state.won !== null,
    link: state.fault,
    canSave: rounds.size > 0,
  };
}

/** The rows of a file with all rounds that are loaded. */
export function fileOf({rounds, products}) {
  const head = ["round", "product", "supply", "start", "clock", "posted", "demand", "next"];
  const numbers = [...rounds.keys()].sort((a, b) => a - b);
  return [
    head,
    ...numbers.flatMap(
      (n) => rounds.get(n).products.map(
        (sold, p) =>
          [n,
           products[p].name,
           products[p].supply,
           sold.start,
           sold.clock,
           sold.posted,
           sold.demand ?? "",
           sold.next ?? "",
  ]
      )
    )
  ];
}
