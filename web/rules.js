// The rules for a bidder's bids, as docs/rules.md and docs/formats.md state them: activity,
// eligibility, and the first fault. The server decides; this predicts what it will say. Costs are
// BigInt: 4,096 products of 1,000 blocks at 10^12 dollars exceed what a Number holds exactly.

const MOST_BIDS = 8192;

/**
 * What each fault of a sheet or a closing means, and what to do, in the words of docs/bidders.md
 * and docs/deployment.md.
 */
export const WORDS = {
  too_many: "more than 8,192 bids",
  unknown_product: "no product has that number: count from 0",
  price_range: "the price is not between start-of-round price and clock price of this round",
  over_cap: "the quantity is above the product's cap",
  price_order:
    "an earlier bid for the product has this price or a higher one: list its bids at rising prices",
  mixed_direction: "use only falling or only rising quantities for a product",
  keep_price: "to maintain your processed demand, bid at the clock price",
  over_activity: "the sheet requests more activity than the limit allows: request fewer blocks",
  increment: "an increment is not 1 to 50, or there is not one for each product",
  too_many_ties: "more than 16,384 tie-breaking numbers: send fewer",
  price_limit:
    "the next clock price of the product would be above 10^12 dollars: use a smaller increment",
};

/** What the documents say of requests, in words for these pages. */
const OF_REQUESTS = {
  ended: "the auction is over: see the results of the last round",
  wrong_round: "another round is the current one: read the new prices first",
  no_round: "that round is not closed: choose a closed one",
  token: "no token, or an unknown token: enter it again",
  role: "this token may not open this page: use the other page",
  memory: "the server was out of memory, and nothing was changed: try again",
  long_body: "there are too many bids to send: submit fewer",
  closing: "the round is closing: wait until its results appear",
  window: "the round is not open for bids: see the timetable, and submit your bids when it opens",
  too_often: "too many requests: wait a few seconds, and try again",
  no_answer: "no answer from the server",
};

/** The words for a code, or the code itself if there are none. */
export function wordsOf(code) {
  const words = [WORDS, OF_REQUESTS].find((known) => Object.hasOwn(known, code));
  return words ? words[code] : "refused: " + code;
}

/** The activity of demands, one for each product. */
export function activityOf(products, demands) {
  return products.reduce((sum, product, at) => sum + product.units * demands[at], 0);
}

/** The requested demands of bids: the last quantity of each product, 0 without a bid. */
export function askedDemands(products, bids) {
  const asked = new Array(products.length).fill(0);
  for (const bid of bids)
    if (bid.product < products.length) asked[bid.product] = bid.quantity;
  return asked;
}

/** The most activity that bids of the round may request. */
export function activityLimit(round, eligibility, limit = 100) {
  return round === 1 ? eligibility : Math.floor((eligibility * limit) / 100);
}

/**
 * The eligibility after a round of this processed activity: the least number of which the required
 * percentage is at least the activity.
 */
export function nextEligibility(activity, eligibility, requirement) {
  return Math.min(eligibility, Math.ceil((activity * 100) / requirement));
}

/** The least processed activity that keeps this eligibility. */
export function neededActivity(eligibility, requirement) {
  return eligibility === 0 ? 0 : Math.floor(((eligibility - 1) * requirement) / 100) + 1;
}

/**
 * A number that the processed activity of the bids cannot fall below, whatever other bidders do. If
 * each bid to increase
 * demand is applied, the least activity is the requested one, since others decide only which
 * reductions are applied. A bid to
 * increase that is not wholly applied leaves less unused eligibility than one block of its product
 * needs.
 */
export function leastActivity(terms, bids) {
  const asked = askedDemands(terms.products, bids), requested = activityOf(terms.products, asked);
  if (terms.round === 1) return requested;
  const reduced =
    activityOf(terms.products, asked.map((quantity, p) => Math.min(quantity, terms.held[p])));
  const heaviest = terms.products.reduce(
    (most, product, p) => (asked[p] > terms.held[p] ? Math.max(most, product.units) : most), 0
  );
  return Math.min(requested, Math.max(reduced, terms.eligibility - heaviest + 1));
}

/** What bids commit to, if all are applied: each product's last quantity at its last price. */
export function costOf(products, bids) {
  const last = new Map();
  for (const bid of bids) last.set(bid.product, BigInt(bid.quantity) * BigInt(bid.price));
  return [...last.values()].reduce((sum, cost) => sum + cost, 0n);
}

/**
 * The first fault of one more bid, or null. `before` are the product's earlier bids that have no
 * fault.
 */
function faultOfBid(terms, before, bid) {
  const product = terms.products[bid.product];
  if (!product) return "unknown_product";
  const { start, clock } = terms.prices[bid.product];
  if (bid.price < start || bid.price > clock) return "price_range";
  if (bid.quantity > product.cap) return "over_cap";
  const held = terms.held[bid.product];
  if (before.length === 0)
    return bid.quantity === held && bid.price !== clock ? "keep_price" : null;
  const last = before[before.length - 1];
  if (last.price >= bid.price) return "price_order";
  const goesOn =
    before[0].quantity > held ? bid.quantity > last.quantity : bid.quantity < last.quantity;
  return goesOn ? null : "mixed_direction";
}

/**
 * Every fault of the bids, as {code, place}, by rising place. Later bids for a product are judged
 * without those with a fault.
 */
export function faultsOf(terms, bids) {
  if (bids.length > MOST_BIDS) return [{ code: "too_many" }];
  const faults = [], chains = new Map();
  bids.forEach((bid, place) => {
    const before = chains.get(bid.product) ?? [];
    const code = faultOfBid(terms, before, bid);
    if (code)
      faults.push({ code, place });
    else
      chains.set(bid.product, [...before, bid]);
  });
  if (faults.length === 0) {
    const asked = activityOf(terms.products, askedDemands(terms.products, bids));
    if (asked > activityLimit(terms.round, terms.eligibility, terms.limit))
      faults.push({ code: "over_activity" });
  }
  return faults;
}
