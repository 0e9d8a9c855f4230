// What a row of the grid asks for, in words, and what is in force of it. Nothing here reads the
// page, so tests run it in Node. `v` is the view that grid.js keeps, and `v.steps(p)` has the price
// points of a product as typed.

import {dollars, number} from "./page.js";
import {priceOf, quantityOf} from "./sheet.js";

/**
 * Whether the last block that a row asks for, or that the bidder has, costs more at the clock price
 * than it is worth.
 */
export function isAbove({worth, me, terms, steps}, p) {
  if (!worth || me.ended) return false;
  const last = steps(p).findLast((typed) => quantityOf(typed.quantity) !== null);
  const blocks = (last ? quantityOf(last.quantity) : me.demands[p]) || 0;
  return blocks > 0 && terms.prices[p].clock > (worth[p]?.[blocks - 1] ?? 0);
}

/** What a row asks for, in words, and its class: a missing bid is pointed out. */
export function effectOf(v, p, step) {
  const { me, terms, sold, steps } = v;
  const held = me.demands[p];
  if (me.ended) return ["", ""];
  const isUnlikely = sold && sold[p].demand === null;
  const unlikely = isUnlikely ? " No excess demand: only if others increase." : "";
  const isWorthLess = step === 0 && isAbove(v, p);
  const above = isWorthLess ? " Its last block is worth less than the clock price." : "";
  if (me.round === 1 && !held) return [above ? "above" : "", above.trim()];
  if (!v.isAsked(p)) {
    if (!held) return ["", ""];
    return ["missing", `Missing bid: asks for 0 at ${dollars(terms.prices[p].start)}.${unlikely}`];
  }
  const quantities = steps(p).map((typed) => quantityOf(typed.quantity));
  const quantity = quantities[step] ?? null;
  const before = step === 0 ? held : quantities[step - 1];
  if (quantity === null || before === null) return ["", ""]; // also in a row that goes soon
  if (quantity === before) {
    return [above ? "above" : "", quantity ? `Maintain ${number(quantity)}.${above}` : ""];
  }
  const change = `${number(before)} to ${number(quantity)}`;
  const kind = above ? "above" : "change";
  if (quantity < before) return [kind, `Reduce ${change}.${unlikely}${above}`];
  return [kind, `Increase ${change}.${above}`];
}

/**
 * The submitted bid of a price point, or that the row is that bid. The last row of a product says
 * how many more there are.
 */
export function inForceOf({submitted, terms, steps}, p, step) {
  const bids = submitted.get(p) ?? [];
  const bid = bids[step];
  if (!bid) return "";
  const { quantity, price } = steps(p)[step];
  const typed = price.trim() === "" ? terms.prices[p].clock : priceOf(price);
  const isSame = quantityOf(quantity) === bid.quantity && typed === bid.price;
  const words =
    isSame ? "✓ in force" : `In force: ${number(bid.quantity)} at ${dollars(bid.price)}`;
  const count = steps(p).length;
  const more = bids.length - count;
  return more > 0 && step === count - 1 ? `${words}, ${more} more` : words;
}

/**
 * The place of a row among rows sorted by what asks for attention: errors, missing bids, changes,
 * maintained demand, others.
 */
export function rankOf(v, p) {
  if (v.isWrong(p)) return 0;
  const [kind, words] = effectOf(v, p, 0);
  if (kind === "missing") return 1;
  if (!words) return 4;
  return words.startsWith("Maintain") ? 3 : 2;
}
