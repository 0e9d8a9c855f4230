// What a closing changed for a bidder, in words. Nothing here reads the page, so tests run it in
// Node.

import {counted, number} from "./page.js";

/** What is said if the round's number fell, which a closing cannot do. */
export const fallWords = (before, me) =>
  [`The round fell from ${before.round} to ${me.round}: another server answers.`,
   "Ask the operator before you bid.",
];

/** What a closing changed for this bidder. */
export function changeWords(before, me, {products}) {
  const moved = products.filter((_, p) => before.demands[p] !== me.demands[p]).length;
  const many = `${number(moved)} of ${counted(products.length, "product")}`;
  const fell = `from ${number(before.eligibility)} to ${number(me.eligibility)}`;
  return [
    me.ended ? `The auction has ended after round ${me.round}.`
             : `Round ${before.round} is closed.`,
    moved ? `Your processed demand changed in ${many}.` : "Your processed demand did not change.",
    before.eligibility === me.eligibility ? "" : `Your eligibility fell ${fell}.`,
  ];
}

/**
 * How the form was prepared for the next round, in words. `isUnknown` is whether it was not known
 * what was submitted.
 */
export function carriedWords({maintained, emptied, left}, isUnknown) {
  const part = (count, one, many) =>
    count && `${counted(count, "row")} ${count === 1 ? one : many}`;
  const whose = isUnknown ? "" : "that you had not submitted ";
  const demand = "demand at the new clock price";
  const parts = [
    part(maintained, `maintains ${demand}`, `maintain ${demand}`),
    part(emptied, "is empty", "are empty"),
    part(left, `${whose}keeps its quantity`, `${whose}keep their quantity`),
  ].filter(Boolean);
  return parts.length ? `In the form, ${parts.join("; ")}: not submitted yet.` : "";
}
