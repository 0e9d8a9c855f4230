// What the bids of the form mean: their faults, activity, eligibility and cost, what of them is in
// force, and whether bids are taken now. Nothing here reads the page, so tests run it in Node.

import {counted, number, sum} from "./page.js";
import {
  activityLimit,
  activityOf,
  askedDemands,
  costOf,
  faultsOf,
  leastActivity,
  neededActivity,
  nextEligibility,
  wordsOf,
} from "./rules.js";

/** The key of a row: its product, and its price point. */
export const keyOf = (product, step) => `${product}.${step}`;
const GRACE = 5; // seconds after the end by this page's clock in which only the server decides

/** The parts of bids that are sent. */
export const plain = (bids) =>
  bids.map(({price, product, quantity}) => ({price, product, quantity}));
export const same = (some, others) => some.length === others.length && some.every((bid, place) => {
  const { price, product, quantity } = others[place];
  return bid.product === product && bid.quantity === quantity && bid.price === price;
});

/** What the bids of the form mean. It is worked out once for each reading of the form. */
const KNOWN = new WeakMap();
/** @param {import("./shown.js").State} state */
export function judged(state) {
  const { me, terms, form } = state;
  const refused = refusalOf(state);
  const known = KNOWN.get(form);
  if (known && known.terms === terms && known.refused === refused && known.me === me) return known;
  const asked = new Set([...form.bids, ...form.wrong].map(({ product }) => product));
  const meant = {
    terms,
    me,
    refused,
    ...faultsIn(state, refused),
    bids: plain(form.bids),
    isReadable: form.wrong.length === 0,
    requested: activityOf(terms.products, askedDemands(terms.products, form.bids)),
    most: activityLimit(me.round, me.eligibility, terms.limit),
    needed: neededActivity(me.eligibility, terms.requirement),
    left: nextEligibility(leastActivity(terms, form.bids), me.eligibility, terms.requirement),
    cost: costOf(terms.products, form.bids),
    held: costHeld(state),
    missing: me.demands.flatMap((blocks, p) => (blocks > 0 && !asked.has(p) ? [p] : [])),
  };
  KNOWN.set(form, meant);
  return meant;
}

/** The faults of the form by row, and the first one that is of no row. */
function faultsIn({ me, terms, form }, refused) {
  const faults = new Map(form.wrong.map(({ product, step, text }) => [keyOf(product, step), text]));
  let whole = "";
  const found = me.ended ? [] : [...(refused ? [refused] : []), ...faultsOf(terms, form.bids)];
  for (const fault of found) {
    const bid = form.bids[fault.place];
    const words = (fault === refused ? "refused: " : "") + wordsOf(fault.code);
    if (!bid) {
      whole ||= words;
    } else if (!faults.has(keyOf(bid.product, bid.step))) {
      faults.set(keyOf(bid.product, bid.step), words);
    }
  }
  return { faults, whole };
}

/** What the processed demands cost at the start-of-round prices. */
const costHeld = ({ me, terms }) =>
  me.demands.reduce((cost, blocks, p) => cost + BigInt(blocks) * BigInt(terms.prices[p].start), 0n);

/** The server's refusal of the form exactly as it is, or null. A key or a closing ends it. */
function refusalOf({ act, form, me }) {
  return act?.kind === "refused" && act.form === form && act.round === me.round ? act.fault : null;
}

/**
 * Whether it is known which bids are in force: not after a submission without an answer, until they
 * are loaded again.
 */
export function isKnown({act, inForce, me}) {
  return inForce !== null
    && !(act?.kind === "lost" && act.round === me.round && act.asked >= inForce.asked);
}

/** Whether the form is exactly what is known to be in force. */
export function isInForce(state) {
  const { inForce } = state;
  const known = judged(state);
  return isKnown(state) && known.isReadable && Boolean(inForce.bids)
    && same(known.bids, inForce.bids);
}

/** Missing bids, and the blocks that they give up, in words; empty if there are none. */
export function missingWords(state, {missing} = judged(state)) {
  const { me } = state;
  if (missing.length === 0) return "";
  const blocks = number(sum(missing.map((p) => me.demands[p])));
  const all = counted(sum(me.demands), "block");
  return `${counted(missing.length, "missing bid")}: you ask to give up ${blocks} of your ${all}.`;
}

/** Whether bids are taken now: "open", "maybe" if only the server knows, or why not. */
export function doorOf({me, time, link}) {
  if (me.ended) return "ended";
  if (me.eligibility === 0) return "out";
  if (link.closing) return "closing";
  if (time.round < me.round) return "unplanned"; // the timetable is still of the round before
  if (["paused", "before", "unplanned"].includes(time.phase)) return time.phase;
  if (time.phase === "shut") return time.seconds > -GRACE ? "maybe" : "shut";
  return link.silent ? "maybe" : "open";
}
