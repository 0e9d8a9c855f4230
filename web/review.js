// What the bids of the form do, for the review before they are submitted: what rises, falls, is
// maintained, is given up, what that may cost, and what eligibility is left. Nothing here reads the
// page, so tests run it in Node.

import {judged, missingWords} from "./judging.js";
import {counted, dollars, listed, number} from "./page.js";
import {shown} from "./shown.js";

const NAMED = 3; // products that a line names

/** The last quantity that the form asks for of each product with a bid. */
function askedOf({ form }) {
  const asked = new Map();
  for (const { product, quantity } of form.bids) asked.set(product, quantity);
  return asked;
}

/** The kinds of lines, in their order: name, and whether a product with these blocks is of it. */
const KINDS = [
  { id: "rise", name: "Increase", isOne: (held, asked) => asked > held },
  { id: "fall", name: "Reduce", isOne: (held, asked) => asked > 0 && asked < held },
  { id: "up", name: "Give up", isOne: (held, asked) => asked === 0 && held > 0 },
  {
    id: "missing",
    name: "Missing bid: gives up",
    isOne: (held, asked) => asked === undefined && held > 0
  },
  { id: "keep", name: "Maintain", isOne: (held, asked) => asked === held && held > 0 },
];

/** The blocks that a line is about: those that rise or fall, or those that stay. */
const blocksOf = (held, asked = 0) => Math.abs(held - asked) || held;

/** A line for each kind of which there is one: name, products, blocks, and the first names. */
export function linesOf(state) {
  const asked = askedOf(state);
  const { me: { demands }, terms: { products } } = state;
  return KINDS.flatMap(({ id, name, isOne }) => {
    const places = [...products.keys()].filter((p) => isOne(demands[p], asked.get(p)));
    if (places.length === 0) return [];
    const blocks = places.reduce((all, p) => all + blocksOf(demands[p], asked.get(p)), 0);
    const names = listed(places.map((p) => products[p].name), NAMED);
    return [{ id, name, products: places.length, blocks, names }];
  });
}

/**
 * The most that the blocks after the round may cost: each increase is applied, no reduction is, and
 * each product's posted price is its clock price.
 */
export function mostCost(state) {
  const asked = askedOf(state);
  const { me: { demands }, terms: { prices } } = state;
  return demands.reduce((all, held, p) => {
    const blocks = Math.max(held, asked.get(p) ?? 0);
    return all + BigInt(blocks) * BigInt(prices[p].clock);
  }, 0n);
}

/** The sums of the review: name, value, note. */
function sumsOf(state) {
  const { requested, most, left, cost } = judged(state);
  const { me } = state;
  const isFirst = me.round === 1;
  return [
    ["If all bids are applied", dollars(cost), ""],
    ...(
      isFirst ? []
              : [["At most", dollars(mostCost(state)), "no reduction applied, at clock prices"]]
    ),
    ["Activity", number(requested), `of at most ${number(most)}`],
    ["Eligibility after", `${isFirst ? "" : "≥ "}${number(left)}`, `now ${number(me.eligibility)}`],
  ];
}

/**
 * The review of the form: what is asked, its lines and sums, and the button, which is "" if nothing
 * can be submitted now.
 * @param {import("./shown.js").State} state
 * @param {string} doubt what is pointed out, or ""
 */
export function reviewOf(state, doubt) {
  const { send } = shown(state);
  const { form, me } = state;
  const isOff = Boolean(send.off || send.fix || send.again);
  const words = `Your ${counted(form.bids.length, "bid")} for round ${me.round}`;
  const can = doubt ? "Submit anyway" : send.words;
  return {
    words: doubt || words,
    lines: linesOf(state),
    sums: sumsOf(state),
    yes: isOff ? "" : can,
    isDoubt: doubt !== "",
  };
}

/** What is asked before bids are sent, or "". */
export function doubtOf(state) {
  const missing = missingWords(state);
  if (missing) return `${missing} A missing bid asks for 0 blocks at the start-of-round price.`;
  if (judged(state).bids.length) return "";
  const then = state.me.round === 1 ? ": you would be out of the auction" : "";
  return `The form is empty${then}. Submit it?`;
}
