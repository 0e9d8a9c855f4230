// States of the page of a bidder for tests: two products, round 2, a demand of two blocks of A.
// `state` changes what differs.

import { plain } from "../../web/judging.js";

const products = [
  { name: "A", units: 1, supply: 2, cap: 4, opening: 100 },
  { name: "B", units: 2, supply: 3, cap: 3, opening: 50 },
];
const OPENING = [{ start: 100, clock: 100 }, { start: 50, clock: 50 }];
const SECOND = [{ start: 100, clock: 110 }, { start: 50, clock: 55 }];
const PARTS = ["form", "inForce", "sending", "act", "receipt", "undo", "evidence", "old", "lines"];
PARTS.push("news");

export const bid = (product, quantity, price) => ({ product, quantity, price, step: 0 });
export const KEEP = [bid(0, 2, 110)];
export const REDUCE = [bid(0, 1, 105)];

/** Bids in force, as loaded with the request number `asked`. */
export const force = (bids, asked = 1, isOwn = true) => (
  { bids: bids && plain(bids), since: "10:20:38", isOwn, asked, round: 2 });
export const form = (bids, wrong = []) => ({ bids, wrong });
export const sent = plain;

export function state(change = {}) {
  const { round = 2, ended = false, demands = [2, 0], eligibility = 4 } = change;
  const prices = round === 1 ? OPENING : SECOND;
  const link = { silent: false, answered: "10:20:30", fault: "", closing: false };
  const time = { phase: "open", words: "Open until 10:30", seconds: 600, results: "" };
  return {
    me: { name: "X", round, ended, eligibility, activity: 2, demands },
    terms: { products, prices, requirement: 50, limit: 100, round, held: demands, eligibility },
    form: form(KEEP),
    inForce: force(null),
    sending: null,
    act: null,
    receipt: null,
    evidence: { count: 0, strange: [] },
    undo: "",
    old: null,
    lines: [],
    news: 0,
    worth: null,
    link: { ...link, ...change.link },
    time: { ...time, ...change.time },
    ...Object.fromEntries(Object.entries(change).filter(([name]) => PARTS.includes(name))),
  };
}
