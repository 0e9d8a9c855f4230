// Loads a bidder's account, prices, and submitted bids, and prepares the form for the round.

import {carriedWords, changeWords, fallWords} from "./closing.js";
import {auctionMark} from "./draft.js";
import {draftsOf, forget, takeDraft} from "./filling.js";
import {plain} from "./judging.js";
import {drawn, lastClosed, sum, timeOfDay, unask} from "./page.js";
import {draw, past, put, receipts, server, sheet, state} from "./store.js";

/** Asks for the account and the submitted bids, and for the new prices if a round was closed. */
export async function load() {
  const began = ++server.turn;
  const { asker } = server;
  const accepted = state.act?.kind === "accepted" ? state.act : null;
  const [page, now] = await Promise.all([state.terms ?? asker.products(), asker.account()]);
  const before = state.me;
  const last = lastClosed(now);
  if (!before) know(page, now);
  if (before && now.round < before.round) past.clear(); // another server, or another auction
  const closed = [last, last - 1].filter((round) => round > 0);
  const [reply] = await Promise.all(
    [now.ended ? null : asker.inForce(), ...closed.map((round) => past.learn(asker, round))]
  );
  const changed = before && (before.round !== now.round || before.ended !== now.ended);
  const terms = termsOf(page, now, last);
  // bids may have been accepted after this reply
  const isLater = state.act?.kind === "accepted" && state.act !== accepted;
  const inForce = isLater && !changed ? state.inForce : inForceOf(now, reply?.bids ?? null, began);
  if (!before) {
    begin(page, now, terms, inForce);
  } else if (changed) {
    change(before, now, terms, inForce);
  } else {
    put({ me: now, terms, inForce });
  }
  if (now.eligibility === 0) sheet.clear();
  drawn(draw);
  past.draw(asker, terms.products, last);
}

/** Takes what this tab has kept of the auction and the bidder. */
function know(page, { name }) {
  const mark = auctionMark(page.products, receipts.commitment);
  draftsOf(mark);
  past.begin(mark, name);
}

/** What bids of the round are judged by. */
const termsOf = (page, now, last) => ({
  products: page.products,
  requirement: page.requirement,
  limit: page.limit ?? 100,
  prices: pricesOf(page.products, last),
  round: now.round,
  held: now.demands,
  eligibility: now.eligibility,
});

/**
 * Start-of-round and clock price of each product: the opening price, or what the results of the
 * last round say.
 */
function pricesOf(products, last) {
  if (last === 0) return products.map(({ opening }) => ({ start: opening, clock: opening }));
  return past.products(last).map(({ posted, next }) => ({ start: posted, clock: next ?? posted }));
}

/**
 * The submitted bids as the server has them. If they are those that this tab saw accepted, it knows
 * since when.
 */
function inForceOf(me, bids, asked) {
  const mine = bids && plain(bids).sort((a, b) => a.product - b.product);
  const { inForce } = state;
  if (mine) past.saw(me.round, mine);
  const isSame = JSON.stringify(inForce?.bids) === JSON.stringify(mine);
  const isOwn = Boolean(inForce?.isOwn && inForce.round === me.round && isSame);
  return { bids: mine, round: me.round, asked, isOwn, since: isOwn ? inForce.since : timeOfDay() };
}

/**
 * Fills the form at the entry: with the draft of this tab, the submitted bids, or bids to maintain
 * demand.
 */
function begin(page, me, terms, inForce) {
  let words = "";
  if (inForce.bids) {
    sheet.take(inForce.bids);
  } else if (!me.ended && sum(me.demands) > 0) {
    sheet.maintain(me.demands);
    words = "The form has bids to maintain your demand. Nothing is submitted yet.";
  }
  words = takeDraft(me, page.products.length) || words;
  const act = words ? { kind: "filled", round: me.round, words } : null;
  put({ me, terms, inForce, act });
}

/** Says what a closing changed, and prepares the form for the next round. */
function change(before, me, terms, inForce) {
  unask();
  forget();
  const sent = past.bids(before.round) ?? [];
  const oldPrices = state.terms.prices;
  const isUnknown = state.act?.kind === "lost";
  const isFall = me.round < before.round;
  const parts = isFall ? fallWords(before, me) : changeWords(before, me, terms);
  if (!isFall && !me.ended && me.eligibility > 0) {
    parts.push(carriedWords(sheet.carry(sent, me.demands, oldPrices), isUnknown));
  }
  const words = parts.filter(Boolean).join(" ");
  const act = { kind: "closing", round: me.round, isBad: isFall, words };
  put({ me, terms, inForce, receipt: null, act });
  receipts.closed(before.round);
}
