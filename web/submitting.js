// Submits the form. Sheets are sent one after the other, so that the last one counts. The server
// decides, and the page says what became of each.

import {keep} from "./filling.js";
import {judged} from "./judging.js";
import {timeOfDay} from "./page.js";
import {doubtOf, reviewOf} from "./review.js";
import {ask} from "./reviewing.js";
import {shown} from "./shown.js";
import {draw, past, receipts, server, set, state, tabs} from "./store.js";

let reviewed = 0; // the round whose bids were reviewed before a submission

/** Whether nothing was submitted in this round, so that the bids are reviewed first. */
const isFirst = (round) => reviewed !== round && !state.inForce?.bids;

/** Submits the form, after a review if nothing was submitted in this round, or bids are missing. */
export async function submit() {
  const now = shown(state);
  if (state.sending || now.send.off) return;
  const { round } = state.me;
  const doubt = doubtOf(state);
  if ((doubt || isFirst(round)) && !await ask(reviewOf(state, doubt))) return;
  reviewed = round;
  await send();
}

/** Shows the review, from which the bids may be submitted too. */
export async function review() {
  const { round } = state.me;
  if (!await ask(reviewOf(state, doubtOf(state)))) return;
  reviewed = round;
  await send();
}

/** Sends the form, unless the round was closed meanwhile. */
async function send() {
  if (state.sending || shown(state).send.off) return;
  const { form, me: { round } } = state;
  const sent = judged(state).bids;
  set({ sending: sent, act: null, receipt: null });
  try {
    await receipts.note(round, sent);
    const done = await server.asker.put(round, sent);
    tellAccepted(round, sent, done.bids);
  } catch (fault) {
    tellRefused(fault, round, sent, form);
  } finally {
    tabs.postMessage("submitted");
    keep();
  }
}

/** Says that bids were accepted, and waits for their receipt. */
function tellAccepted(round, sent, count) {
  const { me } = state;
  const time = timeOfDay();
  const isLate = me.round !== round || me.ended;
  past.saw(round, sent);
  const act = { kind: "accepted", round, sent, count, time, closed: isLate ? me.round : 0 };
  const bids = sent.toSorted((a, b) => a.product - b.product);
  const inForce = { bids, round, asked: ++server.turn, isOwn: true, since: time };
  const done = { sending: null, act, lines: [] };
  set(isLate ? done : {...done, inForce, receipt: null });
  draw();
  receipts.expect(round, sent);
}

/** Says why bids were not accepted; at the row too, if the form is still as it was sent. */
function tellRefused(fault, round, sent, form) {
  if (fault.status === 0) {
    past.saw(round, null);
    server.isDoubted = true;
    return set({ sending: null, act: { kind: "lost", round, sent, asked: server.turn } });
  }
  receipts.refused(round, sent);
  const { status } = fault;
  if (fault.code === "window") receipts.expectRefusal(round);
  const product = state.terms.products[form.bids[fault.place]?.product]?.name;
  const isSame = JSON.stringify(state.form.bids) === JSON.stringify(form.bids);
  if (status === 409) server.isDoubted = true;
  const of = isSame ? state.form : form;
  set({ sending: null, act: { kind: "refused", round, fault, product, status, form: of } });
}
