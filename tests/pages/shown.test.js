// What the bidder's page shows in each of a table of states.

import assert from "node:assert/strict";
import test from "node:test";

import { keyOf } from "../../web/judging.js";
import { afterKey, shortDollars, shown } from "../../web/shown.js";
import { bid, force, form, KEEP, REDUCE, sent, state } from "./states.js";

const OFF = { silent: true };
const CLOSING = { closing: true };
const WRONG = form([], [{ product: 0, step: 0, text: "the quantity is not a whole number" }]);
const lost = (asked) => ({ kind: "lost", round: 2, sent: sent(REDUCE), asked });
const accepted = (more = {}) => (
  { kind: "accepted", round: 2, sent: sent(REDUCE), count: 1, closed: 0, ...more });
const LATE = { kind: "refused", round: 2, fault: { code: "window" }, status: 409 };
const TIME = "2026-11-30T13:00:05Z";
const TIME_HERE = new Date(TIME).toLocaleTimeString("en-GB");
const refusal = (kind) => ({ kind, round: 2, isLate: true, time: kind === "here" ? TIME : "" });
const SUBMITTED = { form: form(REDUCE), inForce: force(REDUCE), act: accepted() };
const EARLY = { kind: "refused", round: 2, fault: { code: "window" }, status: 409 };
const OVER_CAP = { kind: "refused", round: 2, fault: { code: "over_cap" }, product: "A" };
const shut = (seconds, more = {}) => (
  { phase: "shut", words: "Closed for bids.", seconds, ...more });

// What each state is about, the state, and words that `todo`, `message` and `send` have; a class
// comes first, if there is one.
const TABLE = {
  "nothing submitted yet": [
    {},
    "todo Submit bids: without any you ask to give up all your blocks.",
    "No errors found.",
    "Submit 1 bid, $220",
  ],
  "round 1": [
    { round: 1, demands: [0, 0], form: form([bid(0, 1, 100)]) },
    "todo Submit bids: without any you are out",
    "warn You will lose 2 of your 4",
    "Submit 1 bid, $100",
  ],
  "an empty form": [
    { demands: [0, 0], form: form([]) },
    "todo Submit bids: without any you buy nothing.",
    "The form is empty.",
    "Submit no bids",
  ],
  "less than five minutes": [{ time: { seconds: 200 } }, "bad Submit bids", "", "Submit 1 bid"],
  "submitted": [
    SUBMITTED,
    "done Your bids are in force.",
    "good 1 bid in force since 10:20:38.",
    "In force: 1 bid, $105",
  ],
  "changed since": [
    { ...SUBMITTED, form: form([bid(0, 0, 105)]) },
    "todo The form differs",
    "warn You may lose",
    "Submit 1 bid, $0",
  ],
  "changed since, and nothing is wrong": [
    { ...SUBMITTED, form: form(KEEP) },
    "todo The form differs",
    "warn 1 bid in force since 10:20:38. Your changes since then are not submitted.",
    "Submit 1 bid",
  ],
  "loaded from elsewhere": [
    { form: form(KEEP), inForce: force(KEEP, 1, false) },
    "done",
    "No errors found. 1 bid in force, as of 10:20:38.",
    "In force",
  ],
  "a missing bid": [
    { form: form([]) },
    "todo",
    "warn 1 missing bid: you ask to give up 2 of your 2 blocks.",
    "Submit no bids",
  ],
  "an error": [{ form: form([bid(0, 9, 110)]) }, "todo", "bad 1 bid has an error.", "Submit 1 bid"],
  "two errors": [
    { form: form([bid(0, 9, 110), bid(1, 9, 55)]) },
    "todo",
    "bad 2 bids have errors.",
    "Submit 2 bids",
  ],
  "too much activity": [
    { form: form([...KEEP, bid(1, 3, 55)]) },
    "todo",
    "bad The sheet requests more activity",
    "Submit 2 bids",
  ],
  "a row that cannot be read": [
    { form: WRONG },
    "todo",
    "bad 1 bid has an error.",
    "Show what cannot be read",
  ],
  "sending": [{ sending: sent(KEEP) }, "todo", "busy Sending 1 bid", "Sending …"],
  "sending, and something was filled in": [
    { sending: sent(KEEP), act: { kind: "filled", round: 2, words: "Pasted." } },
    "todo",
    "busy Sending 1 bid",
    "Sending …",
  ],
  "refused": [
    { form: WRONG, act: OVER_CAP },
    "todo",
    "bad Refused: the quantity is above the product's cap (A).",
    "",
  ],
  "refused, with earlier bids in force": [
    { ...SUBMITTED, act: OVER_CAP },
    "done",
    "cap (A). Your earlier bids stay in force.",
    "",
  ],
  "refused before the round opened": [
    { form: form(REDUCE), act: EARLY, time: { phase: "before", seconds: 9 } },
    "off",
    "bad Refused: ",
    "",
  ],
  "refused before the round opened, which is open now": [
    { form: form(REDUCE), act: EARLY },
    "todo",
    "warn Your last bids came while no window was open. Submit again.",
    "Submit 1 bid",
  ],
  "refused, and no timetable says whether the round is open now": [
    {
      form: form(REDUCE),
      act: EARLY,
      time: { phase: null, words: "", seconds: null },
    },
    "todo",
    "bad Refused: the round is not open for bids",
    "Submit 1 bid",
  ],
  "a timetable of the round before": [
    { time: { phase: "shut", seconds: -20, words: "Closed for bids.", round: 1 } },
    "off Round 2 is not open yet.",
    "",
    "",
  ],
  "no answer to a submission": [
    { form: form(REDUCE), act: lost(1), link: OFF },
    "bad Wait: the state of the round is not known",
    "bad No answer from the server. It is not known",
    "Submit 1 bid",
  ],
  "the server is back, and the bids are not loaded yet": [
    { form: form(REDUCE), act: lost(1) },
    "bad Wait: it is not known which",
    "bad No answer",
    "Submit 1 bid",
  ],
  "bids without an answer did arrive": [
    { form: form(REDUCE), act: lost(1), inForce: force(REDUCE, 2) },
    "done",
    "good Your bids did arrive: 1 bid in force.",
    "In force",
  ],
  "bids without an answer did not arrive": [
    { form: form(REDUCE), act: lost(1), inForce: force(null, 2) },
    "todo",
    "bad Your bids did not arrive. None are in force. Submit again.",
    "Submit 1 bid",
  ],
  "a receipt": [
    { ...SUBMITTED, receipt: { kind: "here", round: 2 } },
    "done",
    "good 1 bid in force since 10:20:38. The receipt is here",
    "In force",
  ],
  "a receipt of a mock auction": [
    { ...SUBMITTED, receipt: { kind: "here", round: 2, isMock: true } },
    "done",
    "good 1 bid in force since 10:20:38. The mock auction's receipt is here",
    "In force",
  ],
  "no receipt": [
    { ...SUBMITTED, receipt: { kind: "missing", round: 2 } },
    "done",
    "bad 1 bid in force since 10:20:38. No receipt within five seconds: call the operator.",
    "In force",
  ],
  "a wrong receipt": [
    { ...SUBMITTED, receipt: { kind: "wrong", round: 2 } },
    "done",
    "bad 1 bid in force since 10:20:38. The receipt is wrong: call the operator.",
    "In force",
  ],
  "a receipt of the round before": [
    { act: accepted({ round: 1 }), receipt: { kind: "here", round: 1 } },
    "todo",
    "No errors found. No bids in force",
    "Submit 1 bid",
  ],
  "too late, and its refusal is on its way": [
    { act: LATE, receipt: refusal("waiting"), inForce: force(REDUCE), time: shut(-9) },
    "off",
    "opens. Your earlier bids stay in force. Waiting for the signed refusal.",
    "",
  ],
  "too late, and shut": [
    { act: LATE, receipt: refusal("here"), time: shut(-9) },
    "bad",
    `bad Refused: the round is not open for bids`,
    "",
  ],
  "too late, and its refusal is signed": [
    { act: LATE, receipt: refusal("here") },
    "todo",
    "warn Your last bids came while no window was open. Submit again. " +
      `The refusal is signed, of ${TIME_HERE}: download it.`,
    "Submit 1 bid",
  ],
  "too late, without a signed refusal": [
    { act: LATE, receipt: refusal("missing") },
    "todo",
    "No signed refusal within five seconds: call the operator.",
    "Submit 1 bid",
  ],
  "too late, with a wrong refusal": [
    { act: LATE, receipt: refusal("wrong") },
    "todo",
    "The signed refusal is wrong: call the operator.",
    "Submit 1 bid",
  ],
  "a refusal of another reason has none that is signed": [
    { act: OVER_CAP, receipt: refusal("missing") },
    "todo",
    "bad Refused: the quantity is above the product's cap (A).",
    "Submit 1 bid",
  ],
  "a refusal is no receipt": [
    { ...SUBMITTED, receipt: refusal("here") },
    "done",
    "good 1 bid in force since 10:20:38.",
    "In force",
  ],
  "bids of a round that is closed by now": [
    { act: accepted({ round: 1, closed: 2 }) },
    "todo",
    "good 1 bid accepted for round 1, which is closed by now.",
    "Submit 1 bid",
  ],
  "the last seconds": [{ time: { seconds: 4 } }, "bad Submit bids", "", "Submit 1 bid"],
  "shut, nothing submitted": [
    { time: shut(-9) },
    "bad You submitted no bids in this round.",
    "",
    "Round 2 is closed",
  ],
  "shut by this clock, and perhaps not by the server's": [
    { time: shut(0) },
    "bad You submitted no bids",
    "",
    "Submit 1 bid",
  ],
  "shut, with bids": [
    { ...SUBMITTED, form: form(KEEP), time: shut(-9) },
    "off The bids that you submitted count.",
    "",
    "Round 2 is closed",
  ],
  "closing": [
    { time: shut(-9), link: CLOSING },
    "off The round is closing; its results follow.",
    "",
    "The round is closing",
  ],
  "closing, and it is known until when": [
    { ...SUBMITTED, time: shut(-9, { results: "10:30:30" }), link: CLOSING },
    "off The round is closing; results appear at 10:30:30.",
    "good 1 bid in force since",
    "In force: 1 bid",
  ],
  "closing after a submission without an answer": [
    { form: form(REDUCE), act: lost(1), time: shut(-9), link: CLOSING },
    "its results follow. It is not known which of your bids are in force.",
    "bad No answer from the server.",
    "The round is closing",
  ],
  "paused": [
    { time: { phase: "paused", words: "Paused: fire", seconds: null } },
    "off The auction is paused",
    "",
    "Paused",
  ],
  "not open yet": [
    { time: { phase: "before", words: "Opens at 10:40", seconds: 90 } },
    "off Prepare your bids",
    "",
    "Opens in 1:30",
  ],
  "without a time": [
    { time: { phase: "unplanned", words: "The next time will be announced.", seconds: null } },
    "off Round 2 is not open yet.",
    "",
    "Not open yet",
  ],
  "silent": [
    { link: OFF },
    "bad Wait: the state of the round is not known since 10:20:30.",
    "",
    "Submit 1 bid",
  ],
  "silent, and submitted before": [
    { ...SUBMITTED, link: OFF },
    "bad Wait",
    "good 1 bid in force since",
    "In force",
  ],
  "out": [
    { eligibility: 0, demands: [0, 0], form: form([]) },
    "off Your eligibility is 0",
    "The form is empty.",
    "You cannot bid",
  ],
  "ended": [
    { ended: true, act: { kind: "closing", round: 2, words: "The auction has ended." } },
    "done The auction has ended. You won 2 blocks for $200.",
    "news The auction has ended.",
    "The auction has ended",
  ],
  "a closing": [
    { act: { kind: "closing", round: 2, words: "Round 1 is closed." } },
    "todo",
    "news Round 1 is closed.",
    "Submit 1 bid",
  ],
  "a round that fell": [
    { act: { kind: "closing", round: 2, isBad: true, words: "The round fell." } },
    "todo",
    "bad The round fell.",
    "Submit 1 bid",
  ],
  "a file that was not saved": [
    { form: WRONG, act: { kind: "notSaved", round: 2 } },
    "todo",
    "bad Not saved: a row cannot be read as a bid.",
    "Show what cannot be read",
  ],
  "a file that was not read": [
    { act: { kind: "failed", round: 2, words: "The file cannot be read." } },
    "todo",
    "bad The file cannot be read.",
    "Submit 1 bid",
  ],
};

for (const [name, [change, todo, message, send]] of Object.entries(TABLE)) {
  test(`the page shows: ${name}`, () => {
    const now = shown(state(change));
    const said = ({ kind, words }) => `${kind} ${words}`.trim();
    const has = (what, text, wanted) => (
      assert.ok(text.includes(wanted), `${what}: ${text}, and not: ${wanted}`));
    has("todo", said(now.todo), todo);
    has("message", said(now.message), message);
    has("send", now.send.words, send);
  });
}

/** The parts of each total, in order. */
const sums = (change) => shown(state(change)).sums.map(
  ({ name, value, of = "", note = "", kind = "" }) => (
    `${name}: ${value} ${of} ${note} ${kind}`.trim().replace(/ +/g, " ")));

test("the totals are commitment, activity, what keeps eligibility, and eligibility after", () => {
  assert.deepEqual(sums({ form: form([bid(0, 3, 105), bid(1, 1, 55)]) }), [
    "Commitment: $370 now $200",
    "Activity: 5 of 4 1 above the limit over",
    "Keeps eligibility: 2 50% required",
    "Eligibility after: 4 now 4",
  ]);
});

test("the totals say what is short, and what is left at worst", () => {
  assert.deepEqual(sums({ form: form([bid(0, 1, 105)]) }), [
    "Commitment: $105 now $200",
    "Activity: 1 of 4 now 2",
    "Keeps eligibility: 2 1 short, 50% short",
    "Eligibility after: ≥ 2 now 4 low",
  ]);
});

test("after the end the totals are what was won, and what it costs", () => {
  assert.deepEqual(sums({ ended: true }).slice(0, 2), [
    "Blocks won: 2",
    "To pay: $200",
  ]);
});

test("a key ends what was said of the form as it was, and not what is not known", () => {
  const after = (act, more = {}) => afterKey(state({ act, ...more })).act;
  for (const kind of ["closing", "filled", "refused", "failed"]) {
    assert.equal(after({ kind, round: 2, words: "" }), null);
  }
  assert.equal(after(lost(1))?.kind, "lost");
  assert.equal(after(lost(1), { inForce: force(null, 2) }), null);
  assert.equal(after(accepted())?.kind, "accepted");
});

test("a refusal marks its row until the form changes", () => {
  const refused = form([bid(0, 2, 110)]);
  const act = { ...OVER_CAP, form: refused, fault: { code: "over_cap", place: 0 } };
  assert.match(shown(state({ form: refused, act })).faults.get(keyOf(0, 0)), /^refused: /);
  assert.equal(shown(state({ form: form([bid(0, 2, 110)]), act })).faults.size, 0);
});

test("a title begins with the time, and with a mark if bids are missing near the end", () => {
  assert.equal(shown(state()).title, "10:00 · Round 2 · X");
  assert.equal(shown(state({ time: { seconds: 59 } })).title, "⚠ 0:59 · Round 2 · X");
  assert.equal(shown(state({ ...SUBMITTED, time: { seconds: 59 } })).title, "0:59 · Round 2 · X");
});

test("a withheld page is no outage: the page is connected, and the clock does not count on", () => {
  for (const time of [{}, { phase: null, words: "", seconds: null }, shut(-9)]) {
    const now = shown(state({ time, link: CLOSING }));
    assert.deepEqual(now.link, { kind: "good", words: "Connected" });
    assert.ok(["Closing", "Closed"].includes(now.clock.left), now.clock.left);
  }
});

for (const [amount, words] of [
  [0, "$0"],
  [999_999, "$999,999"],
  [1_000_000, "$1 M"],
  [31_470_950, "$31.5 M"],
  [31_500_000, "$31.5 M"],
  [123_456_789, "$124 M"],
  [1_000_000_001, "$1.01 B"],
  [2n * 10n ** 12n + 1n, "$2.01 T"],
]) {
  test(`money in few letters never shows less than it is: ${amount}`, () => {
    assert.equal(shortDollars(amount), words);
  });
}

// ---- What else of the page follows from the state

for (const [name, change, wanted] of [
  ["during the auction", {}, { who: "· X", tab: "Bids", isOver: false }],
  ["after its end", { ended: true }, { tab: "What you won", isOver: true }],
  ["for a bidder who is out", { eligibility: 0 }, { tab: "Bids", isOver: true }],
  ["without receipts", {}, { hasReceipts: false, strange: "" }],
  ["with a receipt", { evidence: { count: 1, strange: [] } }, { hasReceipts: true }],
  ["with a draft of an earlier round", { old: { round: 1, rows: [] } }, { hasOld: true }],
  ["without announcements", {}, { news: "", hasOld: false }],
  ["with announcements", { news: 1234 }, { news: "1,234" }],
]) {
  test(`what is shown ${name}`, () => {
    const now = shown(state(change));
    for (const [part, value] of Object.entries(wanted)) assert.deepEqual(now[part], value, part);
  });
}

test("a signed refusal can be downloaded beside the button", () => {
  const { message } = shown(state({ act: LATE, receipt: refusal("here") }));
  assert.deepEqual(message.button, ["receipts", "Download receipts"]);
  assert.equal(shown(state({ act: LATE, receipt: refusal("missing") })).message.button, null);
});

test("a receipt of a sheet that was not sent is told", () => {
  const strange = [{ round: 1, sheet: 2, by: "bob" }];
  const now = shown(state({ evidence: { count: 1, strange } }));
  assert.match(now.strange, /^One sheet in your name .* sheet 2 of round 1, by bob\./);
});
