// No two lines of the bidder's page contradict each other, in any combination of what they are
// made of.

import assert from "node:assert/strict";
import test from "node:test";
import { inspect } from "node:util";

import { shown } from "../../web/shown.js";
import { bid, force, form, KEEP, REDUCE, sent, state } from "./states.js";

const WRONG = form([], [{ product: 0, step: 0, text: "the quantity is not a whole number" }]);
const lost = (asked) => ({ kind: "lost", round: 2, sent: sent(REDUCE), asked });
const accepted = { kind: "accepted", round: 2, sent: sent(REDUCE), count: 1, closed: 0 };
const VALUES = {
  form: [form(KEEP), form(REDUCE), form([]), WRONG, form([bid(0, 9, 110)])],
  inForce: [force(null), force(REDUCE), force(KEEP, 3)],
  sending: [null, sent(KEEP)],
  act: [
    null,
    lost(1),
    lost(3),
    accepted,
    { ...accepted, round: 1 },
    { kind: "closing", round: 2, words: "Round 1 is closed." },
    { kind: "refused", round: 1, fault: { code: "window" } },
    { kind: "filled", round: 1, words: "Pasted" },
  ],
  receipt: [
    null,
    { kind: "here", round: 2 },
    { kind: "missing", round: 1 },
    { kind: "missing", round: 2, isLate: true, time: "" },
  ],
  link: [{}, { silent: true }, { closing: true }],
  time: [
    {},
    { seconds: 19 },
    { phase: "shut", seconds: -9 },
    { phase: "shut", seconds: -1 },
    { phase: "paused", seconds: null },
    { phase: "before", seconds: 9 },
    { phase: null, words: "", seconds: null },
  ],
  end: [{ round: 1 }, {}, { ended: true }, { eligibility: 0 }],
};

/** All combinations of the values of each part. */
const all = (parts) => Object.entries(parts).reduce(
  (found, [name, values]) => (
    found.flatMap((one) => values.map((value) => ({ ...one, [name]: value })))),
  [{}]
);

const SEEN = all(VALUES).map((change) => {
  const given = state({ ...change, ...change.end });
  const now = shown(given);
  return { change, given, now, words: `${now.todo.words} ${now.message.words}` };
});

/** Each rule: when it applies, and what is then true. */
const RULES = {
  "green only if the server answers, and it is known what is in force": [
    ({ given, now }) => isOpen(given) && now.todo.kind === "done",
    ({ given, now }) => given.inForce.bids && now.link.kind === "good" && !given.link.closing
      && (now.send.again || now.send.words === "Sending …"),
  ],
  "no alarm about a submission beside a green line": [
    ({ given, now }) => isOpen(given) && now.todo.kind === "done",
    ({ now }) => !/not known|Submit again|No answer/.test(now.message.words),
  ],
  "nothing is called in force while that is not known": [
    ({ given }) => isUnknown(given),
    ({ now }) => !now.send.again && now.todo.kind !== "done" && now.isUnsaved !== false,
  ],
  "the button calls in force what is in force": [
    ({ now }) => now.send.again,
    ({ given }) => JSON.stringify(given.inForce.bids) === JSON.stringify(sent(given.form.bids)),
  ],
  "a receipt is spoken of in its own round only": [
    ({ given }) => given.receipt?.round !== given.me.round,
    ({ words }) => !words.includes("receipt"),
  ],
  "no bids are in force since a time if there are none": [
    ({ given, words }) => !given.inForce.bids && !/accepted for round|arrive/.test(words),
    ({ words }) => !/bids? in force since/.test(words),
  ],
  "only the clock has the time that is left": [
    () => true,
    ({ words }) => !/\d:\d\d left|seconds left|minutes? left/.test(words),
  ],
  "the clock is marked only while it counts": [
    ({ given }) => given.time.phase !== "open" || given.link.closing,
    ({ now }) => now.clock.kind !== "last" && now.clock.kind !== "soon",
  ],
  "no message of another round": [
    ({ given }) => given.act?.round === 1 && given.me.round === 2,
    ({ words }) => !/Refused|Pasted/.test(words),
  ],
  "nothing is to be submitted to a closed round": [
    ({ now }) => now.send.off && now.send.words.includes("is closed"),
    ({ now }) => !/^Submit/.test(now.todo.words),
  ],
  "while a round is closing, that is what is said, and nothing can be submitted": [
    ({ given }) => isOpen(given) && given.link.closing && !given.link.silent,
    ({ now }) => now.todo.words.startsWith("The round is closing") && now.send.off
      && now.link.kind === "good",
  ],
  "one submission is sent at a time": [
    ({ given }) => given.sending !== null,
    ({ now }) => now.send.off,
  ],
  "a button, a title and what to do are always there": [
    () => true,
    ({ given, now }) => now.title.includes(given.me.name) && now.send.words
      && (now.todo.words || given.me.ended),
  ],
};

/** Whether a submission had no answer, and the bids in force were not loaded since then. */
const isUnknown = (given) => isOpen(given) && given.form.bids.length > 0
  && given.act?.kind === "lost" && given.act.round === given.me.round
  && given.act.asked >= given.inForce.asked;
const isOpen = (given) => !given.me.ended && given.me.eligibility > 0;

test("there are more than 80,000 combinations", () => assert.equal(SEEN.length, 80_640));

for (const [name, [applies, holds]] of Object.entries(RULES)) {
  test(`in all combinations: ${name}`, () => {
    const these = SEEN.filter(applies);
    assert.ok(these.length > 0, "no combination is one of these");
    const wrong = these.find((each) => !holds(each));
    if (wrong) assert.fail(inspect([wrong.change, wrong.now], { depth: 6 }));
  });
}
