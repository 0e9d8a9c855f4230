// The one message of the bidder's page, next to the button that submits: what became of the last
// act, what is wrong with the form, or what it gives up. Nothing here reads the page, so tests run
// it in Node.

import {doorOf, isInForce, isKnown, judged, missingWords, same} from "./judging.js";
import {counted, number, sentence} from "./page.js";
import {wordsOf} from "./rules.js";

/**
 * @typedef {import("./shown.js").State} State
 * @typedef {import("./shown.js").Line} Line
 */

const RECEIPTS = {
  waiting: "Waiting for the receipt.",
  here: "The receipt is here: download it.",
  missing: "No receipt within five seconds: call the operator.",
  wrong: "The receipt is wrong: call the operator.",
};

/** What is said of a receipt, or "". One of a mock auction is named so: it proves nothing else. */
function receiptWords(receipt) {
  const words = RECEIPTS[receipt?.kind] ?? "";
  return receipt?.isMock ? words.replace("receipt", "mock auction's receipt") : words;
}

/** What is said of the signed refusal of a sheet that came too late. `time` is the signed one. */
const REFUSALS = {
  waiting: () => "Waiting for the signed refusal.",
  here: (time) => `The refusal is signed, of ${localTime(time)}: download it.`,
  missing: () => "No signed refusal within five seconds: call the operator.",
  wrong: () => "The signed refusal is wrong: call the operator.",
};

function refusalWords(refusal) {
  const words = REFUSALS[refusal?.kind]?.(refusal.time) ?? "";
  return refusal?.isMock ? words.replace("refusal", "refusal of the mock auction") : words;
}

const localTime = (time) => new Date(time).toLocaleTimeString("en-GB");

/**
 * What each last act says, while it is about this round; null if it has nothing more to say.
 * @type {Object<string, (state: State) => Line | null>}
 */
const MESSAGES = {
  lost: lostMessage,
  accepted: acceptedMessage,
  refused: refusedMessage,
  closing: ({ act }) => ({ kind: act.isBad ? "bad" : "news", words: act.words }),
  filled: ({ act }) => ({ kind: "news", words: act.words }),
  notSaved: (state) =>
    (judged(state).isReadable
       ? null
       : { kind: "bad", words: "Not saved: a row cannot be read as a bid." }),
  failed: ({ act }) => ({ kind: "bad", words: act.words }),
};

/** What became of a submission without an answer, as soon as that is known. */
function lostMessage(state) {
  const { act, inForce } = state;
  if (!isKnown(state)) {
    const words = "No answer from the server. It is not known whether your bids were accepted.";
    return { kind: "bad", words: `${words} The page asks again; your entries stay.` };
  }
  if (inForce.bids && same(inForce.bids, act.sent)) {
    return {
      kind: "good",
      words: `Your bids did arrive: ${counted(act.sent.length, "bid")} in force.`
    };
  }
  if (isInForce(state)) {
    return {
      kind: "news",
      words: "Your last bids did not arrive. Your earlier bids are in force."
    };
  }
  const others = inForce.bids ? "Your earlier bids are in force." : "None are in force.";
  return { kind: "bad", words: `Your bids did not arrive. ${others} Submit again.` };
}

/** Since when accepted bids are in force, whether they are what the form has, and their receipt. */
function acceptedMessage(state) {
  const { act, inForce } = state;
  const bids = counted(act.count, "bid");
  if (act.closed) {
    return {
      kind: "good",
      words: `${bids} accepted for round ${act.round}, which is closed by now.`
    };
  }
  if (!inForce?.bids || !same(inForce.bids, act.sent)) return null; // others came from elsewhere
  const receipt = receiptOf(state, false);
  const isSame = isInForce(state);
  const parts = [
    `${bids} in force since ${inForce.since}.`,
    isSame ? "" : "Your changes since then are not submitted.",
    receiptWords(receipt),
  ];
  const isAlarm = ["missing", "wrong"].includes(receipt?.kind);
  return {
    kind: isAlarm ? "bad"
      : isSame    ? "good"
                  : "warn",
    words: parts.filter(Boolean).join(" "),
    button: receipt?.kind === "here" ? ["receipts", "Download receipts"] : null,
  };
}

function refusedMessage(state) {
  const { fault, product, status } = state.act;
  const isLate = fault.code === "window";
  // what it was refused for; without a timetable nobody knows whether a window has opened since
  const isOver = isLate && state.time.phase === "open" && doorOf(state) === "open";
  if (isOver && isInForce(state)) return null; // they came from elsewhere
  const stays = state.inForce?.bids && (status !== 409 || isLate);
  const refusal = isLate ? receiptOf(state, true) : null;
  const parts = isOver ? ["Your last bids came while no window was open. Submit again."] : [
    `Refused: ${wordsOf(fault.code)}${product ? ` (${product})` : ""}.`,
    stays ? "Your earlier bids stay in force." : "",
  ];
  return {
    kind: isOver ? "warn" : "bad",
    words: [...parts, refusalWords(refusal)].filter(Boolean).join(" "),
    button: refusal?.kind === "here" ? ["receipts", "Download receipts"] : null,
  };
}

/** What is known of the receipt of the last sheet, or, if it was late, of its signed refusal. */
function receiptOf({ act, receipt }, isLate) {
  return receipt?.round === act.round && Boolean(receipt.isLate) === isLate ? receipt : null;
}

/** The bids in force, in words. */
export function inForceWords({me, inForce}) {
  if (me.ended) return "The auction is over: no bids are in force.";
  if (!inForce) return "";
  if (!inForce.bids) return `No bids in force, as of ${inForce.since}.`;
  const when = inForce.isOwn ? " since" : ", as of";
  return `${counted(inForce.bids.length, "bid")} in force${when} ${inForce.since}.`;
}

/**
 * The one message. What is wrong with the form comes before what was done; a closing is said until
 * something is done.
 * @param {State} state
 * @returns {Line}
 */
export function messageOf(state) {
  const { me, act, sending } = state;
  const isOfNow =
    act && (act.round === me.round || (act.kind === "accepted" && act.closed === me.round));
  const last = isOfNow ? MESSAGES[act.kind](state) : null;
  if (me.ended) return last && act.kind === "closing" ? last : { kind: "", words: "" };
  if (sending && act?.kind !== "closing") {
    return { kind: "busy", words: `Sending ${counted(sending.length, "bid")} …` };
  }
  if (last && !["filled", "accepted"].includes(act.kind)) return last;
  const fault = faultMessage(judged(state));
  if (fault) return fault;
  if (last && (act.kind === "filled" || last.kind !== "warn")) return last;
  return warningOf(state) ?? last ?? quietMessage(state);
}

/** What is wrong with the form, or null. */
function faultMessage({ faults, whole }) {
  if (whole) return { kind: "bad", words: `${sentence(whole)}.` };
  if (faults.size === 0) return null;
  if (faults.size === 1) {
    return { kind: "bad", words: "1 bid has an error.", button: ["fault", "Show it"] };
  }
  const words = `${number(faults.size)} bids have errors.`;
  return { kind: "bad", words, button: ["fault", "Show the first"] };
}

/** What the form gives up, or null. */
function warningOf(state) {
  const { me } = state;
  const known = judged(state);
  if (known.missing.length) {
    return { kind: "warn", words: missingWords(state, known), button: ["missing", "Show"] };
  }
  const lost = me.eligibility - known.left;
  if (lost <= 0 || known.bids.length === 0) return null;
  const words = `lose ${number(lost)} of your ${number(me.eligibility)} eligibility.`;
  return { kind: "warn", words: `You ${me.round === 1 ? "will" : "may"} ${words}` };
}

function quietMessage(state) {
  const words = judged(state).bids.length ? "No errors found." : "The form is empty.";
  return { kind: "", words: `${words} ${inForceWords(state)}`.trim() };
}

/**
 * What is said of receipts of sheets that this tab did not send. `receipts` has them, in order.
 */
export function strangeWords(receipts) {
  const last = receipts.at(-1);
  if (!last) return "";
  const by = last.by ? `, by ${last.by}` : "";
  const place = `sheet ${last.sheet} of round ${last.round}${by}`;
  const which = receipts.length === 1
    ? `One sheet in your name was not sent from this tab: ${place}.`
    : `${receipts.length} sheets in your name were not sent from this tab, the last one ${place}.`;
  return `${which} If none of your people sent it, call the auditor.`;
}
