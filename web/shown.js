// What the bidder's page shows, as a pure function of one state. Nothing here reads the page, a
// clock, or the network, so tests run all of it in Node. bidder.js keeps the state, and draws what
// `shown` returns.

import {clockWords, closingWords} from "./clock.js";
import {doorOf, isInForce, isKnown, judged} from "./judging.js";
import {linkLine} from "./link.js";
import {inForceWords, messageOf, strangeWords} from "./message.js";
import {counted, dollars, number, sum} from "./page.js";

/**
 * @typedef {{ price: number, product: number, quantity: number, step?: number }} Bid
 * @typedef {{ kind: string, words: string, button?: string[] | null, back?: boolean }} Line a text
 * with its class
 * @typedef {object} Act the last thing that happened; MESSAGES says what each kind has
 * @property {string} kind
 * @property {number} round
 * @property {Bid[]} [sent]
 * @property {number} [asked]
 * @property {number} [count]
 * @property {number} [closed] the round that was current when the answer came, if the bids were for
 * an earlier one
 * @property {string} [words]
 * @property {boolean} [isBad]
 * @property {{ code: string, place?: number }} [fault]
 * @property {string} [product]
 * @property {number} [status]
 * @property {Form} [form]
 * @property {string} [time]
 * @typedef {{ bids: Bid[], wrong: { product: number, step: number, text: string }[] }} Form as
 * read; new after each change
 * @typedef {{ bids: Bid[] | null, since: string, isOwn: boolean, asked: number, round: number }}
 * InForce
 * @typedef {object} Time what the timetable says
 * @property {string | null} phase null without a timetable
 * @property {string} words
 * @property {number | null} seconds
 * @property {string} results when the results appear, if that is known
 * @property {number} [round] the round of the timetable
 * @typedef {object} State
 * @property {any} me the account: name, round, ended, eligibility, activity, demands
 * @property {any} terms products, prices, requirement, limit, round, held, eligibility
 * @property {Form} form
 * @property {InForce | null} inForce the submitted bids, and since when they are known; null if not
 * loaded yet
 * @property {Bid[] | null} sending the bids whose answer has not come yet
 * @property {Act | null} act
 * @property {{ kind: string, round: number, isLate?: boolean, isMock?: boolean,
 * time?: string } | null} receipt of the last sheet: "waiting", "here", "missing", or "wrong". With
 * `isLate` it is the signed refusal of a late sheet, with its time.
 * @property {{ count: number, strange: any[] }} evidence how many receipts this tab has, and those
 * of sheets that it did not send
 * @property {string} undo what an undo takes back, or ""
 * @property {any} old the draft of an earlier round, or null
 * @property {string[]} lines the wrong lines of a file
 * @property {number} news how many announcements there are
 * @property {number[][] | null} worth what blocks are worth, by product, if that is known
 * @property {import("./link.js").Link} link
 * @property {Time} time
 */

/** The seconds before the end at which the time left is marked. */
export const SOON = 300, LAST = 60;

const SCALES = [
  { unit: 10n ** 12n, letter: "T" },
  { unit: 10n ** 9n, letter: "B" },
  { unit: 10n ** 6n, letter: "M" },
];

/**
 * Dollars in a few letters, for a button: all digits below a million, else three digits, rounded
 * up.
 */
export function shortDollars(amount) {
  const exact = BigInt(amount);
  const found = SCALES.find(({ unit }) => exact >= unit);
  if (!found) return dollars(exact);
  const { unit, letter } = found;
  let digits = 100n;
  if (exact >= 100n * unit)
    digits = 1n;
  else if (exact >= 10n * unit)
    digits = 10n;
  const scaled = (exact * digits + unit - 1n) / unit;
  return `$${Number(scaled) / Number(digits)} ${letter}`;
}

// -- The bar above

export function clockOf({me, time, link}) {
  const { phase, words, seconds } = time;
  if (me.ended) return { left: "Ended", words: "", kind: "" };
  if (time.round < me.round) return { left: "–", words: "", kind: "off" };
  if (link.closing && phase !== "shut") return { left: "Closing", words: "", kind: "off" };
  if (phase === null) return { left: "", words: "", kind: "" };
  if (phase === "open" && seconds === null) {
    return { left: "Open", words: words.replace(/^Open\. /, ""), kind: "" };
  }
  if (phase === "open") return { left: clockWords(seconds), words, kind: urgencyOf(seconds) };
  if (phase === "before") {
    return { left: clockWords(seconds), words: words.replace("Opens", "opens"), kind: "off" };
  }
  if (phase === "paused") {
    return { left: "Paused", words: words.replace("Paused: ", ""), kind: "off" };
  }
  return { left: phase === "shut" ? "Closed" : "–", words, kind: "off" };
}

/** The class of the time left. */
function urgencyOf(seconds) {
  if (seconds < LAST) return "last";
  return seconds < SOON ? "soon" : "";
}

/** What is left to do while bids are not taken, by the door. */
const SHUT = {
  paused: "The auction is paused: no bids are accepted.",
  before: "Prepare your bids, and submit them when the round opens.",
};

/**
 * What is left to do in the round. Nothing is called done unless the server answers and it is known
 * what is in force.
 */
function todoOf(state) {
  const { me, inForce, link, time } = state;
  const door = doorOf(state);
  if (door === "ended") {
    const won = counted(sum(me.demands), "block");
    const words = `The auction has ended. You won ${won} for ${dollars(judged(state).held)}.`;
    return { kind: "done", words };
  }
  if (door === "out")
    return { kind: "off", words: "Your eligibility is 0: you can no longer bid." };
  if (link.silent) {
    return {
      kind: "bad",
      words: `Wait: the state of the round is not known since ${link.answered}.`
    };
  }
  if (door === "closing") return closingTodo(state);
  if (!isKnown(state)) {
    return { kind: "bad", words: "Wait: it is not known which of your bids are in force." };
  }
  if (isInForce(state))
    return { kind: "done", words: "Your bids are in force. Nothing is left to do." };
  if (door === "unplanned") return { kind: "off", words: `Round ${me.round} is not open yet.` };
  if (door in SHUT) return { kind: "off", words: SHUT[door] };
  if (door === "shut" || door === "maybe") return shutTodo(inForce);
  if (inForce.bids) {
    return {
      kind: "todo",
      words: "The form differs from your bids in force: submit it.",
      back: true
    };
  }
  const isLate = time.seconds !== null && time.seconds < SOON;
  return { kind: isLate ? "bad" : "todo", words: `Submit bids: without any ${withoutWords(me)}.` };
}

function closingTodo(state) {
  const words = closingWords(state.time.results);
  if (isKnown(state)) return { kind: "off", words };
  return { kind: "bad", words: `${words} It is not known which of your bids are in force.` };
}

function shutTodo(inForce) {
  if (!inForce.bids) return { kind: "bad", words: "You submitted no bids in this round." };
  return { kind: "off", words: "The bids that you submitted count. Changes since then do not." };
}

/** What happens to a bidder that submits no bids in this round. */
function withoutWords(me) {
  if (me.round === 1) return "you are out of the auction";
  return sum(me.demands) ? "you ask to give up all your blocks" : "you buy nothing";
}

// -- The bar below

/** The totals: name, value, what it is of, a note, a class, and a gauge. */
function sumsOf(state) {
  const { me, terms } = state;
  const { requested, most, needed, left, cost, held } = judged(state);
  if (me.ended) {
    return [
      { name: "Blocks won", value: number(sum(me.demands)) },
      { name: "To pay", value: dollars(held) },
      { name: "Activity", value: number(me.activity) },
      { name: "Eligibility", value: number(me.eligibility) },
    ];
  }
  const isOver = requested > most, isLow = requested < needed, isLost = left < me.eligibility;
  const part = (activity) => (most ? Math.min(1, activity / most) : 0);
  const percent = `${terms.requirement}%`;
  return [
    { name: "Commitment", value: dollars(cost), note: `now ${dollars(held)}` },
    {
      name: "Activity",
      value: number(requested),
      of: `of ${number(most)}`,
      kind: isOver ? "over" : "",
      note: isOver ? `${number(requested - most)} above the limit` : `now ${number(me.activity)}`,
      bar: { part: part(requested), need: part(needed) },
    },
    {
      name: "Keeps eligibility",
      value: number(needed),
      kind: isLow ? "short" : "",
      note: isLow ? `${number(needed - requested)} short, ${percent}` : `${percent} required`,
    },
    {
      name: "Eligibility after",
      value: `${me.round > 1 && isLost ? "≥ " : ""}${number(left)}`,
      kind: isLost ? "low" : "",
      note: `now ${number(me.eligibility)}`,
    },
  ];
}

// -- The button that submits, and the title

/** Why the button does nothing, by the door. */
const IDLE = {
  closing: "The round is closing",
  ended: "The auction has ended",
  out: "You cannot bid",
  paused: "Paused",
  unplanned: "Not open yet",
};

/** The button that submits: what it would do, or why it does nothing. */
function sendOf(state) {
  const { me, sending, time } = state;
  const known = judged(state);
  const door = doorOf(state);
  const bids = counted(known.bids.length, "bid");
  const cost = shortDollars(known.cost);
  if (sending) return { words: "Sending …", off: true };
  if (door === "ended" || door === "out") return { words: IDLE[door], off: true };
  if (isInForce(state)) {
    const off = door !== "open" && door !== "maybe";
    return { words: `In force: ${bids}, ${cost}`, again: true, off };
  }
  if (door === "before") return { words: `Opens in ${clockWords(time.seconds)}`, off: true };
  if (door === "shut") return { words: `Round ${me.round} is closed`, off: true };
  if (door in IDLE) return { words: IDLE[door], off: true };
  if (!known.isReadable) return { words: "Show what cannot be read", fix: true };
  if (known.bids.length === 0) return { words: "Submit no bids", idle: true };
  return { words: `Submit ${bids}, ${cost}`, doubt: known.faults.size > 0 || known.whole !== "" };
}

/** The tab's title: the time first, since tabs are narrow. */
function titleOf(state) {
  const { me } = state;
  const clock = clockOf(state);
  const todo = todoOf(state);
  const isAlarm = todo.kind === "bad" || (todo.kind === "todo" && clock.kind);
  const left = clock.left && !me.ended ? `${clock.left} · ` : "";
  return `${isAlarm ? "⚠ " : ""}${left}${me.ended ? "Ended" : "Round " + me.round} · ${me.name}`;
}

/** The state after a key in the form: what was said of the form as it was is over. */
export function afterKey(state) {
  const stays = state.act?.kind === "accepted" || !isKnown(state);
  return stays ? state : {...state, act: null };
}

/**
 * Everything that the bars, the title and the marks of rows show.
 * @param {State} state
 */
export function shown(state) {
  const known = judged(state);
  return {
    title: titleOf(state),
    round: state.me.ended ? `Ended after round ${state.me.round}` : `Round ${state.me.round}`,
    clock: clockOf(state),
    todo: todoOf(state),
    link: linkLine(state.link, "The round may be closing."),
    sums: sumsOf(state),
    message: messageOf(state),
    send: sendOf(state),
    inForce: inForceWords(state),
    who: `· ${state.me.name}`,
    tab: state.me.ended ? "What you won" : "Bids",
    isOver: isOver(state),
    strange: strangeWords(state.evidence.strange),
    hasReceipts: state.evidence.count > 0,
    hasOld: state.old !== null,
    lines: state.lines,
    news: state.news ? number(state.news) : "",
    undo: state.me.ended ? "" : state.undo,
    faults: known.faults,
    missing: known.missing,
    isUnsaved: isUnsaved(state),
  };
}

/** Whether nothing can be entered any more. */
const isOver = ({ me }) => me.ended || me.eligibility === 0;

/** Whether leaving the page would lose bids that the server does not have. */
function isUnsaved(state) {
  const { me, form } = state;
  const isEmpty = form.bids.length === 0 && form.wrong.length === 0;
  return !isOver(state) && !isEmpty && !isInForce(state);
}
