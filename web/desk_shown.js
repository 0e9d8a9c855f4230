// What the manager's desk shows, as a pure function of one state. Nothing here reads the page, a
// clock, or the network, so tests run all of it in Node. operator.js keeps the state, and draws
// what `shown` returns.

import {linkLine} from "./link.js";
import {counted, number, sentence} from "./page.js";
import {wordsOf} from "./rules.js";
import {clockOf} from "./shown.js";

/**
 * @typedef {{ name: string, eligibility: number, submitted: boolean | null, since: string | null,
 * seen: string | null }} Standing a bidder that can still bid
 * @typedef {object} State
 * @property {{ round: number, ended: boolean }} status the server's
 * @property {any} desk what the desk says, or null if it does not run
 * @property {{ words: string, needsYou: boolean, isStale: boolean }} report the conductor's
 * @property {Standing[]} bidders those with eligibility
 * @property {boolean} onlyMissing whether only those without bids are listed
 * @property {import("./link.js").Link} link
 * @property {{ phase: string | null, words: string, seconds: number | null, results: string }} time
 * @property {string} message what became of the last act
 * @property {boolean} busy whether an act is on its way
 */

const WITHHELD = "Connected; results are withheld";

/** What each act is called, before its question. */
const LABELS = {
  pause: "Pause",
  resume: "Continue",
  extend: "Give more time",
  announce: "Announce",
  plan: "New timetable",
  next: "Close the round that waits",
  winners: "Publish the winners",
};

/** Why an act is not possible, by the desk's code. */
const WHY = {
  ended: "the auction has ended",
  not_ended: "the auction has not ended",
  paused: "the auction is paused",
  not_paused: "the auction is not paused",
  not_held: "no round waits for a word",
  published: "the winners are published",
};

/** What the desk's other refusals mean. */
const REFUSED = {
  stale: "the auction has changed since this page showed it. Look at it, and click again",
  repeated: "this request came before",
  typed: "the round's number was not typed",
  one_person: "this needs a second person, and the desk has only one",
  waiting: "another act waits for a second person",
  nothing_waits: "nothing waits any more",
  too_late: "it has waited for more than ten minutes",
  same_person: "another person must confirm it",
  shape: "the desk could not read it",
};

/** A refusal of the desk, in words. */
export function refusalWords({code, words = ""}) {
  if (code === "no_answer")
    return "⚠ No answer. It is not known whether it was done: see the list of acts.";
  const why = REFUSED[code] ?? WHY[code] ?? (words || wordsOf(code));
  return `⚠ Nothing was done: ${why}${words && REFUSED[code] ? ` (${words})` : ""}.`;
}

/** The bidders with submitted bids, and those without; null if that is not known. */
export function countedOf(bidders) {
  if (bidders.some(({ submitted }) => submitted === null)) return null;
  const names = (has) =>
    bidders.filter(({ submitted }) => submitted === has).map(({ name }) => name);
  return { submitted: names(true), missing: names(false) };
}

/** Who has submitted bids, for the question before a closing. */
export function sheetWords(bidders, round) {
  const sheets = countedOf(bidders);
  if (!sheets) return "This page does not know who has submitted bids.";
  const { submitted, missing } = sheets;
  if (submitted.length === 0) {
    const sale = "the auction ends without a sale";
    const then = round === 1 ? sale : "every bidder asks to give up all its blocks";
    return `NO bidder has submitted bids, so ${then}.`;
  }
  if (missing.length === 0) return "All bidders with eligibility have submitted bids.";
  const count = `${number(submitted.length)} of ${number(bidders.length)} bidders with eligibility`;
  return `${count} have submitted bids. No bids from: ${missing.join(", ")}.`;
}

/** The totals of the bar below. */
function sumsOf({ status, bidders }) {
  if (status.ended) return [];
  const sheets = countedOf(bidders);
  const all = bidders.length;
  if (!sheets) return [{ name: "Bidders with eligibility", value: number(all) }];
  const { submitted, missing } = sheets;
  return [
    {
      name: "Submitted bids",
      value: number(submitted.length),
      of: `of ${number(all)}`,
      part: all ? submitted.length / all : 0,
    },
    { name: "Missing", value: number(missing.length), kind: missing.length ? "low" : "" },
  ];
}

/** The acts that have a button, each with why it is not possible now, or "". */
function actsOf(state) {
  return Object.entries(LABELS).map(([act, label]) => {
    const about = state.desk?.acts[act];
    const why = about?.why ? WHY[about.why] ?? about.why : "";
    const words = act === "next" ? `Close round ${state.status.round}, which waits` : label;
    return { act, words: `${words} …`, why: about ? why : "the desk does not run" };
  });
}

/** The act that waits for a second person. */
function waitingOf({ desk }) {
  const waiting = desk?.waiting;
  if (!waiting) return null;
  const isMine = waiting.who === desk.who;
  const asks = `${sentence(waiting.who)} asks to ${waiting.words}.`;
  const then = isMine ? "It waits for a second person." : "Confirm it, or withdraw it.";
  return {...waiting, isMine, line: `${asks} ${then}` };
}

/** The button of the bar below: what is likely to be done now. */
function mainOf(state) {
  const { desk, status } = state;
  const waiting = waitingOf(state);
  const possible = (act) => desk?.acts[act]?.why === null;
  if (!desk) return { act: "", words: "The desk does not run", off: true, kind: "first" };
  if (state.busy) return { act: "", words: "Sending …", off: true, kind: "first" };
  if (waiting && !waiting.isMine) return { act: "confirm", words: "Confirm …", kind: "first" };
  if (possible("winners")) return { act: "winners", words: "Publish the winners …", kind: "first" };
  if (status.ended) return { act: "", words: "The auction has ended", off: true, kind: "first" };
  if (possible("resume")) return { act: "resume", words: "Continue …", kind: "first" };
  if (possible("next")) {
    return { act: "next", words: `Close round ${status.round}, which waits …`, kind: "first" };
  }
  return { act: "pause", words: "Pause the auction …", off: !possible("pause"), kind: "alarm" };
}

function titleOf({ status, report, desk }, clock) {
  const isAlarm = !status.ended && (report.needsYou || waitingOf({ desk })?.isMine === false);
  const left = clock.left && !status.ended ? `${clock.left} · ` : "";
  const round = status.ended ? "Ended" : `Round ${status.round}`;
  return `${isAlarm ? "⚠ " : ""}${left}${round} · desk · clock auction`;
}

/**
 * Everything that the bars, the buttons, and the title show.
 * @param {State} state
 */
export function shown(state) {
  const { status, bidders } = state;
  const clock = clockOf({ me: status, time: state.time, link: state.link });
  const sheets = status.ended ? null : countedOf(bidders);
  return {
    title: titleOf(state, clock),
    round: status.ended ? `Ended after round ${status.round}` : `Round ${status.round}`,
    clock,
    waits: waitsOf(state),
    link: linkLine(state.link, "A round may be closing.", WITHHELD),
    sums: sumsOf(state),
    submitted: submittedOf(state, sheets),
    rows: state.onlyMissing ? bidders.filter(({ submitted }) => submitted === false) : bidders,
    isOver: status.ended,
    close: `Close round ${status.round} …`,
    main: mainOf(state),
    acts: actsOf(state),
    waiting: waitingOf(state),
    sheets,
    missing: sheets ? missingWords(sheets, bidders) : "",
    message: state.message,
    who: state.desk ? `· ${state.desk.who}` : "",
  };
}

/** What the conductor waits for. After the end it may be stopped. */
function waitsOf({ status, report }) {
  if (status.ended && report.isStale) return { kind: "", words: "" };
  return { kind: report.needsYou ? "fault" : "", words: report.words };
}

/** How many bidders have submitted bids, as a fact, if that is known. */
function submittedOf({ bidders }, sheets) {
  if (!sheets) return [];
  const count = `${number(sheets.submitted.length)} of ${number(bidders.length)}`;
  return [["Bidders with submitted bids", count]];
}

/**
 * The question before a closing: its words, what must be typed, and the button.
 * @param {State} state
 * @param {number[]} percents the increments
 * @param {{ isByDesk: boolean, early: string }} given whether the desk asks for it, and what is
 * said if the conductor would close the round by itself
 */
export function closingQuestion(state, percents, {isByDesk, early}) {
  const { round } = state.status;
  const low = Math.min(...percents), high = Math.max(...percents);
  const rise = low === high ? low : `${low} to ${high}`;
  const left = state.time.seconds === null ? "" : ` ${shown(state).clock.left} is left.`;
  const words = [
    `Close round ${round} for all bidders? Clock prices rise by ${rise} percent.${left}`,
    sheetWords(state.bidders, round) + early,
    "Bids that have not arrived will not count. This cannot be undone.",
    isByDesk ? "A second person must confirm it." : "",
  ];
  const yes = hasNoSheets(state) ? "Close it without any bids" : "Close the round";
  return { words: words.filter(Boolean).join(" "), typed: String(round), yes };
}

/** Whether it is known that nobody has submitted bids. */
export const hasNoSheets = ({bidders}) => countedOf(bidders)?.submitted.length === 0;

function missingWords({ missing }, bidders) {
  if (missing.length) return `No bids from: ${missing.join(", ")}.`;
  return bidders.length ? "All bidders with eligibility have submitted bids." : "";
}

/** An act that was done, or not, in words. */
export function doneWords({who, words, outcome}) {
  const what = `${who}: ${words}`;
  if (outcome === "done") return what;
  if (outcome === "waits") return `${what} (asked for)`;
  if (outcome === "withdrawn") return `${what} (withdrawn)`;
  return `${what} (not done: ${REFUSED[outcome] ?? outcome})`;
}

/** What a timetable that is typed says, as the text of its file. */
export function timetableOf({zone, days, percent}) {
  if (days.trim().startsWith("{")) return days;
  const lines = days.split("\n").map((line) => line.trim()).filter(Boolean);
  const listed = lines.map((line) => {
    const [date, ...windows] = line.split(/[\s,]+/);
    return { date, windows };
  });
  const rules = percent.trim() ? { increments: [{ percent: Number(percent) }] } : {};
  return JSON.stringify({ zone: zone.trim() || "UTC", days: listed, ...rules });
}

/** Increments from a file, by product: lines of a product's name and a percentage. */
export function readIncrements(products, text) {
  const places = new Map(products.map((product, p) => [product.name, p]));
  const found = new Map(), wrong = [];
  text.replace(/^\uFEFF/, "").split(/\r?\n/).forEach((line, at) => {
    const [name, percent = ""] =
      line.split(/[,;\t]/).map((part) => part.trim().replace(/^"|"$/g, ""));
    if (!name || (at === 0 && name.toLowerCase() === "product")) return;
    if (!places.has(name)) {
      wrong.push(`line ${at + 1}: no product is called ${name}`);
    } else if (!isPercent(percent)) {
      wrong.push(`line ${at + 1}: the increment of ${name} is ${percent || "missing"}`);
    } else {
      found.set(places.get(name), percent);
    }
  });
  return { found, wrong };
}

export const isPercent = (text) =>
  /^\d{1,2}$/.test(text) && Number(text) >= 1 && Number(text) <= 50;

/** The first products whose increment is none, by name, with what is typed. */
export function wrongIncrements(products, percents) {
  const wrong = products.flatMap(
    ({ name }, p) => (isPercent(percents[p]) ? [] : [`${name} has ${percents[p] || "none"}`])
  );
  const more = wrong.length > 5 ? `, and ${counted(wrong.length - 5, "more product")}` : "";
  return wrong.slice(0, 5).join(", ") + more;
}
