// The manager's desk: keeps one state, changes it by what the server, the conductor, the desk, and
// the person do, and draws what desk_shown.js makes of it.

import {Asker, pause} from "./api.js";
import {timeWords} from "./clock.js";
import {Conductor} from "./conductor.js";
import {Desk} from "./desk_acts.js";
import {ask} from "./desk_ask.js";
import {Increments} from "./desk_increments.js";
import {Results} from "./desk_results.js";
import {closingQuestion, doneWords, hasNoSheets, refusalWords, shown} from "./desk_shown.js";
import {answers, follow} from "./link.js";
import {Listing} from "./listing.js";
import {entitle} from "./mock.js";
import {at, door, drawn, facts, lastClosed, make, number, say, tell, unask} from "./page.js";
import {wordsOf} from "./rules.js";
import {Times} from "./times.js";

const EVERY = 2000; // milliseconds between two looks at the desk
const conductor = new Conductor(), results = new Results(), increments = new Increments();
const bidders = new Listing(
  "bidframe",
  [
    { id: "name", head: "Bidder", by: ({ name }) => name, cell: ({ name }) => [name] },
    {
      id: "submitted",
      head: "Bids",
      by: ({ submitted }) => (submitted === null ? -1 : Number(submitted)),
      cell: ({ submitted }) =>
        [submitted === null ? "–"
           : submitted      ? "submitted"
                            : "missing"]
    },
    {
      id: "since",
      head: "Since",
      by: ({ since }) => since ?? "",
      cell: ({ since }) => [timeOf(since)]
    },
    {
      id: "seen",
      head: "Last seen",
      by: ({ seen }) => seen ?? "",
      cell: ({ seen }) => [timeOf(seen)]
    },
    {
      id: "eligibility",
      head: "Eligibility",
      by: ({ eligibility }) => eligibility,
      cell: ({ eligibility }) => [number(eligibility)]
    },
  ],
  { noun: "bidder", kind: ({ submitted }) => (submitted === false ? "without" : "") }
);

/** @type {import("./desk_shown.js").State} */
let state = {
  status: null,
  desk: null,
  report: { words: "", needsYou: false, isStale: false },
  bidders: [],
  onlyMissing: false,
  link: answers(""),
  time: { phase: null, words: "", seconds: null, results: "" },
  message: "",
  busy: false,
};
// `underWay` is the round that is being closed by this page itself
let asker, desk, page, underWay = 0, gone = false;

const timeOf = (time) => (time ? timeWords(time, Date.now()) : "–");

/** Changes the state, and shows it. */
function set(change) {
  state = {...state, ...change };
  if (state.status) show();
}

function message(words) {
  say(words);
  set({ message: words });
}

// -- Drawing

let drawnBidders = "", drawnActs = "", drawnDone = "";

function show() {
  const now = shown(state);
  entitle(now.title);
  tell("round", now.round);
  tell("who", now.who);
  tell("left", now.clock.left);
  tell("standing", now.clock.words);
  at("clock").className = now.clock.kind;
  tell("waits", now.waits.words);
  at("waits").className = now.waits.kind;
  tell("link", now.link.words);
  at("link").className = now.link.kind;
  showSheets(now);
  showWaiting(now.waiting);
  showActs(now);
  showDone();
}

/** Shows who has submitted bids. */
function showSheets({ sums, submitted, missing, rows, isOver }) {
  at("closing").hidden = at("standings").hidden = isOver;
  at("submitted").hidden = at("missing").hidden = submitted.length === 0;
  tell("missing", missing);
  const drawing = JSON.stringify([sums, rows]);
  if (drawing === drawnBidders) return;
  drawnBidders = drawing;
  facts("sums", sums.map(({ name, value, of }) => [name, value + (of ? ` ${of}` : "")]));
  facts("submitted", submitted);
  bidders.set(rows);
}

function showWaiting(waiting) {
  at("waiting").hidden = !waiting;
  tell("waitingwords", waiting?.line ?? "");
  at("confirm").hidden = !waiting || waiting.isMine;
}

function showActs({ acts, main, close }) {
  const send = at("send");
  tell("send", main.words);
  send.className = main.kind;
  send.setAttribute("aria-disabled", String(Boolean(main.off)));
  send.dataset.act = main.off ? "" : main.act;
  tell("ask", close);
  const drawing = JSON.stringify(acts);
  if (drawing === drawnActs) return;
  drawnActs = drawing;
  at("acts").replaceChildren(...acts.map(
    ({ act, words, why }) => make(
      "button", {
        type: "button",
        id: "act-" + act,
        title: why || null,
        "aria-disabled": String(why !== ""),
        onclick: () => (why ? message(`⚠ Not possible: ${why}.`) : perform(act)),
      },
      words
    )
  ));
}

function showDone() {
  const done = state.desk?.done ?? [];
  const drawing = JSON.stringify(done);
  if (drawing === drawnDone) return;
  drawnDone = drawing;
  at("done").replaceChildren(...done.toReversed().map(
    (one) =>
      make("li", {}, make("time", { datetime: one.time }, timeOf(one.time)), " " + doneWords(one))
  ));
}

// -- Loading

/** Asks for the results and the last closed round. */
async function load() {
  page ??= await asker.products();
  await lookAtDesk();
  const now = await (state.desk ? desk.results() : asker.results());
  const before = results.now;
  await results.load(asker, page, now);
  if (before && now.round < before.round) underWay = 0;
  drawn(() => {
    at("eachlabel").hidden = page.version === 1;
    increments.draw(page.products, (p) => results.posted(p));
    results.draw();
    set({ status: { round: now.round, ended: now.ended } });
  });
  look();
}

/** Takes in what the conductor reports, and who has submitted bids. */
function look() {
  if (!results.now) return;
  const active = results.now.bidders.filter(({ eligibility }) => eligibility > 0);
  const { round } = state.status ?? results.now;
  const isStale = conductor.isStale();
  const report = { words: conductor.words(), needsYou: conductor.needsYou(), isStale };
  const isOfNow = state.desk?.round === round && !state.desk.is_stale;
  set({ report, bidders: isOfNow ? state.desk.bidders : standings(active, round) });
}

/** The bidders with eligibility, by the conductor's report. */
function standings(active, round) {
  const sheets = conductor.sheetsOf(round, active.map(({ name }) => name));
  const submitted = new Set(sheets?.submitted);
  return active.map(
    ({ name, eligibility }) =>
      ({ name, eligibility, submitted: sheets && submitted.has(name), since: null, seen: null })
  );
}

async function lookAtDesk() { state = {...state, desk: await desk.state() }; }

/** Looks at the desk for good. */
async function watchDesk() {
  for (;;) {
    await pause(EVERY);
    await lookAtDesk().catch(() => {});
    look();
  }
}

// -- Acts

/** Asks about an act, and has it done. */
async function perform(act, given = null) {
  if (state.busy || at("question").open) return;
  if (act === "next" && !isShown()) return;
  try {
    const answered = desk.act(act, state, given);
    const answer = await answered;
    if (!answer) return;
    if (answer.state === "waits") {
      message("It waits for a second person, who confirms it at the desk.");
    } else if (answer.state === "withdrawn") {
      message("✓ Withdrawn.");
    } else {
      message(`✓ Done: ${answer.words}.`);
    }
  } catch (fault) {
    message(refusalWords(fault));
  }
  await lookAtDesk().catch(() => {});
  look();
}

/** Whether the desk shows the server's round. If not, says why no round is closed. */
function isShown() {
  const { round } = state.status;
  if (state.desk.round === round) return true;
  message(`⚠ Not closed: the results of round ${round - 1} are not published yet. Try again.`);
  return false;
}

/** The closing as the page has it, or null if an increment cannot be read. */
function closing() {
  const percents = increments.percents(page.products.length);
  const wrong = increments.wrong(page.products);
  if (wrong) {
    message(`⚠ Not closed: ${wordsOf("increment")}. ${wrong}.`);
    return null;
  }
  return percents;
}

/** Asks before a closing. Returns whether the round's number was typed. */
async function isWanted(percents, isByDesk) {
  const early = conductor.early();
  return Boolean(await ask(closingQuestion(state, percents, { isByDesk, early })));
}

/** Asks first, and closes the round that the question names, or asks the desk for it. */
async function close() {
  const { round } = state.status;
  const percents = closing();
  if (!percents || at("question").open) return;
  if (round === underWay) return message(`Round ${underWay} is already being closed.`);
  if (!state.desk) return closeByPage(round, percents);
  if (!isShown()) return;
  const before = state;
  if (!await isWanted(percents, true)) return;
  const all = page.version === 1 ? percents.slice(0, 1) : percents;
  const given = { increments: all, without_sheets: hasNoSheets(before) };
  set({ busy: true });
  await actOn("close", before, { given, typed: String(round) });
  set({ busy: false });
}

/** Has an act done that is bound to what the page showed before. */
async function actOn(act, before, answer) {
  const now = state;
  state = {...now, busy: false, desk: before.desk };
  await perform(act, answer);
}

/**
 * Whether closings after round 1 need tie-breaking numbers of a seed; if it is not known, they do.
 */
async function needsSeed() {
  const commitment = await asker.commitment().catch(() => ({ chain: "not known" }));
  return Boolean(commitment.chain);
}

/** Closes a round without a desk, if it needs no numbers of a seed. `heard` says when it is. */
async function closeByPage(round, percents) {
  if (round > 1 && await needsSeed()) {
    const why = `round ${round} needs tie-breaking numbers from its seed`;
    return message(`⚠ Not closed: ${why}. Start the desk, or use auction close.`);
  }
  if (!await isWanted(percents, false)) return;
  const base = { round, ties: [] };
  const rise = page.version === 1 ? { increment: percents[0] } : { increments: percents };
  underWay = round;
  message(`Closing round ${round} …`);
  try {
    await asker.close({...base, ...rise });
  } catch (fault) {
    underWay = 0;
    // else `heard` has said what happened
    if (round === state.status.round && !state.status.ended) tellRefused(fault);
  }
}

function tellRefused(fault) {
  if (fault.status === 0) {
    const unknown =
      "It is not known whether the round was closed: see whether its number has risen.";
    return message(`⚠ No answer from the server. ${unknown}`);
  }
  const product = fault.code === "price_limit" ? page.products[fault.place]?.name : "";
  const where = product ? ` (${product})` : "";
  message(`⚠ Refused: ${wordsOf(fault.code)}${where}. Nothing was closed.`);
}

// -- The server and the clock

async function heard(now) {
  const then = state.status;
  const fell = now.round < then.round;
  const risen = now.round > then.round || (now.ended && !then.ended);
  if (risen) unask();
  if (gone || risen || fell) await load();
  gone = false;
  const next =
    state.status.ended ? "The auction has ended." : `The current round is ${state.status.round}.`;
  if (risen) message(`✓ Round ${lastClosed(state.status)} is closed. ${next}`);
  if (fell) {
    const why = "another server answers, or one without its journal";
    message(
      `⚠ The round fell from ${then.round} to ${state.status.round}: ${why}. ` +
      "Tell bidders to stop."
    );
  }
}

async function enter(token) {
  asker = new Asker(token);
  desk = new Desk(asker);
  await load();
  document.body.classList.add("in");
  set({ link: answers() });
  conductor.watch(asker, look);
  watchDesk();
  follow(asker, {
    heard,
    link: () => state.link,
    set: (link) => set({ link }),
    doubt: () => {
      gone = true;
    },
  });
}

const times = new Times({ ticked: (time) => set({ time }) });
door(enter, { wordsOf, closingWords: () => times.closing() });
at("ask").addEventListener("click", close);
at("send").addEventListener("click", ({ currentTarget }) => {
  if (currentTarget.dataset.act) perform(currentTarget.dataset.act);
});
at("confirm").addEventListener("click", () => perform("confirm"));
at("withdraw").addEventListener("click", () => perform("withdraw"));
at("onlymissing").addEventListener("change", () => set({ onlyMissing: at("onlymissing").checked }));
