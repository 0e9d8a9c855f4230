// The bidder's page: changes the one state by what the server, the clock and the person do, and
// draws what shown.js makes of it.

import {Alarm, alarmWords, passed} from "./alarm.js";
import {Asker, pause, spread} from "./api.js";
import {drawBars} from "./bars.js";
import {offerColumns} from "./choice.js";
import * as files from "./files.js";
import {
  copyInForce,
  empty,
  filled,
  keep,
  maintain,
  remember,
  takeOld,
  typed,
  undo
} from "./filling.js";
import {Grid} from "./grid.js";
import {doorOf, judged, keyOf} from "./judging.js";
import {answers, follow} from "./link.js";
import {load} from "./loading.js";
import {at, door, lastClosed, printedWords, showName, tell} from "./page.js";
import {wordsOf} from "./rules.js";
import {shown} from "./shown.js";
import {
  acted,
  draw,
  drawBy,
  past,
  put,
  read,
  receipts,
  server,
  set,
  sheet,
  state,
  tabs
} from "./store.js";
import {review, submit} from "./submitting.js";
import {Times} from "./times.js";
import {view} from "./views.js";

const grid = new Grid(sheet, {
  typed,
  filled,
  undo,
  before: remember,
  leave: () => at("send").focus(),
  pasteBids: (text) => files.takeText(text, "paste", "pasted"),
});
let drawnFaults = null; // the faults that the rows show

drawBy({ show, rows });

/** Draws the bars, the title and the marks of rows. */
function show() {
  const now = shown(state);
  drawBars(now);
  if (now.faults === drawnFaults) return;
  drawnFaults = now.faults;
  grid.mark(now.faults);
}

/** Draws the rows, and judges the form as it is now. */
function rows() {
  const { me, terms, inForce, worth } = state;
  const last = lastClosed(me);
  const submitted = new Map();
  for (const bid of inForce?.bids ?? []) {
    submitted.set(bid.product, [...(submitted.get(bid.product) ?? []), bid]);
  }
  const earlier = last > 1 ? past.own(last - 1) : null;
  grid.show({ me, terms, earlier, sold: past.products(last), submitted, worth });
  drawnFaults = null;
  set({ form: read() });
  grid.lay();
}

// -- What buttons do

const BUTTONS = {
  fault: () => toFault(),
  missing: () => {
    view("bids");
    grid.goTo(judged(state).missing.map((p) => keyOf(p, 0)));
  },
  receipts: () => receipts.save(),
  old: () => takeOld(),
};

function toFault() {
  view("bids");
  grid.goTo(judged(state).faults.keys());
}

const send = () => (shown(state).send.fix ? toFault() : submit());

/** Loads the submitted bids into the page again. */
async function reload() {
  try {
    await load();
    acted("filled", { words: "The submitted bids are loaded." });
  } catch (fault) {
    acted("failed", {
      words: `The submitted bids could not be loaded: ${wordsOf(fault.code ?? String(fault))}.`
    });
  }
}

// -- The server, the clock, and other tabs

/** Has the account and the submitted bids loaded again at the next status. */
function look() { server.isDoubted = true; }

async function heard(status) {
  const again = server.isDoubted;
  const { me } = state;
  server.isDoubted = false;
  const isClosed = status.round !== me.round || status.ended !== me.ended;
  if (isClosed) await pause(spread(state.terms.products.length));
  if (again || isClosed) await load();
  if (doorOf(state) === "unplanned") times.ask();
}

const alarm = new Alarm();

/** Turns the alarm on or off. */
async function chooseAlarm() {
  if (at("alarm").checked) {
    acted("filled", { words: await alarm.on() });
  } else {
    alarm.off();
  }
}

const times = new Times({
  host: at("timesview"),
  heard: (timetable) => {
    if (state.worth || !timetable.worth) return;
    put({ worth: timetable.worth });
    if (state.me) draw();
  },
  ticked: (time) => {
    const mark = passed(state.time, time);
    set({ time });
    if (!mark || !state.me) return;
    alarm.ring(alarmWords(time.seconds, state.me.round), shown(state).todo.words);
  },
  news: (news) => set({ news }),
});

/** Enters with a token. */
async function enter(token) {
  const asker = new Asker(token);
  server.asker = asker;
  await asker.status(); // before anything is drawn, since pages may be withheld
  past.clear();         // another token may have come this far
  put({ me: null, terms: null, inForce: null, sending: null, act: null });
  document.body.classList.add("in");
  try {
    receipts.commitment = await asker.commitment().catch(() => null);
    await load();
    await receipts.begin(asker, state.me.name, state.me.round);
  } catch (fault) {
    document.body.classList.remove("in");
    throw fault;
  }
  set({ link: answers() });
  follow(asker, {
    heard,
    link: () => state.link,
    set: (link) => set({ link }),
    doubt: look,
  });
}

// -- Buttons and keys

/** A button of the menu: it closes the menu, whose head then has the cursor. */
function onMenu(id, work) {
  at(id).addEventListener("click", () => {
    at("menu").open = false;
    at("menuhead").focus();
    work();
  });
}

/** The keys that work everywhere: Escape closes the menu, Ctrl+Enter submits, and / finds. */
function keyed(event) {
  const open = event.key === "Escape" && document.querySelector(".menu[open]");
  if (open) {
    /** @type {any} */ (open).open = false;
    open.querySelector("summary").focus();
  }
  const isSubmit = event.key === "Enter" && (event.ctrlKey || event.metaKey);
  const isTyping = event.target.matches("input:not([data-field]), select, dialog *");
  const isFind = event.key === "/" && !isTyping;
  if (!state.me || at("question").open || !(isSubmit || isFind)) return;
  event.preventDefault();
  if (isSubmit) return send();
  view("bids");
  at("find").focus();
}

showName();
door(enter, { wordsOf, closingWords: () => times.closing() });
offerColumns();
at("send").addEventListener("click", send);
at("act").addEventListener("click", () => BUTTONS[shown(state).message.button?.[0]]?.());
at("undo").addEventListener("click", undo);
at("review").addEventListener("click", review);
at("alarm").addEventListener("change", chooseAlarm);
at("keep").addEventListener("click", maintain);
at("back").addEventListener("click", () => {
  copyInForce();
  at("round").focus();
});
onMenu("clear", empty);
onMenu("again", reload);
onMenu("down", files.download);
onMenu("downround", files.downloadRound);
onMenu("old", takeOld);
onMenu("receipts", () => receipts.save());
at("up").addEventListener("change", files.upload);
at("upreceipts").addEventListener("change", files.uploadReceipts);
at("upvalues").addEventListener("change", files.uploadValues);
document.addEventListener("click", ({ target }) => {
  for (const menu of ["menu", "columns"])
    if (!at(menu).contains(target)) at(menu).open = false;
});
document.addEventListener("keydown", keyed);
// bids may have been submitted elsewhere
tabs.addEventListener("message", look);
document.addEventListener("visibilitychange", look);
addEventListener("pagehide", keep);
addEventListener("beforeprint", () => {
  if (!state.me) return;
  const { round, inForce } = shown(state);
  tell("printed", `${printedWords(`${round}, ${state.me.name}`, new Date())}. ${inForce}`);
});
// what is not shown is not drawn
addEventListener("view", (event) => {
  if (/** @type {CustomEvent} */ (event).detail === "past") past.show();
});
addEventListener("beforeunload", (event) => {
  if (state.me && shown(state).isUnsaved) event.preventDefault();
});
