// The public page: products and their prices in each round, and at the end who won what. It needs
// no token. It keeps one state, and draws what published.js makes of it.

import {Fault, isClosing, pause, within} from "./api.js";
import {chart, spark} from "./chart.js";
import {save, written} from "./csv.js";
import {Listing} from "./listing.js";
import {entitle} from "./mock.js";
import {
  at,
  dollars,
  facts,
  listed,
  loaded,
  make,
  number,
  options,
  printedWords,
  showName,
  tell
} from "./page.js";
import {begun, fileOf, pointsOf, pointWords, shown, wanted} from "./published.js";
import {Times} from "./times.js";

const NAMED = 12;     // products that a winner's row has space for
const A_MOMENT = 100; // milliseconds between two rounds that nobody has asked for

let state = begun();
let turn = 0;       // a number for each auction that is seen
let isBusy = false; // whether rounds are being loaded

const COLUMNS = [
  { id: "name", head: "Product", by: ({ name }) => name, cell: nameCell },
  { id: "supply", head: "Supply", cell: ({ supply }) => [number(supply)] },
  {
    id: "start",
    head: "Start-of-round price",
    label: "Start price",
    cell: ({ start }) => [dollars(start)]
  },
  { id: "clock", head: "Clock price", cell: ({ clock }) => [dollars(clock)] },
  { id: "posted", head: "Posted price", cell: ({ posted }) => [dollars(posted)] },
  { id: "demand", head: "Aggregate demand", label: "Demand", cell: demandCell },
  { id: "excess", head: "Excess demand", cell: ({ excess }) => [excessWords(excess)] },
  { id: "byround", head: "By round", by: ({ posted }) => posted ?? 0, cell: sparkCell },
];
const WON = [
  { id: "name", head: "Bidder", by: ({ name }) => name, cell: ({ name }) => [name] },
  { id: "blocks", head: "Blocks", cell: ({ blocks }) => [number(blocks)] },
  { id: "pays", head: "Payment", cell: ({ pays }) => [dollars(pays)] },
  {
    id: "products",
    head: "Products",
    by: (row) => row.products.length,
    cell: (row) => [listed(row.products, NAMED) || "none"]
  },
];
const past = new Listing("past", COLUMNS);
const winners = new Listing("won", WON, { noun: "bidder" });

const excessWords = (excess) => (excess === null ? "–" : excess ? number(excess) : "no");

function demandCell({ demand, isExcess, supply }) {
  if (demand === null) return ["–"];
  return [isExcess ? number(demand) : `≤ ${number(supply)}`];
}

function nameCell({ p, name }) {
  if (!state.rounds.size) return [name];
  const show = () => {
    set({ product: p });
    at("charted").scrollIntoView({ block: "nearest" });
  };
  return [make("button", { type: "button", class: "plain", onclick: show }, name)];
}

function sparkCell({ p }) {
  const points = state.rounds.size ? pointsOf(state, p) : [];
  return points.length ? [spark(points)] : ["–"];
}

// -- Drawing

/** Changes the state, and shows it. */
function set(change) {
  state = {...state, ...change };
  draw();
}

let drawn = {}; // what was drawn last

function draw() {
  const now = shown(state);
  tell("link", now.link);
  if (!now.isKnown) return;
  tell("round", now.round);
  entitle(now.title);
  tell("progress", now.progress);
  at("save").disabled = !now.canSave;
  at("pastdesk").hidden = false;
  drawIf("facts", now.facts, (rows) => facts("facts", rows));
  drawIf("choices", [now.choices, now.chosen], () => {
    options(at("which"), now.choices);
    at("which").value = String(now.chosen);
  });
  tell("caption", now.caption);
  drawIf("rows", [now.chosen, state.rounds.size, state.products.length], () => past.set(now.rows));
  drawIf("digest", now.digest, () => drawDigest(now));
  drawIf(
    "chart", [state.rounds.size, state.product, at("chart").clientWidth], () => drawChart(now)
  );
  at("wonpart").hidden = !now.hasWinners;
  drawIf("won", [now.winners.length, turn], () => winners.set(now.winners));
}

/** Draws a part of the page if what it shows is not what it showed before. */
function drawIf(part, value, draw) {
  const text = JSON.stringify(value);
  if (drawn[part] === text) return;
  drawn[part] = text;
  draw(value);
}

function drawDigest({ digest, published }) {
  const styles = /** @type {const} */ ({ dateStyle: "medium", timeStyle: "medium" });
  const time = published && new Date(published).toLocaleString("en-GB", styles);
  const what = "It identifies the set-up and everything accepted up to the closing of this round.";
  const when = time ? ` Published at ${time}.` : "";
  tell("digest", digest && `Digest after this round: ${digest}. ${what}${when}`);
}

function drawChart({ name, points }) {
  at("chartpart").hidden = points.length === 0;
  if (!points.length) return;
  const words = `${name}: posted price (line), excess demand (bars), aggregate demand (dashed)`;
  tell("charted", words);
  const wide = Math.max(280, at("chart").clientWidth);
  at("chart").replaceChildren(...chart(words, points, wide, pointWords));
}

// -- Loading

/** A published page, or null if it is not there yet. */
async function page(path) {
  const signal = within(20_000);
  const reply = await fetch("." + path, { cache: "no-cache", credentials: "omit", signal });
  if (reply.ok) return reply.json();
  if (reply.status === 404) return null;
  const refusal = await reply.json().catch(() => ({}));
  throw new Fault({ code: refusal.code ?? "proxy" }, reply.status);
}

/** Takes the state of the auction, and loads what is missing. */
async function look(now) {
  const last = state.now;
  if (last && (now.round < last.round || (last.ended && !now.ended))) { // another auction
    turn++;
    drawn = {};
    state = begun();
  }
  set({ now: { round: now.round, ended: now.ended } });
  if (isBusy) return;
  isBusy = true;
  try {
    await load(turn);
    set({ fault: "" });
  } catch (fault) {
    set({ fault: isClosing(fault) ? times.closing() : "⚠ No answer from the server. Retrying." });
  }
  isBusy = false;
}

async function load(began) {
  if (!state.products.length) {
    const { products } = await page("/v1/products");
    set({ products });
  }
  if (state.now.ended && !state.won) set({ won: await page("/public/winners.json") });
  state.absent.clear(); // what was not published may be by now
  for (let [round] = wanted(state); round && began === turn;[round] = wanted(state)) {
    const found = await page(`/public/rounds/${round}.json`);
    if (began !== turn) return;
    if (!found) set({ absent: new Set([...state.absent, round]) });
    if (found) set({ rounds: new Map([...state.rounds, [round, found]]) });
    if (!found && state.rounds.size === 0) return; // nothing is published, or not yet
    if (state.rounds.size > 1) await pause(A_MOMENT);
  }
}

/** Without a timetable the server says which round it is. */
async function lookAtStatus() {
  try {
    const status = await page("/v1/status");
    if (status?.round) await look(status);
  } catch (fault) {
    set({ fault: isClosing(fault) ? times.closing() : "⚠ No answer from the server. Retrying." });
  }
}

loaded();
showName();
// neither is waited for: rounds may take long to load, and the time left is looked at meanwhile
const times = new Times({ heard: (table) => void look(table), absent: () => void lookAtStatus() });
at("which").addEventListener("change", () => set({ round: Number(at("which").value) }));
addEventListener("resize", () => draw());
addEventListener(
  "beforeprint", () => tell("printed", printedWords(shown(state).caption, new Date()))
);
at("save").addEventListener("click", () => save("rounds.csv", written(fileOf(state))));
