// A bidder's closed rounds: it loads them, keeps what is known of them, and draws what history.js
// makes of that.

import {pause} from "./api.js";
import {chart, spark} from "./chart.js";
import {save, written} from "./csv.js";
import {keepSheets, sheetsOf} from "./draft.js";
import {fileOf, pointsOf, pointWords, shownPast} from "./history.js";
import {Listing} from "./listing.js";
import {at, dollars, make, number, options, tell, timeOfDay} from "./page.js";

const AT_ONCE = 20; // rounds: nginx lets a bidder ask for two pages a second, and some at once

const demandOf = ({ demand, supply }) => [demand === null ? `≤ ${number(supply)}` : number(demand)];
const excessText = ({ excess }) => [excess ? `+${number(excess)}` : "no"];
const MARKET = [
  {
    id: "start",
    head: "Start-of-round price",
    label: "Start price",
    cell: ({ start }) => [dollars(start)]
  },
  { id: "clock", head: "Clock price", cell: ({ clock }) => [dollars(clock)] },
  { id: "posted", head: "Posted price", cell: ({ posted }) => [dollars(posted)] },
  { id: "demand", head: "Aggregate demand", label: "Demand", cell: demandOf },
  { id: "excess", head: "Excess demand", cell: excessText },
  { id: "bids", head: "Your bids", by: ({ bids }) => bids, cell: ({ bids }) => [bids] },
  {
    id: "blocks",
    head: "Processed demand",
    label: "Processed",
    cell: ({ blocks }) => [number(blocks)]
  },
];
const ROUND = {
  id: "round",
  head: "Round",
  by: ({ round }) => round,
  cell: ({ round }) => [number(round)]
};
const TOTALS = [
  ROUND,
  { id: "blocks", head: "Blocks", cell: ({ blocks }) => [number(blocks)] },
  {
    id: "commitment",
    head: "Commitment",
    by: ({ commitment }) => Number(commitment),
    cell: ({ commitment }) => [dollars(commitment)]
  },
  { id: "activity", head: "Activity", cell: ({ activity }) => [number(activity)] },
  { id: "eligibility", head: "Eligibility", cell: ({ eligibility }) => [number(eligibility)] },
  { id: "bids", head: "Bids", cell: ({ bids }) => [bids === null ? "not known" : number(bids)] },
];

export class Past {
  #known = {
    products: [],
    rounds: new Map(),
    results: new Map(),
    bids: new Map(),
    last: 0,
    round: 0,
    product: null,
    isNarrow: false
  };
  #turn = 0;
  #mark = ""; // of the auction
  #bidder = "";
  #table = new Listing(
    "past",
    [
      { id: "name", head: "Product", by: ({ name }) => name, cell: (row) => this.#nameCell(row) },
      ...MARKET,
      {
        id: "byround",
        head: "By round",
        by: ({ posted }) => posted,
        cell: (row) => this.#spark(row)
      },
    ],
    { kind: ({ blocks }) => (blocks ? "held" : "") }
  );
  #totals = new Listing("totals", TOTALS, { noun: "round" });
  #byRound = new Listing("byround", [ROUND, ...MARKET], { noun: "round" });

  constructor() {
    at("which").addEventListener("change", () => this.#set({ round: Number(at("which").value) }));
    at("narrow").addEventListener("change", () => this.#set({ isNarrow: at("narrow").checked }));
    at("mytotals").addEventListener("click", () => this.#set({ product: null }));
    at("myresults").addEventListener("click", () => {
      save(`results-${this.#bidder}.csv`, written(fileOf(this.#known)));
    });
    addEventListener("resize", () => this.#drawChart());
  }

  /** Forgets everything, for another bidder or another auction. */
  clear() {
    this.#turn++;
    const { rounds, results, bids } = this.#known;
    for (const known of [rounds, results, bids]) known.clear();
    this.#set({ products: [], last: 0, round: 0, product: null });
  }

  /** Begins with the bids that this tab has seen of a bidder in an auction. */
  begin(mark, bidder) {
    this.#mark = mark;
    this.#bidder = bidder;
    for (const [round, sheet] of sheetsOf(mark, bidder)) this.#known.bids.set(round, sheet);
  }

  /** The products of a closed round, and the bidder's own results of it, if they are known. */
  products(round) { return this.#known.rounds.get(round); }
  own(round) { return this.#known.results.get(round); }
  /** The bids that this tab last saw in force in a round, if it saw any. */
  bids(round) { return this.#known.bids.get(round)?.bids; }

  /** Notes the bids that this tab sees in force in a round, and when; null if that is not known. */
  saw(round, bids) {
    this.#known.bids.set(round, bids && { bids, time: timeOfDay() });
    keepSheets(this.#mark, this.#bidder, this.#known.bids);
    if (this.#known.last) this.#draw();
  }

  /** Takes the bids of a receipts file, by round, for the rounds whose bids are not known. */
  take(rounds) {
    for (const [round, bids] of rounds)
      if (!this.#known.bids.get(round)) this.#known.bids.set(round, { bids });
    keepSheets(this.#mark, this.#bidder, this.#known.bids);
    this.#draw();
  }

  /** Asks for the results of a closed round, if they are not known yet. */
  async learn(asker, round) {
    const { rounds, results } = this.#known;
    const [page, slip] = await Promise.all(
      [rounds.has(round) ? null : asker.round(round), results.has(round) ? null : asker.slip(round)]
    );
    if (page) rounds.set(round, page.products);
    if (slip) results.set(round, slip);
  }

  /**
   * Shows the rounds up to the last closed one, and asks for those that are not known yet: the
   * latest at once, the others slowly.
   */
  async draw(asker, products, last) {
    const turn = ++this.#turn;
    const { round, last: before } = this.#known;
    this.#set({ products, last, round: round === before ? last : round });
    try {
      for (let next = last - 1; next > 0; next--) {
        if (this.#known.results.has(next)) continue;
        await this.learn(asker, next);
        if (turn !== this.#turn) return; // another round was closed, or another bidder has entered
        this.#draw();
        if (next < last - AT_ONCE) await pause(1000);
      }
    } catch { /* the next round asks for them again */
    }
  }

  #set(change) {
    Object.assign(this.#known, change);
    this.#draw();
  }

  #draw() {
    const now = shownPast(this.#known);
    tell("own", now.own);
    tell("pastprogress", now.progress);
    at("pastdesk").hidden = !now.isThere;
    if (!now.isThere || at("pastview").hidden) return;
    options(at("which"), now.choices);
    at("which").value = now.chosen;
    this.#table.set(now.rows);
    const { isTotals } = now;
    at("totals").hidden = !isTotals;
    at("byround").hidden = isTotals;
    at("mytotals").hidden = isTotals;
    (isTotals ? this.#totals : this.#byRound).set(now.byRound);
    this.#drawChart(now);
  }

  #drawChart(now = shownPast(this.#known)) {
    if (!now.points.length || at("pastview").hidden) return;
    tell("charted", now.chart);
    const wide = Math.max(280, at("chart").clientWidth);
    at("chart").replaceChildren(...chart(now.chart, now.points, wide, pointWords(this.#known)));
  }

  /** To be called when the view of closed rounds is shown, since nothing is drawn before. */
  show() { this.#draw(); }

  #nameCell({ p, name }) {
    const show = () => {
      this.#set({ product: p });
      at("charted").scrollIntoView({ block: "nearest" });
    };
    return [make("button", { type: "button", class: "plain", onclick: show }, name)];
  }

  #spark({ p }) { return [spark(pointsOf(this.#known, p))]; }
}
