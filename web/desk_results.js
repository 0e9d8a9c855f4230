// The results of all bidders, and the closed rounds, for the manager.

import {save, written} from "./csv.js";
import {Listing} from "./listing.js";
import {
  at,
  counted,
  dollars,
  excessOf,
  facts,
  lastClosed,
  note,
  number,
  offerRounds,
  say,
  sum
} from "./page.js";
import {activityOf, wordsOf} from "./rules.js";

const LONG = 72; // letters that a row has space for

export class Results {
  now = null; // the server's results, which have the round too
  #page;
  #asker;
  #rounds = new Map();
  #bidders = new Listing(
    "resframe",
    [
      { id: "name", head: "Bidder", by: ({ name }) => name, cell: ({ name }) => [name] },
      { id: "eligibility", head: "Eligibility", cell: ({ eligibility }) => [number(eligibility)] },
      { id: "activity", head: "Activity", cell: ({ activity }) => [number(activity)] },
      {
        id: "cost",
        head: "At posted prices",
        end: "To pay",
        by: ({ cost }) => Number(cost),
        cell: ({ cost }) => [dollars(cost)]
      },
      {
        id: "demand",
        head: "Processed demand",
        end: "Blocks won",
        label: "Blocks",
        by: ({ blocks }) => blocks,
        cell: ({ demand }) => [demand]
      },
    ],
    { noun: "bidder" }
  );
  #past = new Listing("pastframe", [
    { id: "name", head: "Product", by: ({ name }) => name, cell: ({ name }) => [name] },
    {
      id: "start",
      head: "Start-of-round price",
      label: "Start price",
      cell: ({ start }) => [dollars(start)]
    },
    { id: "clock", head: "Clock price", cell: ({ clock }) => [dollars(clock)] },
    { id: "posted", head: "Posted price", cell: ({ posted }) => [dollars(posted)] },
    {
      id: "demand",
      head: "Aggregate demand",
      label: "Demand",
      by: ({ demand }) => demand ?? -1,
      cell: (sold) => demandCells(sold)
    },
    { id: "next", head: "Next clock price", cell: ({ next }) => [dollars(next)] },
  ]);

  constructor() {
    at("save").addEventListener("click", () => this.#save());
    at("which").addEventListener("change", () => this.#showRound());
  }

  /** Takes in results, and asks for the last closed round. */
  async load(asker, page, now) {
    this.#asker = asker;
    this.#page = page;
    const last = lastClosed(now);
    const fell = now.round < this.now?.round; // another server, or another auction
    const isKnown = last === 0 || (this.#rounds.has(last) && !fell);
    const sold = isKnown ? this.#rounds.get(last) : (await asker.round(last)).products;
    if (fell) this.#rounds.clear();
    if (last > 0) this.#rounds.set(last, sold);
    this.now = now;
  }

  /** A product's posted price in the last closed round, or its opening price. */
  posted(p) {
    return this.#rounds.get(lastClosed(this.now))?.[p].posted ?? this.#page.products[p].opening;
  }

  draw() {
    const last = lastClosed(this.now);
    at("asof").textContent = this.#asOfWords(last);
    at("pastdesk").hidden = last === 0;
    this.#drawFacts(last);
    this.#bidders.set(this.now.bidders.map((bidder) => this.#row(bidder)), this.now.ended);
    offerRounds(last);
    this.#showRound();
  }

  #asOfWords(last) {
    if (last === 0) return "No round is closed yet.";
    if (this.now.ended) return "What each bidder won and pays.";
    const words = `Each bidder after round ${last}, at its posted prices.`;
    return `${words} Bids of the open round are not shown.`;
  }

  #cost(bidder) {
    return bidder.demands
      .reduce((cost, blocks, p) => cost + BigInt(blocks) * BigInt(this.posted(p)), 0n);
  }

  #row(bidder) {
    const { products } = this.#page;
    const held = bidder.demands.flatMap(
      (blocks, p) => (blocks ? [`${products[p].name}: ${number(blocks)}`] : [])
    );
    const blocks = sum(bidder.demands);
    const all = held.join(", ") || "none";
    const count = `${counted(blocks, "block")} of ${counted(held.length, "product")}`;
    const short = `${count} (download the results to see them)`;
    return {
      name: bidder.name,
      eligibility: bidder.eligibility,
      activity: activityOf(products, bidder.demands),
      cost: this.#cost(bidder),
      blocks,
      demand: all.length > LONG ? short : all,
    };
  }

  #drawFacts(last) {
    const { bidders, ended } = this.now;
    const { products } = this.#page;
    const held = sum(bidders.map((bidder) => sum(bidder.demands)));
    const supply = sum(products.map((product) => product.supply));
    const above = this.#rounds.get(last)?.filter((sold) => sold.demand !== null).length ?? 0;
    const active = bidders.filter((bidder) => bidder.eligibility > 0).length;
    facts("facts", [
      ["Bidders with eligibility", `${number(active)} of ${number(bidders.length)}`],
      [
        "Products with excess demand", last ? `${number(above)} of ${number(products.length)}` : "–"
      ],
      [
        ended ? "Blocks won" : "Processed demand, in blocks", `${number(held)}`,
        `supply ${number(supply)}`
      ],
      [
        ended ? "Proceeds" : "At posted prices",
        dollars(bidders.reduce((cost, bidder) => cost + this.#cost(bidder), 0n))
      ],
    ]);
  }

  /** Shows the chosen round, and loads it first if it is not known yet. */
  async #showRound() {
    const round = Number(at("which").value);
    if (!this.#rounds.has(round)) this.#past.set([]);
    try {
      if (round && !this.#rounds.has(round))
        this.#rounds.set(round, (await this.#asker.round(round)).products);
    } catch (fault) {
      say("⚠ " + wordsOf(fault.code));
    }
    if (Number(at("which").value) !== round) return;
    const sold = this.#rounds.get(round) ?? [];
    this.#past.set(sold.map((one, p) => ({...one, product: this.#page.products[p] })));
  }

  /** Saves a line for each bidder and product with processed demand. */
  #save() {
    const { products } = this.#page;
    const rows = this.now.bidders.flatMap(
      (bidder) => bidder.demands.flatMap(
        (blocks, p) => (blocks ? [[bidder.name, products[p].name, blocks, this.posted(p)]] : [])
      )
    );
    save(
      `results-${lastClosed(this.now)}.csv`,
      written([["bidder", "product", "blocks", "posted"], ...rows])
    );
  }
}

/** Aggregate demand, supply, and excess demand after a closed round. */
function demandCells(sold) {
  const { product, demand } = sold;
  const supply = `supply ${number(product.supply)}`;
  if (demand === null) return ["no excess", note(supply)];
  return [number(demand), note(`${supply}, excess ${number(excessOf(sold, product))}`)];
}
