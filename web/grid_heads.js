// The heads of the grid, which sort it: one tab stop for all of them, and the list that sorts
// cards.

import {turned} from "./choosing.js";
import {COLUMNS} from "./columns.js";
import {at, make} from "./page.js";

export class Heads {
  #sort = { id: null, isDown: false };

  /** `act` has what the heads ask for: sorted, and enter, which moves the cursor into the rows. */
  constructor(act) {
    this.act = act;
    at("heads").replaceChildren(...COLUMNS.map((column) => this.#head(column)));
    this.buttons = [...at("heads").querySelectorAll("button")];
    this.buttons[0].tabIndex = 0;
    at("order").replaceChildren(
      make("option", { value: "" }, "Set-up order"),
      ...COLUMNS.map(({ id, head }) => make("option", { value: id }, head))
    );
    at("order").addEventListener("change", () => this.#choose(at("order").value));
    at("heads").addEventListener("keydown", (event) => this.#keyed(event));
  }

  /** The column by which rows are sorted, or undefined if they are as set up. */
  get column() { return COLUMNS.find(({ id }) => id === this.#sort.id); }
  get isDown() { return this.#sort.isDown; }

  /** Calls the columns as they are called during the auction, or after its end. */
  name(isOver) {
    for (const { id, head, end } of COLUMNS)
      if (end) at("heads").querySelector(`.c-${id} button`).textContent = isOver ? end : head;
  }

  /** @param {{ id: string, head: string, tip?: string }} column */
  #head({ id, head, tip }) {
    const press = () => this.#set(turned(this.#sort, id));
    const given = { type: "button", title: tip ?? null, tabindex: -1, onclick: press };
    return make(
      "th", { scope: "col", class: "c-" + id, "data-id": id, "aria-sort": "none" },
      make("button", given, head)
    );
  }

  /** Sorts by a column of the list: numbers falling, so that the greatest are seen first. */
  #choose(id) { this.#set({ id: id || null, isDown: !["", "name", "effect"].includes(id) }); }

  #set(sort) {
    this.#sort = sort;
    const words = sort.isDown ? "descending" : "ascending";
    for (const head of at("heads").children)
      head.setAttribute("aria-sort", head.dataset.id === sort.id ? words : "none");
    this.act.sorted();
  }

  #keyed(event) {
    if (event.key === "ArrowDown") {
      event.preventDefault();
      this.act.enter();
    }
    const by = { ArrowRight: 1, ArrowLeft: -1 }[event.key];
    const seen = this.buttons.filter((each) => each.checkVisibility());
    const next = seen[seen.indexOf(event.target) + by];
    if (!next) return;
    event.preventDefault();
    for (const each of this.buttons) each.tabIndex = each === next ? 0 : -1;
    next.focus();
  }
}
