// Blocks of cells of the grid: what Shift selects, and what is pasted, filled down, cleared, and
// copied at once.

import {at, counted, number} from "./page.js";
import {cellsOf, isBlock, isByProduct, placed} from "./paste.js";

/**
 * @typedef {object} Cells what blocks are of
 * @property {import("./rows.js").VirtualRows} rows
 * @property {() => any[]} products
 * @property {(key: string) => string} name of a row's product
 * @property {(key: string, field: string) => string} text of a cell
 * @property {(what: string, entries: any[], words: string) => void} enter writes many cells in one
 * step
 * @property {(text: string) => void} pasteBids takes bids by product
 */

export class Blocks {
  #range = null; // what is selected: { field, from, to, end }, places of rows

  /** @param {Cells} cells */
  constructor(cells) { this.cells = cells; }

  get isThere() { return this.#range !== null; }

  has(key, field) {
    const place = this.cells.rows.place(key), range = this.#range;
    return range !== null && range.field === field && place >= range.from && place <= range.to;
  }

  /** Selects from a place to another one, or to as many rows from the end as `by` says. */
  select(field, anchor, end) {
    const [from, to] = [Math.min(anchor, end), Math.max(anchor, end)];
    this.#set(anchor === end ? null : { field, from, to, end });
  }

  extend(field, place, by) {
    const { rows } = this.cells;
    const range =
      this.#range?.field === field ? this.#range : { field, from: place, to: place, end: place };
    const anchor = range.end === range.to ? range.from : range.to;
    const end = Math.max(0, Math.min(rows.keys.length - 1, range.end + by));
    this.select(field, anchor, end);
    rows.show(rows.keys[end]);
    this.draw();
  }

  /** Selects nothing. */
  drop() {
    if (this.#range) this.#set(null);
  }

  #set(range) {
    this.#range = range;
    this.draw();
  }

  /** Marks the cells that are selected, and offers to fill them. */
  draw() {
    for (const [key, row] of this.cells.rows.shown) {
      for (const input of row.querySelectorAll("input"))
        input.classList.toggle("picked", this.has(key, input.dataset.field));
    }
    const count = this.#range ? this.#range.to - this.#range.from + 1 : 0;
    at("fill").hidden = !count;
    at("fill").textContent = `Fill ${number(count)} cells down`;
  }

  /** Fills what is selected with its first value, or else a cell with the value above it. */
  fillDown(active) {
    const { rows: { keys }, text, name, enter } = this.cells;
    if (this.#range) {
      const first = text(keys[this.#range.from], this.#range.field);
      return this.#fill("fill", first, "Filled");
    }
    const above = active ? keys[this.cells.rows.place(active.key) - 1] : undefined;
    if (above === undefined || active.field === "add") return;
    enter("fill", [{...active, text: text(above, active.field) }], `Filled from ${name(above)}.`);
  }

  clear() { this.#fill("clear", "", "Cleared"); }

  #fill(what, text, words) {
    const { field } = this.#range;
    const entries = this.#keys().map((key) => ({ key, field, text }));
    this.cells.enter(what, entries, `${words} ${counted(entries.length, "cell")}.`);
  }

  #keys() { return this.cells.rows.keys.slice(this.#range.from, this.#range.to + 1); }

  pasted(event) {
    const text = event.clipboardData?.getData("text/plain") ?? "";
    const { key, field } = event.target.dataset;
    if (!field || field === "add") return;
    const isBids = isByProduct(text, new Set(this.cells.products().map(({ name }) => name)));
    if (!isBids && !isBlock(text) && !this.#range) return; // one cell: the field takes it
    event.preventDefault();
    if (isBids) return this.cells.pasteBids(text);
    const cells = cellsOf(text);
    const isOne = cells.length === 1 && cells[0].length === 1;
    if (isOne && this.#range) return this.#fill("paste", cells[0][0], "Filled");
    this.#take(cells, this.#range ? this.#range.from : this.cells.rows.place(key), field);
  }

  /** Enters cells from a place on, and selects them. */
  #take(cells, first, field) {
    const { rows: { keys }, name, enter } = this.cells;
    const { entries, left } = placed(cells, keys, first, field);
    const count = counted(new Set(entries.map(({ key }) => key)).size, "row");
    const rest = left ? ` ${counted(left, "cell")} had no place.` : "";
    enter("paste", entries, `Pasted into ${count}, from ${name(keys[first])} down.${rest}`);
    if (cells.length > 1)
      this.select(field, first, Math.min(keys.length, first + cells.length) - 1);
  }

  copied(event) {
    if (!this.#range) return;
    event.preventDefault();
    const texts = this.#keys().map((key) => this.cells.text(key, this.#range.field));
    event.clipboardData.setData("text/plain", texts.join("\r\n"));
  }
}
