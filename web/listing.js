// A table that is read: its rows are found by name and sorted by its heads. Only those that are
// seen are laid out.

import {countWords, isFound, searched, sorted, turned} from "./choosing.js";
import {at, make, tell} from "./page.js";
import {VirtualRows} from "./rows.js";

/**
 * @typedef {{ id: string, head: string, end?: string, label?: string, by?: (row: any) => any,
 * cell: (row: any) => any[] }} Column a column, whose first one is the name of a row. After the end
 * of the auction it is called `end`. A card calls it `label`, if that is shorter.
 */

export class Listing {
  #columns;
  #all = [];
  #sort = { id: null, isDown: false };
  #rows;
  #heads = [];
  #isOver = false;

  /**
   * The table in the frame `id`, with `columns` {id, head, by, cell}. If there are elements
   * `idfind`, `idcount` and `idclear`, they search it. `noun` names a row, `kind` is the class of
   * one.
   * @param {string} id
   * @param {Column[]} columns
   * @param {{ noun?: string, kind?: (row: any) => string }} given
   */
  constructor(id, columns, { noun = "product", kind = () => "" } = {}) {
    this.id = id;
    this.noun = noun;
    this.kind = kind;
    this.#columns = columns;
    const frame = at(id);
    this.#rows = new VirtualRows(frame, frame.querySelector("tbody"), (key) => this.#row(key));
    this.#drawHeads(frame.querySelector("thead"));
    at(id + "find")?.addEventListener("input", () => this.lay(true));
    // the count is read out after a search, and not because a round was closed
    for (const [event, live] of [["focus", "polite"], ["blur", "off"]]) {
      at(id + "find")?.addEventListener(event, () => {
        at(id + "count").setAttribute("aria-live", live);
      });
    }
    at(id + "clear")?.addEventListener("click", () => this.clear());
  }

  /** Shows these rows, each of which has a name, during the auction or after its end. */
  set(rows, isOver = false) {
    this.#all = rows;
    if (isOver !== this.#isOver) {
      this.#isOver = isOver;
      this.#columns.forEach((column, place) => {
        this.#heads[place].querySelector("button").textContent = this.#nameOf(column);
      });
    }
    this.lay();
  }

  /** @param {Column} column */
  #nameOf(column) { return this.#isOver && column.end ? column.end : column.head; }

  /** The rows that are shown, in their order. */
  get shown() { return this.#rows.keys.map((place) => this.#all[place]); }

  /** Chooses the rows by the search, sorts them, and draws those that are seen. */
  lay(isTop = false) {
    const words = searched(at(this.id + "find")?.value ?? "");
    const places = [...this.#all.keys()].filter((p) => isFound(this.#all[p].name, words));
    const column = this.#columns.find(({ id }) => id === this.#sort.id);
    const by = column ? (p) => (column.by ?? ((row) => row[column.id] ?? -1))(this.#all[p]) : null;
    if (isTop) at(this.id).scrollTop = 0;
    this.#rows.set(sorted(places, by, this.#sort.isDown).map(String));
    const isNarrowed = words.length > 0;
    if (at(this.id + "count"))
      tell(this.id + "count", countWords(places.length, this.#all.length, this.noun));
    if (at(this.id + "clear")) at(this.id + "clear").hidden = !isNarrowed;
  }

  /** Shows all rows again. */
  clear() {
    at(this.id + "find").value = "";
    this.lay(true);
    at(this.id + "find").focus();
  }

  #drawHeads(head) {
    this.#heads = this.#columns.map(({ id, head: words }) => {
      const press = () => this.#press(id);
      const button = make("button", { type: "button", onclick: press }, words);
      return make("th", { scope: "col", class: "c-" + id, "aria-sort": "none" }, button);
    });
    head.replaceChildren(make("tr", {}, ...this.#heads));
  }

  #press(id) {
    this.#sort = turned(this.#sort, id);
    const words = this.#sort.isDown ? "descending" : "ascending";
    this.#columns.forEach((column, place) => {
      const isSorted = column.id === this.#sort.id;
      this.#heads[place].setAttribute("aria-sort", isSorted ? words : "none");
    });
    this.lay(true);
  }

  #row(place) {
    const row = this.#all[place];
    const [name, ...others] = this.#columns;
    const drawn = make(
      "tr", { class: this.kind(row) || null },
      make("th", { scope: "row", class: "c-" + name.id }, ...name.cell(row)),
      ...others.map(
        (column) => make(
          "td", { class: "c-" + column.id, "data-label": column.label ?? this.#nameOf(column) },
          ...column.cell(row)
        )
      )
    );
    // so that a button with the cursor keeps it when the rows are drawn again
    for (const button of drawn.querySelectorAll("th button"))
      Object.assign(/** @type {any} */ (button).dataset, { field: "name", key: place });
    return drawn;
  }
}
