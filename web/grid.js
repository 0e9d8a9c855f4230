// The grid of bids: a row for each price point of a product. One tab stop; arrow keys, Enter and
// Escape move in it as in a spreadsheet; columns are sorted by their heads; blocks of cells are
// pasted, filled down and copied.

import {countWords, isFound, searched, sorted} from "./choosing.js";
import {isAbove, rankOf} from "./effects.js";
import {Blocks} from "./grid_blocks.js";
import {Groups} from "./grid_groups.js";
import {Heads} from "./grid_heads.js";
import {besideOf, meantBy} from "./grid_keys.js";
import {drawRow, keysOf, partsOf, tellRow} from "./grid_row.js";
import {keyOf} from "./judging.js";
import {at, focusedElement} from "./page.js";
import {VirtualRows} from "./rows.js";
import {quantityOf} from "./sheet.js";

const FEW = 12;       // products up to which rows are higher
const LONG = 10 ** 7; // dollars from which prices need more space
const byKey = (key, other) => {
  const [a, b] = [partsOf(key), partsOf(other)];
  return a[0] - b[0] || a[1] - b[1];
};

export class Grid {
  #rows;
  #blocks;
  #groups = new Groups(() => this.#narrowed());
  #heads = new Heads({ sorted: () => this.lay(true, true), enter: () => this.enter() });
  #active = null; // where Tab enters: { key, field }
  #began = "";    // what the field with the cursor had before it was typed into
  #isNew = false; // whether the cursor has just come to its field
  view = null;
  faults = new Map();

  /**
   * `act` has what the grid asks for: typed, before (a change, with its name), pasteBids, tell,
   * leave, undo.
   */
  constructor(sheet, act) {
    this.sheet = sheet;
    this.act = act;
    const draw = (key) => drawRow(this, key);
    this.#rows = new VirtualRows(at("frame"), at("body"), draw, () => this.#rove());
    this.#blocks = new Blocks({
      rows: this.#rows,
      products: () => this.view.terms.products,
      name: (key) => this.view.terms.products[partsOf(key)[0]].name,
      text: (key, field) => this.#text(key, field),
      enter: (what, entries, words) => this.#enterAll(what, entries, words),
      pasteBids: (text) => act.pasteBids(text),
    });
    this.#hearSearch();
    this.#hearRows(at("body"));
    at("fill").addEventListener("click", () => this.#blocks.fillDown(this.#active));
  }

  #hearSearch() {
    at("find").addEventListener("input", () => this.#narrowed());
    at("find").addEventListener("keydown", (event) => {
      if (event.key === "Escape" && at("find").value) {
        event.preventDefault();
        this.clear();
      }
      if (event.key === "ArrowDown" || event.key === "Enter") {
        event.preventDefault();
        this.enter();
      }
    });
    at("unfind").addEventListener("click", () => {
      this.clear();
      at("find").focus();
    });
  }

  #hearRows(body) {
    body.addEventListener("keydown", (event) => this.#keyed(event));
    body.addEventListener("input", (event) => this.#typed(event.target));
    body.addEventListener("focusin", (event) => this.#focused(event.target));
    body.addEventListener("paste", (event) => this.#blocks.pasted(event));
    body.addEventListener("copy", (event) => this.#blocks.copied(event));
    body.addEventListener("pointerdown", (event) => this.#pointed(event));
    body.addEventListener("click", ({ target }) => {
      if (target.select && this.#isNew && target.selectionStart === target.selectionEnd)
        target.select();
      if (target.dataset.field === "add") this.#addStep(target.dataset.key);
    });
  }

  // -- What is shown

  /** Shows another round or other results; `v` has me, terms, sold, earlier, submitted, worth. */
  show(v) {
    const { sheet } = this;
    const wasOver = this.view?.me.ended;
    this.view = {
      ...v,
      isOut: v.me.ended || v.me.eligibility === 0, // nothing can be entered
      before: (p) =>
        (v.earlier && v.earlier.demands[p] !== v.me.demands[p] ? v.earlier.demands[p] : null),
      isAsked: (p) => sheet.isAsked(p),
      isWrong: (p) => sheet.steps(p).some((_, step) => this.faults.has(keyOf(p, step))),
      isAbove: (p) => isAbove(this.view, p),
      asked: (p, field) => quantityOf(sheet.steps(p)[0][field].replace(/[$\s]/g, "")) ?? -1,
      rank: (p) => rankOf(this.view, p),
      steps: (p) => sheet.steps(p),
    };
    if (v.me.ended && !wasOver) this.#groups.id = "held"; // what was won
    this.#heads.name(v.me.ended);
    const highest = v.terms.prices.reduce((most, { clock }) => Math.max(most, clock), 0);
    const kinds = {
      valued: Boolean(v.worth),
      over: this.view.isOut,
      roomy: v.terms.products.length <= FEW,
      long: highest >= LONG,
    };
    for (const [kind, isOn] of Object.entries(kinds)) at("grid").classList.toggle(kind, isOn);
    at("frame").tabIndex = this.view.isOut ? 0 : -1;
  }

  /** Chooses the rows by search and group, sorts them, and draws those that are seen. */
  lay(isTop = false, isCounted = false) {
    const v = this.view;
    const words = searched(at("find").value);
    const { isIn } = this.#groups, { column, isDown } = this.#heads;
    const { products } = v.terms;
    const found =
      [...products.keys()].filter((p) => isIn(v, p) && isFound(products[p].name, words));
    const places = sorted(found, column && ((p) => column.by(v, p)), isDown);
    if (isTop) at("frame").scrollTop = 0;
    this.#rows.set(keysOf(this.sheet, places));
    at("none").hidden = places.length > 0;
    const isAll = places.length === products.length;
    at("count").textContent = countWords(places.length, products.length, "product");
    at("unfind").hidden = isAll && this.#groups.id === "all" && !words.length;
    if (isCounted)
      this.#groups.press();
    else
      this.#groups.draw(v);
    this.#blocks.drop();
  }

  #narrowed() {
    this.#active = null;
    this.lay(true, true);
  }

  /** Shows all products again. */
  clear() {
    at("find").value = "";
    this.#groups.id = "all";
    this.#narrowed();
  }

  /**
   * Shows these faults, by the key of their row, and what else a key may have changed in the rows.
   */
  mark(faults) {
    this.faults = faults;
    let isOther = false;
    for (const [key, row] of this.#rows.shown) isOther = tellRow(this, key, row) || isOther;
    if (isOther) this.#rows.measure();
    if (Boolean(faults.size) !== this.#groups.has("fault")) this.#groups.draw(this.view);
  }

  isPicked = (key, field) => this.#blocks.has(key, field);

  // -- Where the cursor is

  /** Moves the cursor into the grid. */
  enter() {
    const isThere = this.#active && this.#rows.place(this.#active.key) >= 0;
    const key = isThere ? this.#active.key : this.#rows.keys[0];
    if (key !== undefined) this.#rows.focus(key, this.#active?.field ?? "quantity");
  }

  /** Moves the cursor to the first row of these keys, whatever is hidden. */
  goTo(keys) {
    const [first] = [...keys].sort(byKey);
    if (first === undefined) return;
    if (this.#rows.place(first) < 0) this.clear();
    this.#rows.focus(first, "quantity");
  }

  /**
   * One field can be reached by Tab: the active one, or else the first of the rows that are laid
   * out.
   */
  #rove() {
    const { shown } = this.#rows;
    const active = this.#active && shown.has(this.#active.key) ? this.#active : null;
    const { key, field } = active ?? { key: shown.keys().next().value, field: "quantity" };
    const next = this.#rows.field(key, field);
    for (const input of at("body").querySelectorAll("[tabindex='0']"))
      if (input !== next) input.tabIndex = -1;
    if (next && next.tabIndex !== 0) next.tabIndex = 0;
  }

  #focused(input) {
    const { key, field } = input.dataset;
    if (!field) return;
    if (this.#active?.key !== key || this.#active.field !== field) {
      this.#active = { key, field };
      this.#rove();
    }
    this.#began = input.value ?? "";
    this.#isNew = true;
    input.select?.();
    const frame = at("frame").getBoundingClientRect();
    const head = at("heads").offsetHeight;
    const { top, bottom } = input.closest("tr").getBoundingClientRect();
    if (top < frame.top + head || bottom > frame.bottom) this.#rows.show(key);
  }

  #move(key, by, field) {
    const { keys } = this.#rows;
    const place = Math.max(0, Math.min(keys.length - 1, this.#rows.place(key) + by));
    const [, step] = partsOf(keys[place]);
    this.#rows.focus(keys[place], field === "add" && step > 0 ? "price" : field);
  }

  #keyed(event) {
    const { target } = event;
    const { key, field } = target.dataset;
    if (!field || event.altKey || event.isComposing) return;
    const control = event.ctrlKey || event.metaKey;
    const { keys, page } = this.#rows;
    const isUntouched = target.value === this.#began;
    const meant = meantBy(
      { key: event.key, shift: event.shiftKey, control },
      { field, count: keys.length, page, isRange: this.#blocks.isThere, isUntouched }
    );
    const by = { ArrowLeft: -1, ArrowRight: 1 }[event.key];
    if (!meant && by && !control && !event.shiftKey) return this.#sideways(event, by);
    if (!meant) return;
    event.preventDefault();
    this.#perform(meant, target, key, field);
  }

  /**
   * Does what a key asks for.
   * @param {import("./grid_keys.js").Meant} meant
   */
  #perform(meant, target, key, field) {
    const { act, by } = meant;
    const acts = {
      extend: () => this.#blocks.extend(field, this.#rows.place(key), by),
      go: () => {
        this.#blocks.drop();
        this.#move(key, by, field);
      },
      move: () => this.#move(key, by, field),
      add: () => this.#addStep(key),
      escape: () => this.#escape(target),
      fill: () => this.#blocks.fillDown(this.#active),
      undo: () => this.act.undo(),
      clear: () => this.#blocks.clear(),
    };
    acts[act]();
  }

  #sideways(event, by) {
    const { dataset: { key, field }, selectionStart, selectionEnd, value = "" } = event.target;
    const text = { from: selectionStart, to: selectionEnd, length: value.length };
    const next = besideOf(field, by, text);
    if (!next || !this.#rows.field(key, next)) return;
    event.preventDefault();
    this.#blocks.drop();
    this.#rows.focus(key, next);
  }

  /** Escape takes back what was typed into the field; if nothing was, it leaves the grid. */
  #escape(target) {
    if (this.#blocks.isThere) return this.#blocks.drop();
    if (target.value === undefined || target.value === this.#began) return this.act.leave();
    target.value = this.#began;
    this.#enter(target, this.#began);
    this.#isNew = true;
    target.select();
  }

  /** Shift and a click select down to the cell. */
  #pointed(event) {
    const { key, field } = event.target.dataset ?? {};
    if (!field || field === "add") return;
    if (!event.shiftKey || this.#active?.field !== field) return this.#blocks.drop();
    event.preventDefault();
    this.#blocks.select(field, this.#rows.place(this.#active.key), this.#rows.place(key));
  }

  // -- Entries

  #text(key, field) {
    const [p, step] = partsOf(key);
    return this.sheet.steps(p)[step][field];
  }

  #typed(input) {
    if (!input.dataset.field) return;
    if (this.#isNew) this.act.before("typing");
    this.#isNew = false;
    this.#blocks.drop();
    this.#enter(input, input.value);
  }

  #enter(input, text) {
    const [p, step] = partsOf(input.dataset.key);
    this.sheet.type(p, step, input.dataset.field, text);
    this.act.typed();
  }

  #addStep(key) {
    const [p] = partsOf(key);
    this.act.before("the price point");
    this.sheet.addStep(p);
    this.lay();
    this.#rows.focus(keyOf(p, this.sheet.steps(p).length - 1), "quantity");
    this.act.typed();
  }

  /** Enters many texts at once, in one step that can be undone. */
  #enterAll(what, entries, words) {
    this.act.before(what);
    for (const { key, field, text } of entries) {
      const [p, step] = partsOf(key);
      this.sheet.type(p, step, field, text);
      const input = this.#rows.field(key, field);
      if (input) input.value = text;
    }
    this.#began = focusedElement()?.value ?? "";
    this.#isNew = true;
    this.act.filled(words);
  }
}
