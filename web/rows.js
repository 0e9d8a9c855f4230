// A table body of which only the rows that are seen are laid out, and the row with the focus,
// wherever it is. Rows may differ in height: each is measured once it is laid out, and others are
// taken to be as high as the rows measured so far.

import {focusedElement, make} from "./page.js";

const MARGIN = 6; // rows that are laid out above and below what is seen

export class VirtualRows {
  #keys = [];
  #places = new Map();         // of each key
  #highs = new Map();          // the measured height of each key
  #tops = new Float64Array(1); // where each row begins; the last entry is the height of all
  #guess = 30;
  shown = new Map(); // the rows that are laid out now, by key

  /** `draw` makes the row of a key; `laid` is called after rows were laid out or removed. */
  constructor(frame, body, draw, laid = () => {}) {
    this.frame = frame;
    this.body = body;
    this.draw = draw;
    this.laid = laid;
    frame.addEventListener("scroll", () => this.lay(), { passive: true });
    new ResizeObserver(() => this.#resized()).observe(frame);
    addEventListener("beforeprint", () => {
      this.isAll = true;
      this.lay();
    });
    addEventListener("afterprint", () => {
      this.isAll = false;
      this.lay();
    });
  }

  get keys() { return this.#keys; }
  place(key) { return this.#places.get(key) ?? -1; }

  /**
   * Sets the rows by their keys, and draws anew those that are seen. A field that has the focus
   * keeps it.
   */
  set(keys) {
    const typing = this.#typing();
    const { scrollTop: scrolled, clientHeight } = this.frame;
    this.#keys = keys;
    this.#places = new Map(keys.map((key, place) => [key, place]));
    this.#highs.clear();
    this.shown.clear();
    this.body.replaceChildren();
    this.#stack();
    this.body.closest("table").setAttribute("aria-rowcount", keys.length + 1);
    if (scrolled) { // the frame can be scrolled to where it was
      this.body.append(this.#space(0, keys.length));
      this.frame.scrollTop = scrolled;
    }
    // asked of the frame, this would lay out the empty table
    this.lay(scrolled ? this.frame : { scrollTop: 0, clientHeight });
    typing?.();
  }

  /** What moves the cursor back to where it is now, if that is a field of this table. */
  #typing() {
    const focused = focusedElement();
    if (!this.body.contains(focused) || !focused.dataset.field) return null;
    const { selectionStart, selectionEnd, dataset: { key, field } } = focused;
    return () => {
      const now = this.field(key, field);
      now?.focus({ preventScroll: true });
      if (selectionStart !== undefined) now?.setSelectionRange?.(selectionStart, selectionEnd);
    };
  }

  /** Adds up the heights. */
  #stack() {
    const tops = new Float64Array(this.#keys.length + 1);
    this.#keys.forEach((key, place) => {
      tops[place + 1] = tops[place] + (this.#highs.get(key) ?? this.#guess);
    });
    this.#tops = tops;
  }

  /** The row at a distance from the top. */
  #rowAt(top) {
    let low = 0, high = this.#keys.length;
    while (low < high) {
      const middle = (low + high) >> 1;
      if (this.#tops[middle + 1] <= top)
        low = middle + 1;
      else
        high = middle;
    }
    return Math.min(low, Math.max(0, this.#keys.length - 1));
  }

  #space(from, to) {
    const row = make("tr", { "aria-hidden": "true", class: "room" });
    row.style.height = this.#tops[to] - this.#tops[from] + "px";
    return row;
  }

  /**
   * The rows to lay out, as their places: those that are seen, some around them, and the one with
   * the focus.
   */
  #wanted({ scrollTop, clientHeight }) {
    const count = this.#keys.length;
    if (this.isAll) return this.#keys.map((_, place) => place);
    const first = Math.max(0, this.#rowAt(scrollTop) - MARGIN);
    const last = Math.min(count, this.#rowAt(scrollTop + clientHeight) + 1 + MARGIN);
    const places = Array.from({ length: Math.max(0, last - first) }, (_, n) => first + n);
    const focused = document.activeElement?.closest?.("tr");
    const key = focused && this.body.contains(focused) ? focused.dataset.row : undefined;
    const place = key === undefined ? -1 : this.place(key);
    if (place >= 0 && place < first)
      places.unshift(place);
    else if (place >= last)
      places.push(place);
    return places;
  }

  /**
   * Lays out the rows that are seen, removes the others, and measures the new ones. A row with the
   * focus is never moved. `seen` says which part of the table is seen.
   * @param {{ scrollTop: number, clientHeight: number }} seen
   */
  lay(seen = this.frame) {
    this.#arrange(seen);
    if (this.#measure()) this.#arrange(this.frame);
    this.laid();
  }

  #arrange(seen) {
    const places = this.#wanted(seen), keys = new Set(places.map((place) => this.#keys[place]));
    for (const room of this.body.querySelectorAll(":scope > .room")) room.remove();
    for (const [key, row] of this.shown) {
      if (keys.has(key)) continue;
      row.remove();
      this.shown.delete(key);
    }
    let next = this.body.firstChild, done = 0;
    for (const place of places) {
      const key = this.#keys[place];
      let row = this.shown.get(key);
      if (row)
        next = row.nextSibling;
      else {
        row = this.draw(key);
        row.dataset.row = key;
        row.setAttribute("aria-rowindex", place + 2);
        this.shown.set(key, row);
        this.body.insertBefore(row, next);
      }
      if (place > done) this.body.insertBefore(this.#space(done, place), row);
      done = place + 1;
    }
    if (done < this.#keys.length) this.body.append(this.#space(done, this.#keys.length));
  }

  /**
   * Measures the rows that are laid out. If some are as high as nobody knew, what is seen stays
   * where it is; returns whether.
   */
  #measure() {
    const anchor = this.#rowAt(this.frame.scrollTop), before = this.#tops[anchor];
    let isNew = false, all = 0;
    for (const [key, row] of this.shown) {
      const high = row.getBoundingClientRect().height;
      if (!high) return false; // the table is not shown
      all += high;
      if (Math.abs((this.#highs.get(key) ?? this.#guess) - high) > 0.5) isNew = true;
      this.#highs.set(key, high);
    }
    if (!isNew) return false;
    if (this.shown.size >= 8 || this.shown.size === this.#keys.length)
      this.#guess = all / this.shown.size;
    this.#stack();
    const moved = this.#tops[anchor] - before;
    if (Math.abs(moved) > 0.5 && this.frame.scrollTop > 0) this.frame.scrollTop += moved;
    return true;
  }

  /** To be called if the heights of rows that are laid out may have changed. */
  measure() {
    if (this.#measure()) this.lay();
  }

  #resized() {
    if (this.wide !== this.frame.clientWidth) this.#highs.clear();
    this.wide = this.frame.clientWidth;
    this.#stack();
    this.lay();
    this.lay(); // the first measures what the window's new width has changed
  }

  /** Scrolls to a row, so that it is between the table's head and the lower end of the frame. */
  show(key) {
    const place = this.place(key);
    if (place < 0) return;
    for (let again = 0; again < 3; again++) { // rows on the way are measured, which may move it
      const head = this.body.closest("table").tHead?.offsetHeight ?? 0;
      const top = this.#tops[place];
      const bottom = this.#tops[place + 1];
      const least = bottom + head + 2 - this.frame.clientHeight, { scrollTop } = this.frame;
      if (top < scrollTop)
        this.frame.scrollTop = top;
      else if (least > scrollTop)
        this.frame.scrollTop = least;
      this.lay();
      if (this.frame.scrollTop === scrollTop) return;
    }
  }

  /** A field of a row that is laid out. */
  field(key, field) {
    return this.shown.get(key)?.querySelector(`[data-field="${field}"]`) ?? null;
  }

  /** Moves the cursor to a field of a row, and selects its text. */
  focus(key, field) {
    this.show(key);
    const input = this.field(key, field);
    input?.focus({ preventScroll: true });
    input?.select?.();
  }

  /** How many rows fit into the frame. */
  get page() { return Math.max(1, Math.floor(this.frame.clientHeight / this.#guess) - 2); }
}
