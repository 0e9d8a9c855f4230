// The increments of a closing: one for all products, or one for each, by group or from a file.

import {readIncrements, wrongIncrements} from "./desk_shown.js";
import {Listing} from "./listing.js";
import {at, dollars, make, say} from "./page.js";

export class Increments {
  #products = [];
  #typed = []; // what is typed for each product, or ""
  #posted = (_) => 0;
  #table;

  constructor() {
    this.#table = new Listing("incframe", [
      { id: "name", head: "Product", by: ({ name }) => name, cell: ({ name }) => [name] },
      {
        id: "posted",
        head: "Posted price",
        by: ({ place }) => this.#posted(place),
        cell: ({ place }) => [dollars(this.#posted(place))]
      },
      {
        id: "increment",
        head: "Increment, percent",
        by: ({ place }) => Number(this.#typed[place]),
        cell: ({ place }) => [this.#input(place)]
      },
    ]);
    at("each").addEventListener("change", () => {
      at("eachpart").hidden = !at("each").checked;
      this.#table.lay();
    });
    at("increment").addEventListener("input", () => {
      at("group").textContent = `Set these to ${at("increment").value} percent`;
      for (const input of at("incbody").querySelectorAll("input"))
        input.placeholder = at("increment").value;
    });
    at("group").addEventListener("click", () => this.#setGroup());
    at("up").addEventListener("change", () => this.#upload());
  }

  /** Draws the products, and keeps what is typed. */
  draw(products, posted) {
    this.#products = products;
    this.#posted = posted;
    if (this.#typed.length !== products.length) this.#typed = products.map(() => "");
    this.#table.set(products.map(({ name }, place) => ({ name, place })));
  }

  #input(place) {
    const input = /** @type {HTMLInputElement} */ (make("input", {
      inputmode: "numeric",
      autocomplete: "off",
      "aria-label": `Increment of ${this.#products[place].name}, percent`,
      placeholder: at("increment").value,
      "data-key": place,
      "data-field": "increment",
      oninput: () => {
        this.#typed[place] = input.value;
        input.setAttribute("aria-invalid", "false");
      },
    }));
    input.value = this.#typed[place];
    return input;
  }

  /** Gives the products that are found the increment for all. */
  #setGroup() {
    for (const { place } of this.#table.shown) this.#typed[place] = at("increment").value.trim();
    this.#table.lay();
  }

  async #upload() {
    const [file] = at("up").files;
    if (!file) return;
    const { found, wrong } = readIncrements(this.#products, await file.text());
    at("up").value = "";
    at("lines").replaceChildren(...wrong.slice(0, 20).map((words) => make("li", {}, words)));
    if (wrong.length) {
      say(`⚠ No increment was taken from ${file.name}: see the wrong lines.`);
      return;
    }
    for (const [place, percent] of found) this.#typed[place] = percent;
    say(`${found.size} increments are taken from ${file.name}.`);
    this.#table.lay();
  }

  /** What is typed for each of so many products. */
  #all(count) {
    const one = at("increment").value.trim();
    return Array
      .from({ length: count }, (_, p) => (at("each").checked && this.#typed[p].trim()) || one);
  }

  percents(count) { return this.#all(count).map(Number); }

  /** Which products have no increment, in words, or "". The first one that is seen is marked. */
  wrong(products) {
    const words = wrongIncrements(products, this.#all(products.length));
    for (const input of at("incbody").querySelectorAll("input")) {
      const text = input.value.trim() || at("increment").value.trim();
      const isWrong = wrongIncrements([{ name: "" }], [text]) !== "";
      input.setAttribute("aria-invalid", String(isWrong));
    }
    return words;
  }
}
