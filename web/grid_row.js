// Draws a row of the grid: the product's columns, the two fields of a bid, and what they ask for.

import {COLUMNS} from "./columns.js";
import {effectOf, inForceOf} from "./effects.js";
import {keyOf} from "./judging.js";
import {make, sentence} from "./page.js";

/**
 * @typedef {object} Drawn what rows are drawn from
 * @property {any} view of grid.js
 * @property {import("./sheet.js").Sheet} sheet
 * @property {Map<string, string>} faults by the key of their row
 * @property {(key: string, field: string) => boolean} isPicked whether a cell is selected
 */

/** The product and the price point of a row's key. */
export const partsOf = (key) => key.split(".").map(Number);

/** A refusal that is of the price, and not of the quantity. */
const OF_PRICE = /^(refused: )?(the price|an earlier bid)|bid at the clock price$/;

const MARKET = COLUMNS.filter(({ cell }) => cell); // the columns between the name and the bid

/** The cell of a field. */
function blankField(name, label, hint) {
  const input = make("input", {
    inputmode: "numeric",
    autocomplete: "off",
    enterkeyhint: "next",
    placeholder: hint,
    tabindex: -1,
    "data-field": name,
  });
  return make("td", { class: "c-" + name, "data-label": label }, input);
}

/** An empty row, of which each row is a copy: that is quicker than making its elements anew. */
function blankRow() {
  const price = blankField("price", "Bid price", "clock price");
  const add = { type: "button", class: "add", tabindex: -1, "data-field": "add" };
  price.append(make("button", add, "+"));
  return make(
    "tr", {}, make("th", { scope: "row", class: "c-name" }, make("span")),
    ...MARKET.map(({ id, head }) => make("td", { class: "c-" + id, "data-label": head })),
    blankField("quantity", "Bid quantity", "–"), price,
    make(
      "td", { class: "c-effect", "data-label": "Effect" }, make("span", { class: "effect" }), " ",
      make("span", { class: "inforce" })
    )
  );
}

let blank = null;

/**
 * The row of a key.
 * @param {Drawn} drawn
 * @param {string} key
 */
export function drawRow(drawn, key) {
  const [p, step] = partsOf(key);
  const { view, sheet } = drawn;
  const { name } = view.terms.products[p];
  const isFirst = step === 0;
  blank ??= blankRow();
  const row = /** @type {HTMLTableRowElement} */ (blank.cloneNode(true));
  const held = view.me.demands[p] ? "held" : "";
  row.className = isFirst ? held : "more";
  const [head] = row.cells;
  head.firstElementChild.textContent = isFirst ? name : `↳ price point ${step + 1}`;
  head.firstElementChild.setAttribute("title", name);
  if (isFirst) MARKET.forEach(({ cell }, place) => row.cells[place + 1].append(...cell(view, p)));
  const point = sheet.steps(p).length > 1 ? `, price point ${step + 1}` : "";
  for (const input of row.querySelectorAll("input")) fillField(drawn, input, key, name + point);
  fillAdd(row.querySelector("button"), key, name, view.isOut);
  row.querySelector(".effect").id = "wrong" + key;
  tellRow(drawn, key, row);
  return row;
}

/** Writes what is typed into a field, and whose field it is. */
function fillField({ view, sheet, isPicked }, input, key, whose) {
  const [p, step] = partsOf(key);
  const { field } = input.dataset;
  input.id = field + key;
  input.dataset.key = key;
  input.disabled = view.isOut;
  input.value = sheet.steps(p)[step][field];
  input.setAttribute("aria-label", `Bid ${field}, ${whose}`);
  input.setAttribute("aria-describedby", "wrong" + key);
  if (isPicked(key, field)) input.className = "picked";
}

/** The button that adds a price point is in the first row of a product. */
function fillAdd(button, key, name, isOut) {
  const [, step] = partsOf(key);
  if (step > 0) return button.remove();
  const words = `Add a price point for ${name} (+)`;
  button.disabled = isOut;
  button.dataset.key = key;
  button.title = words;
  button.setAttribute("aria-label", words);
}

const KINDS = ["wrong", "missing", "change", "above"];

/**
 * Writes the effect or the error of a row; returns whether that was another one.
 * @param {Drawn} drawn
 * @param {string} key
 * @param {Element} row
 */
export function tellRow({view, faults}, key, row) {
  const [p, step] = partsOf(key);
  const fault = faults.get(key);
  const [kind, words] =
    fault === undefined ? effectOf(view, p, step) : ["wrong", sentence(fault) + "."];
  for (const each of KINDS) row.classList.toggle(each, kind === each);
  const wrong = fault === undefined ? "" : OF_PRICE.test(fault) ? "price" : "quantity";
  for (const input of row.querySelectorAll("input"))
    input.setAttribute("aria-invalid", String(input.dataset.field === wrong));
  const effect = row.querySelector(".effect"), other = row.querySelector(".inforce");
  const inForce = inForceOf(view, p, step);
  if (effect.textContent === words && other.textContent === inForce) return false;
  effect.textContent = words;
  other.textContent = inForce;
  other.classList.toggle("same", inForce.startsWith("✓"));
  return true;
}

/** The keys of the rows of products: one for each price point. */
export const keysOf = (sheet, places) =>
  places.flatMap((p) => sheet.steps(p).map((_, step) => keyOf(p, step)));
