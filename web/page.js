// What all pages draw with: elements whose text is never HTML, numbers in words, facts, cells, a
// question, and the form that takes the token.

import {isClosing, pause} from "./api.js";
import {isMockPage, strangeToken} from "./mock.js";

/**
 * The element of an id, which the page has. Its kind is the page's.
 * @param {string} id
 * @returns {any}
 */
export const at = (id) => document.getElementById(id);

/**
 * The element with the cursor, or null.
 * @returns {any}
 */
export const focusedElement = () => document.activeElement;

/**
 * An element with attributes and children; children are elements or text.
 * @param {string} tag
 * @param {Object<string, any>} attributes
 * @param {...any} children
 */
export function make(tag, attributes = {}, ...children) {
  const element = document.createElement(tag);
  for (const [name, value] of Object.entries(attributes)) {
    if (name.startsWith("on"))
      element.addEventListener(name.slice(2), value);
    else if (value !== false && value !== null)
      element.setAttribute(name, value === true ? "" : value);
  }
  element.append(...children.map((child) => (child instanceof Node ? child : String(child))));
  return element;
}

const whole = new Intl.NumberFormat("en-US");
/** @param {number | bigint | null} [n] */
export const number = (n) => (n === null || n === undefined ? "–" : whole.format(n));
/** @param {number | bigint | null} [n] */
export const dollars = (n) => (n === null || n === undefined ? "–" : "$" + number(n));
/** A count with its noun, in the plural unless the count is 1. */
export const counted = (n, noun) => `${number(n)} ${noun}${n === 1 ? "" : "s"}`;
export const sentence = (words) => words.charAt(0).toUpperCase() + words.slice(1);
export const sum = (numbers) => numbers.reduce((a, b) => a + b, 0);
/** The first names of a list, and how many more there are. */
export const listed = (names, most) =>
  (names.length <= most
     ? names.join(", ")
     : `${names.slice(0, most).join(", ")} and ${number(names.length - most)} more`);

export const timeOfDay = () => new Date().toLocaleTimeString("en-GB");

/** The last closed round of an auction with this status, or 0. */
export const lastClosed = (status) => (status.ended ? status.round : status.round - 1);
/** Excess demand for a product after a closed round. Demand is null if it is not above supply. */
export const excessOf = (sold, product) =>
  (sold.demand === null ? 0 : sold.demand - product.supply);

/** The time at which a page is printed, and what it is of, as its first line on paper. */
export const printedWords = (of, now) =>
  `${of}, printed at ${now.toLocaleString("en-GB", {dateStyle: "medium", timeStyle: "medium"})}`;

/** Shows the name of the auction, if the operator has published one. */
export async function showName() {
  try {
    const reply = await fetch("./public/names.json", { cache: "no-cache", credentials: "omit" });
    const { title } = reply.ok ? await reply.json() : { title: "" };
    if (title) tell("auction", title);
  } catch { /* the page says so elsewhere if nothing answers */
  }
}

/** To be called when all modules of a page have loaded: the line that says otherwise goes. */
export function loaded() { at("loading")?.remove(); }

/** A message to the person, which a screen reader reads out at once. */
export const say = (text) => {
  at("say").textContent = text;
  at("say").className = text.startsWith("⚠") ? "fault" : "";
};
/** Sets a text. A screen reader reads it out only if it has changed. */
export const tell = (id, words) => {
  if (at(id).textContent !== words) at(id).textContent = words;
};

export const note = (...inside) => make("small", {}, ...inside);

/**
 * Fills a list with names and values; a third text, if there is one, is a note on the value, and a
 * fourth one its class.
 */
export function facts(id, rows) {
  at(id).replaceChildren(...rows.map(
    ([name, value, words, kind]) => make(
      "div", { class: kind ?? null }, make("dt", {}, name),
      make("dd", {}, value, ...(words ? [note(" " + words)] : []))
    )
  ));
}

/** Puts options into a select. What is selected stays selected if it is still there. */
export function options(select, pairs) {
  const chosen = select.value;
  select.replaceChildren(...pairs.map(([value, text]) => make("option", { value }, text)));
  if (pairs.some(([value]) => String(value) === chosen)) select.value = chosen;
}

/**
 * Offers the closed rounds, the last one first. An earlier round that a person has chosen stays
 * chosen.
 */
export function offerRounds(last) {
  const select = at("which"), stays = Number(select.value) < Number(select.options[0]?.value);
  options(select, Array.from({ length: last }, (_, n) => [last - n, last - n]));
  if (!stays) select.value = last || "";
}

/**
 * Draws. If that removes, hides or disables the element with the focus, the focus moves to the
 * round's number.
 */
export function drawn(draw) {
  const focused = focusedElement();
  draw();
  const now = focusedElement();
  if (focused !== document.body && (now.matches("body, :disabled") || !now.checkVisibility()))
    at("round").focus({ preventScroll: true });
}

/** The element that left and right go to from the cursor, in a row of elements without an end. */
export function besideByKey(elements, event) {
  const by = { ArrowRight: 1, ArrowLeft: -1 }[event.key];
  if (!by) return null;
  event.preventDefault();
  const all = [...elements];
  return all[(all.indexOf(event.target) + by + all.length) % all.length];
}

/** Asks a question with the answers No and `yes`; true for yes. Escape and `unask` are No. */
export function question(words, yes) {
  const dialog = at("question");
  at("asked").textContent = words;
  at("yes").textContent = yes;
  dialog.returnValue = "no";
  dialog.showModal(); // the focus is on No, its first button
  return new Promise((done) => {
    // a browser sends `close` with its next frame; by then another question may be open, which has
    // no answer yet
    dialog.onclose = () => {
      if (!dialog.open) done(dialog.returnValue === "yes");
    };
  });
}

/** Takes back a question that has no answer yet. */
export const unask = () => at("question").close("no");

/**
 * Takes the token: `enter` is called with what is typed. If it fails, the form stays, and says why.
 * While pages are withheld until the results of a round appear, the form says so, and `enter` is
 * called again.
 * @param {(token: string) => Promise<void>} enter
 * @param {{ wordsOf: (code: string) => string, closingWords: () => string }} words
 */
export function door(enter, {wordsOf, closingWords}) {
  let said = ""; // what this form has said last
  const tellDoor = (text) => {
    said = text;
    if (at("say").textContent !== text) say(text);
  };
  const keepEntering = async (token) => {
    for (;;) {
      at("desk").hidden = false; // how many rows are drawn depends on the height that is seen
      try {
        return await enter(token);
      } catch (fault) {
        at("desk").hidden = true;
        if (!isClosing(fault)) throw fault;
        tellDoor(`${closingWords()} You will be entered then.`);
        await pause(1000);
      }
    }
  };
  loaded();
  at("door").querySelector("button").disabled = false;
  at("peek")?.addEventListener("change", () => {
    at("token").type = at("peek").checked ? "text" : "password";
  });
  at("door").addEventListener("submit", async (event) => {
    event.preventDefault();
    at("token").setAttribute("aria-invalid", "false");
    const token = at("token").value.trim();
    at("token").value = "";
    const strange = token && strangeToken(isMockPage(), token);
    if (strange) return tellDoor(`⚠ ${strange}`);
    tellDoor("Loading …");
    at("door").inert = at("desk").inert = true;
    try {
      await keepEntering(token);
      at("door").hidden = true;
      if (at("say").textContent === said) say("");
      at("round").focus();
    } catch (fault) {
      say(`⚠ ${sentence(wordsOf(fault.code ?? String(fault)))}.`);
      at("token").setAttribute("aria-invalid", String(fault.status === 401));
    }
    at("door").inert = at("desk").inert = false;
    at("token").focus(); // if the form is still there
  });
}
