// The groups of rows that can be shown by themselves: a chip for each, with its count, and one tab
// stop for all of them.

import {GROUPS, RARE} from "./columns.js";
import {at, besideByKey, focusedElement, make, number} from "./page.js";

export class Groups {
  /** The group that is shown. */
  id = "all";

  /** `chosen` is called when a person has chosen another group. */
  constructor(chosen) {
    at("groups").addEventListener("click", (event) => {
      const chip = event.target.closest("[data-group]");
      if (!chip) return;
      this.id = chip.dataset.group;
      chosen();
    });
    at("groups").addEventListener("keydown", (event) => {
      besideByKey(at("groups").querySelectorAll(":enabled"), event)?.focus();
    });
  }

  /** Whether a product of a view is in the group that is shown. */
  get isIn() { return GROUPS.find(({ id }) => id === this.id).isIn; }

  /** Draws the chips with their counts. The cursor stays at its chip. */
  draw(view) {
    const focused = focusedElement()?.dataset.group;
    at("groups").replaceChildren(...GROUPS.flatMap((group) => this.#chip(view, group)));
    this.press();
    if (focused) at("groups").querySelector(`[data-group="${focused}"]`)?.focus();
  }

  /** Marks the chip of the group that is shown, which is also where Tab goes. */
  press() {
    for (const chip of at("groups").children) {
      const isOn = chip.dataset.group === this.id;
      chip.setAttribute("aria-pressed", String(isOn));
      chip.tabIndex = isOn ? 0 : -1;
    }
  }

  /** Whether a group has a chip now. */
  has(id) { return at("groups").querySelector(`[data-group=${id}]`) !== null; }

  /** The button of a group with its count, or none if it is not listed now. */
  #chip(view, { id, name, isIn }) {
    const { terms, worth } = view;
    const count = terms.products.reduce((count, _, p) => count + (isIn(view, p) ? 1 : 0), 0);
    const isIdle = count === 0 && id !== this.id;
    if ((id === "above" && !worth) || (isIdle && RARE.includes(id))) return [];
    const attributes = { type: "button", class: "chip", "data-group": id, disabled: isIdle };
    return [make("button", attributes, `${name} `, make("span", {}, number(count)))];
  }
}
