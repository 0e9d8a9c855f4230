// The columns of the grid that a person has chosen. Without a choice the width of the window
// decides.

import {COLUMNS} from "./columns.js";
import {columnsOf, keepColumns} from "./draft.js";
import {at, make} from "./page.js";

const CHOSEN = COLUMNS.filter(({ id, cell }) => cell && id !== "worth");

/** The classes of the grid for a choice: each column that is chosen is on or off. */
export const classesOf = (chosen) =>
  CHOSEN.filter(({id}) => id in chosen).map(({id}) => `${chosen[id] ? "on" : "off"}-${id}`);

function apply(chosen) {
  const { classList } = at("grid");
  for (const { id } of CHOSEN) classList.remove(`on-${id}`, `off-${id}`);
  classList.add(...classesOf(chosen));
}

/** Lets the person choose columns, and shows those that were chosen in this tab. */
export function offerColumns() {
  const chosen = columnsOf();
  const boxes = CHOSEN.map(({ id, head }) => {
    const box =
      /** @type {HTMLInputElement} */ (make("input", { type: "checkbox", id: `column-${id}` }));
    box.addEventListener("change", () => {
      chosen[id] = box.checked;
      keepColumns(chosen);
      apply(chosen);
    });
    return { id, box, label: make("label", { class: "pair" }, box, ` ${head}`) };
  });
  at("columnlist").replaceChildren(...boxes.map(({ label }) => label));
  at("columns").addEventListener("toggle", () => {
    for (const { id, box } of boxes)
      box.checked = at("heads").querySelector(`.c-${id}`).checkVisibility();
  });
  apply(chosen);
}
