// Draws the review of the bids into the question that is asked before they are submitted.

import {at, make, note, number, question} from "./page.js";

/** The lines of a review as a table. */
function table(lines) {
  const head =
    ["What", "Products", "Blocks", "Which"].map((name) => make("th", { scope: "col" }, name));
  const rows = lines.map(
    ({ id, name, products, blocks, names }) => make(
      "tr", { class: id }, make("th", { scope: "row" }, name), make("td", {}, number(products)),
      make("td", {}, number(blocks)), make("td", { class: "names" }, names)
    )
  );
  return make(
    "table", { "aria-label": "What the bids do" }, make("thead", {}, make("tr", {}, ...head)),
    make("tbody", {}, ...rows)
  );
}

/** Asks whether to submit what the review shows; true for yes. */
export function ask({words, lines, sums, yes, isDoubt}) {
  const facts = sums.map(
    ([name, value, words]) =>
      make("div", {}, make("dt", {}, name), make("dd", {}, value, ...(words ? [note(words)] : [])))
  );
  at("details").replaceChildren(...(lines.length ? [table(lines)] : []), make("dl", {}, ...facts));
  at("yes").hidden = yes === "";
  const answer = question(words, yes || "Submit");
  if (yes && !isDoubt) at("yes").focus();
  return answer;
}
