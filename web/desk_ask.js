// The question before an act of the desk: what it means, what it needs, and the round's number, if
// that must be typed.

import {at, make} from "./page.js";

/**
 * @typedef {{ name: string, label: string, kind?: string, value?: string, most?: number,
 * optional?: boolean }} Field
 */

/** The element of a field. */
function inputOf({ name, kind = "text", value = "", most = 1000 }) {
  const id = "field-" + name;
  const given = { id, name, maxlength: String(most), autocomplete: "off" };
  if (kind === "area") {
    const area = /** @type {HTMLTextAreaElement} */ (make("textarea", {...given, rows: "5" }));
    area.value = value;
    return area;
  }
  const input = /** @type {HTMLInputElement} */ (make("input", {...given, type: kind }));
  if (kind !== "checkbox") input.value = value;
  if (kind === "number") input.step = "any";
  return input;
}

/**
 * Asks a question. The answer is what was typed, by field, or null for No. `typed` is what must
 * be typed to say yes, if it is not empty.
 * @param {{ words: string, fields?: Field[], typed?: string, yes: string }} question
 * @returns {Promise<Object<string, any> | null>}
 */
export function ask({words, fields = [], typed = "", yes}) {
  const dialog = at("question");
  const all = typed ? [...fields, { name: "typed", label: `Type ${typed} to confirm` }] : fields;
  const inputs = all.map((field) => inputOf(field));
  at("asked").textContent = words;
  at("yes").textContent = yes;
  const labelled = ({ label }, place) => make("label", { for: inputs[place].id
  }, label + " ", inputs[place]);
  at("fields").replaceChildren(...all.map(labelled));
  const isReady = () => all.every(({ name, kind, optional }, place) => {
    const text = inputs[place].value.trim();
    return name === "typed" ? text === typed : optional || kind === "checkbox" || text !== "";
  });
  const look = () => {
    at("yes").disabled = !isReady();
  };
  for (const input of inputs) input.addEventListener("input", look);
  look();
  dialog.returnValue = "no";
  dialog.showModal();
  (inputs[0] ?? at("no")).focus();
  return new Promise((done) => {
    dialog.onclose = () => {
      if (dialog.open) return;
      const isYes = dialog.returnValue === "yes" && isReady();
      const valueOf = (input) => (input.type === "checkbox" ? input.checked : input.value.trim());
      done(isYes ? Object.fromEntries(inputs.map((input) => [input.name, valueOf(input)])) : null);
    };
  });
}
