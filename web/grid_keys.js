// What a key asks for in a field of the grid. Nothing here reads the page, so tests run it in Node.

const FIELDS = ["quantity", "price", "add"];

/**
 * @typedef {{ key: string, shift: boolean, control: boolean }} Key
 * @typedef {object} Place where the cursor is
 * @property {string} field
 * @property {number} count of rows
 * @property {number} page rows that are seen
 * @property {boolean} isRange whether cells are selected
 * @property {boolean} isUntouched whether the field has what it had when the cursor came
 * @typedef {{ act: string, by?: number }} Meant
 */

/**
 * What a key asks for, or null if it is the field's. `by` is a number of rows.
 * @param {Key} key
 * @param {Place} place
 * @returns {Meant | null}
 */
export function meantBy({key, shift, control}, {field, count, page, isRange, isUntouched}) {
  const isAdd = field === "add";
  const by = {
    ArrowDown: control ? count : 1,
    ArrowUp: control ? -count : -1,
    PageDown: page,
    PageUp: -page,
  }[key];
  if (by) return { act: shift && !isAdd ? "extend" : "go", by };
  if (key === "Enter" && !control)
    return isAdd ? { act: "add" } : { act: "go", by: shift ? -1 : 1 };
  if (control && key === "Home") return { act: "move", by: -count };
  if (control && key === "End") return { act: "move", by: count };
  if (key === "Escape") return { act: "escape" };
  if (key === "+" && !isAdd) return { act: "add" };
  if (control && key.toLowerCase() === "d") return { act: "fill" };
  if (control && key.toLowerCase() === "z" && !shift && isUntouched) return { act: "undo" };
  if (isRange && (key === "Delete" || key === "Backspace")) return { act: "clear" };
  return null;
}

/**
 * The field to which left (-1) and right (1) move, or null if they move in the text: it is left at
 * its ends, or if all of it is selected.
 * @param {string} field
 * @param {number} by
 * @param {{ from: number | null, to: number | null, length: number }} text what is selected of it
 */
export function besideOf(field, by, {from, to, length}) {
  const isWhole = field === "add" || (from === 0 && to === length);
  const isAtEnd = from === to && (by < 0 ? from === 0 : to === length);
  return isWhole || isAtEnd ? FIELDS[FIELDS.indexOf(field) + by] ?? null : null;
}
